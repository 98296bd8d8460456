//! Where the forms go: to a function that gets each with its name, one form or two; or their texts in the readable notation.

use crate::random::Random;
use crate::spelling::spelled;
use crate::tree::{write, Tree};

pub struct Sink<'a> {
    to: Box<dyn FnMut(&str, &[&[u8]]) + 'a>,
    /// For texts: the seed of their spellings, and how many there were.
    texts: Option<(u64, u64)>,
}

impl<'a> Sink<'a> {
    /// Takes serialised forms, and no texts.
    pub fn new(to: impl FnMut(&str, &[&[u8]]) + 'a) -> Self {
        Sink { to: Box::new(to), texts: None }
    }

    /// Takes texts: a tree is spelled in some way, and bytes that are no tree are left out.
    pub fn of_texts(seed: u64, to: impl FnMut(&str, &[&[u8]]) + 'a) -> Self {
        Sink { to: Box::new(to), texts: Some((seed, 0)) }
    }

    pub fn bytes(&mut self, name: &str, form: &[u8]) {
        if self.texts.is_none() {
            (self.to)(name, &[form]);
        }
    }

    pub fn tree(&mut self, name: &str, form: &Tree) {
        let written = self.written(form);
        (self.to)(name, &[&written]);
    }

    /// Two forms, for the matcher and the evaluator.
    pub fn two(&mut self, name: &str, first: &Tree, second: &Tree) {
        let (first, second) = (self.written(first), self.written(second));
        (self.to)(name, &[&first, &second]);
    }

    pub fn text(&mut self, name: &str, text: &[u8]) {
        if self.texts.is_some() {
            (self.to)(name, &[text]);
        }
    }

    /// Two texts, for the evaluator.
    pub fn two_texts(&mut self, name: &str, first: &[u8], second: &[u8]) {
        if self.texts.is_some() {
            (self.to)(name, &[first, second]);
        }
    }

    fn written(&mut self, tree: &Tree) -> Vec<u8> {
        let Some((seed, count)) = &mut self.texts else {
            return write(tree);
        };
        *count += 1;
        spelled(&mut Random::new(!*seed, *count), tree)
    }
}
