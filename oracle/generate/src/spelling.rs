//! A tree's texts in the readable notation: the writer's own, and any other that reads as the same tree.

use crate::decimal::decimal;
use crate::random::Random;
use crate::tree::*;

const NAMES: &[u8; 9] = b"qaicfrlx=";

/// The spelling that the writer chooses.
pub fn plain(tree: &Tree) -> Vec<u8> {
    let mut speller = Speller { random: None, words: Vec::new() };
    speller.part(tree, true);
    let mut text = Vec::new();
    for (place, word) in speller.words.iter().enumerate() {
        if place > 0 && speller.words[place - 1] != b"(" && word != b")" {
            text.push(b' ');
        }
        text.extend(word);
    }
    text
}

/// Some spelling.
pub fn spelled(random: &mut Random, tree: &Tree) -> Vec<u8> {
    let mut speller = Speller { random: Some(random), words: Vec::new() };
    speller.part(tree, true);
    let words = speller.words;
    let wild = random.below(4);
    let mut text = Vec::new();
    gap(random, wild, false, &mut text);
    for (place, word) in words.iter().enumerate() {
        if place > 0 {
            gap(random, wild, bare(&words[place - 1]) && bare(word), &mut text);
        }
        text.extend(word);
    }
    gap(random, wild, false, &mut text);
    text
}

/// Two bare words need something between them; brackets and quotes do not.
fn bare(word: &[u8]) -> bool {
    !matches!(word[0], b'(' | b')' | b'"')
}

/// As few separators as will do, blanks here and there, few of any kind, or many.
fn gap(random: &mut Random, wild: usize, needed: bool, text: &mut Vec<u8>) {
    let count = match wild {
        0 => 0,
        1 => random.below(2),
        2 => random.below(10) / 9,
        _ => random.below(4),
    };
    for _ in 0..count.max(needed as usize) {
        text.push(if wild == 1 { b' ' } else { random.pick(b" \t\r") });
    }
}

#[derive(PartialEq, Eq)]
enum Case {
    Lower,
    Upper,
    Mixed,
}

/// Without a source of chance it spells as the writer does.
struct Speller<'a> {
    random: Option<&'a mut Random>,
    words: Vec<Vec<u8>>,
}

impl Speller<'_> {
    fn put(&mut self, word: &[u8]) {
        self.words.push(word.to_vec());
    }

    /// True once in `n` times, and never for the writer.
    fn once_in(&mut self, n: usize) -> bool {
        self.random.as_mut().is_some_and(|random| random.once_in(n))
    }

    fn part(&mut self, tree: &Tree, code: bool) {
        match tree {
            Tree::Atom(bytes) => self.atom(bytes),
            Tree::Pair(head, rest) => {
                self.put(b"(");
                match head.as_ref() {
                    Tree::Atom(bytes) if code => self.operator(bytes),
                    _ => self.part(head, code),
                }
                self.rest(rest, code && **head != byte(Q));
                self.put(b")");
            }
        }
    }

    fn operator(&mut self, bytes: &[u8]) {
        match bytes {
            [byte @ 1..=9] if !self.once_in(4) => self.put(&[NAMES[*byte as usize - 1]]),
            _ => self.atom(bytes),
        }
    }

    /// What follows in a list; now and then a dot and the rest as a list or nil of its own.
    fn rest(&mut self, rest: &Tree, code: bool) {
        let mut rest = rest;
        let mut brackets = 0;
        loop {
            let dot = self.once_in(12);
            match rest {
                Tree::Pair(element, more) => {
                    if dot {
                        self.put(b".");
                        self.put(b"(");
                        brackets += 1;
                    }
                    self.part(element, code);
                    rest = more;
                }
                Tree::Atom(bytes) => {
                    if dot || !bytes.is_empty() {
                        self.put(b".");
                        self.atom(bytes);
                    }
                    break;
                }
            }
        }
        (0..brackets).for_each(|_| self.put(b")"));
    }

    fn atom(&mut self, bytes: &[u8]) {
        let way = self.random.as_mut().map_or(0, |random| random.below(8));
        if bytes.is_empty() {
            return self.nil(way);
        }
        match way {
            1 => self.hex(bytes, Case::Upper),
            2 => self.hex(bytes, Case::Mixed),
            3 | 4 => self.quoted(bytes),
            5..=7 => self.number(bytes),
            _ => self.hex(bytes, Case::Lower),
        }
    }

    fn nil(&mut self, way: usize) {
        let words: &[&[u8]] = match way {
            3 => &[b"0"],
            4 => &[b"-0"],
            5 => &[b"000"],
            6 => &[b"\"\""],
            _ => &[b"(", b")"],
        };
        words.iter().for_each(|word| self.put(word));
    }

    fn hex(&mut self, bytes: &[u8], case: Case) {
        let mut digits: Vec<u8> = bytes.iter().flat_map(|b| format!("{b:02x}").into_bytes()).collect();
        for digit in digits.iter_mut() {
            if case == Case::Upper || case == Case::Mixed && self.once_in(2) {
                digit.make_ascii_uppercase();
            }
        }
        self.words.push([b"0x".as_slice(), &digits].concat());
    }

    fn quoted(&mut self, bytes: &[u8]) {
        if !bytes.iter().all(|b| (0x20..=0x7e).contains(b) && *b != b'"') {
            return self.number(bytes);
        }
        self.words.push([b"\"", bytes, b"\""].concat());
    }

    fn number(&mut self, bytes: &[u8]) {
        let Some(mut text) = decimal(bytes) else {
            return self.hex(bytes, Case::Lower);
        };
        if self.once_in(6) {
            text.insert_str(text.starts_with('-') as usize, "00");
        }
        self.words.push(text.into_bytes());
    }
}
