//! Texts to trees, with the refusals of reading in their order: 16, 15, 2, then 5 and 7 as the serialised form meets them.

use clvm_rs::allocator::{Allocator, NodePtr};
use clvm_rs::error::EvalErr;
use clvm_rs::run::put_atom;

use super::words::{words, Word};
use super::QUOTE;
use crate::form::read;

const TEXT: usize = 32_768;

/// Reads one whole text: its tree is written as a form, and the form is read as any other. The store charges for it.
pub fn read_text(store: &mut Allocator, text: &[u8]) -> Result<NodePtr, EvalErr> {
    within_limit(text)?;
    let tree = spelled(text).ok_or(EvalErr::Refused(15))?;
    read(store, &tree.form())
}

pub fn within_limit(text: &[u8]) -> Result<(), EvalErr> {
    if text.len() > TEXT {
        return Err(EvalErr::Refused(16));
    }
    Ok(())
}

/// Whether bytes of any length are a text.
pub fn parses(text: &[u8]) -> bool {
    spelled(text).is_some()
}

fn spelled(text: &[u8]) -> Option<Parsed> {
    words(text).and_then(parsed).filter(Parsed::names_are_in_place)
}

enum Part {
    Atom(Vec<u8>),
    Name(u8),
    Pair(usize, usize),
}

/// A tree by the numbers of its parts, with names still told from atoms.
struct Parsed {
    parts: Vec<Part>,
    whole: usize,
}

/// What stands behind the dot of a list.
enum Last {
    NoDot,
    Awaited,
    Is(usize),
}

/// A list whose bracket is open.
struct Open {
    elements: Vec<usize>,
    last: Last,
}

/// The tree that the words spell, wherever its names stand; nothing where brackets or dots are wrong.
fn parsed(words: Vec<Word>) -> Option<Parsed> {
    let mut parts = Vec::new();
    let mut open: Vec<Open> = Vec::new();
    let mut whole = None;
    for word in words {
        let part = match word {
            Word::Open => {
                open.push(Open { elements: Vec::new(), last: Last::NoDot });
                continue;
            }
            Word::Dot => {
                let list = open.last_mut()?;
                if list.elements.is_empty() || !matches!(list.last, Last::NoDot) {
                    return None;
                }
                list.last = Last::Awaited;
                continue;
            }
            Word::Close => closed(open.pop()?, &mut parts)?,
            Word::Name(byte) => put(&mut parts, Part::Name(byte)),
            Word::Atom(bytes) => put(&mut parts, Part::Atom(bytes)),
        };
        match open.last_mut() {
            None if whole.is_some() => return None,
            None => whole = Some(part),
            Some(list) => match list.last {
                Last::NoDot => list.elements.push(part),
                Last::Awaited => list.last = Last::Is(part),
                Last::Is(_) => return None,
            },
        }
    }
    if !open.is_empty() {
        return None;
    }
    whole.map(|whole| Parsed { parts, whole })
}

fn put(parts: &mut Vec<Part>, part: Part) -> usize {
    parts.push(part);
    parts.len() - 1
}

/// The list as pairs. `()` has none and is nil.
fn closed(list: Open, parts: &mut Vec<Part>) -> Option<usize> {
    let end = match list.last {
        Last::NoDot => put(parts, Part::Atom(Vec::new())),
        Last::Awaited => return None,
        Last::Is(part) => part,
    };
    let join = |rest, element: &usize| put(parts, Part::Pair(*element, rest));
    Some(list.elements.iter().rev().fold(end, join))
}

/// How a part is read.
#[derive(Clone, Copy)]
enum As {
    /// The whole form, or an element of a list read as code: if it is a pair, its head is an operator place.
    Code,
    /// What follows the head of a list read as code.
    Elements,
    /// What follows a head of 1.
    Data,
}

impl Parsed {
    /// Whether every name stands in operator place: in the tree, whatever dots and brackets made it.
    fn names_are_in_place(&self) -> bool {
        let mut left_to_see = vec![(self.whole, As::Code)];
        while let Some((part, how)) = left_to_see.pop() {
            let (left, right) = match self.parts[part] {
                Part::Name(_) => return false,
                Part::Atom(_) => continue,
                Part::Pair(left, right) => (left, right),
            };
            match how {
                As::Code => {
                    // An atom or a name as head is in its place.
                    if let Part::Pair(..) = self.parts[left] {
                        left_to_see.push((left, As::Code));
                    }
                    left_to_see.push((right, if self.is_quote(left) { As::Data } else { As::Elements }));
                }
                As::Elements => left_to_see.extend([(left, As::Code), (right, As::Elements)]),
                As::Data => left_to_see.extend([(left, As::Data), (right, As::Data)]),
            }
        }
        true
    }

    fn is_quote(&self, part: usize) -> bool {
        match &self.parts[part] {
            Part::Atom(bytes) => bytes[..] == [QUOTE],
            Part::Name(byte) => *byte == QUOTE,
            Part::Pair(..) => false,
        }
    }

    /// The serialised form, of any length.
    fn form(&self) -> Vec<u8> {
        let mut out = Vec::new();
        let mut left_to_write = vec![self.whole];
        while let Some(part) = left_to_write.pop() {
            match &self.parts[part] {
                Part::Atom(bytes) => put_atom(bytes, &mut out),
                Part::Name(byte) => put_atom(&[*byte], &mut out),
                Part::Pair(left, right) => {
                    out.push(0xff);
                    left_to_write.extend([*right, *left]);
                }
            }
        }
        out
    }
}
