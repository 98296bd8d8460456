//! Forms for one rule alone: half have the shape that the rule was written for, a quarter just miss it, a quarter are code.

use crate::atoms::{odd_path, plain_path, telling};
use crate::code::{form, small};
use crate::constants::{data, failing, good};
use crate::kept::kept;
use crate::options::Options;
use crate::random::Random;
use crate::sink::Sink;
use crate::tree::*;

pub fn print(rule: usize, options: &Options, sink: &mut Sink) {
    for index in 0..options.count {
        let mut random = Random::new(options.seed, index);
        sink.tree("rule", &for_rule(rule, &mut random));
    }
}

fn for_rule(rule: usize, random: &mut Random) -> Tree {
    match random.below(4) {
        0 => form(random),
        1 => missing(rule, random),
        _ => hitting(rule, random),
    }
}

fn hitting(rule: usize, random: &mut Random) -> Tree {
    match rule {
        1 => op(side(random), &[op(C, &[small(random), small(random)])]),
        2 => constant(random),
        3 => apply(small(random), byte(1)),
        4 => substitution(random),
        5 => children(random),
        6 => op(side(random), &[path(random)]),
        7 => quote(nil()),
        _ => pair(byte(A), pair(nil(), any(random))),
    }
}

/// One part of the shape is another: an operator, a count of parts, an end, an atom that is nearly the right one.
fn missing(rule: usize, random: &mut Random) -> Tree {
    let part = small(random);
    match rule {
        1 => match random.below(4) {
            0 => op(side(random), &[op(C, &[part.clone(), part.clone(), part])]),
            1 => op(side(random), &[op(C, &[part.clone()]), part]),
            2 => op(side(random), &[list_to(&[byte(C), part.clone(), part], telling(random))]),
            _ => list_to(&[telling(random), op(C, &[part.clone(), part])], nil()),
        },
        2 => op(C, &[constant(random), if random.once_in(2) { telling(random) } else { part }]),
        3 | 4 => match random.below(4) {
            0 => apply(part, telling(random)),
            1 => list_to(&[byte(A), quote(part), byte(1)], telling(random)),
            2 => op(A, &[pair(telling(random), part), byte(1)]),
            _ => pair(telling(random), list(&[quote(part), plain_path(random)])),
        },
        5 => match random.below(3) {
            0 => quote(list(&[children(random)])),
            1 => list_to(&[byte(C), children(random), part], telling(random)),
            _ => list_to(&[telling(random), telling(random)], nil()),
        },
        6 => match random.below(3) {
            0 => op(side(random), &[path(random), telling(random)]),
            1 => pair(byte(side(random)), path(random)),
            _ => pair(telling(random), list(&[path(random)])),
        },
        7 => pair(telling(random), any(random)),
        _ => pair(telling(random), pair(telling(random), any(random))),
    }
}

fn side(random: &mut Random) -> u8 {
    random.pick(&[F, R])
}

fn path(random: &mut Random) -> Tree {
    match random.below(4) {
        0 => plain_path(random),
        1 => telling(random),
        _ => odd_path(random),
    }
}

/// The tail of a list, or an atom.
fn any(random: &mut Random) -> Tree {
    match random.below(3) {
        0 => telling(random),
        1 => list(&[small(random)]),
        _ => data(random, 2),
    }
}

fn constant(random: &mut Random) -> Tree {
    match random.below(8) {
        0 => failing(random),
        _ => {
            let depth = random.between(1, 3);
            op(C, &[good(random, depth), good(random, depth)])
        }
    }
}

/// Flat bodies, which are mostly kept, and bodies that are code.
fn substitution(random: &mut Random) -> Tree {
    match random.below(3) {
        0 => apply(small(random), op(C, &[small(random), byte(1)])),
        _ => kept(random),
    }
}

/// A list of which a part is code.
fn children(random: &mut Random) -> Tree {
    let parts: Vec<Tree> = (0..random.between(1, 3)).map(|_| small(random)).collect();
    op(random.between(2, 9) as u8, &parts)
}
