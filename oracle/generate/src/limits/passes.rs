//! 65,536 passes. With p passes for its inside a wrapper takes 2p + 3: its own, the inside, the quote, the list and the
//! inside again. So fourteen wrappers over `(x)` take 4 * 2^14 - 3 = 65,533.

use super::both;
use super::units::wrapped;
use crate::sink::Sink;
use crate::tree::*;

pub const ALL: usize = 65536;

pub fn print(sink: &mut Sink) {
    let insides = [op(X, &[]), pair(byte(X), byte(5)), op(X, &[byte(5), byte(7)]), list(&[byte(0x10), nil(), byte(3)])];
    for inside in &insides {
        for most in [14, 13, 12, 11] {
            both(sink, "passes", &working(ALL, most, inside), &working(ALL + 1, most, inside));
        }
    }
    let taken = |total: usize| op(F, &[op(C, &[working(total - 1, 14, &insides[0]), byte(5)])]);
    both(sink, "passes", &taken(ALL), &taken(ALL + 1));
}

/// What wrappers over an inside of one pass take.
pub fn passes_of(wrappers: usize) -> usize {
    4 * (1 << wrappers) - 3
}

/// `(x part ..)` of exactly `total` passes: the most wrappers that fit, then fewer, then quotes of one pass each.
pub fn working(total: usize, most: usize, inside: &Tree) -> Tree {
    let mut parts = vec![];
    let mut rest = total - 1;
    for wrappers in (1..=most).rev() {
        while rest >= passes_of(wrappers) {
            parts.push(wrapped(wrappers, inside.clone()));
            rest -= passes_of(wrappers);
        }
    }
    parts.extend(vec![quote(byte(5)); rest]);
    op(X, &parts)
}
