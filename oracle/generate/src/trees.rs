//! Trees of many shapes, for the writer of the readable notation: code, data that looks like code, heads that are pairs,
//! quotes everywhere, long lists and deep nests, wide atoms, and the trees with the longest texts.

use crate::atoms::telling;
use crate::code;
use crate::kept::kept;
use crate::limits::units::{pad, ALL as UNITS};
use crate::options::Options;
use crate::random::Random;
use crate::sink::Sink;
use crate::tree::*;

pub fn print(options: &Options, sink: &mut Sink) {
    longest(sink);
    for index in 0..options.count {
        let mut random = Random::new(options.seed, index);
        sink.tree("tree", &form(&mut random));
    }
}

pub fn form(random: &mut Random) -> Tree {
    match random.below(9) {
        0 => code::form(random),
        1 => kept(random),
        2 | 3 => {
            let leaves = random.between(1, 12);
            joined(random, leaves)
        }
        4 => {
            let leaves = random.between(10, 150);
            joined(random, leaves)
        }
        5 => {
            let depth = random.between(1, 5);
            lists(random, depth)
        }
        6 => {
            let depth = random.between(1, 150);
            nest(random, depth)
        }
        7 => {
            let parts: Vec<Tree> = (0..random.between(0, 40)).map(|_| leaf(random)).collect();
            let end = if random.once_in(2) { nil() } else { leaf(random) };
            list_to(&parts, end)
        }
        _ => leaf(random),
    }
}

/// Any tree of so many leaves.
fn joined(random: &mut Random, leaves: usize) -> Tree {
    if leaves == 1 {
        return leaf(random);
    }
    let left = match random.below(3) {
        0 => 1,
        1 => leaves - 1,
        _ => random.between(1, leaves - 1),
    };
    pair(joined(random, left), joined(random, leaves - left))
}

/// Lists in lists, mostly proper, with heads that are names, other atoms and lists.
fn lists(random: &mut Random, depth: usize) -> Tree {
    if depth == 0 || random.once_in(4) {
        return leaf(random);
    }
    let head = match random.below(6) {
        0 => lists(random, depth - 1),
        1 => leaf(random),
        2 => byte(Q),
        _ => byte(random.between(1, 10) as u8),
    };
    let parts: Vec<Tree> = (0..random.below(5)).map(|_| lists(random, depth - 1)).collect();
    let end = if random.once_in(5) { leaf(random) } else { nil() };
    pair(head, list_to(&parts, end))
}

/// One level around another, as head, as last part, as element or under a quote.
fn nest(random: &mut Random, depth: usize) -> Tree {
    let steady = random.below(6);
    let start = leaf(random);
    (0..depth).fold(start, |inside, _| match if random.once_in(5) { random.below(6) } else { steady } {
        0 => pair(inside, nil()),
        1 => pair(inside, leaf(random)),
        2 => pair(leaf(random), inside),
        3 => list(&[byte(random.between(2, 9) as u8), inside]),
        4 if random.once_in(4) => quote(inside),
        4 => pair(nil(), inside),
        _ => list(&[leaf(random), inside, leaf(random)]),
    })
}

/// Mostly what could be a name; then what texts spell in more than one way; now and then an atom about 64 bytes wide.
fn leaf(random: &mut Random) -> Tree {
    match random.below(12) {
        0..=4 => byte(random.below(12) as u8),
        5 => telling(random),
        6 => nil(),
        7 => {
            let length = random.between(1, 12);
            atom(&(0..length).map(|_| random.between(0x20, 0x7e) as u8).collect::<Vec<_>>())
        }
        8 => atom(&[0, random.below(256) as u8]),
        9 => byte(random.below(256) as u8),
        _ => {
            let length = match random.below(8) {
                0 => 64,
                1 if random.once_in(6) => 65,
                2 => random.between(20, 63),
                _ => random.between(1, 9),
            };
            let any = random.below(256) as u8;
            atom(&(0..length).map(|_| random.pick(&[0x00, 0x01, 0x7f, 0x80, 0xff, any])).collect::<Vec<_>>())
        }
    }
}

/// Dots and brackets make a text long: `(((x . 0x05) . 0x05) ..)`, of short atoms and as many wide ones as still fit into the
/// form's bytes and the units, at both limits and past them.
fn longest(sink: &mut Sink) {
    for (short, wide, width) in [(2187, 56, 64), (2187, 57, 64), (1901, 365, 10), (683, 1706, 2), (2520, 0, 1), (2521, 0, 1)] {
        let tree = (0..short).fold(nil(), |inside, _| pair(inside, byte(5)));
        let tree = (0..wide).fold(tree, |inside, _| pair(inside, atom(&vec![0x85; width])));
        sink.tree("tree-longest", &tree);
    }
    for nils in [4093, 4094, 4095] {
        sink.tree("tree-nils", &list(&vec![nil(); nils]));
        sink.tree("tree-nils", &(0..nils).fold(nil(), |inside, _| pair(inside, nil())));
        sink.tree("tree-nils", &list_to(&vec![nil(); nils], byte(5)));
    }
    for total in [UNITS - 1, UNITS, UNITS + 1] {
        sink.tree("tree-units", &quote(pad(total - 13)));
        sink.tree("tree-units", &pair(byte(F), pad(total - 13)));
    }
}
