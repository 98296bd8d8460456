//! Paths for the path rule and for the program `paths_rows`: every short one, and long ones with runs of 00 and ff, where readings part.

use crate::atoms::odd_path;
use crate::options::Options;
use crate::random::Random;
use crate::sink::Sink;
use crate::tree::*;

/// `(f N)` and `(r N)` for every N of 0 to `--max` bytes.
pub fn bytes(options: &Options, sink: &mut Sink) {
    for length in 0..=options.max {
        for value in 0..1u32 << (8 * length) {
            both("path-bytes", &atom(&value.to_be_bytes()[4 - length..]), sink);
        }
    }
}

/// The same for random N of 1 to 64 bytes.
pub fn atoms(options: &Options, sink: &mut Sink) {
    for index in 0..options.count {
        both("path-atoms", &long(&mut Random::new(options.seed, index)), sink);
    }
}

fn both(name: &str, path: &Tree, sink: &mut Sink) {
    for side in [F, R] {
        sink.tree(name, &op(side, &[path.clone()]));
    }
}

/// Rows for `paths_rows`: every first path below 2^16, then `--count` random ones of 1 to 64 bytes, each composed with 1, 2, 3, 255 and two
/// others; and of each its index, its turns, and a longer path.
pub fn rows(options: &Options, sink: &mut Sink) {
    for value in 0..1u32 << 16 {
        let bytes = value.to_be_bytes();
        let zeros = value.leading_zeros() as usize / 8;
        rows_of(&mut Random::new(options.seed, value as u64), &bytes[zeros..], sink);
    }
    for index in 0..options.count {
        let mut random = Random::new(!options.seed, index);
        let Tree::Atom(bytes) = long(&mut random) else { unreachable!("it is an atom") };
        rows_of(&mut random, &bytes, sink);
    }
}

fn rows_of(random: &mut Random, bytes: &[u8], sink: &mut Sink) {
    let (some, other) = (random.between(4, 254) as u8, random.between(1, 255) as u8);
    for (asked, q) in [(1, 1), (1, 2), (1, 3), (1, 255), (1, some), (1, other), (2, 0), (3, other), (4, 0)] {
        sink.bytes("path-rows", &[&[asked, q], bytes].concat());
    }
}

/// Anything; a run of one byte in front or behind; edges of the sign and of groups of four.
fn long(random: &mut Random) -> Tree {
    let length = random.between(1, 64);
    let mut bytes: Vec<u8> = (0..length).map(|_| random.below(256) as u8).collect();
    let run = random.between(1, length);
    match random.below(6) {
        0 => {}
        1 => bytes[..run].fill(0x00),
        2 => bytes[..run].fill(0xff),
        3 => bytes[length - run..].fill(0x00),
        4 => bytes[length - run..].fill(0xff),
        _ => return odd_path(random),
    }
    atom(&bytes)
}
