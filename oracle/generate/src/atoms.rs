//! Atoms that tell readings apart.

use crate::random::Random;
use crate::tree::{atom, byte, Tree};

/// Nil, zero that is not nil, operators, sign edges, spare sign bytes, and the matcher's two names.
pub const TELLING: [&[u8]; 14] = [
    &[], &[0x00], &[0x01], &[0x02], &[0x03], &[0x05], &[0x08], &[0x7f], &[0x80], &[0xff], &[0x00, 0x80], &[0xff, 0x80],
    b"$", b":",
];

/// Lengths around the groups of four bytes and around the limit of 64.
const LENGTHS: [usize; 18] = [1, 2, 3, 4, 5, 6, 7, 8, 9, 12, 13, 16, 31, 32, 33, 61, 63, 64];

/// First bytes on both sides of the sign and of a new top bit.
const EDGES: [u8; 14] = [0x00, 0x01, 0x02, 0x3f, 0x40, 0x7f, 0x80, 0x81, 0xbf, 0xc0, 0xfe, 0xff, 0xff, 0x80];

pub fn telling(random: &mut Random) -> Tree {
    atom(random.pick(&TELLING))
}

/// A path as a person would write it: 1 to 31.
pub fn plain_path(random: &mut Random) -> Tree {
    byte(random.between(1, 31) as u8)
}

/// A path of 1 to 64 bytes where readings part: sign edges in front, edges of four-byte groups behind.
pub fn odd_path(random: &mut Random) -> Tree {
    let length = random.pick(&LENGTHS);
    edged(random, length)
}

/// An odd path short enough for substitution to walk it.
pub fn short_odd_path(random: &mut Random) -> Tree {
    let length = random.between(1, 4);
    edged(random, length)
}

fn edged(random: &mut Random, length: usize) -> Tree {
    let fill = random.below(4);
    let mut bytes: Vec<u8> = (0..length).map(|_| filler(random, fill)).collect();
    bytes[0] = random.pick(&EDGES);
    if length > 3 && random.once_in(2) {
        let behind = length % 4 + 4 * random.below(length / 4) + random.below(4);
        bytes[behind] = random.pick(&EDGES);
    }
    atom(&bytes)
}

fn filler(random: &mut Random, fill: usize) -> u8 {
    match fill {
        0 => 0x00,
        1 => 0xff,
        2 => random.pick(&EDGES),
        _ => random.below(256) as u8,
    }
}

/// A negative number or zero, as substitution reads it.
pub fn low(random: &mut Random) -> Tree {
    const LOW: [&[u8]; 10] = [
        &[], &[0x00], &[0x80], &[0xff], &[0xff, 0x80], &[0x00, 0x00], &[0x80, 0x00], &[0xfe], &[0x80, 0, 0, 0], &[0xc0, 1, 2, 3, 4],
    ];
    atom(random.pick(&LOW))
}
