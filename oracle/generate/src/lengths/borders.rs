//! The limits under other spellings: 8,192 bytes are counted as submitted, however few the shortest form would have, and 32,768 units as if
//! every spelling were the shortest.

use crate::limits::units::ALL as UNITS;
use crate::prefixes::{put_spelled, FIRST};
use crate::sink::Sink;

const LONGEST: usize = 8192;
/// How many atoms are spelled with spare bytes where all of them would not fit the form's bytes.
const SOME: usize = 500;

pub fn print(sink: &mut Sink) {
    for kind in 1..FIRST.len() {
        for atom in [&[][..], &[0x05]] {
            let mut element = vec![0xff];
            put_spelled(kind, atom, &mut element);
            sink.bytes("length-bytes-at", &filled(LONGEST, &element));
            sink.bytes("length-bytes-past", &filled(LONGEST + 1, &element));
        }
    }
    for first in [0xc0, 0xf8, 0xfc] {
        sink.bytes("length-bytes-past", &vec![first; LONGEST + 1]);
    }
    for kind in 0..FIRST.len() {
        units(sink, kind);
    }
}

/// A quoted list of exactly `total` bytes: as many elements as fit, and an end that takes up the rest, a nil of one to five bytes.
fn filled(total: usize, element: &[u8]) -> Vec<u8> {
    let mut out = vec![0xff, 0x01];
    while total - out.len() >= element.len() + 1 {
        out.extend(element);
    }
    if total - out.len() > FIRST.len() {
        out.extend([0xff, 0x05]);
    }
    put_spelled(total - out.len() - 1, &[], &mut out);
    out
}

/// Behind pairs that leave just enough for an atom, or one unit less: the atom, whose pair's other part is missing; and instead of it nil,
/// which is free, and every fault that is met before units are.
fn units(sink: &mut Sink, kind: usize) {
    for body in [&[0x05][..], &[0x85, 0x86]] {
        let mut whole = Vec::new();
        put_spelled(kind, body, &mut whole);
        let short = &whole[..whole.len() - 1];
        for (name, left) in [("length-units-at", 4 + body.len()), ("length-units-past", 3 + body.len())] {
            let before = charged(UNITS - left, kind);
            let mut put = |name: &str, atom: &[u8]| sink.bytes(name, &[&[0xff][..], &before, &[0xff], atom].concat());
            put(name, &whole);
            for atom in [short, &whole[..1], &[0xfc], &[0xc0, 0x41], &[0xe0, 0x00, 0x00]] {
                put("length-units-other", atom);
            }
        }
    }
}

/// Pairs in left parts, which are charged as they end, of exactly `total` units; some of their atoms are in a prefix of this kind.
fn charged(total: usize, kind: usize) -> Vec<u8> {
    let pairs = (total - 5) / 13;
    let mut out = vec![0xff; pairs];
    put_spelled(kind, &vec![0x85; (total - 5) % 13 + 1], &mut out);
    for number in 0..pairs {
        if number < SOME { put_spelled(kind, &[0x05], &mut out) } else { out.push(0x05) }
    }
    out
}
