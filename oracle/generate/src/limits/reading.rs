//! Limits that the reader meets: 8,192 bytes, atoms of 64 bytes, 32,768 units.

use super::both;
use super::units::{pad, ALL};
use crate::sink::Sink;
use crate::tree::*;

const LONGEST: usize = 8192;

pub fn print(sink: &mut Sink) {
    for width in [20, 64] {
        both(sink, "bytes", &filled(LONGEST, width), &filled(LONGEST + 1, width));
    }
    past_in_bytes(sink);
    atoms(sink);
    for around in 0..2 {
        both(sink, "units-reading", &charged(ALL, around), &charged(ALL + 1, around));
    }
    units_before_the_rest(sink);
}

/// A quoted list of atoms, exactly `total` bytes long.
fn filled(total: usize, width: usize) -> Tree {
    let mut atoms = vec![];
    let mut rest = total - 3;
    while rest > 2 * (width + 3) {
        atoms.push(atom(&vec![0x80 + (rest % 100) as u8; width]));
        rest -= write(&atoms[atoms.len() - 1]).len() + 1;
    }
    let half = (rest - 4) / 2;
    atoms.push(atom(&vec![0x91; half]));
    atoms.push(atom(&vec![0x92; rest - 4 - half]));
    quote(list(&atoms))
}

/// Too long whatever the bytes are: well formed, no prefix, no end, bytes after the form.
fn past_in_bytes(sink: &mut Sink) {
    for width in 21..=55 {
        sink.tree("bytes-past", &filled(LONGEST + 1 + width % 3, width));
    }
    for first in [0x00, 0x80, 0xfe, 0xff] {
        sink.bytes("bytes-past", &vec![first; LONGEST + 1]);
    }
}

/// Atoms of 64 and 65 bytes, alone, in a pair and behind a missing body.
fn atoms(sink: &mut Sink) {
    for first in [0x00, 0x40, 0x7f, 0x80, 0xff] {
        let of = |length: usize| {
            let mut bytes = vec![first; length];
            bytes[length - 1] = 5;
            atom(&bytes)
        };
        both(sink, "atom", &of(64), &of(65));
        both(sink, "atom", &pair(byte(1), of(64)), &pair(byte(1), of(65)));
    }
    sink.bytes("atom-past", &[0xc0, 65]);
    sink.bytes("atom-past", &[0xff, 0xff, 1, 0xc0, 65, 1]);
}

/// A quoted tree that charges exactly `total`.
fn charged(total: usize, around: usize) -> Tree {
    let data = pad(total - 13 - 13 * around);
    quote((0..around).fold(data, |inside, _| pair(inside, byte(7))))
}

/// Units run out before the bytes after the form, or before the form's early end, are seen.
fn units_before_the_rest(sink: &mut Sink) {
    let mut bytes = write(&charged(ALL + 1, 0));
    bytes.push(1);
    sink.bytes("units-reading-past", &bytes);
    bytes = write(&charged(ALL, 0));
    bytes.push(1);
    sink.bytes("units-reading-at", &bytes);
    // A list's pairs are charged at its end, which is missing; pairs on the left are charged as they end.
    bytes = write(&quote(list(&vec![byte(5); 2600])));
    bytes.pop();
    sink.bytes("units-reading-at", &bytes);
    bytes = write(&quote((0..2600).fold(byte(5), |inside, _| pair(inside, byte(5)))));
    bytes.pop();
    sink.bytes("units-reading-past", &bytes);
}
