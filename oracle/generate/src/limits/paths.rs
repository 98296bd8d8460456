//! Path results of 64 and 65 bytes. Only a negative atom of 64 bytes can have an index of 512 bits: its first group is
//! read low byte first, so that the fourth byte is the highest.

use super::both;
use crate::sink::Sink;
use crate::tree::*;

pub fn print(sink: &mut Sink) {
    for code in [F, R] {
        for fill in [0x00, 0x11, 0xff] {
            both(sink, "path-result", &op(code, &[atom(&wide(0x40, fill))]), &op(code, &[atom(&wide(0x80, fill))]));
            both(sink, "path-result", &op(code, &[atom(&wide(0x7f, fill))]), &op(code, &[atom(&wide(0xff, fill))]));
        }
        // The inner result has its top bit set, and the outer one reads it as a negative number.
        let twice = |fourth: u8| op(code, &[op(F, &[atom(&inner(fourth))])]);
        both(sink, "path-result", &twice(0x40), &twice(0x80));
        positive(sink, code);
    }
}

/// 64 bytes, negative, not shortened, with the highest byte of the index in fourth place.
fn wide(fourth: u8, fill: u8) -> Vec<u8> {
    let mut bytes = vec![fill; 64];
    bytes[0] = 0x80;
    bytes[3] = fourth;
    bytes
}

/// 64 bytes with the top bit clear: one more bit sets it.
fn inner(fourth: u8) -> Vec<u8> {
    let mut bytes = vec![0x22; 64];
    bytes[0] = 0x40;
    bytes[3] = fourth;
    bytes
}

/// The widest positive atoms, and a negative one that loses its first byte.
fn positive(sink: &mut Sink, code: u8) {
    for (first, second) in [(0x7f, 0xff), (0x40, 0x00), (0x00, 0xff), (0xff, 0x80), (0xff, 0xff)] {
        let mut bytes = vec![second; 64];
        bytes[0] = first;
        sink.tree("path-result-at", &op(code, &[atom(&bytes)]));
    }
}
