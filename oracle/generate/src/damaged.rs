//! Damaged copies of code forms: what the reader must refuse lies one byte away from what it must take.
//! Cut, lengthened, one byte changed, an atom too wide, a prefix in a wrong place; and a prefix longer than needed, which is taken.

use crate::code;
use crate::options::Options;
use crate::prefixes::{greatest, put_prefix};
use crate::random::Random;
use crate::sink::Sink;
use crate::tree::*;

pub fn print(options: &Options, sink: &mut Sink) {
    for index in 0..options.count {
        let mut random = Random::new(options.seed, index);
        let (name, bytes) = damaged(&mut random);
        sink.bytes(name, &bytes);
    }
}

fn damaged(random: &mut Random) -> (&'static str, Vec<u8>) {
    let tree = code::form(random);
    let mut bytes = write(&tree);
    match random.below(6) {
        0 => {
            bytes.truncate(random.below(bytes.len()));
            ("cut", bytes)
        }
        1 => {
            let more = random.between(1, 4);
            bytes.extend((0..more).map(|_| random.below(256) as u8));
            ("lengthened", bytes)
        }
        2 => {
            let place = random.below(bytes.len());
            bytes[place] ^= random.between(1, 255) as u8;
            ("changed", bytes)
        }
        3 => ("overlong", with_one_atom(random, &tree, &mut |random, bytes, out| write_wide(bytes, random.below(5), out))),
        4 => ("widened", with_one_atom(random, &tree, &mut write_long)),
        _ => ("prefix", stray_prefix(random, bytes)),
    }
}

type WriteOther<'a> = dyn FnMut(&mut Random, &[u8], &mut Vec<u8>) + 'a;

/// The form with one of its atoms written in another way.
fn with_one_atom(random: &mut Random, tree: &Tree, other: &mut WriteOther) -> Vec<u8> {
    let chosen = random.below(leaves(tree));
    let (mut out, mut number) = (Vec::new(), 0);
    write_by(tree, &mut out, &mut |bytes, out| {
        if number == chosen { other(random, bytes, out) } else { write_atom(bytes, out) }
        number += 1;
    });
    out
}

/// The atom lengthened to about the limit of 64 bytes and past it, with its whole body or a part of it.
fn write_long(random: &mut Random, bytes: &[u8], out: &mut Vec<u8>) {
    let mut body = bytes.to_vec();
    body.resize(random.pick(&[63, 64, 65, 66, 80, 300]), 0x81);
    let mut written = Vec::new();
    write_atom(&body, &mut written);
    if random.once_in(2) {
        written.truncate(random.between(1, 20));
    }
    out.extend(written);
}

/// A prefix of `spare` bytes more than the first, whether the length needs them or not; the greatest length where they are too few.
fn write_wide(bytes: &[u8], spare: usize, out: &mut Vec<u8>) {
    put_prefix(spare, greatest(spare).min(bytes.len() as u64), out);
    out.extend(bytes);
}

/// Some byte replaced by a prefix: long lengths, those not carried, and pairs without parts.
fn stray_prefix(random: &mut Random, mut bytes: Vec<u8>) -> Vec<u8> {
    let place = random.below(bytes.len());
    bytes[place] = random.pick(&[0x81, 0xbf, 0xc0, 0xc1, 0xdf, 0xe0, 0xef, 0xf0, 0xf7, 0xf8, 0xfb, 0xfc, 0xfd, 0xfe, 0xff]);
    bytes
}
