//! Atoms behind every kind of prefix: whole, with a short or a missing body, over 64 bytes, with a cut prefix, and not carried.

use crate::prefixes::{greatest, put_prefix, put_spelled, FIRST};

/// Gets an atom with the name of what it is.
type Take<'a> = dyn FnMut(&str, &[u8]) + 'a;

pub fn print(take: &mut Take) {
    for kind in 0..FIRST.len() {
        for length in [0, 1, 2, 3, 62, 63, 64] {
            if length as u64 <= greatest(kind) {
                within(kind, length, take);
            }
        }
        over_lengths().into_iter().filter(|length| *length <= greatest(kind)).for_each(|length| over(kind, length, take));
        cut(kind, take);
    }
    not_carried(take);
}

fn within(kind: usize, length: usize, take: &mut Take) {
    for body in bodies(length) {
        let mut atom = Vec::new();
        put_spelled(kind, &body, &mut atom);
        take("length-whole", &atom);
    }
    // A byte short, and no body at all; for one byte that is the same.
    for have in [length.checked_sub(1), (length > 1).then_some(0)].into_iter().flatten() {
        let mut atom = Vec::new();
        put_prefix(kind, length as u64, &mut atom);
        atom.extend(vec![0x05; have]);
        take("length-short", &atom);
    }
}

/// Bytes on both sides of 80, where a byte alone is its own spelling or not; names of operators; both signs.
fn bodies(length: usize) -> Vec<Vec<u8>> {
    match length {
        0 => vec![vec![]],
        1 => [0x00, 0x01, 0x02, 0x05, 0x7f, 0x80, 0x81, 0xfe, 0xff].map(|byte| vec![byte]).to_vec(),
        _ => {
            let mut zero_in_front = vec![0xff; length];
            zero_in_front[0] = 0x00;
            vec![vec![0x05; length], vec![0x85; length], zero_in_front]
        }
    }
}

/// Past the limit, around what each kind can state and around whole bytes; the low bytes alone would make some of these small.
fn over_lengths() -> Vec<u64> {
    let mut lengths = vec![65, 66];
    for border in [0x100, 0x2000, 0x1_0000, 0x10_0000, 0x100_0000, 0x800_0000, 0x1_0000_0000, 0x4_0000_0000] {
        lengths.extend([border - 2, border - 1, border, border + 1, border + 5, border + 64]);
    }
    lengths
}

fn over(kind: usize, length: u64, take: &mut Take) {
    for have in [0, 70.min(length as usize)] {
        let mut atom = Vec::new();
        put_prefix(kind, length, &mut atom);
        atom.extend(vec![0x05; have]);
        take("length-over", &atom);
    }
}

/// Every first byte of the kind with fewer bytes behind it than it wants.
fn cut(kind: usize, take: &mut Take) {
    let last = FIRST[kind] + (greatest(kind) >> (8 * kind)) as u8;
    for first in FIRST[kind]..=last {
        for have in 0..kind {
            for byte in if have == 0 { &[0x00][..] } else { &[0x00, 0x01, 0xff] } {
                take("length-cut", &[vec![first], vec![*byte; have]].concat());
            }
        }
    }
}

fn not_carried(take: &mut Take) {
    for first in [0xfc, 0xfd, 0xfe] {
        for behind in [&[][..], &[0x05], &[0xff], &[0x00, 0x00, 0x00, 0x00, 0x01, 0x05]] {
            take("length-not-carried", &[&[first][..], behind].concat());
        }
    }
}
