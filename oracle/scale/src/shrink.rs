//! Makes a form on which something fails smaller, for as long as it still fails.

use clvm_rs::run::put_atom;

/// What starts at `at`: the place behind a pair's `ff`, or an atom's body.
enum Start {
    Pair(usize),
    Body(usize, usize),
}

fn start(form: &[u8], at: usize) -> Option<Start> {
    let first = *form.get(at)?;
    let (bits, more) = match first {
        0x00..=0x7f => return Some(Start::Body(at, at + 1)),
        0x80..=0xbf => (0x3f, 0),
        0xc0..=0xdf => (0x1f, 1),
        0xe0..=0xef => (0x0f, 2),
        0xf0..=0xf7 => (0x07, 3),
        0xf8..=0xfb => (0x03, 4),
        0xff => return Some(Start::Pair(at + 1)),
        _ => return None,
    };
    let from = at + 1 + more;
    let stated = form.get(at + 1..from)?.iter().fold((first & bits) as usize, |length, byte| length << 8 | *byte as usize);
    (from + stated <= form.len()).then_some(Start::Body(from, from + stated))
}

/// The end of the tree that starts at `at`, if the bytes have one there.
fn end(form: &[u8], at: usize) -> Option<usize> {
    let (mut at, mut open) = (at, 1usize);
    while open > 0 {
        match start(form, at)? {
            Start::Pair(parts) => (at, open) = (parts, open + 1),
            Start::Body(_, end) => (at, open) = (end, open - 1),
        }
    }
    Some(at)
}

/// Forms that are smaller: without what stands behind, a tree instead of its pair, an atom in its shortest spelling, nil instead of a tree,
/// without one byte.
fn smaller(form: &[u8]) -> Vec<Vec<u8>> {
    let mut found = Vec::new();
    for cut in [form.len() / 2, form.len().saturating_sub(1)] {
        found.push(form[..cut].to_vec());
    }
    let mut put = |from: usize, to: usize, with: &[u8]| found.push([&form[..from], with, &form[to..]].concat());
    for at in 0..form.len() {
        let Some(whole) = end(form, at) else { continue };
        match start(form, at) {
            Some(Start::Pair(parts)) => {
                if let Some(left) = end(form, parts) {
                    put(at, whole, &form[parts..left]);
                    put(at, whole, &form[left..whole]);
                }
            }
            Some(Start::Body(from, to)) => {
                let mut shortest = Vec::new();
                put_atom(&form[from..to], &mut shortest);
                put(at, whole, &shortest);
            }
            None => {}
        }
        put(at, whole, &[0x80]);
    }
    for at in 0..form.len() {
        put(at, at + 1, &[]);
    }
    found.retain(|other| other.len() < form.len());
    found.sort_by_key(|other| other.len());
    found
}

/// The smallest form that this finds on which `fails` still holds.
pub fn shrink(form: &[u8], mut fails: impl FnMut(&[u8]) -> bool) -> Vec<u8> {
    let mut form = form.to_vec();
    while let Some(other) = smaller(&form).into_iter().find(|other| fails(other)) {
        form = other;
    }
    form
}
