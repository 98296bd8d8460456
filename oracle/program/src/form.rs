//! The serialised form: a reader with its refusals. (The writer stands beside the store, since a trace needs it there.)
//!
//! A length may be spelled with more prefix bytes than it needs, and a byte below 80 with a prefix (document 02, "Ask 3"): the tree is
//! the same, and so is what it costs. Only the writer is held to the shortest spelling.

use clvm_rs::allocator::{Allocator, NodePtr};
use clvm_rs::error::EvalErr;

const FORM: usize = 8_192;
const ATOM: usize = 64;

type Refusable<T> = Result<T, EvalErr>;

fn refuse<T>(number: u8) -> Refusable<T> {
    Err(EvalErr::Refused(number))
}

/// Reads one whole form. The store charges for it, if it charges at all.
pub fn read(store: &mut Allocator, form: &[u8]) -> Refusable<NodePtr> {
    if form.len() > FORM {
        return refuse(2);
    }
    let mut place = 0;
    let tree = read_tree(store, form, &mut place)?;
    if place < form.len() {
        return refuse(6);
    }
    Ok(tree)
}

fn read_tree(store: &mut Allocator, form: &[u8], place: &mut usize) -> Refusable<NodePtr> {
    store.worked(1);
    let Some(&first) = form.get(*place) else {
        return refuse(3);
    };
    *place += 1;
    if first == 0xff {
        let left = read_tree(store, form, place)?;
        let right = read_tree(store, form, place)?;
        return store.new_pair(left, right);
    }
    if first < 0x80 {
        return store.new_atom(&[first]);
    }

    // The bits of the length in the first byte, and how many bytes more it has.
    let (bits, more) = match first {
        0x80..=0xbf => (0x3f, 0),
        0xc0..=0xdf => (0x1f, 1),
        0xe0..=0xef => (0x0f, 2),
        0xf0..=0xf7 => (0x07, 3),
        0xf8..=0xfb => (0x03, 4),
        _ => return refuse(4),
    };
    let mut length = (first & bits) as u64;
    for _ in 0..more {
        let Some(&byte) = form.get(*place) else {
            return refuse(3);
        };
        *place += 1;
        length = length << 8 | byte as u64;
    }
    if length > ATOM as u64 {
        return refuse(5);
    }
    let end = *place + length as usize;
    let Some(body) = form.get(*place..end) else {
        return refuse(3);
    };
    *place = end;
    // No bytes, however that is spelled, are nil, and nil is free.
    store.new_atom(body)
}

/// The bytes of an even count of lower-case hex digits.
pub fn from_hex(text: &[u8]) -> Option<Vec<u8>> {
    fn digit(c: u8) -> Option<u8> {
        match c {
            b'0'..=b'9' => Some(c - b'0'),
            b'a'..=b'f' => Some(c - b'a' + 10),
            _ => None,
        }
    }
    if text.len() % 2 != 0 {
        return None;
    }
    text.chunks(2)
        .map(|two| Some(digit(two[0])? << 4 | digit(two[1])?))
        .collect()
}

pub fn put_hex(bytes: &[u8], out: &mut String) {
    const DIGITS: &[u8; 16] = b"0123456789abcdef";
    out.reserve(bytes.len() * 2);
    for b in bytes {
        out.push(DIGITS[(b >> 4) as usize] as char);
        out.push(DIGITS[(b & 15) as usize] as char);
    }
}
