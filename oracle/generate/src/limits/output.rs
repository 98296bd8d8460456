//! 32,768 bytes of output, from short forms: a value doubled by `(c 1 1)` shares its halves and is written twice.

use super::both;
use crate::sink::Sink;
use crate::tree::*;

const LONGEST: usize = 32768;

pub fn print(sink: &mut Sink) {
    both(sink, "output", &grown(LONGEST - 2), &grown(LONGEST - 1));
    both(sink, "output", &beside(LONGEST), &beside(LONGEST + 1));
    both(sink, "output", &as_code(LONGEST), &as_code(LONGEST + 1));
    for more in [2, 3, 10, 1000, 32768, 1 << 20, 1 << 30] {
        sink.tree("output-past", &grown(LONGEST - 2 + more));
        sink.tree("output-past", &beside(LONGEST + more));
        sink.tree("output-past", &as_code(LONGEST + more));
    }
}

/// A constant expression whose value is written in exactly `length` bytes.
pub fn grown(length: usize) -> Tree {
    if length <= 20 {
        return quote(atom(&vec![0x83; length - 1]));
    }
    if length % 2 == 1 {
        return apply(op(C, &[byte(1), byte(1)]), grown((length - 1) / 2));
    }
    op(C, &[grown(length - 3), quote(byte(0x80))])
}

/// `(x 1 (q . value))`: eight bytes around the value.
fn beside(total: usize) -> Tree {
    op(X, &[byte(1), grown(total - 8)])
}

/// `(a (c (q . 1) value) 1)` becomes `(1 . value)`, a quote that came about as code.
fn as_code(total: usize) -> Tree {
    op(A, &[op(C, &[quote(byte(1)), grown(total - 2)]), byte(1)])
}
