//! Nesting 64, reached through lists, through heads and through a constant body that is worked one deeper.

use super::both;
use crate::sink::Sink;
use crate::tree::*;

pub fn print(sink: &mut Sink) {
    for code in [F, R, L, X, 0x10] {
        both(sink, "nesting", &tower(code, 63, byte(1)), &tower(code, 64, byte(1)));
    }
    // An improper list is worked but not its parts.
    let improper = pair(byte(X), byte(5));
    both(sink, "nesting", &tower(X, 63, improper.clone()), &tower(X, 64, improper));
    both(sink, "nesting", &tower(X, 63, quote(byte(5))), &tower(X, 64, quote(byte(5))));
    both(sink, "nesting", &heads(63), &heads(64));
    both(sink, "nesting", &behind(62), &behind(63));
    both(sink, "nesting", &pairs_of_c(63), &pairs_of_c(64));
    let constant_body = apply(op(C, &[nil(), nil()]), byte(2));
    both(sink, "nesting", &tower(X, 62, constant_body.clone()), &tower(X, 63, constant_body));
    let kept_body = apply(op(C, &[byte(2), byte(3)]), byte(1));
    both(sink, "nesting", &tower(X, 62, kept_body.clone()), &tower(X, 63, kept_body));
    // Substitution makes a tower of f and r from one path.
    both(sink, "nesting", &apply(op(X, &[path(62)]), byte(2)), &apply(op(X, &[path(63)]), byte(2)));
}

/// `((((x))))`
fn heads(times: usize) -> Tree {
    (1..times).fold(op(X, &[]), |inside, _| pair(inside, nil()))
}

/// The deep part stands last among its operands.
fn behind(times: usize) -> Tree {
    (0..times).fold(op(X, &[byte(1)]), |inside, _| op(X, &[byte(2), quote(byte(3)), inside]))
}

fn pairs_of_c(times: usize) -> Tree {
    (0..times).fold(byte(3), |inside, _| op(C, &[byte(2), inside]))
}

/// The path that turns left `times` times.
fn path(times: usize) -> Tree {
    let mut bytes = vec![0; times / 8 + 1];
    bytes[0] = 1 << (times % 8);
    if bytes[0] == 0x80 {
        bytes.insert(0, 0);
    }
    atom(&bytes)
}
