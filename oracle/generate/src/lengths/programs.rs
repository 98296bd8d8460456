//! Programs that the rules change, with one of their atoms or all in another spelling: operators, quotes, paths, and nil as a list's end.

use crate::prefixes::{put_spelled, FIRST};
use crate::sink::Sink;
use crate::tree::*;

pub fn print(sink: &mut Sink) {
    for program in programs() {
        for kind in 0..FIRST.len() {
            for chosen in (0..leaves(&program)).map(Some).chain([None]) {
                sink.bytes("length-program", &spelled(&program, kind, chosen));
            }
        }
    }
}

/// The form with one of its atoms, or all, behind a prefix of this kind.
fn spelled(tree: &Tree, kind: usize, chosen: Option<usize>) -> Vec<u8> {
    let (mut out, mut number) = (Vec::new(), 0);
    write_by(tree, &mut out, &mut |bytes, out| {
        if chosen.is_none() || chosen == Some(number) {
            put_spelled(kind, bytes, out);
        } else {
            write_atom(bytes, out);
        }
        number += 1;
    });
    out
}

/// At least one for every rule, for each operator of the evaluator and for both causes of the mark.
fn programs() -> Vec<Tree> {
    let both = |code: u8| op(code, &[op(C, &[byte(2), byte(3)])]);
    vec![
        both(F),
        both(R),
        apply(op(F, &[byte(1)]), byte(1)),
        quote(nil()),
        pair(byte(A), pair(nil(), byte(5))),
        op(A, &[nil()]),
        op(F, &[nil()]),
        op(C, &[quote(byte(5)), quote(byte(6))]),
        op(X, &[]),
        apply(op(C, &[byte(3), byte(2)]), byte(2)),
        apply(op(C, &[nil(), byte(2)]), byte(2)),
        apply(op(C, &[byte(0x80), byte(2)]), byte(2)),
        op(F, &[byte(0x40)]),
        op(F, &[byte(0x80)]),
        op(R, &[atom(&[0xff, 0x80])]),
        tower(F, 3, byte(1)),
        op(EQ, &[quote(byte(0x80)), quote(byte(0x80))]),
        op(I, &[nil(), quote(byte(5)), quote(byte(6))]),
        op(L, &[quote(pair(nil(), nil()))]),
        op(A, &[quote(op(R, &[byte(1)])), quote(pair(byte(5), byte(6)))]),
        op(F, &[pair(atom(b"$"), atom(b"atom"))]),
        list_to(&[byte(F), byte(1)], byte(5)),
        pair(op(F, &[byte(1)]), list(&[byte(2)])),
    ]
}
