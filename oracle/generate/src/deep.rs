//! Work that goes deep in the store, alone and inside 31, 62 and 63 wrappers `(x ..)`, which put it at nesting 1, 32, 63 and 64 of the driver:
//! what the stack is measured with. Some of it is refused there (13), but only after it went deep.

use crate::sink::Sink;
use crate::tree::*;

pub fn print(sink: &mut Sink) {
    for wrappers in [0, 31, 62, 63] {
        let mut at = |name: &str, inner: Tree| sink.tree(&format!("{name}-{}", wrappers + 1), &tower(X, wrappers, inner));
        at("evaluation", tower(L, 1400, quote(byte(1))));
        at("evaluation-under-a", programs(600));
        at("evaluation-without-end", apply(again(0), quote(again(1000))));
        at("evaluation-fails", tower(F, 1400, nil()));
        at("constant-not", tower(L, 1400, byte(5)));
        at("constant-tail", op(C, &[vec![nil(); 1800], vec![byte(5)]].concat()));
        at("substitution", apply(tower(X, 500, byte(2)), byte(2)));
        at("substitution-of-lists", apply(heads(700), byte(2)));
        at("path", op(F, &[atom(&[0x7f; 63])]));
        at("path-widest", op(R, &[atom(&[&[0x3f], &[0xff; 63][..]].concat())]));
        at("path-substituted", apply(op(X, &[atom(&[0x55; 64])]), byte(2)));
        at("data-left", quote((0..1400).fold(byte(5), |inside, _| pair(inside, byte(5)))));
        at("data-right", quote(list(&vec![byte(5); 1400])));
        at("wide-list", op(X, &vec![byte(5); 1000]));
        at("list-of-lists", op(X, &vec![op(X, &[byte(5)]); 300]));
    }
}

/// `(a (q . (a (q . ..) ())) ())`: programs in programs, under nil.
fn programs(depth: usize) -> Tree {
    (0..depth).fold(quote(byte(5)), |inside, _| apply(inside, nil()))
}

/// `(l (l .. (a 1 1)))`: a program that, given itself, goes deeper with nearly every step, until no step is left.
fn again(depth: usize) -> Tree {
    tower(L, depth, op(A, &[byte(1), byte(1)]))
}

/// `((((x ()) ()) ()) ())`: lists in head place.
fn heads(depth: usize) -> Tree {
    (0..depth).fold(byte(X), |inside, _| list(&[inside, nil()]))
}
