//! 32,768 units in rules and in evaluation. Wrappers `(a (q . 1) (x ..))` do their inside twice, so short forms get there.

use super::both;
use crate::sink::Sink;
use crate::tree::*;

pub const ALL: usize = 32768;

pub fn print(sink: &mut Sink) {
    for wrappers in 6..=9 {
        both(sink, "units-rules", &spent(ALL, wrappers), &spent(ALL + 1, wrappers));
        both(sink, "units-evaluation", &cons_then_failure(ALL, wrappers), &cons_then_failure(ALL + 1, wrappers));
        both(sink, "units-evaluation", &equal_then_failure(ALL, wrappers), &equal_then_failure(ALL + 1, wrappers));
        both(sink, "units-path", &path_then_failure(ALL, wrappers), &path_then_failure(ALL + 1, wrappers));
    }
}

/// A tree whose reading charges exactly `amount`, at least 5.
pub fn pad(amount: usize) -> Tree {
    let mut parts = vec![];
    let mut rest = amount;
    while rest > 68 {
        parts.push(byte(5));
        rest -= 13;
    }
    list_to(&parts, atom(&vec![0x85; rest - 4]))
}

/// `(a (q . 1) (x inner))` over itself: the rule works `inner`, throws the work away, and the list works it again.
pub fn wrapped(wrappers: usize, inner: Tree) -> Tree {
    (0..wrappers).fold(inner, |inside, _| apply(byte(1), op(X, &[inside])))
}

/// Wrappers over `(x (f 1))`, which charges 5 for the atom and 16 for its list.
/// One wrapper charges 2u + 40: u twice, 16 for `(x ..)` and 24 for its own list.
pub fn busy(wrappers: usize) -> (Tree, usize) {
    let tree = wrapped(wrappers, op(X, &[op(F, &[byte(1)])]));
    (tree, 61 * (1 << wrappers) - 40)
}

/// How many busy parts leave room for a padding.
pub fn times_in(total: usize, wrappers: usize) -> usize {
    let (tree, each) = busy(wrappers);
    (total - 200) / (each + units(&tree) + 16)
}

/// `(x busy.. (q . pad) more..)` that has charged exactly `total` after its parts and `after` beside.
fn filled(total: usize, wrappers: usize, more: &[Tree], after: usize) -> Tree {
    let (tree, each) = busy(wrappers);
    let parts = vec![tree; times_in(total, wrappers)];
    let around = |data: Tree| op(X, &[parts.as_slice(), &[quote(data)], more].concat());
    let bare = units(&around(nil()));
    around(pad(total - parts.len() * each - after - bare))
}

/// The last charge is the list that the children rule builds.
fn spent(total: usize, wrappers: usize) -> Tree {
    filled(total, wrappers, &[], 8 * (times_in(total, wrappers) + 2))
}

/// The last charge is a pair made by `c` in evaluation; what follows fails, so that both sides show.
fn cons_then_failure(total: usize, wrappers: usize) -> Tree {
    filled(total, wrappers, &[op(F, &[op(L, &[op(F, &[op(C, &[nil(), nil()])])])])], 8)
}

/// The last charge is the atom 1 of a yes.
fn equal_then_failure(total: usize, wrappers: usize) -> Tree {
    filled(total, wrappers, &[op(F, &[op(EQ, &[nil(), nil()])])], 5)
}

/// The last charge is the atom that the path rule makes.
fn path_then_failure(total: usize, wrappers: usize) -> Tree {
    filled(total, wrappers, &[op(R, &[byte(0x40)]), op(F, &[nil()])], 5)
}
