//! Constant expressions: those that evaluate, and those that fail on purpose.

use crate::atoms::telling;
use crate::random::Random;
use crate::tree::*;

/// The optimiser's own question, so that code does not become constant by accident.
pub fn seems_constant(tree: &Tree) -> bool {
    match tree {
        Tree::Atom(bytes) => bytes.is_empty(),
        Tree::Pair(head, rest) => match head.as_ref() {
            Tree::Atom(code) if code.as_slice() == [Q] => true,
            Tree::Atom(code) if code.as_slice() == [X] => false,
            Tree::Atom(_) => tail_seems_constant(rest),
            Tree::Pair(_, _) => seems_constant(head) && tail_seems_constant(rest),
        },
    }
}

fn tail_seems_constant(tree: &Tree) -> bool {
    match tree {
        Tree::Atom(bytes) => bytes.is_empty(),
        Tree::Pair(part, rest) => seems_constant(part) && tail_seems_constant(rest),
    }
}

/// Data of a few leaves.
pub fn data(random: &mut Random, depth: usize) -> Tree {
    if depth == 0 || random.once_in(3) {
        return telling(random);
    }
    pair(data(random, depth - 1), data(random, depth - 1))
}

/// A constant expression with a value.
pub fn good(random: &mut Random, depth: usize) -> Tree {
    if depth == 0 {
        return quote(data(random, 2));
    }
    match random.below(7) {
        0 => op(C, &[good(random, depth - 1), good(random, depth - 1)]),
        1 => op(random.pick(&[F, R]), &[pair_valued(random, depth - 1)]),
        2 => op(L, &[good(random, depth - 1)]),
        3 => op(EQ, &[atom_valued(random), atom_valued(random)]),
        4 => op(I, &[good(random, depth - 1), good(random, depth - 1), good(random, depth - 1)]),
        5 => apply(program(random), pair_valued(random, depth - 1)),
        _ => quote(data(random, 2)),
    }
}

fn pair_valued(random: &mut Random, depth: usize) -> Tree {
    match random.below(3) {
        0 => op(C, &[good(random, depth.min(1)), good(random, depth.min(1))]),
        _ => quote(pair(data(random, 2), data(random, 2))),
    }
}

fn atom_valued(random: &mut Random) -> Tree {
    match random.below(4) {
        0 => nil(),
        1 => op(L, &[quote(data(random, 1))]),
        _ => quote(telling(random)),
    }
}

/// A program that has a value in every environment that is a pair.
fn program(random: &mut Random) -> Tree {
    let path = |random: &mut Random| byte(random.between(1, 3) as u8);
    match random.below(5) {
        0 => op(C, &[path(random), path(random)]),
        1 => op(L, &[path(random)]),
        2 => op(I, &[path(random), path(random), path(random)]),
        3 => op(F, &[byte(1)]),
        _ => path(random),
    }
}

/// A constant expression that fails, most ways in turn: what a value is, the count, the list's end, the operator.
pub fn failing(random: &mut Random) -> Tree {
    let one = quote(telling(random));
    match random.below(9) {
        0 => op(random.pick(&[F, R]), &[one]),
        1 => op(random.pick(&[F, R, L]), &[]),
        2 => op(random.pick(&[A, C, EQ, I]), &[one]),
        3 => op(random.pick(&[F, R, L, A, C, EQ]), &[one.clone(), one.clone(), one]),
        4 => op(EQ, &[one, quote(pair(nil(), nil()))]),
        5 => apply(byte(random.between(2, 9) as u8), one),
        6 => op(random.pick(&[10, 11, 16, 32, 0x7f]), &[one]),
        7 => pair(atom(random.pick::<&[u8]>(&[&[], &[0x00], &[0x00, 0x02], &[0x80]])), list(&[one])),
        _ => pair(op(random.pick(&[C, F]), &[nil()]), list(&[one])),
    }
}
