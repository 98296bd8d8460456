//! Code that is answered: whatever becomes constant on the way has a value. `f` and `r` stand over atoms and over `c` only,
//! `=` has one part that stays unknown, and programs take paths that their arguments have.

use crate::atoms::{low, plain_path, short_odd_path};
use crate::constants::data;
use crate::random::Random;
use crate::tree::*;

pub fn expression(random: &mut Random, depth: usize) -> Tree {
    if depth == 0 {
        return leaf(random);
    }
    match random.below(9) {
        0 => leaf(random),
        1 => paths(random),
        2 => {
            let cons = parts(random, C, 2, depth);
            op(random.pick(&[F, R]), &[cons])
        }
        3 => parts(random, C, 2, depth),
        4 => parts(random, I, 3, depth),
        5 => parts(random, L, 1, depth),
        6 => op(EQ, &[plain_path(random), expression(random, depth - 1)]),
        7 => apply(body(random, depth - 1), arguments(random, depth - 1)),
        _ => apply(expression(random, depth - 1), byte(1)),
    }
}

fn leaf(random: &mut Random) -> Tree {
    if random.once_in(3) { quote(data(random, 2)) } else { plain_path(random) }
}

fn parts(random: &mut Random, code: u8, count: usize, depth: usize) -> Tree {
    let parts: Vec<Tree> = (0..count).map(|_| expression(random, depth - 1)).collect();
    op(code, &parts)
}

/// Towers of `f` and `r` over a path, sometimes one that is read in two ways.
fn paths(random: &mut Random) -> Tree {
    let path = match random.below(4) {
        0 => short_odd_path(random),
        _ => plain_path(random),
    };
    (0..random.between(1, 4)).fold(path, |inside, _| op(random.pick(&[F, R]), &[inside]))
}

/// `(c A (c B 1))`
fn arguments(random: &mut Random, depth: usize) -> Tree {
    let rest = op(C, &[expression(random, depth), byte(1)]);
    op(C, &[expression(random, depth), rest])
}

/// A program over A, B and what stands behind them.
fn body(random: &mut Random, depth: usize) -> Tree {
    if depth == 0 || random.once_in(4) {
        return match random.below(8) {
            0 => quote(data(random, 1)),
            1 => low(random),
            _ => byte(random.pick(&[1, 2, 3, 5, 7, 11, 15])),
        };
    }
    let (code, count) = random.pick(&[(C, 2), (C, 2), (I, 3), (L, 1), (X, 2)]);
    let parts: Vec<Tree> = (0..count).map(|_| body(random, depth - 1)).collect();
    op(code, &parts)
}
