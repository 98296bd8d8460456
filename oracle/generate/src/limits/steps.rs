//! 4,096 steps of one evaluation. `(i (a 2 3) (a 2 3) ())` in an environment that is a list of programs runs the list's
//! rest twice: with t steps for the rest it takes 2t + 8, so n of them over a leaf of one step take 9 * 2^n - 8.

use super::both;
use crate::sink::Sink;
use crate::tree::*;

pub const ALL: usize = 4096;

pub fn print(sink: &mut Sink) {
    for most in [8, 7, 6, 5] {
        both(sink, "steps", &spend(ALL, most), &spend(ALL + 1, most));
        both(sink, "steps", &op(C, &[byte(1), spend(ALL, most)]), &op(C, &[byte(1), spend(ALL + 1, most)]));
        both(sink, "steps-then-failure", &failing(ALL, most), &failing(ALL + 1, most));
    }
    // Each evaluation has steps of its own.
    both(sink, "steps", &each(ALL), &each(ALL + 1));
    both(sink, "steps", &listed(ALL), &listed(ALL + 1));
    endless(sink);
}

/// A constant expression of exactly `total` steps.
pub fn spend(total: usize, most: usize) -> Tree {
    for times in (1..=most).rev() {
        let doubling = 9 * (1 << times) - 5;
        if total >= doubling + 3 {
            return op(I, &[twice(times), spend(total - doubling - 2, most), nil()]);
        }
    }
    tower(L, total - 1, nil())
}

/// `(a (q . program) (q program .. leaf))`: three steps before the first program begins.
fn twice(times: usize) -> Tree {
    let again = op(A, &[byte(2), byte(3)]);
    let program = op(I, &[again.clone(), again, nil()]);
    let rest = list(&[vec![program.clone(); times - 1], vec![quote(byte(5))]].concat());
    apply(program, quote(rest))
}

/// The last two steps are `(f ())`, which fails: 8 where they fit.
fn failing(total: usize, most: usize) -> Tree {
    op(I, &[spend(total - 4, most), nil(), op(F, &[nil()])])
}

fn each(total: usize) -> Tree {
    op(X, &[spend(ALL, 8), spend(ALL, 7), spend(total, 6)])
}

/// A constant list without programs: one step for each `c` and each quote, one for the end.
fn listed(total: usize) -> Tree {
    let made = 600;
    let head = spend(total - 2 * made, 8);
    (0..made).fold(head, |rest, _| op(C, &[nil(), rest]))
}

/// Programs that would run for ever: each begins itself again, bare or inside an operator, alone or beside other work.
fn endless(sink: &mut Sink) {
    let again = op(A, &[byte(1), byte(1)]);
    let bodies = [
        again.clone(),
        op(F, &[again.clone()]),
        op(L, &[again.clone()]),
        op(C, &[again.clone(), byte(1)]),
        op(EQ, &[nil(), again.clone()]),
        op(I, &[byte(1), again.clone(), byte(1)]),
        op(A, &[byte(1), op(R, &[pair(byte(C), list(&[nil(), byte(1)]))])]),
    ];
    for body in bodies {
        let form = apply(body.clone(), quote(body));
        sink.tree("steps-past", &form);
        sink.tree("steps-past", &op(C, &[byte(1), form.clone()]));
        sink.tree("steps-past", &op(X, &[op(F, &[byte(1)]), form]));
    }
    let growing = op(A, &[byte(2), op(C, &[byte(2), op(C, &[byte(3), byte(3)])])]);
    sink.tree("steps-past", &apply(growing.clone(), quote(pair(growing, nil()))));
}
