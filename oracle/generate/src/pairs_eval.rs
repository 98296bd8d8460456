//! Programs and environments for the evaluator: the nine operators with values that suit them and values that do not.

use crate::atoms::{odd_path, telling};
use crate::constants::{data, failing, good};
use crate::limits::steps::{spend, ALL as STEPS};
use crate::limits::units::pad;
use crate::options::Options;
use crate::random::Random;
use crate::sink::Sink;
use crate::tree::*;

pub fn print(options: &Options, sink: &mut Sink) {
    limits(sink);
    for index in 0..options.count {
        let mut random = Random::new(options.seed, index);
        let depth = random.between(1, 4);
        let program = program(&mut random, depth);
        sink.two("eval", &program, &environment(&mut random, 5));
    }
}

/// Steps that just fit and just do not, and units that run out before the steps do.
fn limits(sink: &mut Sink) {
    for most in [8, 7, 6] {
        sink.two("eval-steps-at", &spend(STEPS, most), &nil());
        sink.two("eval-steps-past", &spend(STEPS + 1, most), &nil());
    }
    let cons = op(C, &[byte(3), byte(3)]);
    let again = op(A, &[byte(2), op(C, &[byte(2), op(C, &[cons.clone(), cons])])]);
    for amount in [100, 24000] {
        sink.two("eval-units", &again, &pair(again.clone(), pad(amount)));
    }
}

/// Mostly pairs, so that short paths find something.
pub fn environment(random: &mut Random, depth: usize) -> Tree {
    if depth == 0 || random.once_in(30) {
        return if random.once_in(3) { telling(random) } else { program(random, 1) };
    }
    pair(environment(random, depth - 1), environment(random, depth - 1))
}

pub fn program(random: &mut Random, depth: usize) -> Tree {
    if depth == 0 {
        return leaf(random);
    }
    match random.weighted(&[3, 8, 2, 2, 4, 4, 1, 2, 1, 4, 1, 3]) {
        0 => leaf(random),
        1 => call(random, C, 2, depth),
        2 => call(random, F, 1, depth),
        3 => call(random, R, 1, depth),
        4 => call(random, I, 3, depth),
        5 => call(random, L, 1, depth),
        6 => call(random, X, 1, depth),
        7 => call(random, EQ, 2, depth),
        8 => call(random, A, 2, depth),
        9 => apply(program(random, depth - 1), program(random, depth - 1)),
        10 => failing(random),
        _ => good(random, depth),
    }
}

/// Now and then a wrong count or an improper list.
fn call(random: &mut Random, code: u8, count: usize, depth: usize) -> Tree {
    let count = if random.once_in(30) { random.below(5) } else { count };
    let parts: Vec<Tree> = (0..count).map(|_| program(random, depth - 1)).collect();
    let end = if random.once_in(40) { byte(5) } else { nil() };
    pair(byte(code), list_to(&parts, end))
}

fn leaf(random: &mut Random) -> Tree {
    match random.below(12) {
        0..=5 => byte(random.between(1, 7) as u8),
        6 if random.once_in(2) => odd_path(random),
        7 => nil(),
        8 if random.once_in(3) => telling(random),
        _ => quote(data(random, 2)),
    }
}
