//! Forms whose values share parts. A value made by `(c 1 1)` n times over is a tree of 2^n leaves in n nodes: whoever walks
//! it as a tree never ends. As data, as code, and twice over.

use crate::options::Options;
use crate::random::Random;
use crate::sink::Sink;
use crate::tree::*;

pub fn print(options: &Options, sink: &mut Sink) {
    sink.tree("shared-operators", &sharing_operators());
    for times in [1, 4, 8, 11, 12, 13, 16, 20, 30, 60, 200] {
        data(sink, times);
        code(sink, times);
        twice(sink, times);
    }
    for index in 0..options.count {
        let mut random = Random::new(options.seed, index);
        sink.tree("shared-random", &random_form(&mut random));
    }
}

/// The 299 bytes: code made by evaluation whose argument list holds a tree of 4^40 leaves.
fn sharing_operators() -> Tree {
    let again = (0..40).fold(byte(3), |inside, _| op(A, &[byte(2), inside]));
    let body = op(C, &[byte(1), op(C, &[byte(1), op(C, &[byte(1), byte(1)])])]);
    let made = apply(again, quote(list(&[body])));
    let program = op(C, &[quote(byte(2)), op(C, &[nil(), op(C, &[made, quote(byte(5))])])]);
    op(A, &[program, byte(1)])
}

/// `(a (q . maker) (a (q . maker) .. start))`
fn made(times: usize, maker: &Tree, start: Tree) -> Tree {
    (0..times).fold(start, |inside, _| apply(maker.clone(), inside))
}

fn doubled(times: usize, start: Tree) -> Tree {
    made(times, &op(C, &[byte(1), byte(1)]), start)
}

/// As data: kept, asked whether it is a pair, taken apart, dropped, compared.
fn data(sink: &mut Sink, times: usize) {
    let value = doubled(times, quote(byte(5)));
    let uses = [
        value.clone(),
        op(L, &[value.clone()]),
        op(F, &[value.clone()]),
        op(F, &[op(C, &[byte(2), value.clone()])]),
        op(I, &[value.clone(), nil(), value.clone()]),
        op(EQ, &[value.clone(), value.clone()]),
        op(X, &[value.clone(), op(L, &[value.clone()])]),
        op(C, &[byte(1), value]),
    ];
    uses.iter().for_each(|form| sink.tree("shared-data", form));
}

/// As code: calls of calls, constants of constants, quotes, operators, bodies to substitute in.
fn code(sink: &mut Sink, times: usize) {
    let two_of = |code: u8| op(C, &[quote(byte(code)), op(C, &[byte(1), op(C, &[byte(1), nil()])])]);
    for operator in [X, C, 0x10] {
        for leaf in [nil(), quote(byte(5)), quote(quote(byte(5)))] {
            let value = made(times, &two_of(operator), leaf);
            sink.tree("shared-code", &op(A, &[value.clone(), byte(1)]));
            sink.tree("shared-code", &op(A, &[value, byte(2)]));
        }
    }
    let heads = doubled(times, quote(nil()));
    sink.tree("shared-code", &op(A, &[heads.clone(), byte(1)]));
    sink.tree("shared-code", &op(A, &[heads, byte(3)]));
}

/// Twice over: shared code that makes shared values, and the same value in two places.
fn twice(sink: &mut Sink, times: usize) {
    let value = doubled(times, quote(byte(5)));
    let maker = op(C, &[quote(byte(C)), op(C, &[byte(1), op(C, &[byte(1), nil()])])]);
    let program = made(times.min(20), &maker, quote(byte(1)));
    sink.tree("shared-twice", &op(A, &[program.clone(), value.clone()]));
    sink.tree("shared-twice", &op(L, &[op(A, &[program, value.clone()])]));
    sink.tree("shared-twice", &op(C, &[value.clone(), value.clone()]));
    sink.tree("shared-twice", &op(X, &[op(C, &[value.clone(), byte(1)]), op(C, &[value, byte(1)])]));
}

fn random_form(random: &mut Random) -> Tree {
    let times = random.between(1, 30);
    let value = (0..times).fold(start(random), |inside, _| apply(maker(random), inside));
    match random.below(6) {
        0 => value,
        1 => op(A, &[value, byte(random.between(1, 3) as u8)]),
        2 => op(X, &[value.clone(), op(A, &[value, byte(1)])]),
        3 => op(L, &[value]),
        4 => op(A, &[op(C, &[quote(byte(random.pick(&[2, 4, 8, 16]))), value]), byte(1)]),
        _ => op(random.pick(&[F, R]), &[op(A, &[value, byte(2)])]),
    }
}

fn start(random: &mut Random) -> Tree {
    quote(match random.below(4) {
        0 => nil(),
        1 => byte(random.between(1, 9) as u8),
        2 => quote(byte(5)),
        _ => list(&[byte(X), byte(3)]),
    })
}

fn maker(random: &mut Random) -> Tree {
    let head = quote(byte(random.pick(&[1, 2, 4, 5, 8, 16])));
    match random.below(5) {
        0 => op(C, &[head, op(C, &[byte(1), nil()])]),
        1 => op(C, &[head, op(C, &[byte(1), op(C, &[byte(1), nil()])])]),
        2 => op(C, &[byte(1), op(C, &[byte(1), nil()])]),
        _ => op(C, &[byte(1), byte(1)]),
    }
}
