//! Patterns and expressions for the matcher: a pattern made from its expression, so that matches are as common as misses.

use crate::atoms::telling;
use crate::options::Options;
use crate::random::Random;
use crate::sink::Sink;
use crate::tree::*;

pub fn print(options: &Options, sink: &mut Sink) {
    fixed(sink);
    for index in 0..options.count {
        let mut random = Random::new(options.seed, index);
        let expression = expression(&mut random, 4);
        let pattern = pattern(&mut random, &expression);
        sink.two("match", &pattern, &expression);
    }
}

pub fn hole(kind: &[u8], name: &[u8]) -> Tree {
    pair(atom(kind), atom(name))
}

/// The names' own cases: `($ . $)`, `(: . :)`, names met twice, three names, names that are not ASCII.
fn fixed(sink: &mut Sink) {
    let expressions = [nil(), atom(b"$"), atom(b":"), byte(5), hole(b"$", b"$"), hole(b":", b":"), hole(b"$", b"a"), hole(b":", b"a")];
    let names: [&[u8]; 8] = [b"$", b":", b"a", b"", b"\x00", b"\xff", b"\xc3\xa9", b"\xfe"];
    for kind in [b"$", b":"] {
        for name in names {
            for expression in &expressions {
                sink.two("match-hole", &hole(kind, name), expression);
                sink.two("match-known", &pair(hole(b":", b"b"), hole(kind, name)), &pair(byte(7), expression.clone()));
            }
        }
    }
    for (first, second) in [(5, 5), (5, 6)] {
        for names in [[b"\xff", b"\xfe"], [b"\xff", b"\xff"], [b"a", b"a"], [b"a", b"b"]] {
            sink.two("match-names", &pair(hole(b":", names[0]), hole(b"$", names[1])), &pair(byte(first), byte(second)));
        }
    }
    let three = list(&[hole(b":", b"a"), hole(b"$", b"b"), hole(b":", b"c")]);
    for end in [nil(), byte(5)] {
        sink.two("match-three", &three, &list_to(&[byte(1), byte(2), byte(3)], end));
    }
}

pub fn expression(random: &mut Random, depth: usize) -> Tree {
    if depth == 0 || random.once_in(4) {
        return telling(random);
    }
    pair(expression(random, depth - 1), expression(random, depth - 1))
}

/// The expression with holes put in, now and then a part changed.
fn pattern(random: &mut Random, expression: &Tree) -> Tree {
    match random.below(16) {
        0..=2 => hole(random.pick(&[b"$", b":"]), &name(random)),
        3 if random.once_in(3) => telling(random),
        _ => match expression {
            Tree::Atom(_) => expression.clone(),
            Tree::Pair(left, right) => pair(pattern(random, left), pattern(random, right)),
        },
    }
}

fn name(random: &mut Random) -> Vec<u8> {
    let names: [&[u8]; 9] = [b"a", b"a", b"a", b"b", b"b", b"c", b"$", b":", b"\xff"];
    random.pick(&names).to_vec()
}
