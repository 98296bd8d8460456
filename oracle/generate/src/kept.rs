//! Substitutions whose changed body can be kept: flat bodies over atoms, the only place where the first cause of the mark shows.

use crate::atoms::{low, plain_path, telling};
use crate::constants::data;
use crate::options::Options;
use crate::random::Random;
use crate::sink::Sink;
use crate::tree::*;

pub fn print(options: &Options, sink: &mut Sink) {
    for index in 0..options.count {
        let mut random = Random::new(options.seed, index);
        sink.tree("kept", &kept(&mut random));
    }
}

pub fn kept(random: &mut Random) -> Tree {
    apply(body(random), arguments(random, 2))
}

/// `(op part ..)`: heads that are no operators and pairs as heads included.
fn body(random: &mut Random) -> Tree {
    let parts: Vec<Tree> = (0..random.between(0, 4)).map(|_| part(random)).collect();
    let head = match random.below(6) {
        0 => telling(random),
        1 => pair(part(random), list(&[part(random)])),
        _ => byte(random.between(2, 9) as u8),
    };
    pair(head, list(&parts))
}

fn part(random: &mut Random) -> Tree {
    match random.below(8) {
        0..=2 => low(random),
        3 => quote(data(random, 1)),
        4 => pair(byte(random.between(2, 9) as u8), byte(5)),
        _ => byte(random.between(1, 7) as u8),
    }
}

/// Atoms under `c`, which substitution takes apart, or one atom, which it wraps in `f` and `r`.
fn arguments(random: &mut Random, depth: usize) -> Tree {
    if depth == 0 || random.once_in(3) {
        return plain_path(random);
    }
    op(C, &[arguments(random, depth - 1), arguments(random, depth - 1)])
}
