//! Forms of 1,000 to 4,000 bytes that are answered: the sizes that real programs have, for measuring time.

use crate::atoms::plain_path;
use crate::options::Options;
use crate::random::Random;
use crate::sink::Sink;
use crate::sound::expression;
use crate::tree::*;

pub fn print(options: &Options, sink: &mut Sink) {
    for index in 0..options.count {
        let mut random = Random::new(options.seed, index);
        sink.tree("large", &form(&mut random));
    }
}

pub fn form(random: &mut Random) -> Tree {
    let target = random.between(1000, 3900);
    let mut parts = vec![];
    let mut size = 3;
    while size < target {
        let part = part(random, if target < 2000 { 4 } else { 3 });
        let bytes = write(&part).len() + 1;
        if size + bytes <= target + 90 {
            size += bytes;
            parts.push(part);
        }
    }
    op(random.pick(&[X, C, 0x10]), &parts)
}

/// Mostly code; and quoted data in long atoms, which keeps the units within bounds.
fn part(random: &mut Random, deepest: usize) -> Tree {
    if random.below(4) < 3 {
        let depth = random.between(1, deepest);
        return expression(random, depth);
    }
    let atoms: Vec<Tree> = (0..random.between(1, 4)).map(|_| text(random)).collect();
    op(C, &[quote(list(&atoms)), plain_path(random)])
}

fn text(random: &mut Random) -> Tree {
    let bytes: Vec<u8> = (0..random.between(8, 64)).map(|_| random.below(256) as u8).collect();
    atom(&bytes)
}
