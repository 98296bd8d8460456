//! Every tree of up to a few leaves over the telling atoms: what two rules do to each other shows in small trees first.

use crate::atoms::TELLING;
use crate::options::Options;
use crate::sink::Sink;
use crate::tree::{atom, pair, Tree};

pub fn print(options: &Options, sink: &mut Sink) {
    let atoms: Vec<Tree> = match &options.atoms {
        Some(chosen) => chosen.iter().map(|bytes| atom(bytes)).collect(),
        None => TELLING.iter().map(|bytes| atom(bytes)).collect(),
    };
    for leaves in 1..=options.leaves {
        trees(leaves, &atoms, &mut |tree| sink.tree("small", tree));
    }
}

/// Hands every tree of exactly `leaves` leaves to `take`.
fn trees(leaves: usize, atoms: &[Tree], take: &mut dyn FnMut(&Tree)) {
    if leaves == 1 {
        atoms.iter().for_each(take);
        return;
    }
    for left_leaves in 1..leaves {
        trees(left_leaves, atoms, &mut |left| {
            trees(leaves - left_leaves, atoms, &mut |right| take(&pair(left.clone(), right.clone())));
        });
    }
}
