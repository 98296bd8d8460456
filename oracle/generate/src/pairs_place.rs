//! Patterns and expressions for the place where the matcher stops: one part changed somewhere in a tree that agrees elsewhere, names
//! met again with their own tree or with another, and literals against pairs that are like them.

use std::rc::Rc;

use crate::atoms::telling;
use crate::options::Options;
use crate::pairs_match::{expression, hole};
use crate::random::Random;
use crate::sink::Sink;
use crate::tree::*;

/// A pattern and its expression.
type Two = (Tree, Tree);

pub fn print(options: &Options, sink: &mut Sink) {
    for index in 0..options.count {
        let mut random = Random::new(options.seed, index);
        let (name, (pattern, expression)) = match random.below(4) {
            0 | 1 => ("place-changed", changed(&mut random)),
            2 => ("place-names", names(&mut random)),
            _ => ("place-literals", literals(&mut random)),
        };
        sink.two(name, &pattern, &expression);
    }
}

/// The expression with holes put in, and then one part changed, each at a place by chance.
fn changed(random: &mut Random) -> Two {
    let expression = if random.once_in(2) {
        let depth = random.between(1, 10);
        expression(random, depth)
    } else {
        let leaves = random.between(1, 150);
        joined(random, leaves)
    };
    let mut pattern = expression.clone();
    for _ in 0..random.pick(&[0, 0, 0, 1, 2, 3]) {
        let new = hole(random.pick(&[b"$", b":"]), random.pick(&[b"a", b"a", b"b", b"c"]));
        pattern = with(&pattern, random.below(parts(&pattern)), &mut |_| new.clone());
    }
    if !random.once_in(16) {
        pattern = with(&pattern, random.below(parts(&pattern)), &mut |part| other(random, part));
    }
    (pattern, expression)
}

/// Names at places by chance, each mostly with a tree of its own, else with one that differs in a part. A third name, atoms that differ,
/// and literals that forget all names are rare: what is met first ends the match.
fn names(random: &mut Random) -> Two {
    let named: [&[u8]; 3] = [b"a", b"b", b"c"];
    let trees = named.map(|_| {
        let leaves = random.between(1, 8);
        joined(random, leaves)
    });
    let leaves = random.between(3, 40);
    let third = random.pick(&[0, 1, 1, 2]);
    grown(random, leaves, &mut |random| match random.below(16) {
        0..=4 => {
            let which = random.pick(&[0, 0, 1, 1, third]);
            let tree = &trees[which];
            let atoms_only = matches!(tree, Tree::Atom(_)) && random.once_in(2);
            let sign = if atoms_only || random.once_in(20) { b"$" } else { b":" };
            let tree = if random.once_in(5) {
                with(tree, random.below(parts(tree)), &mut |part| other(random, part))
            } else {
                tree.clone()
            };
            (hole(sign, named[which]), tree)
        }
        5 if random.once_in(3) => {
            let sign = random.pick(&[b"$", b":"]);
            (hole(sign, sign), atom(sign))
        }
        6 if random.once_in(6) => (telling(random), telling(random)),
        _ => same(random),
    })
}

/// `($ . x)`, `(: . x)`, `($ . $)` and `(: . :)` against what is like them.
fn literals(random: &mut Random) -> Two {
    let leaves = random.between(1, 30);
    grown(random, leaves, &mut |random| {
        if random.below(6) > 0 {
            return same(random);
        }
        let words: [&[u8]; 4] = [b"$", b"$", b":", b"a"];
        let (sign, name) = (random.pick(&words[1..3]), random.pick(&words));
        let expression = match random.below(10) {
            0..=3 => hole(sign, name),
            4 => hole(random.pick(&words), name),
            5 => hole(sign, random.pick(&words)),
            6 => pair(joined(random, 2), atom(name)),
            7 => pair(atom(sign), joined(random, 2)),
            8 => atom(sign),
            _ => telling(random),
        };
        (hole(sign, name), expression)
    })
}

/// Pattern and expression of one shape with so many leaves, some of which are trees of their own.
fn grown(random: &mut Random, leaves: usize, leaf: &mut dyn FnMut(&mut Random) -> Two) -> Two {
    if leaves == 1 {
        return leaf(random);
    }
    let left = match random.below(4) {
        0 => 1,
        1 => leaves - 1,
        _ => random.between(1, leaves - 1),
    };
    let (left, right) = (grown(random, left, leaf), grown(random, leaves - left, leaf));
    (pair(left.0, right.0), pair(left.1, right.1))
}

fn same(random: &mut Random) -> Two {
    let atom = telling(random);
    (atom.clone(), atom)
}

/// Any tree of so many leaves.
fn joined(random: &mut Random, leaves: usize) -> Tree {
    grown(random, leaves, &mut same).1
}

fn parts(tree: &Tree) -> usize {
    match tree {
        Tree::Atom(_) => 1,
        Tree::Pair(left, right) => 1 + parts(left) + parts(right),
    }
}

/// The tree with one part changed: number `at` of its parts, in the order in which they are written.
fn with(tree: &Tree, at: usize, change: &mut dyn FnMut(&Tree) -> Tree) -> Tree {
    match tree {
        Tree::Pair(left, right) if at > 0 => {
            let before = parts(left);
            if at <= before {
                Tree::Pair(Rc::new(with(left, at - 1, change)), right.clone())
            } else {
                Tree::Pair(left.clone(), Rc::new(with(right, at - 1 - before, change)))
            }
        }
        _ => change(tree),
    }
}

/// Another atom for an atom, a pair for an atom, an atom for a pair.
fn other(random: &mut Random, part: &Tree) -> Tree {
    if matches!(part, Tree::Pair(..)) {
        return telling(random);
    }
    if random.once_in(2) {
        let leaves = random.between(2, 3);
        return joined(random, leaves);
    }
    loop {
        let other = telling(random);
        if other != *part {
            return other;
        }
    }
}
