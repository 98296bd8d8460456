//! Texts whose finished trees are far longer than the form that was read, up to the 32,768 bytes of output and past them:
//! grown by substitution, and by values that share their parts. (`shared --text` has more of the second kind.)

use crate::constants::data;
use crate::limits::output::grown;
use crate::options::Options;
use crate::random::Random;
use crate::sink::Sink;
use crate::spelling::{plain, spelled};
use crate::tree::*;

pub const OUTPUT: usize = 32768;

/// Fixed ones at the limit, then random ones.
pub fn print(options: &Options, sink: &mut Sink) {
    for width in [9, 30, 60] {
        for total in OUTPUT - 2..=OUTPUT + 3 {
            sink.text("text-substituted", &plain(&substituted(total, &argument(width))));
            sink.text("text-quoted", &plain(&repeated(total, &argument(width))));
        }
    }
    for index in 0..options.count {
        let mut random = Random::new(options.seed, index);
        let total = match random.below(4) {
            0 => random.between(300, 9000),
            1 => random.between(8000, 30_000),
            2 => random.between(OUTPUT - 100, OUTPUT + 100),
            _ => random.between(20_000, 60_000),
        };
        let width = random.between(1, 60);
        let tree = match random.below(4) {
            0 => grown(total / 3),
            1 => repeated(total, &argument(width)),
            2 => op(X, &[byte(1), repeated(total, &data(&mut random, 3))]),
            _ => substituted(total, &argument(width)),
        };
        sink.text("text-growing", &spelled(&mut random, &tree));
    }
}

/// `((q . data) 5)`: substitution may put it anywhere and keep the body, since its head is a pair.
fn argument(width: usize) -> Tree {
    pair(quote(list(&[atom(&vec![0x85; width]), byte(5), nil()])), list(&[byte(5)]))
}

/// `(a (q x 1 1 .. (q . padding)) argument)`: finished, it is `(x argument argument .. (q . padding))` of `total` bytes of text.
fn substituted(total: usize, argument: &Tree) -> Tree {
    let around = |part: &Tree, times: usize, padding: Tree| op(X, &[vec![part.clone(); times], vec![quote(padding)]].concat());
    let one = plain(&around(argument, 1, nil())).len() - plain(&around(argument, 0, nil())).len();
    let bare = plain(&around(argument, 0, nil())).len();
    let times = (total - bare - 10) / one;
    apply(around(&byte(1), times, padding(total - bare - times * one)), argument.clone())
}

/// Data that takes `more` bytes of text, at least 2, besides the `(q)` around it.
pub fn padding(more: usize) -> Tree {
    let nils = if more % 2 == 0 { 2 } else { 1 };
    if more < 3 * nils {
        return byte(5);
    }
    // Each nil takes 3 bytes; each byte of an atom in its place 2 more.
    let mut parts = vec![nil(); nils];
    let mut rest = (more - 3 * nils) / 2;
    while rest > 64 {
        // A wide atom takes 5 + 2n - 2 bytes: two of them keep the sum even.
        parts.extend([atom(&[0x85; 20]), atom(&[0x86; 21])]);
        rest -= (3 + 40 + 3 + 42) / 2;
    }
    if rest > 0 {
        parts[0] = atom(&vec![0x87; rest]);
    }
    list(&parts)
}

/// A constant whose value is a list of the same part over and over, `(q part part .. . padding)` in `total` bytes of text.
fn repeated(total: usize, part: &Tree) -> Tree {
    let value = |times: usize, padding: Tree| quote(list_to(&vec![part.clone(); times], padding));
    let bare = plain(&value(0, nil())).len();
    let one = plain(&value(1, nil())).len() - bare;
    let times = ((total - bare - 10) / one).min(1500);
    let end = padding((total - bare - times * one).min(4000));
    apply((0..times).fold(quote(end), |rest, _| op(C, &[byte(1), rest])), quote(part.clone()))
}
