//! The same expression twice. A memo answers the second one, and must charge as if it did not: hits that just fit and hits
//! that just cross nesting, passes or units, and those where two limits wait and the work decides which comes first.

use crate::limits::both;
use crate::limits::passes::{passes_of, ALL as PASSES};
use crate::limits::units::{busy, pad, times_in, wrapped, ALL as UNITS};
use crate::sink::Sink;
use crate::tree::*;

pub fn print(sink: &mut Sink) {
    nesting(sink);
    passes(sink);
    units_left(sink);
    two_limits(sink);
    nested(sink);
}

/// First near the top, then `depth` lists deeper.
fn near_and_deep(part: &Tree, depth: usize) -> Tree {
    op(X, &[part.clone(), tower(X, depth, part.clone())])
}

/// A tower of h lists at nesting n reaches n + h; one that rewrites itself is kept under its first form.
fn nesting(sink: &mut Sink) {
    for height in [1, 2, 5, 20, 40] {
        for part in [tower(X, height, byte(5)), tower(F, height, byte(1)), tower(R, height, byte(0x7f))] {
            both(sink, "repeat-nesting", &near_and_deep(&part, 62 - height), &near_and_deep(&part, 63 - height));
        }
        let made = op(C, &[nil(), quote(byte(9))]);
        let changed = tower(X, height, made);
        both(sink, "repeat-nesting", &near_and_deep(&changed, 62 - height), &near_and_deep(&changed, 63 - height));
    }
}

/// `(x big quote.. big)`: the quotes leave the second one exactly its passes, or one less.
fn passes(sink: &mut Sink) {
    for wrappers in [13, 12, 11, 10] {
        let times = (PASSES - 1) / passes_of(wrappers);
        let spare = PASSES - 1 - times * passes_of(wrappers);
        both(sink, "repeat-passes", &passing(wrappers, times, spare), &passing(wrappers, times, spare + 1));
    }
}

fn passing(wrappers: usize, times: usize, spare: usize) -> Tree {
    let big = wrapped(wrappers, op(X, &[]));
    let mut parts = vec![big.clone(); times - 1];
    parts.extend(small_parts(spare));
    parts.push(big);
    op(X, &parts)
}

/// `count` passes without units: wrappers of their own, then quotes.
fn small_parts(count: usize) -> Vec<Tree> {
    let mut parts = vec![];
    let mut rest = count;
    for wrappers in (1..=9).rev() {
        while rest >= passes_of(wrappers) {
            parts.push(wrapped(wrappers, op(X, &[byte(9)])));
            rest -= passes_of(wrappers);
        }
    }
    parts.extend(vec![quote(byte(5)); rest]);
    parts
}

/// The second one's charges just fit or just do not; a failure behind it shows which.
fn units_left(sink: &mut Sink) {
    for wrappers in 5..=8 {
        both(sink, "repeat-units", &charging(wrappers, UNITS), &charging(wrappers, UNITS + 1));
    }
}

fn charging(wrappers: usize, total: usize) -> Tree {
    let (part, each) = busy(wrappers);
    let times = times_in(total, wrappers);
    let around = |data: Tree| op(X, &[vec![quote(data)], vec![part.clone(); times], vec![op(F, &[nil()])]].concat());
    let bare = units(&around(nil()));
    around(pad(total - times * each - bare))
}

/// The second one stands too deep and comes too late: 12, 7 or 13 as what is left allows.
fn two_limits(sink: &mut Sink) {
    let part = tower(X, 30, byte(5));
    for left in [0, 1, 39, 40, 41, 55, 61, 62, 63, 64, 65, 66, 80] {
        let mut parts = vec![part.clone()];
        parts.extend(large_parts(PASSES - 31 - left));
        parts.push(tower(X, 40, part.clone()));
        sink.tree("repeat-two-limits", &op(X, &parts));
    }
    // The part charges 5 for its path and 24 for its list; at the deep place only the 5.
    let part = op(X, &[op(F, &[byte(1)]), tower(X, 30, byte(5))]);
    for total in UNITS - 2..=UNITS + 2 {
        let around = |data: Tree| op(X, &[quote(data), part.clone(), tower(X, 40, part.clone())]);
        sink.tree("repeat-two-limits", &around(pad(total - 29 - 5 - units(&around(nil())))));
    }
}

fn large_parts(count: usize) -> Vec<Tree> {
    let mut parts = vec![];
    let mut rest = count;
    for wrappers in (10..=14).rev() {
        while rest >= passes_of(wrappers) {
            parts.push(wrapped(wrappers, op(X, &[byte(9)])));
            rest -= passes_of(wrappers);
        }
    }
    parts.extend(small_parts(rest));
    parts
}

/// Repeats inside repeats: an entry's height comes from a hit inside its own work.
fn nested(sink: &mut Sink) {
    for height in [3, 10, 25] {
        let part = tower(X, height, op(F, &[byte(1)]));
        let holder = op(X, &[byte(2), op(L, &[part.clone()])]);
        let form = |depth: usize| op(X, &[part.clone(), holder.clone(), tower(X, depth, holder.clone())]);
        both(sink, "repeat-nesting", &form(62 - height - 3), &form(62 - height - 2));
    }
}
