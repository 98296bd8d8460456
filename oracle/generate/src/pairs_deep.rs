//! Spines for the place where the matcher stops: 64 bytes hold the place after 511 turns and not the one after 512. A place of every
//! depth to there and a little past it; then every way to stop, at the bottom and on the way back from it.

use crate::pairs_match::hole;
use crate::random::Random;
use crate::sink::Sink;
use crate::tree::*;

/// A pattern and its expression.
type Two = (Tree, Tree);

/// The turns from the root: false is left, true is right.
type Way = Vec<bool>;

/// As deep as two forms can be on one budget.
const DEEPEST: usize = 2030;

pub fn print(sink: &mut Sink) {
    for depth in 0..505 {
        for way in ways(depth) {
            put(sink, "deep-atom", &way, (byte(5), byte(6)));
        }
    }
    for depth in (505..=520).chain([1000, 1299, 1300, DEEPEST]) {
        for way in ways(depth) {
            bottoms(sink, &way);
            far_clash(sink, &way);
        }
    }
    for way in ways(700).into_iter().chain(ways(DEEPEST)) {
        backwards(sink, &way);
    }
    for way in ways(1000).into_iter().chain(ways(DEEPEST)) {
        whole(sink, &way);
    }
}

/// All left, all right, and two by chance.
fn ways(depth: usize) -> [Way; 4] {
    let by_chance = |seed| {
        let mut random = Random::new(seed, depth as u64);
        (0..depth).map(|_| random.once_in(2)).collect()
    };
    [vec![false; depth], vec![true; depth], by_chance(1), by_chance(2)]
}

/// A tree at the end of a way. What stands beside turn number n is `beside(n)`.
fn along(way: &[bool], end: Tree, beside: impl Fn(usize) -> Tree) -> Tree {
    way.iter().enumerate().rev().fold(end, |inside, (turn, right)| {
        if *right {
            pair(beside(turn), inside)
        } else {
            pair(inside, beside(turn))
        }
    })
}

/// Nil stands beside the way, for it costs no units.
fn put(sink: &mut Sink, name: &str, way: &[bool], end: Two) {
    sink.two(name, &along(way, end.0, |_| nil()), &along(way, end.1, |_| nil()));
}

fn named(name: &[u8]) -> Tree {
    hole(b":", name)
}

fn two_bytes(left: u8, right: u8) -> Tree {
    pair(byte(left), byte(right))
}

/// Every way to stop after all turns, and not to stop.
fn bottoms(sink: &mut Sink, way: &[bool]) {
    let mut at = |name: &str, end: Two| put(sink, name, way, end);
    at("deep-atom", (byte(5), byte(6)));
    at("deep-nil", (nil(), byte(5)));
    at("deep-pair", (byte(5), two_bytes(1, 2)));
    at("deep-no-pair", (two_bytes(1, 2), byte(5)));
    at("deep-no-pair", (pair(two_bytes(1, 2), byte(3)), nil()));
    at("deep-literal", (hole(b"$", b"$"), byte(5)));
    at("deep-same", (two_bytes(1, 2), two_bytes(1, 2)));
    at("deep-bound", (named(b"a"), two_bytes(1, 2)));

    // The last turn is one that these make: right where two names or two tails part, left where the signs do.
    let above = &way[..way.len() - 1];
    let mut at = |name: &str, end: Two| put(sink, name, above, end);
    at("deep-clash", (pair(named(b"a"), named(b"a")), two_bytes(5, 6)));
    at("deep-clash", (pair(named(b"a"), named(b"a")), pair(two_bytes(5, 6), two_bytes(5, 7))));
    at("deep-no-clash", (pair(named(b"a"), named(b"a")), pair(two_bytes(5, 6), two_bytes(5, 6))));
    at("deep-sign", (hole(b"$", b"a"), pair(byte(5), atom(b"a"))));
    at("deep-tail", (hole(b"$", b"a"), pair(atom(b"$"), byte(5))));
    at("deep-colon", (hole(b":", b":"), pair(two_bytes(1, 2), atom(b":"))));
    at("deep-colon", (hole(b":", b":"), pair(atom(b":"), byte(5))));

    // What is met first: a third name, or what differs.
    let above = &way[..way.len() - 2];
    let mut at = |name: &str, end: Two| put(sink, name, above, end);
    let expression = || list_to(&[byte(1), byte(2)], byte(3));
    at("deep-third", (list_to(&[named(b"a"), named(b"b")], named(b"c")), expression()));
    at("deep-third", (pair(pair(named(b"a"), named(b"b")), named(b"c")), pair(two_bytes(1, 2), byte(3))));
    at("deep-differs", (pair(pair(named(b"a"), byte(5)), pair(named(b"b"), named(b"c"))), pair(two_bytes(1, 2), two_bytes(3, 4))));
}

/// A name bound as near to the root as the way lets it be, left of it, and met again at the end.
fn far_clash(sink: &mut Sink, way: &[bool]) {
    let Some(first) = way.iter().position(|right| *right) else {
        return;
    };
    let beside = |tree: Tree| move |turn: usize| if turn == first { tree.clone() } else { nil() };
    for end in [5, 6] {
        sink.two("deep-far", &along(way, named(b"a"), beside(named(b"a"))), &along(way, byte(end), beside(byte(5))));
    }
}

/// All agrees to the end of the way, and then what stands right of it does not: on the way back the place gets shorter again.
fn backwards(sink: &mut Sink, way: &[bool]) {
    let places = [0, 1, 6, 7, 8, 63, 64].into_iter().chain(500..=520).chain([way.len() - 1]);
    for place in places.filter(|place| !way[*place]) {
        let beside = |tree: Tree| move |turn: usize| if turn == place { tree.clone() } else { nil() };
        sink.two("deep-back", &along(way, byte(5), beside(byte(5))), &along(way, byte(5), beside(byte(6))));
    }
}

/// Deep trees bound to one name: their place is where the second one begins, however deep they differ.
fn whole(sink: &mut Sink, way: &[bool]) {
    let twice = pair(named(b"a"), named(b"a"));
    for end in [byte(5), byte(6), two_bytes(5, 5)] {
        let deep = |end| along(way, end, |_| nil());
        sink.two("deep-whole", &twice, &pair(deep(byte(5)), deep(end)));
    }
}
