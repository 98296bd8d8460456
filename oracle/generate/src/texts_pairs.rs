//! Programs and environments as texts, each on a line of its own: which of the two refuses first, one budget of units over
//! both, and values whose text ends at the output's end or far behind it.

use crate::code;
use crate::limits::units::{pad, ALL as UNITS};
use crate::options::Options;
use crate::pairs_eval::{environment, program};
use crate::random::Random;
use crate::sink::Sink;
use crate::spelling::{plain, spelled};
use crate::texts_damaged::damage;
use crate::texts_growing::{padding, OUTPUT};
use crate::tree::*;
use crate::trees;

pub fn print(options: &Options, sink: &mut Sink) {
    refusals(sink);
    budget(sink);
    values(sink);
    doubled(sink);
    for index in 0..options.count {
        let mut random = Random::new(options.seed, index);
        random_pair(&mut random, sink);
    }
}

/// Every refusal of reading, in the program and in the environment.
fn refusals(sink: &mut Sink) {
    let texts = [
        "1".to_string(),
        "(f 1)".to_string(),
        "(5 . 6)".to_string(),
        " ".repeat(OUTPUT + 1),
        ")".repeat(100_000),
        String::new(),
        "(q f)".to_string(),
        format!("({}", "5 ".repeat(5000)),
        format!("({})", "() ".repeat(5000)),
        format!("0x{}", "81".repeat(65)),
        format!("({})", "5 ".repeat(2600)),
        format!("({})", "5 ".repeat(1300)),
        format!("({} 0x{})", "5 ".repeat(1300), "81".repeat(65)),
    ];
    for first in &texts {
        for second in &texts {
            sink.two_texts("text-pair-refusals", first.as_bytes(), second.as_bytes());
        }
    }
}

/// What the program charges, the environment has no more.
fn budget(sink: &mut Sink) {
    for share in [100, 10_000, 16_384, 32_000, UNITS - 20, UNITS - 13, UNITS - 10] {
        for total in [UNITS - 5, UNITS - 1, UNITS, UNITS + 1] {
            // One charges 5 more for its yes, the other nothing.
            for program in [op(L, &[quote(pad(share - 40))]), quote(pad(share - 40))] {
                sink.two_texts("text-pair-budget", &plain(&program), &plain(&pad(total - units(&program))));
            }
        }
    }
}

/// The value is `(env env .. . padding)`, in exactly so many bytes of text.
fn values(sink: &mut Sink) {
    let wide = atom(&[0x85; 40]);
    let environments = [
        list(&[byte(F), wide.clone(), byte(1)]),
        pair(byte(Q), list(&[byte(F), wide.clone(), list(&[byte(F)])])),
        list(&[wide.clone(), list(&[byte(A), byte(9)])]),
        pair(pair(byte(Q), byte(F)), pair(wide.clone(), byte(F))),
        wide,
    ];
    for env in environments {
        let value = |times: usize, end: Tree| list_to(&vec![env.clone(); times], end);
        for total in OUTPUT - 3..=OUTPUT + 3 {
            let bare = plain(&value(1, list(&[nil()]))).len();
            let one = plain(&value(2, list(&[nil()]))).len() - bare;
            let times = 1 + (total - bare - 10) / one;
            let end = pair(nil(), padding(total - bare - (times - 1) * one));
            let program = (0..times).fold(quote(end), |rest, _| op(C, &[byte(1), rest]));
            sink.two_texts("text-pair-value", &plain(&program), &plain(&env));
        }
    }
}

/// `(c 1 1)` over and over: trees of 2^n leaves in n pairs.
fn doubled(sink: &mut Sink) {
    let double = op(C, &[byte(1), byte(1)]);
    let heads = op(C, &[byte(1), op(C, &[byte(1), nil()])]);
    let quotes = op(C, &[quote(byte(Q)), op(C, &[byte(1), byte(1)])]);
    for times in (1..=16).chain([20, 30, 60, 200]) {
        for maker in [&double, &heads, &quotes] {
            let program = (0..times).fold(byte(1), |inside, _| apply(maker.clone(), inside));
            for env in [nil(), byte(5), quote(byte(5)), list(&[byte(6), byte(1)])] {
                sink.two_texts("text-pair-doubled", &plain(&program), &plain(&env));
            }
        }
    }
    // One side only: as many brackets as units allow.
    for times in [100, 300] {
        for maker in [op(C, &[byte(1), nil()]), op(C, &[nil(), byte(1)]), op(C, &[byte(1), quote(byte(5))])] {
            let program = (0..times).fold(byte(1), |inside, _| apply(maker.clone(), inside));
            sink.two_texts("text-pair-doubled", &plain(&program), b"(f 1)");
        }
    }
}

/// Sound ones, ones with one text damaged, and any tree beside any other.
fn random_pair(random: &mut Random, sink: &mut Sink) {
    let depth = random.between(1, 4);
    let (first, second) = match random.below(6) {
        0 => (code::small(random), trees::form(random)),
        1 => (byte(random.between(1, 7) as u8), trees::form(random)),
        _ => (program(random, depth), environment(random, 4)),
    };
    let mut texts = [spelled(random, &first), spelled(random, &second)];
    if random.once_in(4) {
        let which = random.below(2);
        damage(random, &mut texts[which]);
    }
    sink.two_texts("text-pair", &texts[0], &texts[1]);
}
