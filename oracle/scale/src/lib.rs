//! The proved library and the published Rust on the same bytes: outcome, report, and every lent byte.

pub mod lend;
pub mod rust;
pub mod shrink;

use lend::Lent;
use oracle::savings::Savings;
use rust::{Rust, Want, NO_MATCH};

/// What is asked of both sides. Forms stand one after the other; `first` is the length of the first.
#[derive(Clone, Copy, PartialEq, Eq, Debug)]
pub enum Work {
    Optimise,
    Evaluate { first: usize },
    Match { first: usize },
    MatchPlace { first: usize },
    Check,
    Write,
    /// One form worked into a report, with what the report held before.
    AddForm { before: Savings },
}

/// How much is lent.
#[derive(Clone, Copy, Debug)]
pub struct Lengths {
    pub room: usize,
    pub out: usize,
}

impl Lengths {
    pub const USUAL: Lengths = Lengths { room: umlazgrin::ROOM, out: umlazgrin::OUTPUT };
}

/// What both sides said.
#[derive(Clone, Copy, PartialEq, Eq, Debug)]
pub enum Said {
    /// Rules are for a form in a report: how often each ended a pass.
    Answered { mark: bool, rules: [u64; 8] },
    /// A refusal, or 100 and 101 of the matcher.
    Number(u8),
    /// The Rust's work grew beyond the oracle's bounds; nothing was compared.
    GaveUp,
}

pub struct Both {
    rust: Rust,
    lent: Lent,
    /// Forms with these bytes in them are taken to differ: a trial of this program itself.
    pub spoil: Option<Vec<u8>>,
}

impl Both {
    /// To be made in a thread that has just begun, with a stack of `oracle::STACK` bytes.
    pub fn new() -> Self {
        Both { rust: Rust::new(), lent: Lent::new(), spoil: None }
    }

    /// Runs both sides and compares all; what differs, in words, is the error.
    pub fn compare(&mut self, work: Work, forms: &[u8], lengths: Lengths) -> Result<Said, String> {
        let want = self.rust.asked(work, forms, lengths);
        if let Want::Broken(complaint) = want {
            return Err(format!("the Rust contradicts itself: {complaint}"));
        }
        if want == Want::GaveUp {
            return Ok(Said::GaveUp);
        }
        if self.spoil.as_ref().is_some_and(|s| forms.windows(s.len()).any(|w| w == s)) {
            return Err("the bytes of --spoil are in the form".to_string());
        }
        self.lent.asked(work, forms, lengths);
        self.lent.same_as(&want, lengths)?;
        Ok(match want {
            Want::Answer { report, .. } => Said::Answered { mark: work == Work::Optimise && report[3] == 1, rules: [0; 8] },
            Want::Added { number: 0, before, after } => answered_in(&before, &after),
            Want::Added { number, .. } => Said::Number(number),
            Want::Number(number) => Said::Number(number),
            Want::NoMatch { .. } => Said::Number(NO_MATCH),
            Want::GaveUp | Want::Broken(_) => Said::GaveUp,
        })
    }
}

/// What an answered form made of a report.
fn answered_in(before: &Savings, after: &Savings) -> Said {
    let mut rules = after.rules;
    for (count, was) in rules.iter_mut().zip(before.rules) {
        *count -= was;
    }
    Said::Answered { mark: after.marked > before.marked, rules }
}

impl Default for Both {
    fn default() -> Self {
        Both::new()
    }
}
