//! The Rust's side: what the library is to return, report and write.

use std::panic::{catch_unwind, resume_unwind, AssertUnwindSafe};

use clvm_rs::allocator::{Allocator, NodePtr};
use clvm_rs::error::EvalErr;
use clvm_rs::run::{write, GaveUp};
use oracle::form::read;
use oracle::matcher::{matches, published_agrees, Matched};
use oracle::modes::full;
use oracle::runner::evaluate;
use oracle::savings::{Savings, FORMS, TOO_MANY};

use crate::{Lengths, Work};

#[derive(PartialEq, Eq, Debug)]
pub enum Want {
    Answer { bytes: Vec<u8>, report: Vec<usize> },
    Number(u8),
    /// No match, for a call that also says where.
    NoMatch { place: [u8; PLACE] },
    /// A form worked into a report: 0 or its refusal, and the report as it was and as it is to be.
    Added { number: u8, before: Savings, after: Savings },
    GaveUp,
    /// The text complained of itself, or the two matchers disagree.
    Broken(String),
}

/// The matcher's numbers beside the refusals'.
pub const NO_MATCH: u8 = 100;
const TOO_MANY_NAMES: u8 = 101;
/// The bytes that the place of a disagreement is written into.
pub const PLACE: usize = 64;

pub struct Rust {
    store: Allocator,
}

impl Rust {
    pub fn new() -> Self {
        Rust { store: oracle::store(false) }
    }

    /// A report that takes no form and a room that is too short are settled before the form is looked at.
    pub fn asked(&mut self, work: Work, forms: &[u8], lengths: Lengths) -> Want {
        match work {
            Work::AddForm { before } if !takes_a_form(&before) => Want::Added { number: TOO_MANY, before, after: before },
            _ if lengths.room < umlazgrin::ROOM => without_room(work),
            _ => self.worked(work, forms, lengths.out),
        }
    }

    fn worked(&mut self, work: Work, forms: &[u8], most: usize) -> Want {
        let store = &mut self.store;
        let worked = catch_unwind(AssertUnwindSafe(|| match work {
            Work::Optimise => optimised(store, forms, most),
            Work::Evaluate { first } => evaluated(store, forms.split_at(first), most),
            Work::Match { first } => matched(store, forms.split_at(first), most, |_| Want::Number(NO_MATCH)),
            Work::MatchPlace { first } => matched(store, forms.split_at(first), most, no_match_at),
            Work::Check => checked(store, forms),
            Work::Write => written(store, forms, most),
            Work::AddForm { before } => added(store, forms, before),
        }));
        match worked {
            Ok(Ok(want)) => want,
            Ok(Err(EvalErr::Refused(number))) => Want::Number(number),
            Ok(Err(EvalErr::InternalError(_, complaint))) => Want::Broken(complaint),
            Err(thrown) if thrown.is::<GaveUp>() => Want::GaveUp,
            Err(thrown) => resume_unwind(thrown),
        }
    }
}

impl Default for Rust {
    fn default() -> Self {
        Rust::new()
    }
}

/// It is not full, and no number is so large that a sum could pass 64 bits.
fn takes_a_form(report: &Savings) -> bool {
    report.forms() < FORMS && report.numbers().iter().all(|number| *number < 1 << 63)
}

/// Refusal 1, which stands in a report as any other. The oracle lends itself no room.
fn without_room(work: Work) -> Want {
    let Work::AddForm { before } = work else {
        return Want::Number(1);
    };
    let mut after = before;
    after.refused[0] += 1;
    Want::Added { number: 1, before, after }
}

type Asked = Result<Want, EvalErr>;

fn optimised(store: &mut Allocator, form: &[u8], most: usize) -> Asked {
    let a = full(store, form, most)?;
    let report = vec![a.tree.len(), a.passes as usize, a.units as usize, a.mark as usize];
    Ok(Want::Answer { bytes: a.tree, report })
}

fn added(store: &mut Allocator, form: &[u8], before: Savings) -> Asked {
    let mut after = before;
    let number = after.add(store, form)?;
    Ok(Want::Added { number, before, after })
}

/// Two forms, on one budget.
fn read_both(store: &mut Allocator, forms: (&[u8], &[u8])) -> Result<(NodePtr, NodePtr), EvalErr> {
    store.clear(true);
    let first = read(store, forms.0)?;
    Ok((first, read(store, forms.1)?))
}

fn evaluated(store: &mut Allocator, forms: (&[u8], &[u8]), most: usize) -> Asked {
    let (program, environment) = read_both(store, forms)?;
    let (value, steps) = evaluate(store, program, environment)?;
    let bytes = write(store, value, most).ok_or(EvalErr::Refused(14))?;
    let report = vec![bytes.len(), steps as usize, store.run.units as usize];
    Ok(Want::Answer { bytes, report })
}

/// The place's bytes at the end of those that hold it.
fn no_match_at(bytes: Vec<u8>) -> Want {
    let mut place = [0; PLACE];
    place[PLACE - bytes.len()..].copy_from_slice(&bytes);
    Want::NoMatch { place }
}

fn matched(
    store: &mut Allocator,
    forms: (&[u8], &[u8]),
    most: usize,
    no_match: fn(Vec<u8>) -> Want,
) -> Asked {
    let (pattern, expression) = read_both(store, forms)?;
    let found = matches(store, pattern, expression);
    if !published_agrees(store, pattern, expression, &found) {
        return Ok(Want::Broken("the published matcher says otherwise".to_string()));
    }
    let bindings = match found {
        Matched::No(place) => return Ok(no_match(place)),
        Matched::TooManyNames => return Ok(Want::Number(TOO_MANY_NAMES)),
        Matched::Yes(bindings) => bindings,
    };
    let (mut bytes, mut report) = (Vec::new(), vec![bindings.len()]);
    for (name, node) in bindings {
        let name = store.free_atom(&name);
        for part in [name, node] {
            bytes.extend(write(store, part, most).ok_or(EvalErr::Refused(14))?);
            report.push(bytes.len());
        }
    }
    if bytes.len() > most {
        return Err(EvalErr::Refused(14));
    }
    // A part that is not there has no bytes.
    report.resize(5, bytes.len());
    Ok(Want::Answer { bytes, report })
}

fn checked(store: &mut Allocator, form: &[u8]) -> Asked {
    store.clear(true);
    read(store, form)?;
    Ok(Want::Answer { bytes: Vec::new(), report: vec![store.run.units as usize] })
}

fn written(store: &mut Allocator, form: &[u8], most: usize) -> Asked {
    store.clear(true);
    let tree = read(store, form)?;
    let bytes = write(store, tree, most).ok_or(EvalErr::Refused(14))?;
    let report = vec![bytes.len(), store.run.units as usize];
    Ok(Want::Answer { bytes, report })
}
