//! What each mode says of one line.

use std::fmt::Write;
use std::panic::{catch_unwind, AssertUnwindSafe};
use std::rc::Rc;

use clvm_rs::allocator::{Allocator, NodePtr};
use clvm_rs::error::EvalErr;
use clvm_rs::run::{write, GaveUp};

use crate::form::{from_hex, put_hex, read};
use crate::matcher::{matches, published_agrees, Matched};
use crate::paths;
use crate::readable::{read_text, text_fault, write_text};
use crate::runner::{evaluate, Runner};

/// What a result may be written into.
pub const OUTPUT: usize = 32_768;
/// `tree` has no such limit; a longer result is given up.
const TREE_OUTPUT: usize = 1 << 20;

#[derive(Clone, Copy, PartialEq, Eq)]
pub enum Mode {
    Tree,
    Full,
    FullTrace,
    FullRules,
    FullCauses,
    Match,
    Eval,
    Rule(usize),
    Read,
    ReadText,
    WriteText,
    OptimiseText,
    EvaluateText,
    TextFault,
    Paths,
}

pub struct Said {
    pub line: String,
    /// The line was not of hex digits, or a second line was missing.
    pub no_line: bool,
    /// The text complained of itself, or the two matchers disagree: the oracle is not to be trusted.
    pub broken: bool,
}

pub fn answer(mode: Mode, store: &mut Allocator, line: &[u8]) -> Said {
    let mut said = Said {
        line: String::new(),
        no_line: false,
        broken: false,
    };
    let Some(forms) = forms(mode, line) else {
        said.no_line = true;
        said.line.push_str("no line");
        if matches!(mode, Mode::FullTrace | Mode::FullRules | Mode::FullCauses) {
            said.line.push_str(" |");
        }
        return said;
    };
    store.clear(mode != Mode::Tree);
    if mode == Mode::FullTrace {
        store.run.trace = Some(Vec::new());
    }

    let worked = catch_unwind(AssertUnwindSafe(|| {
        let mut out = String::new();
        work(mode, store, &forms, &mut out).map(|()| out)
    }));
    match worked {
        Ok(Ok(out)) => said.line = out,
        Ok(Err(EvalErr::Refused(number))) => write!(said.line, "no {number}").unwrap(),
        Ok(Err(EvalErr::InternalError(_, complaint))) => {
            said.broken = true;
            write!(said.line, "broken: {complaint}").unwrap();
        }
        Err(thrown) if thrown.is::<GaveUp>() => {
            said.line.push_str("gave up");
            store.run.trace = None;
        }
        Err(thrown) => std::panic::resume_unwind(thrown),
    }
    said.broken |= said.line.starts_with("broken");

    if mode == Mode::FullRules {
        said.line.push_str(" |");
        for count in store.run.ended {
            write!(said.line, " {count}").unwrap();
        }
    }
    if mode == Mode::FullCauses {
        let run = &store.run;
        write!(said.line, " | {} {}", run.mark_body as u8, run.mark_path as u8).unwrap();
    }
    if mode == Mode::FullTrace {
        said.line.push_str(" |");
        for (rule, changed) in store.run.trace.take().unwrap_or_default() {
            write!(said.line, " {rule}:").unwrap();
            match changed {
                Some(bytes) => put_hex(&bytes, &mut said.line),
                None => said.line.push_str("long"),
            }
        }
    }
    said
}

/// One form, or two with one blank between them; one text, or two with a line's end between them.
fn forms(mode: Mode, line: &[u8]) -> Option<Vec<Vec<u8>>> {
    match mode {
        Mode::Match | Mode::Eval => {
            let blank = line.iter().position(|c| *c == b' ')?;
            Some(vec![from_hex(&line[..blank])?, from_hex(&line[blank + 1..])?])
        }
        Mode::ReadText | Mode::OptimiseText | Mode::TextFault => Some(vec![line.to_vec()]),
        Mode::EvaluateText => {
            let end = line.iter().position(|c| *c == b'\n')?;
            Some(vec![line[..end].to_vec(), line[end + 1..].to_vec()])
        }
        _ => Some(vec![from_hex(line)?]),
    }
}

fn work(
    mode: Mode,
    store: &mut Allocator,
    forms: &[Vec<u8>],
    out: &mut String,
) -> Result<(), EvalErr> {
    if mode == Mode::TextFault {
        return put_fault(store, &forms[0], out);
    }
    if mode == Mode::Paths {
        out.push_str(&paths::answer(&forms[0]));
        return Ok(());
    }
    let first = match mode {
        Mode::ReadText | Mode::OptimiseText | Mode::EvaluateText => read_text(store, &forms[0])?,
        _ => read(store, &forms[0])?,
    };
    match mode {
        Mode::Tree => {
            let Some(bytes) = write_published(store, first)? else {
                clvm_rs::run::give_up();
            };
            out.push_str("ok ");
            put_hex(&bytes, out);
        }
        Mode::Full | Mode::FullTrace | Mode::FullRules | Mode::FullCauses => {
            let answer = optimised(store, first, OUTPUT)?;
            out.push_str("ok ");
            put_hex(&answer.tree, out);
            write!(out, " {} {} {}", answer.passes, answer.units, answer.mark as u8).unwrap();
        }
        Mode::Match => {
            let tree = read(store, &forms[1])?;
            let found = matches(store, first, tree);
            if !published_agrees(store, first, tree, &found) {
                out.push_str("broken: the published matcher says otherwise");
                return Ok(());
            }
            match found {
                Matched::No(place) => {
                    out.push_str("no match ");
                    let place = store.free_atom(&place);
                    put_tree(store, place, out)?;
                }
                Matched::TooManyNames => out.push_str("too many names"),
                Matched::Yes(mut bindings) => {
                    bindings.sort();
                    out.push_str("ok");
                    for (name, node) in bindings {
                        out.push(' ');
                        put_hex(&name, out);
                        out.push('=');
                        put_tree(store, node, out)?;
                    }
                }
            }
        }
        Mode::Eval => {
            let env = read(store, &forms[1])?;
            let (value, steps) = evaluate(store, first, env)?;
            out.push_str("ok ");
            put_tree(store, value, out)?;
            write!(out, " {steps} {}", store.run.units).unwrap();
        }
        Mode::Rule(number) => {
            use clvm_rs::allocator::SExp;
            let mut result = first;
            if let SExp::Pair(..) = store.sexp(first) {
                store.enter()?;
                store.start_pass()?;
                result = text_patched::classic::clvm_tools::stages::stage_2::optimize::one_rule(
                    store,
                    number,
                    first,
                    Rc::new(Runner),
                )?;
            }
            // Equal trees have equal pointers in this store.
            if result == first {
                out.push_str("same");
            } else {
                out.push_str("changed ");
                put_tree(store, result, out)?;
            }
            write!(out, " {} {}", store.run.units, store.run.mark() as u8).unwrap();
        }
        Mode::Read | Mode::ReadText => {
            out.push_str("ok ");
            put_tree(store, first, out)?;
            write!(out, " {}", store.run.units).unwrap();
        }
        Mode::WriteText => {
            out.push_str("ok ");
            put_text(store, first, out)?;
        }
        Mode::OptimiseText => {
            let tree = rewritten(store, first)?;
            out.push_str("ok ");
            put_text(store, tree, out)?;
            let run = &store.run;
            write!(out, " {} {} {}", run.passes, run.units, run.mark() as u8).unwrap();
        }
        Mode::EvaluateText => {
            let env = read_text(store, &forms[1])?;
            let (value, steps) = evaluate(store, first, env)?;
            out.push_str("ok ");
            put_text(store, value, out)?;
            write!(out, " {steps} {}", store.run.units).unwrap();
        }
        Mode::TextFault | Mode::Paths => unreachable!("they are answered above"),
    }
    Ok(())
}

/// A finished tree and what the run took.
pub struct Answer {
    pub tree: Vec<u8>,
    pub passes: u64,
    pub units: u64,
    pub mark: bool,
}

/// The text with its charges and limits, on a tree that was read.
fn rewritten(store: &mut Allocator, tree: NodePtr) -> Result<NodePtr, EvalErr> {
    text_patched::classic::clvm_tools::stages::stage_2::optimize::optimize_sexp(
        store,
        tree,
        Rc::new(Runner),
    )
}

/// The same, and the tree written; refusal 14 beyond `most` bytes.
fn optimised(store: &mut Allocator, tree: NodePtr, most: usize) -> Result<Answer, EvalErr> {
    let tree = rewritten(store, tree)?;
    let tree = write(store, tree, most).ok_or(EvalErr::Refused(14))?;
    let run = &store.run;
    Ok(Answer { tree, passes: run.passes, units: run.units, mark: run.mark() })
}

/// The text as published, memo and all, on a tree that was read; nothing where the result is too long.
fn write_published(store: &mut Allocator, tree: NodePtr) -> Result<Option<Vec<u8>>, EvalErr> {
    let tree = text::classic::clvm_tools::stages::stage_2::optimize::optimize_sexp(
        store,
        tree,
        Rc::new(Runner),
    )?;
    Ok(write(store, tree, TREE_OUTPUT))
}

/// A form, read and worked as in the mode `full`. It unwinds where the form is given up.
pub fn full(store: &mut Allocator, form: &[u8], most: usize) -> Result<Answer, EvalErr> {
    store.clear(true);
    let tree = read(store, form)?;
    optimised(store, tree, most)
}

/// A form, read and worked as in the mode `tree`.
pub fn published(store: &mut Allocator, form: &[u8]) -> Result<Option<Vec<u8>>, EvalErr> {
    store.clear(false);
    let tree = read(store, form)?;
    write_published(store, tree)
}

/// The tree in hex, or refusal 14.
fn put_tree(store: &Allocator, tree: NodePtr, out: &mut String) -> Result<(), EvalErr> {
    let bytes = write(store, tree, OUTPUT).ok_or(EvalErr::Refused(14))?;
    put_hex(&bytes, out);
    Ok(())
}

/// The tree in the readable notation, or refusal 14.
fn put_text(store: &Allocator, tree: NodePtr, out: &mut String) -> Result<(), EvalErr> {
    out.push_str(&write_text(store, tree, OUTPUT).ok_or(EvalErr::Refused(14))?);
    Ok(())
}

/// Where a text stops; it stops somewhere exactly where the reader says 15.
fn put_fault(store: &mut Allocator, text: &[u8], out: &mut String) -> Result<(), EvalErr> {
    let fault = text_fault(text)?;
    if fault.is_some() != matches!(read_text(store, text), Err(EvalErr::Refused(15))) {
        out.push_str("broken: the reader says otherwise");
        return Ok(());
    }
    match fault {
        Some(place) => write!(out, "at {place}").unwrap(),
        None => out.push_str("no fault"),
    }
    Ok(())
}
