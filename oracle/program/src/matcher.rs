//! The matcher with its limit of two names and the place where it stopped, and the comparison with the published one.

use std::collections::HashMap;

use clvm_rs::allocator::{Allocator, NodePtr, SExp};
use text::classic::clvm::sexp::equal_to;
use text::classic::clvm_tools::pattern_match::match_sexp;

pub type Bindings = Vec<(Vec<u8>, NodePtr)>;

/// What holds a place; there are fewer turns to it than this has bits.
const PLACE: usize = 64;

#[derive(PartialEq, Eq)]
pub enum Matched {
    Yes(Bindings),
    /// With the place of the first disagreement, as a path atom's bytes: none where it is too deep.
    No(Vec<u8>),
    TooManyNames,
}

/// Why the walk ended.
enum Stopped {
    Disagrees,
    TooManyNames,
}

type Walked = Result<Bindings, Stopped>;

/// The turns from the expression's root, the first one first: false is left, true is right.
type Turns = Vec<bool>;

/// Matches as the published function does, with names as bytes and at most two of them known at a time.
pub fn matches(store: &mut Allocator, pattern: NodePtr, tree: NodePtr) -> Matched {
    let mut turns = Turns::new();
    match walk(store, pattern, tree, Vec::new(), &mut turns) {
        Ok(bindings) => Matched::Yes(bindings),
        Err(Stopped::Disagrees) => Matched::No(place(&turns)),
        Err(Stopped::TooManyNames) => Matched::TooManyNames,
    }
}

/// The expression's part at the end of `turns` against the pattern's. Only where they agree are the turns given back
/// as they came: where it stops, they lead to the part at which it does.
fn walk(
    store: &mut Allocator,
    pattern: NodePtr,
    tree: NodePtr,
    known: Bindings,
    turns: &mut Turns,
) -> Walked {
    let (left, right) = match (store.sexp(pattern), store.sexp(tree)) {
        (SExp::Atom, SExp::Atom) if store.atom(pattern) == store.atom(tree) => return Ok(known),
        (SExp::Atom, _) => return Err(Stopped::Disagrees),
        (SExp::Pair(left, right), _) => (left, right),
    };
    if let (SExp::Atom, SExp::Atom) = (store.sexp(left), store.sexp(right)) {
        let sign = store.atom(left).as_ref().to_vec();
        let name = store.atom(right).as_ref().to_vec();
        match store.sexp(tree) {
            SExp::Atom => {
                let is = |bytes: &[u8]| store.atom(tree).as_ref() == bytes;
                return if sign == b"$" && name == b"$" {
                    if is(b"$") {
                        Ok(Vec::new())
                    } else {
                        Err(Stopped::Disagrees)
                    }
                } else if sign == b":" && name == b":" && is(b":") {
                    Ok(Vec::new())
                } else if sign == b"$" || sign == b":" {
                    bind(store, known, name, tree)
                } else {
                    Err(Stopped::Disagrees)
                };
            }
            SExp::Pair(..) if sign == b":" && name != b":" => {
                return bind(store, known, name, tree);
            }
            SExp::Pair(..) => {}
        }
    }
    let SExp::Pair(tree_left, tree_right) = store.sexp(tree) else {
        return Err(Stopped::Disagrees);
    };
    turns.push(false);
    let known = walk(store, left, tree_left, known, turns)?;
    turns.pop();
    turns.push(true);
    let known = walk(store, right, tree_right, known, turns)?;
    turns.pop();
    Ok(known)
}

/// The path's number, from the lowest bit: a bit for each turn, 1 for right, and above them one more, 1. Its shortest
/// unsigned bytes, the highest first; none where it needs more than 64.
fn place(turns: &[bool]) -> Vec<u8> {
    if turns.len() >= PLACE * 8 {
        return Vec::new();
    }
    let mut bytes = vec![0; turns.len() / 8 + 1];
    for (bit, right) in turns.iter().chain([&true]).enumerate() {
        bytes[bit / 8] |= (*right as u8) << (bit % 8);
    }
    bytes.reverse();
    bytes
}

fn bind(store: &mut Allocator, mut known: Bindings, name: Vec<u8>, tree: NodePtr) -> Walked {
    if let Some((_, bound)) = known.iter().find(|(other, _)| *other == name) {
        return if equal_to(store, *bound, tree) {
            Ok(known)
        } else {
            Err(Stopped::Disagrees)
        };
    }
    if known.len() == 2 {
        return Err(Stopped::TooManyNames);
    }
    known.push((name, tree));
    Ok(known)
}

/// Whether the published matcher says the same. Its names are text, so patterns with other names are left out,
/// and it knows no limit on names.
pub fn published_agrees(
    store: &mut Allocator,
    pattern: NodePtr,
    tree: NodePtr,
    found: &Matched,
) -> bool {
    if *found == Matched::TooManyNames || !names_are_text(store, pattern) {
        return true;
    }
    match (match_sexp(store, pattern, tree, HashMap::new()), found) {
        (None, Matched::No(found)) => place(&published_turns(store, pattern, tree)) == *found,
        (Some(published), Matched::Yes(found)) => {
            published.len() == found.len()
                && found.iter().all(|(name, node)| {
                    let name = String::from_utf8(name.clone()).unwrap();
                    published.get(&name) == Some(node)
                })
        }
        _ => false,
    }
}

/// The turns to where the published matcher first says no to a pattern that does not match. Wherever it goes into a
/// pair it is asked for the left part alone: where that matches, what is wrong stands right of it.
fn published_turns(store: &mut Allocator, mut pattern: NodePtr, mut tree: NodePtr) -> Turns {
    let mut turns = Turns::new();
    let mut known = HashMap::new();
    while let Some([left, right]) = entered(store, pattern, tree) {
        let matched = match_sexp(store, left.0, left.1, known.clone());
        turns.push(matched.is_some());
        (pattern, tree) = if matched.is_some() { right } else { left };
        known = matched.unwrap_or(known);
    }
    turns
}

/// The left parts of two pairs and their right parts, unless the pattern takes the expression's pair as a whole.
fn entered(store: &Allocator, pattern: NodePtr, tree: NodePtr) -> Option<[(NodePtr, NodePtr); 2]> {
    let SExp::Pair(left, right) = store.sexp(pattern) else {
        return None;
    };
    let SExp::Pair(tree_left, tree_right) = store.sexp(tree) else {
        return None;
    };
    let is_atom = |node| store.sexp(node) == SExp::Atom;
    let is_colon = |node| is_atom(node) && store.atom(node).as_ref() == b":";
    let takes_all = is_colon(left) && is_atom(right) && !is_colon(right);
    (!takes_all).then_some([(left, tree_left), (right, tree_right)])
}

/// Whether every name that the pattern could bind is UTF-8: what stands behind `$` or `:`.
fn names_are_text(store: &Allocator, pattern: NodePtr) -> bool {
    let atom = |node| (store.sexp(node) == SExp::Atom).then(|| store.atom(node));
    let mut left_to_see = vec![pattern];
    while let Some(node) = left_to_see.pop() {
        let SExp::Pair(left, right) = store.sexp(node) else {
            continue;
        };
        left_to_see.extend([left, right]);
        if let (Some(sign), Some(name)) = (atom(left), atom(right)) {
            let binds = sign.as_ref() == b"$" || sign.as_ref() == b":";
            if binds && std::str::from_utf8(name.as_ref()).is_err() {
                return false;
            }
        }
    }
    true
}
