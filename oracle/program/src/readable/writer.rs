//! Trees to texts, in the one spelling that the writer may choose.

use clvm_rs::allocator::{Allocator, NodePtr, SExp};

use super::{NAMES, QUOTE};
use crate::form::put_hex;

/// What is still to be written, and whether it is read as code.
enum Todo {
    Part(NodePtr, bool),
    /// What follows in a list whose bracket is open.
    Rest(NodePtr, bool),
}

/// The text of a tree, or nothing if it has more bytes than `most`. Every turn writes, so a value that shares parts is
/// walked only as far as the limit.
pub fn write_text(store: &Allocator, tree: NodePtr, most: usize) -> Option<String> {
    let mut out = String::new();
    let mut left_to_write = vec![Todo::Part(tree, true)];
    while let Some(todo) = left_to_write.pop() {
        match todo {
            Todo::Part(node, code) => match store.sexp(node) {
                SExp::Atom => put_atom(store.atom(node).as_ref(), &mut out),
                SExp::Pair(head, rest) => {
                    out.push('(');
                    let operator = code && store.sexp(head) == SExp::Atom;
                    let quotes = operator && store.atom(head).as_ref() == [QUOTE];
                    left_to_write.push(Todo::Rest(rest, code && !quotes));
                    if operator {
                        put_operator(store.atom(head).as_ref(), &mut out);
                    } else {
                        left_to_write.push(Todo::Part(head, code));
                    }
                }
            },
            Todo::Rest(node, code) => match store.sexp(node) {
                SExp::Pair(element, rest) => {
                    out.push(' ');
                    left_to_write.push(Todo::Rest(rest, code));
                    left_to_write.push(Todo::Part(element, code));
                }
                SExp::Atom => {
                    let last = store.atom(node);
                    if !last.as_ref().is_empty() {
                        out.push_str(" . ");
                        put_atom(last.as_ref(), &mut out);
                    }
                    out.push(')');
                }
            },
        }
        if out.len() > most {
            return None;
        }
    }
    Some(out)
}

fn put_operator(bytes: &[u8], out: &mut String) {
    match bytes {
        [byte @ 1..=9] => out.push(NAMES[*byte as usize - 1] as char),
        _ => put_atom(bytes, out),
    }
}

fn put_atom(bytes: &[u8], out: &mut String) {
    if bytes.is_empty() {
        out.push_str("()");
    } else {
        out.push_str("0x");
        put_hex(bytes, out);
    }
}
