//! Trees, the operators by name, and the serialised form.

use std::rc::Rc;

#[derive(Clone, PartialEq, Eq)]
pub enum Tree {
    Atom(Vec<u8>),
    Pair(Rc<Tree>, Rc<Tree>),
}

pub const Q: u8 = 1;
pub const A: u8 = 2;
pub const I: u8 = 3;
pub const C: u8 = 4;
pub const F: u8 = 5;
pub const R: u8 = 6;
pub const L: u8 = 7;
pub const X: u8 = 8;
pub const EQ: u8 = 9;

pub fn nil() -> Tree {
    Tree::Atom(Vec::new())
}

pub fn atom(bytes: &[u8]) -> Tree {
    Tree::Atom(bytes.to_vec())
}

pub fn byte(value: u8) -> Tree {
    atom(&[value])
}

pub fn pair(left: Tree, right: Tree) -> Tree {
    Tree::Pair(Rc::new(left), Rc::new(right))
}

/// A list that ends in `end`.
pub fn list_to(parts: &[Tree], end: Tree) -> Tree {
    parts.iter().rev().fold(end, |rest, part| pair(part.clone(), rest))
}

pub fn list(parts: &[Tree]) -> Tree {
    list_to(parts, nil())
}

/// `(code parts..)`
pub fn op(code: u8, parts: &[Tree]) -> Tree {
    pair(byte(code), list(parts))
}

/// `(q . data)`
pub fn quote(data: Tree) -> Tree {
    pair(byte(Q), data)
}

/// `(a (q . body) args)`
pub fn apply(body: Tree, args: Tree) -> Tree {
    op(A, &[quote(body), args])
}

/// `(code (code .. (code inner)))`
pub fn tower(code: u8, times: usize, inner: Tree) -> Tree {
    (0..times).fold(inner, |inside, _| op(code, &[inside]))
}

/// What reading the tree charges.
pub fn units(tree: &Tree) -> usize {
    match tree {
        Tree::Atom(bytes) if bytes.is_empty() => 0,
        Tree::Atom(bytes) => 4 + bytes.len(),
        Tree::Pair(left, right) => 8 + units(left) + units(right),
    }
}

pub fn leaves(tree: &Tree) -> usize {
    match tree {
        Tree::Atom(_) => 1,
        Tree::Pair(left, right) => leaves(left) + leaves(right),
    }
}

pub fn write(tree: &Tree) -> Vec<u8> {
    let mut out = Vec::new();
    write_to(tree, &mut out);
    out
}

pub fn write_to(tree: &Tree, out: &mut Vec<u8>) {
    write_by(tree, out, &mut write_atom);
}

/// Writes an atom in one way or another.
pub type WriteAtom<'a> = dyn FnMut(&[u8], &mut Vec<u8>) + 'a;

/// The form, its atoms as `atom` writes them, from the first to the last.
pub fn write_by(tree: &Tree, out: &mut Vec<u8>, atom: &mut WriteAtom) {
    let mut rest = tree;
    while let Tree::Pair(left, right) = rest {
        out.push(0xff);
        write_by(left, out, atom);
        rest = right;
    }
    if let Tree::Atom(bytes) = rest {
        atom(bytes, out);
    }
}

/// Atoms here stay below 8,192 bytes: one or two prefix bytes.
pub fn write_atom(bytes: &[u8], out: &mut Vec<u8>) {
    match bytes.len() {
        0 => out.push(0x80),
        1 if bytes[0] < 0x80 => {}
        n if n < 0x40 => out.push(0x80 | n as u8),
        n => out.extend([0xc0 | (n >> 8) as u8, n as u8]),
    }
    out.extend(bytes);
}
