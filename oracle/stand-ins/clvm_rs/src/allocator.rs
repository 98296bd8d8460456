//! The store. Every empty atom is `NodePtr::NIL`.
//!
//! A pair or an atom that is in the store already is handed out again, so that equal trees have equal pointers.
//! The text cannot tell: it compares pointers only as a short cut before comparing trees.

use std::cell::Cell;
use std::collections::HashMap;
use std::hash::{BuildHasherDefault, Hasher};

use crate::error::EvalErr;
use crate::run::{give_up, Bounds, Run};

#[derive(Debug, Clone, Copy, PartialEq, Eq, Hash, PartialOrd, Ord)]
pub struct NodePtr(u32);

impl NodePtr {
    pub const NIL: NodePtr = NodePtr(0);

    pub fn index(self) -> usize {
        self.0 as usize
    }
}

#[derive(Debug, Clone, Copy, PartialEq, Eq)]
pub enum SExp {
    Atom,
    Pair(NodePtr, NodePtr),
}

#[derive(Debug, Clone, Copy, PartialEq, Eq)]
pub struct Atom<'a>(&'a [u8]);

impl<'a> AsRef<[u8]> for Atom<'a> {
    fn as_ref(&self) -> &[u8] {
        self.0
    }
}

#[derive(Clone, Copy)]
enum Node {
    Atom { start: u32, len: u32 },
    Pair(NodePtr, NodePtr),
}

/// A quick hash for the two maps of the store.
#[derive(Default)]
pub struct Quick(u64);

impl Hasher for Quick {
    fn finish(&self) -> u64 {
        self.0
    }
    fn write(&mut self, bytes: &[u8]) {
        for b in bytes {
            self.write_u64(*b as u64);
        }
    }
    fn write_u32(&mut self, v: u32) {
        self.write_u64(v as u64);
    }
    fn write_usize(&mut self, v: usize) {
        self.write_u64(v as u64);
    }
    fn write_u64(&mut self, v: u64) {
        self.0 = (self.0.rotate_left(5) ^ v).wrapping_mul(0x9e37_79b9_7f4a_7c15);
        self.0 ^= self.0 >> 29;
    }
}

type Map<K> = HashMap<K, NodePtr, BuildHasherDefault<Quick>>;

pub struct Allocator {
    nodes: Vec<Node>,
    bytes: Vec<u8>,
    pairs: Map<(u32, u32)>,
    atoms: Map<Vec<u8>>,
    /// The patterns that the rules assemble, by place and length of their literal.
    pub patterns: Vec<((usize, usize), NodePtr)>,
    /// Tree hashes by node, so that values which share parts are not walked again and again.
    pub hashes: Vec<Option<[u8; 32]>>,
    /// What the patched copy found of a node: whether it seems constant.
    constant: Vec<Option<bool>>,
    /// What a run is charged and what it reports.
    pub run: Run,
    bounds: Bounds,
    work: Cell<u64>,
}

impl Allocator {
    pub fn new(bounds: Bounds) -> Self {
        let mut store = Allocator {
            nodes: Vec::new(),
            bytes: Vec::new(),
            pairs: Map::default(),
            atoms: Map::default(),
            patterns: Vec::new(),
            hashes: Vec::new(),
            constant: Vec::new(),
            run: Run::default(),
            bounds,
            work: Cell::new(0),
        };
        store.clear(false);
        store
    }

    /// An empty store for the next form.
    pub fn clear(&mut self, charging: bool) {
        const KEEP: usize = 1 << 14;
        if self.nodes.len() > KEEP {
            self.pairs = Map::default();
            self.atoms = Map::default();
        }
        self.nodes.clear();
        self.bytes.clear();
        self.pairs.clear();
        self.atoms.clear();
        self.patterns.clear();
        self.hashes.clear();
        self.constant.clear();
        self.run = Run {
            charging,
            ..Run::default()
        };
        self.work.set(0);
        self.nodes.push(Node::Atom { start: 0, len: 0 });
        self.free_atom(&[1]);
    }

    /// Counts work; beyond the bounds the form is given up.
    #[inline]
    pub fn worked(&self, amount: u64) {
        let work = self.work.get() + amount;
        self.work.set(work);
        let here = 0u8;
        if work > self.bounds.work || (&here as *const u8 as usize) < self.bounds.stack_floor {
            give_up();
        }
    }

    #[inline]
    pub fn sexp(&self, node: NodePtr) -> SExp {
        self.worked(1);
        match self.nodes[node.index()] {
            Node::Atom { .. } => SExp::Atom,
            Node::Pair(left, right) => SExp::Pair(left, right),
        }
    }

    pub fn atom(&self, node: NodePtr) -> Atom<'_> {
        match self.nodes[node.index()] {
            Node::Atom { start, len } => {
                Atom(&self.bytes[start as usize..start as usize + len as usize])
            }
            Node::Pair(..) => panic!("the text asked for the bytes of a pair"),
        }
    }

    pub fn atom_len(&self, node: NodePtr) -> usize {
        self.atom(node).as_ref().len()
    }

    /// The atom 1. (The text names it in a function that no rule calls.)
    pub fn one(&self) -> NodePtr {
        NodePtr(1)
    }

    pub fn new_atom(&mut self, bytes: &[u8]) -> Result<NodePtr, EvalErr> {
        if !bytes.is_empty() {
            self.run.charge(4 + bytes.len() as u64)?;
        }
        Ok(self.free_atom(bytes))
    }

    pub fn new_pair(&mut self, left: NodePtr, right: NodePtr) -> Result<NodePtr, EvalErr> {
        self.run.charge(8)?;
        Ok(self.free_pair(left, right))
    }

    /// An atom that costs no units.
    pub fn free_atom(&mut self, bytes: &[u8]) -> NodePtr {
        self.worked(8);
        if bytes.is_empty() {
            return NodePtr::NIL;
        }
        if let Some(known) = self.atoms.get(bytes) {
            return *known;
        }
        let node = Node::Atom {
            start: self.bytes.len() as u32,
            len: bytes.len() as u32,
        };
        self.bytes.extend_from_slice(bytes);
        let node = self.push(node);
        self.atoms.insert(bytes.to_vec(), node);
        node
    }

    /// A pair that costs no units.
    pub fn free_pair(&mut self, left: NodePtr, right: NodePtr) -> NodePtr {
        self.worked(8);
        if let Some(known) = self.pairs.get(&(left.0, right.0)) {
            return *known;
        }
        let node = self.push(Node::Pair(left, right));
        self.pairs.insert((left.0, right.0), node);
        node
    }

    fn push(&mut self, node: Node) -> NodePtr {
        if self.nodes.len() >= self.bounds.nodes {
            give_up();
        }
        self.nodes.push(node);
        NodePtr(self.nodes.len() as u32 - 1)
    }

    // What the patched copy of the text calls.

    /// What is known of whether a node seems constant.
    pub fn known_constant(&self, node: NodePtr) -> Option<bool> {
        self.constant.get(node.index()).copied().flatten()
    }

    /// Keeps what was found, and hands it on.
    pub fn keep_constant(&mut self, node: NodePtr, found: bool) -> bool {
        if self.constant.len() <= node.index() {
            self.constant.resize(self.nodes.len(), None);
        }
        self.constant[node.index()] = Some(found);
        found
    }

    /// A call of the driver begins: refusal 13 at nesting 65.
    pub fn enter(&mut self) -> Result<(), EvalErr> {
        self.worked(4);
        self.run.enter()
    }

    /// A call of the driver ends.
    pub fn leave(&mut self) {
        self.run.nesting -= 1;
    }

    /// A turn of the driver's loop begins on a pair: refusal 12 at pass 65,537.
    pub fn start_pass(&mut self) -> Result<(), EvalErr> {
        self.worked(16);
        self.run.start_pass()
    }

    /// A rule ended a pass with a new expression.
    pub fn rule_ended(&mut self, name: &str, changed: NodePtr) {
        let rule = self.run.rule_ended(name);
        if self.run.trace.is_some() {
            let written = crate::run::write(self, changed, crate::run::TRACED_FORM);
            if let Some(bytes) = &written {
                self.run.traced += bytes.len();
                if self.run.traced > crate::run::TRACED_BYTES {
                    give_up();
                }
            }
            self.run.trace.as_mut().unwrap().push((rule, written));
        }
    }

    /// Substitution reads an atom of the body: one of signed value 0 or less is noted.
    pub fn substitution_reads(&mut self, node: NodePtr) {
        let atom = self.atom(node);
        let bytes = atom.as_ref();
        let negative = bytes.first().is_some_and(|b| b & 0x80 != 0);
        if negative || bytes.iter().all(|b| *b == 0) {
            self.run.low = true;
        }
    }

    /// Whether the substitution just done noted such an atom.
    pub fn took_low(&mut self) -> bool {
        std::mem::take(&mut self.run.low)
    }

    /// The rule gives back the changed body.
    pub fn body_kept(&mut self, low: bool) {
        self.run.mark_body |= low;
    }

    /// The path rule matched an atom and reads it as this index, in shortest unsigned bytes.
    pub fn path_rule_reads(&mut self, node: NodePtr, index: &[u8]) {
        let atom = self.atom(node);
        let mut bytes = atom.as_ref();
        while bytes.first() == Some(&0) {
            bytes = &bytes[1..];
        }
        let differs = bytes != index;
        self.run.mark_path |= differs;
    }

    /// The path rule's result: refusal 11 beyond 64 bytes, before the charge.
    pub fn new_path(&mut self, bytes: &[u8]) -> Result<NodePtr, EvalErr> {
        if self.run.charging && bytes.len() > 64 {
            return Err(EvalErr::Refused(11));
        }
        self.new_atom(bytes)
    }
}
