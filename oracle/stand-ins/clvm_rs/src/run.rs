//! What a run is charged, what it reports, and the bounds beyond which a form is given up.

use crate::allocator::{Allocator, NodePtr, SExp};
use crate::error::EvalErr;

pub const UNITS: u64 = 32_768;
pub const PASSES: u64 = 65_536;
pub const NESTING: u64 = 64;

/// A longer expression stands as `long` in a trace.
pub const TRACED_FORM: usize = 65_536;
/// A trace with more bytes than this is given up.
pub const TRACED_BYTES: usize = 1 << 26;

/// The rules by number, in the driver's order.
pub const RULES: [&str; 8] = [
    "cons_optimizer",
    "constant_optimizer",
    "cons_q_a_optimizer",
    "var_change_optimizer_cons_eval",
    "children_optimizer",
    "path_optimizer",
    "quote_null_optimizer",
    "apply_null_optimizer",
];

#[derive(Default)]
pub struct Run {
    pub charging: bool,
    pub units: u64,
    pub passes: u64,
    pub nesting: u64,
    /// The mark's two causes.
    pub mark_body: bool,
    pub mark_path: bool,
    /// The substitution at work read an atom of signed value 0 or less.
    pub low: bool,
    pub ended: [u64; 8],
    pub trace: Option<Vec<(u8, Option<Vec<u8>>)>>,
    pub traced: usize,
}

impl Run {
    pub fn mark(&self) -> bool {
        self.mark_body || self.mark_path
    }

    pub fn charge(&mut self, units: u64) -> Result<(), EvalErr> {
        if self.charging {
            if self.units + units > UNITS {
                return Err(EvalErr::Refused(7));
            }
            self.units += units;
        }
        Ok(())
    }

    pub fn enter(&mut self) -> Result<(), EvalErr> {
        if self.nesting == NESTING {
            return Err(EvalErr::Refused(13));
        }
        self.nesting += 1;
        Ok(())
    }

    pub fn start_pass(&mut self) -> Result<(), EvalErr> {
        if self.passes == PASSES {
            return Err(EvalErr::Refused(12));
        }
        self.passes += 1;
        Ok(())
    }

    pub fn rule_ended(&mut self, name: &str) -> u8 {
        let rule = RULES.iter().position(|known| *known == name).unwrap();
        self.ended[rule] += 1;
        rule as u8 + 1
    }
}

#[derive(Clone, Copy)]
pub struct Bounds {
    /// Looks into the store, written bytes and the like.
    pub work: u64,
    /// Nodes in the store.
    pub nodes: usize,
    /// The lowest address that the stack may reach.
    pub stack_floor: usize,
}

/// What unwinds when a form is given up.
pub struct GaveUp;

#[cold]
#[inline(never)]
pub fn give_up() -> ! {
    std::panic::resume_unwind(Box::new(GaveUp))
}

/// An atom's serialised form.
pub fn put_atom(bytes: &[u8], out: &mut Vec<u8>) {
    let n = bytes.len();
    match n {
        0 => out.push(0x80),
        1 if bytes[0] < 0x80 => {}
        _ if n < 0x40 => out.push(0x80 | n as u8),
        _ if n < 0x2000 => out.extend([0xc0 | (n >> 8) as u8, n as u8]),
        _ if n < 0x10_0000 => out.extend([0xe0 | (n >> 16) as u8, (n >> 8) as u8, n as u8]),
        _ => unreachable!("no atom of the store is that long"),
    }
    out.extend_from_slice(bytes);
}

/// The serialised form of a tree, or nothing if it has more bytes than `most`.
pub fn write(store: &Allocator, node: NodePtr, most: usize) -> Option<Vec<u8>> {
    let mut out = Vec::new();
    let mut left_to_write = vec![node];
    while let Some(node) = left_to_write.pop() {
        match store.sexp(node) {
            SExp::Atom => put_atom(store.atom(node).as_ref(), &mut out),
            SExp::Pair(left, right) => {
                out.push(0xff);
                left_to_write.push(right);
                left_to_write.push(left);
            }
        }
        if out.len() > most {
            return None;
        }
    }
    Some(out)
}
