//! The oracle as a library: what each mode works out, for programs that compare or measure in one process.

pub mod form;
pub mod matcher;
pub mod modes;
pub mod paths;
pub mod readable;
pub mod runner;
pub mod savings;

use clvm_rs::allocator::Allocator;
use clvm_rs::run::Bounds;

/// The stack of the thread that asks. It is only touched as far as it is used.
pub const STACK: usize = 1 << 30;
/// Kept free for what does not look into the store.
const STACK_SPARE: usize = 1 << 24;
/// `tree` walks values that share parts as trees, and is stopped sooner.
const TREE_WORK: u64 = 40_000_000;
const WORK: u64 = 400_000_000;
const NODES: usize = 2_000_000;

/// A store for a thread that has just begun, with a stack of `STACK` bytes.
#[inline(never)]
pub fn store(for_tree: bool) -> Allocator {
    let here = 0u8;
    Allocator::new(Bounds {
        work: if for_tree { TREE_WORK } else { WORK },
        nodes: NODES,
        stack_floor: &here as *const u8 as usize - STACK + STACK_SPARE,
    })
}
