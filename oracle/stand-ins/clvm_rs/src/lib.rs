//! Stand-in for `clvm_rs`: the store, the error and the few types that the text names.
//!
//! The store also keeps what the patched copy of the text reports (`run`), and stops work that grows too long.

pub mod allocator;
pub mod run;

pub use allocator::{Allocator, NodePtr};

pub mod cost {
    pub type Cost = u64;
}

pub mod error {
    use crate::allocator::NodePtr;

    #[derive(Debug, Clone, PartialEq, Eq)]
    pub enum EvalErr {
        /// The text's own complaint. No form leads to one; the program says so if one ever does.
        InternalError(NodePtr, String),
        /// A refusal with its number.
        Refused(u8),
    }
}

pub mod reduction {
    use crate::allocator::NodePtr;
    use crate::cost::Cost;
    use crate::error::EvalErr;

    #[derive(Debug, Clone, PartialEq, Eq)]
    pub struct Reduction(pub Cost, pub NodePtr);

    pub type Response = Result<Reduction, EvalErr>;
}

pub mod run_program {
    pub type PreEval = Box<dyn Fn()>;
}
