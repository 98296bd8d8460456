//! The published text in its module tree, over stand-ins for the modules that are not given.
//!
//! Every `published!` is a whole file of the text or neighbouring items of one, copied by build.rs.
//! The package `text` compiles the copies as they are, `text-patched` with patches/optimize.diff applied.

#![allow(dead_code, unused_imports, unused_variables, clippy::all)]

macro_rules! published {
    ($file:literal) => {
        include!(concat!(env!("OUT_DIR"), "/", $file));
    };
}

/// Stand-in for the macro of the crate `do-notation`: `x <- e;` binds the value or hands on the error.
macro_rules! m {
    (let $p:pat = $e:expr ; $($rest:tt)*) => {{
        let $p = $e;
        m!($($rest)*)
    }};
    ($v:ident <- $e:expr ; $($rest:tt)*) => {
        match $e {
            Ok($v) => m!($($rest)*),
            Err(e) => Err(e),
        }
    };
    ($e:expr) => { $e };
}

/// Stand-in for the macro of the crate `lazy_static`.
macro_rules! lazy_static {
    ($(pub static ref $name:ident : $t:ty = $e:expr ;)*) => {
        $(
            #[allow(non_camel_case_types)]
            pub struct $name;
            impl std::ops::Deref for $name {
                type Target = $t;
                fn deref(&self) -> &$t {
                    static VALUE: std::sync::OnceLock<$t> = std::sync::OnceLock::new();
                    VALUE.get_or_init(|| $e)
                }
            }
        )*
    };
}

pub mod util {
    published!("util--mod.rs");
}

pub mod classic {
    pub mod clvm {
        pub mod __type_compatibility__ {
            published!("classic--clvm--__type_compatibility__.rs");
        }
        pub mod casts {
            published!("classic--clvm--casts.rs");
        }
        pub mod sexp {
            published!("classic--clvm--sexp.rs");
        }

        /// Stand-in.
        pub mod serialize {
            use crate::classic::clvm::__type_compatibility__::{Bytes, BytesFromType, Stream};
            use clvm_rs::allocator::{Allocator, NodePtr};

            pub fn sexp_to_stream(allocator: &mut Allocator, sexp: NodePtr, f: &mut Stream) {
                if let Some(bytes) = clvm_rs::run::write(allocator, sexp, usize::MAX) {
                    f.write(Bytes::new(Some(BytesFromType::Raw(bytes))));
                }
            }
        }

        /// Stand-in.
        pub mod syntax_error {
            #[derive(Debug)]
            pub struct SyntaxErr {
                pub msg: String,
            }
        }
    }

    pub mod clvm_tools {
        pub mod node_path {
            published!("classic--clvm_tools--node_path.rs");
        }
        pub mod pattern_match {
            published!("classic--clvm_tools--pattern_match.rs");
        }

        /// Stand-in: the two functions that optimize.rs calls.
        pub mod binutils {
            use clvm_rs::allocator::{Allocator, NodePtr};
            use clvm_rs::error::EvalErr;

            /// Reads one of the rules' literal patterns. Its nodes cost no units, and each pattern is read once a run.
            pub fn assemble(allocator: &mut Allocator, s: &'static str) -> Result<NodePtr, EvalErr> {
                let place = (s.as_ptr() as usize, s.len());
                if let Some((_, node)) = allocator.patterns.iter().find(|known| known.0 == place) {
                    return Ok(*node);
                }
                let node = one(allocator, &mut s.as_bytes());
                allocator.patterns.push((place, node));
                Ok(node)
            }

            fn skip_blanks(text: &mut &[u8]) {
                while text[0] == b' ' {
                    *text = &text[1..];
                }
            }

            /// A list, or a word: the five operator names, 0 for nil, or its own bytes.
            fn one(allocator: &mut Allocator, text: &mut &[u8]) -> NodePtr {
                skip_blanks(text);
                if text[0] == b'(' {
                    *text = &text[1..];
                    return tail(allocator, text);
                }
                let end = text.iter().position(|c| b" ()".contains(c)).unwrap();
                let (word, rest) = text.split_at(end);
                *text = rest;
                allocator.free_atom(match word {
                    b"0" => b"",
                    b"q" => &[1],
                    b"a" => &[2],
                    b"c" => &[4],
                    b"f" => &[5],
                    b"r" => &[6],
                    other => other,
                })
            }

            /// What follows in a list.
            fn tail(allocator: &mut Allocator, text: &mut &[u8]) -> NodePtr {
                skip_blanks(text);
                if text[0] == b')' {
                    *text = &text[1..];
                    return NodePtr::NIL;
                }
                if text.starts_with(b". ") {
                    *text = &text[1..];
                    let last = one(allocator, text);
                    skip_blanks(text);
                    assert!(text[0] == b')');
                    *text = &text[1..];
                    return last;
                }
                let head = one(allocator, text);
                let rest = tail(allocator, text);
                allocator.free_pair(head, rest)
            }

            /// Only the text's debug printing, which is off, calls this.
            pub fn disassemble(
                allocator: &Allocator,
                sexp: NodePtr,
                _version: Option<usize>,
            ) -> String {
                clvm_rs::run::write(allocator, sexp, usize::MAX)
                    .map(hex::encode)
                    .unwrap_or_default()
            }
        }

        /// Stand-in: the SHA-256 tree hash, kept for each node once found.
        pub mod sha256tree {
            use clvm_rs::allocator::{Allocator, NodePtr, SExp};
            use sha2::{Digest, Sha256};

            #[derive(Debug, Clone, PartialEq, Eq, Hash)]
            pub struct TreeHash([u8; 32]);

            impl TreeHash {
                pub fn new_from_sexp(allocator: &mut Allocator, n: NodePtr) -> Self {
                    fn known(allocator: &Allocator, n: NodePtr) -> Option<[u8; 32]> {
                        allocator.hashes.get(n.index()).copied().flatten()
                    }
                    let mut wanted = vec![n];
                    while let Some(&n) = wanted.last() {
                        let hash = match (known(allocator, n), allocator.sexp(n)) {
                            (Some(_), _) => {
                                wanted.pop();
                                continue;
                            }
                            (None, SExp::Atom) => {
                                let mut bytes = vec![1];
                                bytes.extend_from_slice(allocator.atom(n).as_ref());
                                Sha256::digest(&bytes)
                            }
                            (None, SExp::Pair(l, r)) => {
                                match (known(allocator, l), known(allocator, r)) {
                                    (Some(left), Some(right)) => {
                                        let mut bytes = vec![2];
                                        bytes.extend_from_slice(&left);
                                        bytes.extend_from_slice(&right);
                                        Sha256::digest(&bytes)
                                    }
                                    (left, right) => {
                                        wanted.extend(right.is_none().then_some(r));
                                        wanted.extend(left.is_none().then_some(l));
                                        continue;
                                    }
                                }
                            }
                        };
                        if allocator.hashes.len() <= n.index() {
                            allocator.hashes.resize(n.index() + 1, None);
                        }
                        allocator.hashes[n.index()] = Some(hash);
                        wanted.pop();
                    }
                    TreeHash(known(allocator, n).unwrap())
                }
            }
        }

        pub mod stages {
            pub use crate::classic::clvm_tools::binutils::assemble;

            pub mod stage_0 {
                use clvm_rs::allocator::{Allocator, NodePtr};
                use clvm_rs::cost::Cost;
                use clvm_rs::reduction::Response;
                use clvm_rs::run_program::PreEval;
                published!("classic--clvm_tools--stages--stage_0.rs");
            }

            pub mod stage_2 {
                pub mod helpers {
                    published!("classic--clvm_tools--stages--stage_2--helpers.rs");
                }
                pub mod operators {
                    use crate::classic::clvm_tools::sha256tree::TreeHash;
                    use clvm_rs::allocator::{Allocator, NodePtr};
                    published!("classic--clvm_tools--stages--stage_2--operators.rs");
                }
                pub mod optimize {
                    published!("classic--clvm_tools--stages--stage_2--optimize.rs");

                    /// Calls one rule by its number, in the driver's order.
                    pub fn one_rule(
                        allocator: &mut Allocator,
                        rule: usize,
                        r: NodePtr,
                        eval_f: Rc<dyn TRunProgram>,
                    ) -> Result<NodePtr, EvalErr> {
                        let memo = RefCell::new(HashMap::new());
                        match rule {
                            1 => cons_optimizer(allocator, &memo, r, eval_f),
                            2 => constant_optimizer(allocator, &memo, r, 0, eval_f),
                            3 => cons_q_a_optimizer(allocator, &memo, r, eval_f),
                            4 => var_change_optimizer_cons_eval(allocator, &memo, r, eval_f),
                            5 => children_optimizer(allocator, &memo, r, eval_f),
                            6 => path_optimizer(allocator, &memo, r, eval_f),
                            7 => quote_null_optimizer(allocator, &memo, r, eval_f),
                            _ => apply_null_optimizer(allocator, &memo, r, eval_f),
                        }
                    }
                }
            }
        }
    }
}
