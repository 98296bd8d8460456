//! The runner: the nine operators, 4,096 steps for each evaluation.

use clvm_rs::allocator::{Allocator, NodePtr, SExp};
use clvm_rs::error::EvalErr;
use clvm_rs::reduction::{Reduction, Response};

const STEPS: u64 = 4_096;

type Refusable<T> = Result<T, EvalErr>;

fn refuse<T>(number: u8) -> Refusable<T> {
    Err(EvalErr::Refused(number))
}

/// The value of a program in an environment, and the steps that it took.
pub fn evaluate(store: &mut Allocator, program: NodePtr, env: NodePtr) -> Refusable<(NodePtr, u64)> {
    let mut steps = 0;
    let value = work(store, program, env, &mut steps)?;
    Ok((value, steps))
}

fn work(
    store: &mut Allocator,
    mut program: NodePtr,
    mut env: NodePtr,
    steps: &mut u64,
) -> Refusable<NodePtr> {
    loop {
        if *steps == STEPS {
            return refuse(10);
        }
        *steps += 1;

        let (head, tail) = match store.sexp(program) {
            SExp::Atom => return path(store, program, env),
            SExp::Pair(head, tail) => (head, tail),
        };
        let operator = match store.sexp(head) {
            SExp::Pair(..) => return refuse(9),
            SExp::Atom => match store.atom(head).as_ref() {
                [byte] => *byte,
                _ => return refuse(9),
            },
        };
        if operator == 1 {
            return Ok(tail);
        }
        let count = match operator {
            2 | 4 | 9 => Some(2),
            3 => Some(3),
            5..=7 => Some(1),
            8 => None,
            _ => return refuse(9),
        };

        let mut arguments = Vec::new();
        let mut rest = tail;
        while let SExp::Pair(argument, more) = store.sexp(rest) {
            arguments.push(argument);
            rest = more;
        }
        if rest != NodePtr::NIL || count.is_some_and(|count| count != arguments.len()) {
            return refuse(8);
        }
        let mut values = Vec::new();
        for argument in arguments {
            values.push(work(store, argument, env, steps)?);
        }

        return match operator {
            2 => {
                program = values[0];
                env = values[1];
                continue;
            }
            3 => Ok(if values[0] == NodePtr::NIL {
                values[2]
            } else {
                values[1]
            }),
            4 => store.new_pair(values[0], values[1]),
            5 | 6 => match store.sexp(values[0]) {
                SExp::Pair(left, right) => Ok(if operator == 5 { left } else { right }),
                SExp::Atom => refuse(8),
            },
            7 => match store.sexp(values[0]) {
                SExp::Pair(..) => store.new_atom(&[1]),
                SExp::Atom => Ok(NodePtr::NIL),
            },
            9 => match (store.sexp(values[0]), store.sexp(values[1])) {
                (SExp::Atom, SExp::Atom) => {
                    if store.atom(values[0]) == store.atom(values[1]) {
                        store.new_atom(&[1])
                    } else {
                        Ok(NodePtr::NIL)
                    }
                }
                _ => refuse(8),
            },
            _ => refuse(8),
        };
    }
}

/// What stands at a path: the bytes are an unsigned number, read from the lowest bit up to below the top bit.
fn path(store: &Allocator, path: NodePtr, env: NodePtr) -> Refusable<NodePtr> {
    let atom = store.atom(path);
    let mut bytes = atom.as_ref();
    while bytes.first() == Some(&0) {
        bytes = &bytes[1..];
    }
    let Some(top) = bytes.first() else {
        return Ok(NodePtr::NIL);
    };
    let bits = bytes.len() * 8 - 1 - top.leading_zeros() as usize;
    let mut here = env;
    for bit in 0..bits {
        let right = bytes[bytes.len() - 1 - bit / 8] >> (bit % 8) & 1 == 1;
        here = match store.sexp(here) {
            SExp::Pair(l, r) => {
                if right {
                    r
                } else {
                    l
                }
            }
            SExp::Atom => return refuse(8),
        };
    }
    Ok(here)
}

/// The runner as the two copies of the text want it.
pub struct Runner;

impl text::classic::clvm_tools::stages::stage_0::TRunProgram for Runner {
    fn run_program(
        &self,
        allocator: &mut Allocator,
        program: NodePtr,
        args: NodePtr,
        _option: Option<text::classic::clvm_tools::stages::stage_0::RunProgramOption>,
    ) -> Response {
        evaluate(allocator, program, args).map(|(value, steps)| Reduction(steps, value))
    }
}

impl text_patched::classic::clvm_tools::stages::stage_0::TRunProgram for Runner {
    fn run_program(
        &self,
        allocator: &mut Allocator,
        program: NodePtr,
        args: NodePtr,
        _option: Option<text_patched::classic::clvm_tools::stages::stage_0::RunProgramOption>,
    ) -> Response {
        evaluate(allocator, program, args).map(|(value, steps)| Reduction(steps, value))
    }
}
