//! Random trees that look like code, so that every rule meets what it was written for and what it was not.

use crate::atoms::{odd_path, plain_path, short_odd_path};
use crate::constants::{data, failing, good, seems_constant};
use crate::kept::kept;
use crate::options::Options;
use crate::random::Random;
use crate::sink::Sink;
use crate::tree::*;

pub fn print(options: &Options, sink: &mut Sink) {
    for index in 0..options.count {
        let mut random = Random::new(options.seed, index);
        sink.tree("code", &form(&mut random));
    }
}

pub fn form(random: &mut Random) -> Tree {
    let depth = random.between(2, 6);
    Code { random, inside: false }.expression(depth)
}

/// A part of a form.
pub fn small(random: &mut Random) -> Tree {
    let depth = random.between(1, 3);
    Code { random, inside: false }.expression(depth)
}

struct Code<'a> {
    random: &'a mut Random,
    /// Inside a quoted program, where a long path would only end in the nesting limit.
    inside: bool,
}

impl Code<'_> {
    fn expression(&mut self, depth: usize) -> Tree {
        if depth == 0 {
            return self.leaf();
        }
        match self.random.weighted(&[3, 6, 3, 4, 2, 2, 2, 5, 3, 5, 2, 2, 2, 3]) {
            0 => self.leaf(),
            1 => self.path_over_atom(),
            2 => self.cons_taken_apart(depth),
            3 => self.call(C, 2, depth),
            4 => self.call(I, 3, depth),
            5 => self.one_or_two(depth),
            6 => self.exception(depth),
            7 => self.applied(depth),
            8 => apply(self.program(depth), byte(1)),
            9 => kept(self.random),
            10 => good(self.random, depth.min(2)),
            11 => self.null_applied(depth),
            12 => self.quoted_nil(depth),
            _ => self.oddity(depth),
        }
    }

    fn leaf(&mut self) -> Tree {
        match self.random.below(8) {
            0 => quote(data(self.random, 2)),
            1 => self.path(),
            2 if self.random.once_in(3) => nil(),
            _ => plain_path(self.random),
        }
    }

    fn path(&mut self) -> Tree {
        if self.inside { short_odd_path(self.random) } else { odd_path(self.random) }
    }

    /// `(f N)`, `(r N)` and towers of them.
    fn path_over_atom(&mut self) -> Tree {
        let path = if self.random.below(5) < 3 { self.path() } else { plain_path(self.random) };
        let path = if seems_constant(&path) { byte(1) } else { path };
        let height = self.random.between(1, 3);
        (0..height).fold(path, |inside, _| op(self.random.pick(&[F, R]), &[inside]))
    }

    /// `(f (c A B))` and `(r (c A B))`
    fn cons_taken_apart(&mut self, depth: usize) -> Tree {
        let cons = op(C, &[self.expression(depth - 1), self.expression(depth - 1)]);
        op(self.random.pick(&[F, R]), &[cons])
    }

    fn one_or_two(&mut self, depth: usize) -> Tree {
        match self.random.below(3) {
            0 => self.call(L, 1, depth),
            1 => self.call(EQ, 2, depth),
            _ => {
                let code = self.random.pick(&[F, R]);
                self.call(code, 1, depth)
            }
        }
    }

    /// A call that is no constant, since constants made by accident mostly fail.
    fn call(&mut self, code: u8, count: usize, depth: usize) -> Tree {
        let mut parts: Vec<Tree> = (0..count).map(|_| self.expression(depth - 1)).collect();
        if parts.iter().all(seems_constant) {
            parts[count - 1] = plain_path(self.random);
        }
        op(code, &parts)
    }

    fn exception(&mut self, depth: usize) -> Tree {
        let parts: Vec<Tree> = (0..self.random.below(3)).map(|_| self.expression(depth - 1)).collect();
        op(X, &parts)
    }

    /// `(a (q . program) arguments)`
    fn applied(&mut self, depth: usize) -> Tree {
        let arguments = match self.random.below(4) {
            0 => plain_path(self.random),
            1 => self.expression(depth - 1),
            _ => self.argument_list(depth),
        };
        let arguments = if seems_constant(&arguments) { byte(2) } else { arguments };
        apply(self.program(depth), arguments)
    }

    /// `(c A (c B rest))`
    fn argument_list(&mut self, depth: usize) -> Tree {
        let count = self.random.between(1, 3);
        (0..count).fold(byte(1), |rest, _| op(C, &[self.expression(depth.min(2) - 1), rest]))
    }

    fn program(&mut self, depth: usize) -> Tree {
        let outside = std::mem::replace(&mut self.inside, true);
        let program = self.expression(depth - 1);
        self.inside = outside;
        program
    }

    fn null_applied(&mut self, depth: usize) -> Tree {
        let rest = match self.random.below(3) {
            0 => list(&[self.expression(depth - 1), byte(1)]),
            1 => plain_path(self.random),
            _ => list(&[plain_path(self.random)]),
        };
        pair(byte(A), pair(nil(), rest))
    }

    fn quoted_nil(&mut self, depth: usize) -> Tree {
        op(C, &[self.expression(depth - 1), quote(nil())])
    }

    fn oddity(&mut self, depth: usize) -> Tree {
        let part = self.expression(depth - 1);
        match self.random.below(6) {
            0 => pair(part, list(&[plain_path(self.random)])),
            1 => list_to(&[byte(C), part, byte(2)], byte(3)),
            2 => pair(self.path(), list(&[byte(2), part])),
            3 => op(A, &[part, byte(1)]),
            4 => failing(self.random),
            _ => op(self.random.pick(&[10, 16, 32]), &[byte(1), part]),
        }
    }
}
