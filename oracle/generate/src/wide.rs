//! A wide list of atoms inside wrappers `(a (q . 1) (x ..))`, which without a memo is worked 2^wrappers times; and the same
//! after 260 other finished calls, when a memo of 256 entries is full and helps no more.

use crate::limits::units::wrapped;
use crate::sink::Sink;
use crate::tree::*;

pub fn print(sink: &mut Sink) {
    for width in [10, 100, 500, 1400] {
        for wrappers in [12, 13, 14] {
            let form = wrapped(wrappers, op(X, &vec![byte(5); width]));
            sink.tree("wide", &form);
            sink.tree("wide-after-260", &after(260, &form));
        }
        // The innermost wrapper gives way to the list itself.
        let form = wrapped(13, apply(byte(1), op(X, &vec![byte(7); width])));
        sink.tree("wide", &form);
        sink.tree("wide-after-260", &after(260, &form));
    }
}

/// `(x (x n) .. form)` with other calls in front, each unlike the others.
fn after(calls: usize, form: &Tree) -> Tree {
    let mut parts: Vec<Tree> = (0..calls).map(other).collect();
    parts.push(form.clone());
    op(X, &parts)
}

fn other(number: usize) -> Tree {
    let code = if number < 127 { X } else { 0x10 };
    let path = byte((number % 127 + 1) as u8);
    if number < 254 { op(code, &[path]) } else { op(0x20, &[path]) }
}
