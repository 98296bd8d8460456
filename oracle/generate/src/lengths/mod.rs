//! Lengths in every kind of prefix, whether a shorter one would do or not: around every border, before whole, short and missing bodies, cut,
//! and prefixes that are not carried; each alone, in a pair, and where a rule or the evaluator sees the atom. Then programs in other
//! spellings, what comes first of two faults, and the limits of bytes and units.

mod atoms;
mod borders;
mod programs;

use crate::sink::Sink;

pub fn print(sink: &mut Sink) {
    atoms::print(&mut |name, atom| {
        for (before, behind) in PLACES {
            sink.bytes(name, &[before, atom, behind].concat());
        }
    });
    programs::print(sink);
    order(sink);
    borders::print(sink);
}

/// What stands before and behind an atom X.
const PLACES: [(&[u8], &[u8]); 18] = [
    // X, and one byte too many
    (&[], &[]),
    (&[], &[0x05]),
    // (X . 7), (7 . X), and X in front of a missing part
    (&[0xff], &[0x07]),
    (&[0xff, 0x07], &[]),
    (&[0xff], &[]),
    // (X 2) and (X ()), where X may be an operator, a quote or none
    (&[0xff], &[0xff, 0x02, 0x80]),
    (&[0xff], &[0xff, 0x80, 0x80]),
    // (f X), a path; (f 2 . X), the list's end
    (&[0xff, 0x05, 0xff], &[0x80]),
    (&[0xff, 0x05, 0xff, 0x02], &[]),
    // (q . X), (a X . 5)
    (&[0xff, 0x01], &[]),
    (&[0xff, 0x02, 0xff], &[0x05]),
    // (a (q . X) 1), (a (q . X) 2), (a (q 4 X 2) 2): the body, and an atom of the body that substitution reads
    (&[0xff, 0x02, 0xff, 0xff, 0x01], &[0xff, 0x01, 0x80]),
    (&[0xff, 0x02, 0xff, 0xff, 0x01], &[0xff, 0x02, 0x80]),
    (&[0xff, 0x02, 0xff, 0xff, 0x01, 0xff, 0x04, 0xff], &[0xff, 0x02, 0x80, 0xff, 0x02, 0x80]),
    // (f (c X 3)), (r (c 2 X))
    (&[0xff, 0x05, 0xff, 0xff, 0x04, 0xff], &[0xff, 0x03, 0x80, 0x80]),
    (&[0xff, 0x06, 0xff, 0xff, 0x04, 0xff, 0x02, 0xff], &[0x80, 0x80]),
    // (= (q . X) (q . 5)), (c (q . X) ()): values
    (&[0xff, 0x09, 0xff, 0xff, 0x01], &[0xff, 0xff, 0x01, 0x05, 0x80]),
    (&[0xff, 0x04, 0xff, 0xff, 0x01], &[0xff, 0x80, 0x80]),
];

/// Two parts of a pair, each sound or with one fault: the first that the reader meets is told.
fn order(sink: &mut Sink) {
    let parts: [&[u8]; 14] = [
        &[0x05], &[0xc0, 0x01, 0x05], &[0xe0, 0x00, 0x00],
        &[0xc0], &[0xf8, 0x00, 0x00], &[0xfb, 0xff, 0xff, 0xff],
        &[0xfc], &[0xfd], &[0xfe],
        &[0xc0, 0x41], &[0xf8, 0x00, 0x00, 0x00, 0x41], &[0xfb, 0xff, 0xff, 0xff, 0xff],
        &[0x81], &[0xe0, 0x00, 0x03, 0x05],
    ];
    for left in parts {
        for right in parts {
            sink.bytes("length-order", &[&[0xff][..], left, right].concat());
            sink.bytes("length-order", &[&[0xff, 0xff, 0x01][..], left, right].concat());
        }
    }
}
