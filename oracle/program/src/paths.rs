//! Rows of paths, as the program `paths_rows` takes them, put to the published `compose_paths` and `NodePath`.

use text::classic::clvm::casts::bigint_to_bytes_unsigned;
use text::classic::clvm_tools::node_path::{compose_paths, NodePath};
use text::util::{number_from_u8, Number};

use crate::form::put_hex;

/// The most bytes that are asked about, and that a longer path may have.
const MOST: usize = 64;

/// What is asked, q, and the bytes that it is asked of.
pub fn answer(row: &[u8]) -> String {
    let (Some(&asked), Some(&q), bytes) = (row.first(), row.get(1), row.get(2..).unwrap_or_default()) else {
        return "no row".into();
    };
    match (asked, q) {
        _ if bytes.len() > MOST => "no row".into(),
        (1, _) => shown(bigint_to_bytes_unsigned(&compose_paths(&unsigned(bytes), &unsigned(&[q]))).data()),
        (2, _) => shown(NodePath::new(Some(number_from_u8(bytes))).as_path().data()),
        (3, 1..) => longer(bytes, q),
        (4, _) => turns(bytes),
        _ => "no row".into(),
    }
}

/// A zero byte in front makes the signed reading the unsigned one.
fn unsigned(bytes: &[u8]) -> Number {
    number_from_u8(&[&[0], bytes].concat())
}

fn shown(bytes: &[u8]) -> String {
    let mut out = String::new();
    put_hex(bytes, &mut out);
    if out.is_empty() { "-".into() } else { out }
}

/// As `path_optimizer` adds to the path of an atom.
fn longer(bytes: &[u8], q: u8) -> String {
    let index = NodePath::new(Some(number_from_u8(bytes)));
    let path = index.add(NodePath::new(Some(unsigned(&[q])))).as_path();
    if path.length() > MOST {
        return "too long".into();
    }
    let misread = index.as_path().data() != bigint_to_bytes_unsigned(&unsigned(bytes)).data();
    shown(path.data()) + if misread { " misread" } else { "" }
}

/// Bits from the lowest, until the top bit. Substitution reads the bytes signed, and takes none where that is 1 or less.
fn turns(bytes: &[u8]) -> String {
    let bit = |i: usize| bytes[bytes.len() - 1 - i / 8] >> (i % 8) & 1 == 1;
    let top = (0..8 * bytes.len()).rev().find(|&i| bit(i)).unwrap_or(0);
    let mut out: String = (0..top).map(|i| if bit(i) { 'r' } else { 'l' }).collect();
    out.insert(0, '.');
    let negative = bytes.first().is_some_and(|&b| b >= 0x80);
    if negative || bytes.iter().all(|&b| b == 0) {
        out.push_str(" low");
    }
    if negative && top > 0 {
        out.push_str(" fewer");
    }
    out
}
