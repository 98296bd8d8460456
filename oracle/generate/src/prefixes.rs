//! Lengths in front of atoms: the five kinds of prefix, whether or not a length needs so many bytes.

/// By kind: the first byte without its bits of the length. A kind's number says how many bytes follow the first.
pub const FIRST: [u8; 5] = [0x80, 0xc0, 0xe0, 0xf0, 0xf8];

/// The greatest length that a prefix of this kind can state: 6 bits, then for each byte more 8 in it and one less in the first.
pub fn greatest(kind: usize) -> u64 {
    (1 << (6 + 7 * kind)) - 1
}

/// A length of at most the kind's greatest.
pub fn put_prefix(kind: usize, length: u64, out: &mut Vec<u8>) {
    let bytes = length.to_be_bytes();
    out.push(FIRST[kind] | bytes[7 - kind]);
    out.extend(&bytes[8 - kind..]);
}

/// The atom behind a prefix of this kind, which can state its length.
pub fn put_spelled(kind: usize, bytes: &[u8], out: &mut Vec<u8>) {
    put_prefix(kind, bytes.len() as u64, out);
    out.extend(bytes);
}
