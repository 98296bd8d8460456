//! Stand-in for `hex`: the two functions that the text calls.

use std::fmt;

pub fn encode(bytes: impl AsRef<[u8]>) -> String {
    const DIGITS: &[u8; 16] = b"0123456789abcdef";
    let bytes = bytes.as_ref();
    let mut text = String::with_capacity(bytes.len() * 2);
    for b in bytes {
        text.push(DIGITS[(b >> 4) as usize] as char);
        text.push(DIGITS[(b & 15) as usize] as char);
    }
    text
}

#[derive(Debug)]
pub struct NotHex;

impl fmt::Display for NotHex {
    fn fmt(&self, f: &mut fmt::Formatter<'_>) -> fmt::Result {
        f.write_str("not hex")
    }
}

pub fn decode(text: impl AsRef<[u8]>) -> Result<Vec<u8>, NotHex> {
    let text = text.as_ref();
    if text.len() % 2 != 0 {
        return Err(NotHex);
    }
    let digit = |c: u8| (c as char).to_digit(16).map(|d| d as u8).ok_or(NotHex);
    text.chunks(2)
        .map(|two| Ok(digit(two[0])? << 4 | digit(two[1])?))
        .collect()
}
