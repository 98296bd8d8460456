//! A text's words: brackets, dots, names and atoms.

use super::number::signed_bytes;
use super::NAMES;

pub enum Word {
    Open,
    Close,
    Dot,
    /// A bare name, by its byte. Where it stands decides whether it is read.
    Name(u8),
    Atom(Vec<u8>),
}

fn separates(c: u8) -> bool {
    matches!(c, b' ' | b'\t' | b'\r' | b'\n')
}

/// Brackets, a dot alone, words and quoted texts: where each begins and ends, and what it spells. A token that spells nothing has no word; a
/// quote that is never closed takes all bytes to the text's end.
pub struct Token {
    pub start: usize,
    pub end: usize,
    pub word: Option<Word>,
}

/// All tokens in their order.
pub fn tokens(text: &[u8]) -> Vec<Token> {
    let mut tokens = Vec::new();
    let mut start = 0;
    while start < text.len() {
        if separates(text[start]) {
            start += 1;
            continue;
        }
        let end = start + first_length(&text[start..]);
        tokens.push(Token { start, end, word: word(&text[start..end]) });
        start = end;
    }
    tokens
}

/// How many bytes the token has that stands in front.
fn first_length(text: &[u8]) -> usize {
    let stops = |c: &u8| separates(*c) || matches!(c, b'(' | b')' | b'"');
    match text[0] {
        b'(' | b')' => 1,
        b'"' => text[1..].iter().position(|c| *c == b'"').map_or(text.len(), |close| close + 2),
        _ => text.iter().position(stops).unwrap_or(text.len()),
    }
}

/// All words in their order; nothing where a part of the text is no word.
pub fn words(text: &[u8]) -> Option<Vec<Word>> {
    tokens(text).into_iter().map(|token| token.word).collect()
}

fn word(token: &[u8]) -> Option<Word> {
    match token {
        b"(" => Some(Word::Open),
        b")" => Some(Word::Close),
        [b'"', after @ ..] => quoted(after.strip_suffix(b"\"")?).map(Word::Atom),
        _ => bare(token),
    }
}

/// Whether the byte may stand between quotes.
pub fn may_be_quoted(c: u8) -> bool {
    (0x20..=0x7e).contains(&c)
}

fn quoted(body: &[u8]) -> Option<Vec<u8>> {
    body.iter().all(|c| may_be_quoted(*c)).then(|| body.to_vec())
}

fn bare(word: &[u8]) -> Option<Word> {
    if word == b"." {
        return Some(Word::Dot);
    }
    if let [name] = word {
        if let Some(place) = NAMES.iter().position(|known| known == name) {
            return Some(Word::Name(place as u8 + 1));
        }
    }
    let atom = match word.strip_prefix(b"0x") {
        Some(digits) => whole_bytes(digits),
        None => signed_bytes(word),
    };
    atom.map(Word::Atom)
}

/// Two digits a byte, in either case, and at least one byte.
fn whole_bytes(digits: &[u8]) -> Option<Vec<u8>> {
    if digits.is_empty() || digits.len() % 2 != 0 {
        return None;
    }
    let value = |digit: u8| (digit as char).to_digit(16);
    digits
        .chunks(2)
        .map(|two| Some((value(two[0])? * 16 + value(two[1])?) as u8))
        .collect()
}
