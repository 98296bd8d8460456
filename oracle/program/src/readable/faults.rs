//! Where a text stops being one, from the request's words alone. A token may stand where it stands if some text that parses begins with
//! all bytes to its end. The reader is asked that, of the shortest text that does: so no place is looked for in the reader's own steps.

use clvm_rs::error::EvalErr;

use super::reader::{parses, within_limit};
use super::words::{may_be_quoted, tokens, Token, Word};

/// The place of the first token that may not stand where it stands, or the text's length where more is wanted; nothing where the text
/// parses.
pub fn text_fault(text: &[u8]) -> Result<Option<usize>, EvalErr> {
    within_limit(text)?;
    let tokens = tokens(text);
    let begun = begun(&tokens);
    // Where a token may stand, all before it may.
    let standing = begun.partition_point(|to_here| to_here.goes_on(text));
    Ok(match (begun.get(standing), tokens.get(begun.len())) {
        (Some(first), _) => Some(first.start),
        (None, Some(no_word)) => Some(in_no_word(text, no_word)),
        (None, None) => (!parses(text)).then_some(text.len()),
    })
}

/// A text to the end of one of its tokens.
struct Begun {
    /// Where that token begins.
    start: usize,
    end: usize,
    /// Brackets that are open at the end.
    open: usize,
    after_dot: bool,
}

/// The text to the end of each token, up to the first that is no word.
fn begun(tokens: &[Token]) -> Vec<Begun> {
    let mut open = 0usize;
    let to_here = |token: &Token| {
        match token.word.as_ref()? {
            Word::Open => open += 1,
            // A bracket that closes none is for the reader to refuse.
            Word::Close => open = open.saturating_sub(1),
            Word::Dot | Word::Name(_) | Word::Atom(_) => {}
        }
        Some(Begun { start: token.start, end: token.end, open, after_dot: matches!(token.word, Some(Word::Dot)) })
    };
    tokens.iter().map_while(to_here).collect()
}

impl Begun {
    /// Whether a text that parses begins so. If any does, then the one that closes each bracket at once.
    fn goes_on(&self, text: &[u8]) -> bool {
        let then: &[u8] = if self.after_dot { b"()" } else { b"" };
        parses(&[&text[..self.end], then, &vec![b')'; self.open]].concat())
    }
}

/// A byte that may not be quoted: its place, wherever the quote stands, and whether or not it is closed. Else the first byte: of a word that
/// spells nothing, or of a quote that is never closed.
fn in_no_word(text: &[u8], token: &Token) -> usize {
    let quoted = text[token.start..token.end].strip_prefix(b"\"").unwrap_or(b"");
    match quoted.iter().position(|c| !may_be_quoted(*c)) {
        Some(place) => token.start + 1 + place,
        None => token.start,
    }
}
