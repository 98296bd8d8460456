//! Every text of up to a few tokens: what may stand where shows in short texts first.

use crate::options::Options;
use crate::sink::Sink;

/// With one blank between two of them. A lone quote takes what follows into a quoted text.
const TOKENS: [&[u8]; 10] = [b"(", b")", b".", b"q", b"f", b"5", b"\"a\"", b"0x5", b"\"", b"\"\t\""];

pub fn print(options: &Options, sink: &mut Sink) {
    for count in 0..=options.leaves {
        texts(count, &mut Vec::new(), &mut |tokens| sink.text("text-small", &tokens.join(&b' ')));
    }
}

/// Hands every row of `count` tokens behind `before` to `take`.
fn texts(count: usize, before: &mut Vec<&'static [u8]>, take: &mut dyn FnMut(&[&[u8]])) {
    if count == 0 {
        return take(before);
    }
    for token in TOKENS {
        before.push(token);
        texts(count - 1, before, take);
        before.pop();
    }
}
