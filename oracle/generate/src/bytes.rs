//! Every byte string of 0 to 3 bytes: the reader's whole world near the prefixes, nothing left to chance.

use crate::options::Options;
use crate::sink::Sink;

pub fn print(options: &Options, sink: &mut Sink) {
    for length in 0..=options.max {
        for value in 0..1u32 << (8 * length) {
            sink.bytes("bytes", &value.to_be_bytes()[4 - length..]);
        }
    }
}
