//! Forms at every limit and one past it. A name ends in `-at` where the work just fits and in `-past` where it just does
//! not; the counts come from the formulas beside each builder.

mod nesting;
pub mod output;
pub mod passes;
mod paths;
mod reading;
pub mod steps;
pub mod units;

use crate::sink::Sink;
use crate::tree::Tree;

pub fn print(sink: &mut Sink) {
    reading::print(sink);
    units::print(sink);
    passes::print(sink);
    nesting::print(sink);
    steps::print(sink);
    paths::print(sink);
    output::print(sink);
}

/// The same form twice, once for each side of its limit.
pub fn both(sink: &mut Sink, limit: &str, at: &Tree, past: &Tree) {
    sink.tree(&format!("{limit}-at"), at);
    sink.tree(&format!("{limit}-past"), past);
}
