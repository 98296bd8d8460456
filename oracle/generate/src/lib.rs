//! Forms for comparing and measuring, family by family; the same seed gives the same forms on every machine.

mod atoms;
mod bytes;
mod code;
mod constants;
mod damaged;
mod decimal;
mod deep;
mod kept;
mod large;
mod lengths;
mod limits;
pub mod options;
mod pairs_deep;
mod pairs_eval;
mod pairs_match;
mod pairs_place;
mod paths;
mod prefixes;
pub mod random;
mod repeats;
mod rules;
mod shared;
pub mod sink;
mod small;
mod sound;
mod spelled;
mod spelling;
mod texts_border;
mod texts_bytes;
mod texts_damaged;
mod texts_growing;
mod texts_pairs;
mod texts_small;
mod tree;
mod trees;
mod wide;

use options::Options;
use sink::Sink;

/// Hands every form of the family that the options name to the sink; false where there is no such family.
pub fn print(options: &Options, sink: &mut Sink) -> bool {
    match options.family.as_str() {
        "bytes" => bytes::print(options, sink),
        "small" => small::print(options, sink),
        "code" => code::print(options, sink),
        "kept" => kept::print(options, sink),
        "damaged" => damaged::print(options, sink),
        "deep" => deep::print(sink),
        "lengths" => lengths::print(sink),
        "limits" => limits::print(sink),
        "repeats" => repeats::print(sink),
        "wide" => wide::print(sink),
        "large" => large::print(options, sink),
        "shared" => shared::print(options, sink),
        "spelled" => spelled::print(options, sink),
        "rule-1" => rules::print(1, options, sink),
        "rule-2" => rules::print(2, options, sink),
        "rule-3" => rules::print(3, options, sink),
        "rule-4" => rules::print(4, options, sink),
        "rule-5" => rules::print(5, options, sink),
        "rule-6" => rules::print(6, options, sink),
        "rule-7" => rules::print(7, options, sink),
        "rule-8" => rules::print(8, options, sink),
        "pairs-match" => pairs_match::print(options, sink),
        "pairs-place" => pairs_place::print(options, sink),
        "pairs-deep" => pairs_deep::print(sink),
        "pairs-eval" => pairs_eval::print(options, sink),
        "path-bytes" => paths::bytes(options, sink),
        "path-atoms" => paths::atoms(options, sink),
        "path-rows" => paths::rows(options, sink),
        "trees" => trees::print(options, sink),
        "texts-border" => texts_border::print(sink),
        "texts-bytes" => texts_bytes::print(options, sink),
        "texts-damaged" => texts_damaged::print(options, sink),
        "texts-growing" => texts_growing::print(options, sink),
        "texts-pairs" => texts_pairs::print(options, sink),
        "texts-small" => texts_small::print(options, sink),
        _ => return false,
    }
    true
}
