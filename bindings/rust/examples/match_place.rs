//! Matches (f 1) against (f 2) and prints where it fails, as a path from the expression's root: no match 05

use umlazgrin::{Match, Umlazgrin};

fn main() {
    let pattern = [0xff, 0x05, 0xff, 0x01, 0x80];
    // 05 is right, then left: what differs is 1 and 2.
    match Umlazgrin::new().matches(&pattern, &[0xff, 0x05, 0xff, 0x02, 0x80]) {
        Ok(Match::NoMatch(place)) if place.is_too_deep() => println!("no match deeper than 511 turns"),
        Ok(Match::NoMatch(place)) => println!("no match {}", hex(place.path())),
        Ok(Match::Bound(bindings)) => println!("ok {} names", bindings.len()),
        Ok(Match::TooManyNames) => println!("too many names"),
        Err(refusal) => println!("no {}", refusal.number()),
    }
}

fn hex(bytes: &[u8]) -> String {
    bytes.iter().map(|b| format!("{b:02x}")).collect()
}
