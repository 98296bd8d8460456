//! Matches ((: . A) : . B) against (5 . 6) and prints each name, as it is written as an atom, and its tree: ok 41=05 42=06

use umlazgrin::{Match, Umlazgrin};

fn main() {
    let pattern = [0xff, 0xff, 0x3a, 0x41, 0xff, 0x3a, 0x42];
    match Umlazgrin::new().matches(&pattern, &[0xff, 0x05, 0x06]) {
        Ok(Match::Bound(bindings)) => {
            let said: Vec<String> = bindings.iter().map(|b| format!(" {}={}", hex(&b.name), hex(&b.tree))).collect();
            println!("ok{}", said.concat());
        }
        Ok(Match::NoMatch(_)) => println!("no match"),
        Ok(Match::TooManyNames) => println!("too many names"),
        Err(refusal) => println!("no {}", refusal.number()),
    }
}

fn hex(bytes: &[u8]) -> String {
    bytes.iter().map(|b| format!("{b:02x}")).collect()
}
