//! Says where two texts stop, the second of which parses: at 9, then no fault

use umlazgrin::Umlazgrin;

fn main() {
    let mut u = Umlazgrin::new();
    // What is quoted is data, and has no names.
    for text in ["(a (q . (f 1)) 1)", "(a (q . (5 1)) 1)"] {
        match u.text_fault(text) {
            Ok(Some(place)) => println!("at {place}"),
            Ok(None) => println!("no fault"),
            Err(refusal) => println!("no {}", refusal.number()),
        }
    }
}
