//! Evaluates the text (c 2 3) in the environment (5 . 6) and prints the value as text, steps and units: ok (f . 0x06) 3 65

use umlazgrin::Umlazgrin;

fn main() {
    match Umlazgrin::new().evaluate_text("(c 2 3)", "(5 . 6)") {
        Ok(v) => println!("ok {} {} {}", v.text, v.steps, v.units),
        Err(refusal) => println!("no {}", refusal.number()),
    }
}
