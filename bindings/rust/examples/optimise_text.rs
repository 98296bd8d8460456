//! Optimises the text (a (q 4 3 2) 2) and prints the finished text, passes, units and mark: ok (c 0x06 0x04) 4 186 0

use umlazgrin::Umlazgrin;

fn main() {
    match Umlazgrin::new().optimise_text("(a (q 4 3 2) 2)") {
        Ok(a) => println!("ok {} {} {} {}", a.text, a.passes, a.units, u8::from(a.mark)),
        Err(refusal) => println!("no {}", refusal.number()),
    }
}
