//! Reads the form ff05ff0180 and prints its tree as text: ok (f 0x01)

use umlazgrin::Umlazgrin;

fn main() {
    match Umlazgrin::new().write_text(&[0xff, 0x05, 0xff, 0x01, 0x80]) {
        Ok(text) => println!("ok {text}"),
        Err(refusal) => println!("no {}", refusal.number()),
    }
}
