//! Reads (f 1), whose 5 has a spare byte, and writes it again as the shortest form: ok ff05ff0180

use umlazgrin::Umlazgrin;

fn main() {
    match Umlazgrin::new().write(&[0xff, 0x81, 0x05, 0xff, 0x01, 0x80]) {
        Ok(tree) => println!("ok {}", tree.iter().map(|b| format!("{b:02x}")).collect::<String>()),
        Err(refusal) => println!("no {}", refusal.number()),
    }
}
