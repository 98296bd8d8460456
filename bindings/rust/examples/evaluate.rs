//! Evaluates (c 2 3) in the environment (5 . 6) and prints the value, steps and units: ok ff0506 3 65

use umlazgrin::Umlazgrin;

fn main() {
    let program = [0xff, 0x04, 0xff, 0x02, 0xff, 0x03, 0x80];
    match Umlazgrin::new().evaluate(&program, &[0xff, 0x05, 0x06]) {
        Ok(v) => println!("ok {} {} {}", hex(&v.tree), v.steps, v.units),
        Err(refusal) => println!("no {}", refusal.number()),
    }
}

fn hex(bytes: &[u8]) -> String {
    bytes.iter().map(|b| format!("{b:02x}")).collect()
}
