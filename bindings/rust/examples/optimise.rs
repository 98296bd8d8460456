//! Optimises (f 1) and prints the finished tree, passes, units and mark: ok 02 1 31 0

use umlazgrin::Umlazgrin;

fn main() {
    match Umlazgrin::new().optimise(&[0xff, 0x05, 0xff, 0x01, 0x80]) {
        Ok(a) => println!("ok {} {} {} {}", hex(&a.tree), a.passes, a.units, u8::from(a.mark)),
        Err(refusal) => println!("no {}", refusal.number()),
    }
}

fn hex(bytes: &[u8]) -> String {
    bytes.iter().map(|b| format!("{b:02x}")).collect()
}
