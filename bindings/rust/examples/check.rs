//! Checks (f 1), the atom 5 as older exporters write it, and a prefix that is not carried: ok 26, ok 5, then no 4

use umlazgrin::Umlazgrin;

fn main() {
    let mut u = Umlazgrin::new();
    for form in [&[0xff, 0x05, 0xff, 0x01, 0x80][..], &[0x81, 0x05], &[0xfc]] {
        match u.check(form) {
            Ok(units) => println!("ok {units}"),
            Err(refusal) => println!("no {}", refusal.number()),
        }
    }
}
