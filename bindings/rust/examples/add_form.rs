//! Works (f 1), (f 0) and (a (q 4 3 2) 2) into one report: ok, no 8, ok; then prints what is answered, bytes before and after, the most
//! passes of a form, and how often each rule ended a pass: answered 2, bytes 20 8, passes 4, rules 0 0 0 1 0 3 0 0

use umlazgrin::{Added, Savings, Umlazgrin};

fn main() {
    let (mut u, mut report) = (Umlazgrin::new(), Savings::default());
    let swaps = [0xff, 0x02, 0xff, 0xff, 0x01, 0xff, 0x04, 0xff, 0x03, 0xff, 0x02, 0x80, 0xff, 0x02, 0x80];
    for form in [&[0xff, 0x05, 0xff, 0x01, 0x80][..], &[0xff, 0x05, 0xff, 0x80, 0x80], &swaps] {
        match u.add_form(form, &mut report) {
            Added::Answered => println!("ok"),
            other => println!("no {}", other.number()),
        }
    }
    let rules: Vec<String> = report.rules.iter().map(|count| format!(" {count}")).collect();
    println!("answered {}\nbytes {} {}", report.answered, report.before, report.after);
    println!("passes {}\nrules{}", report.passes, rules.concat());
}
