//! Reads the text (f 1) and prints the serialised form of its tree: ok ff05ff0180

use umlazgrin::Umlazgrin;

fn main() {
    match Umlazgrin::new().read_text("(f 1)") {
        Ok(form) => println!("ok {}", form.iter().map(|b| format!("{b:02x}")).collect::<String>()),
        Err(refusal) => println!("no {}", refusal.number()),
    }
}
