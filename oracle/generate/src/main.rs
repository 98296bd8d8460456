//! Prints forms of one family, a line of lower-case hex or a text each, on request with a name in front.

use std::io::{self, BufWriter, Write};

use generate::options::{Options, USAGE};
use generate::sink::Sink;

fn main() {
    let options = Options::read().unwrap_or_else(|problem| {
        eprintln!("generate: {problem}\n{USAGE}");
        std::process::exit(2);
    });
    let mut out = BufWriter::new(io::stdout().lock());
    let mut put = |name: &str, line: &[u8]| {
        let name = if options.names { format!("{name} ") } else { String::new() };
        stop_on(out.write_all(&[name.as_bytes(), line, b"\n"].concat()));
    };
    let mut sink = if options.text {
        Sink::of_texts(options.seed, |name, texts| put(name, &texts.join(&b'\n')))
    } else {
        Sink::new(|name, forms| put(name, forms.iter().map(|form| hex(form)).collect::<Vec<_>>().join(" ").as_bytes()))
    };
    let known = generate::print(&options, &mut sink);
    drop(sink);
    if !known {
        eprintln!("generate: no family is called {}\n{USAGE}", options.family);
        std::process::exit(2);
    }
    stop_on(out.flush());
}

/// A reader that has seen enough closes the pipe: no error. Anything else is one.
fn stop_on(done: io::Result<()>) {
    if let Err(problem) = done {
        if problem.kind() == io::ErrorKind::BrokenPipe {
            std::process::exit(0);
        }
        eprintln!("generate: cannot write: {problem}");
        std::process::exit(1);
    }
}

fn hex(bytes: &[u8]) -> String {
    const DIGITS: &[u8; 16] = b"0123456789abcdef";
    let mut text = String::with_capacity(bytes.len() * 2);
    for b in bytes {
        text.push(DIGITS[(b >> 4) as usize] as char);
        text.push(DIGITS[(b & 15) as usize] as char);
    }
    text
}
