//! The oracle: for each line of standard input one line of answer. README.md describes the modes.

use std::io::{self, BufRead, BufReader, BufWriter, Write};
use std::process::ExitCode;
use std::thread;

use oracle::modes::{answer, Mode};
use oracle::savings::print_report;
use oracle::{store, STACK};

const USAGE: &str = "Give one mode: tree, full, full --trace, full --rules, full --causes, match, eval, rule 1 to rule 8, read, \
read-text, write-text, optimise-text, evaluate-text, text-fault, paths, or savings.";

/// An answer for each line, or one report over all of them.
enum Asked {
    Lines(Mode),
    Savings,
}

fn asked(words: &[String]) -> Option<Asked> {
    match words {
        [word] if word == "savings" => Some(Asked::Savings),
        _ => mode(words).map(Asked::Lines),
    }
}

fn mode(words: &[String]) -> Option<Mode> {
    let words: Vec<&str> = words.iter().map(|w| w.as_str()).collect();
    Some(match words[..] {
        ["tree"] => Mode::Tree,
        ["full"] => Mode::Full,
        ["full", "--trace"] => Mode::FullTrace,
        ["full", "--rules"] => Mode::FullRules,
        ["full", "--causes"] => Mode::FullCauses,
        ["match"] => Mode::Match,
        ["eval"] => Mode::Eval,
        ["read"] => Mode::Read,
        ["read-text"] => Mode::ReadText,
        ["write-text"] => Mode::WriteText,
        ["optimise-text"] => Mode::OptimiseText,
        ["evaluate-text"] => Mode::EvaluateText,
        ["text-fault"] => Mode::TextFault,
        ["paths"] => Mode::Paths,
        ["rule", number @ ("1" | "2" | "3" | "4" | "5" | "6" | "7" | "8")] => {
            Mode::Rule(number.parse().unwrap())
        }
        _ => return None,
    })
}

fn main() -> ExitCode {
    let words: Vec<String> = std::env::args_os()
        .skip(1)
        .map(|w| w.to_string_lossy().into_owned())
        .collect();
    let Some(asked) = asked(&words) else {
        eprintln!("{USAGE}");
        return ExitCode::from(2);
    };
    let worker = thread::Builder::new()
        .stack_size(STACK)
        .spawn(move || match asked {
            Asked::Lines(mode) => run(mode),
            Asked::Savings => savings(),
        });
    let worker = match worker {
        Ok(worker) => worker,
        Err(e) => {
            eprintln!("A thread with a stack of {STACK} bytes cannot be started: {e}.");
            return ExitCode::from(2);
        }
    };
    match worker.join() {
        Ok(Ok(status)) => status,
        Ok(Err(e)) if e.kind() == io::ErrorKind::BrokenPipe => ExitCode::from(2),
        Ok(Err(e)) => {
            eprintln!("Reading or writing failed: {e}.");
            ExitCode::from(2)
        }
        Err(_) => ExitCode::from(2),
    }
}

fn run(mode: Mode) -> io::Result<ExitCode> {
    let mut store = store(mode == Mode::Tree);
    let mut input = BufReader::with_capacity(1 << 16, io::stdin());
    let mut output = BufWriter::with_capacity(1 << 16, io::stdout());
    let mut line = Vec::new();
    let (mut no_line, mut broken) = (0u64, 0u64);
    loop {
        if input.buffer().is_empty() {
            output.flush()?;
        }
        line.clear();
        if input.read_until(b'\n', &mut line)? == 0 {
            break;
        }
        // A program and its environment: the second line stands behind the first one's end.
        if mode == Mode::EvaluateText && line.last() == Some(&b'\n') {
            input.read_until(b'\n', &mut line)?;
        }
        if line.last() == Some(&b'\n') {
            line.pop();
        }
        let said = answer(mode, &mut store, &line);
        no_line += said.no_line as u64;
        broken += said.broken as u64;
        output.write_all(said.line.as_bytes())?;
        output.write_all(b"\n")?;
    }
    output.flush()?;
    if broken > 0 {
        eprintln!("On {broken} of the lines the oracle contradicts itself; look for `broken`.");
        return Ok(ExitCode::from(2));
    }
    Ok(status(no_line))
}

fn savings() -> io::Result<ExitCode> {
    let mut input = BufReader::with_capacity(1 << 16, io::stdin());
    let mut output = BufWriter::with_capacity(1 << 16, io::stdout());
    let beside = print_report(&mut store(false), &mut input, &mut output)?;
    if beside.lost > 0 {
        eprintln!("The report is without {} forms: the oracle gave up on them or contradicts itself.", beside.lost);
        return Ok(ExitCode::from(2));
    }
    Ok(status(beside.no_lines))
}

fn status(no_line: u64) -> ExitCode {
    if no_line > 0 {
        eprintln!("Of the lines, {no_line} did not hold hex as this mode wants it, or lacked a second one; they are answered `no line`.");
        return ExitCode::from(1);
    }
    ExitCode::SUCCESS
}
