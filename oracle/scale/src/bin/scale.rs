//! scale FAMILY [options of generate] [--spoil HEX]: runs the proved library and the Rust on every form of a family, in one process,
//! and compares outcome, report, every output byte and every room byte. Prints counts; stops at a difference, made small.

use std::collections::BTreeMap;
use std::process::ExitCode;
use std::time::Instant;

use generate::options::Options;
use generate::random::Random;
use generate::sink::Sink;
use oracle::savings::{Savings, COLUMNS, FORMS, NUMBERS};
use scale::lend::MOST_ROOM;
use scale::shrink::shrink;
use scale::{Both, Lengths, Said, Work};

#[derive(Default)]
struct Counts {
    forms: u64,
    answered: u64,
    marked: u64,
    gave_up: u64,
    numbers: BTreeMap<u8, u64>,
    /// Passes that each rule ended, over the answered forms.
    rules: [u64; 8],
}

impl Counts {
    fn count(&mut self, said: Said) {
        self.forms += 1;
        match said {
            Said::Answered { mark, rules } => {
                self.answered += 1;
                self.marked += mark as u64;
                for (sum, count) in self.rules.iter_mut().zip(rules) {
                    *sum += count;
                }
            }
            Said::Number(number) => *self.numbers.entry(number).or_default() += 1,
            Said::GaveUp => self.gave_up += 1,
        }
    }

    fn print(&self, what: &str) {
        if self.forms > 0 {
            let numbers: Vec<String> = self.numbers.iter().map(|(n, count)| format!("{n}:{count}")).collect();
            let rules: Vec<String> = (1..).zip(self.rules).map(|(rule, count)| format!("{rule}:{count}")).collect();
            let ended = if self.rules == [0; 8] { String::new() } else { format!(", passes ended by rules {}", rules.join(" ")) };
            println!(
                "{what}: forms {}, answered {}, marked {}, refused {}{ended}, gave up {}, different 0",
                self.forms, self.answered, self.marked, numbers.join(" "), self.gave_up
            );
        }
    }
}

struct Scale {
    both: Both,
    /// Chooses what is lent; another seed lends otherwise.
    random: Random,
    works: [Counts; 8],
}

const NAMES: [&str; 8] =
    ["optimise", "evaluate", "match", "check", "write", "match with its place", "savings", "savings, in a report with forms"];

impl Scale {
    fn one(&mut self, work: Work, forms: &[u8], lengths: Lengths) {
        let place = match work {
            Work::Optimise => 0,
            Work::Evaluate { .. } => 1,
            Work::Match { .. } => 2,
            Work::Check => 3,
            Work::Write => 4,
            Work::MatchPlace { .. } => 5,
            Work::AddForm { before } if before == Savings::default() => 6,
            Work::AddForm { .. } => 7,
        };
        match self.both.compare(work, forms, lengths) {
            Ok(said) => self.works[place].count(said),
            Err(difference) => self.stop(NAMES[place], work, forms, lengths, &difference),
        }
    }

    /// The usual lengths seven times in eight; otherwise a room that may be too small, or an output that may be too short.
    fn lengths(&mut self) -> Lengths {
        let usual = Lengths::USUAL;
        match self.random.below(32) {
            0 => Lengths { room: self.random.between(umlazgrin::ROOM - 2, MOST_ROOM), ..usual },
            1 => Lengths { out: self.random.below(12), ..usual },
            2 => Lengths { out: self.random.below(120), ..usual },
            3 => Lengths { room: self.random.below(MOST_ROOM), out: self.random.below(usual.out) },
            _ => usual,
        }
    }

    /// A report that other forms stand in: one that takes a form more, one that is full, or one with a number that is too large.
    fn report(&mut self) -> Savings {
        let random = &mut self.random;
        let mut numbers = [0; NUMBERS];
        let (columns, sums) = numbers.split_at_mut(COLUMNS);
        columns.fill_with(|| random.below(FORMS as usize / COLUMNS) as u64);
        // Of any size, but below 2^63.
        sums.fill_with(|| random.next() >> random.between(1, 63));
        let missing = FORMS - columns.iter().sum::<u64>();
        match random.below(8) {
            0 => columns[random.below(COLUMNS)] += missing,
            1 => columns[random.below(COLUMNS)] += missing - 1,
            2 => columns[random.below(COLUMNS)] = random.next() >> random.below(52),
            3 | 4 => numbers[random.below(NUMBERS)] |= 1 << 63,
            _ => {}
        }
        Savings::of(numbers)
    }

    fn forms(&mut self, name: &str, forms: &[&[u8]]) {
        let lengths = self.lengths();
        if let [first, second] = forms {
            let (both, first) = ([*first, *second].concat(), first.len());
            if name.starts_with("eval") {
                return self.one(Work::Evaluate { first }, &both, lengths);
            }
            self.one(Work::Match { first }, &both, lengths);
            return self.one(Work::MatchPlace { first }, &both, lengths);
        }
        self.one(Work::Optimise, forms[0], lengths);
        self.one(Work::AddForm { before: Savings::default() }, forms[0], lengths);
        match self.random.below(8) {
            0 => self.one(Work::Check, forms[0], lengths),
            1 => self.one(Work::Write, forms[0], lengths),
            2 => {
                let before = self.report();
                self.one(Work::AddForm { before }, forms[0], lengths);
            }
            _ => {}
        }
    }

    /// Prints the smallest differing form that is found, and ends the program.
    fn stop(&mut self, name: &str, work: Work, forms: &[u8], lengths: Lengths, difference: &str) -> ! {
        let differs = |form: &[u8]| !matches!(self.both.compare(work, form, lengths), Ok(_));
        // Of two forms neither is cut: where the one ends would move.
        let small = match work {
            Work::Evaluate { .. } | Work::Match { .. } | Work::MatchPlace { .. } => forms.to_vec(),
            _ => shrink(forms, differs),
        };
        let after: u64 = self.works.iter().map(|counts| counts.forms).sum();
        println!("DIFFERENT after {after} forms: {name}, {work:?}, {lengths:?}: {difference}");
        println!("met at   {}", hex(forms));
        println!("smallest {}", hex(&small));
        std::process::exit(1);
    }
}

fn hex(bytes: &[u8]) -> String {
    bytes.iter().map(|b| format!("{b:02x}")).collect()
}

fn run(options: Options, spoil: Option<Vec<u8>>) -> bool {
    let mut both = Both::new();
    both.spoil = spoil;
    let mut scale = Scale { both, random: Random::new(options.seed, 0x6c65_6e67_7468), works: Default::default() };
    let began = Instant::now();
    if !generate::print(&options, &mut Sink::new(|name, forms| scale.forms(name, forms))) {
        eprintln!("scale: no family is called {}", options.family);
        return false;
    }
    println!("family {}, seed {}, {:.0} seconds", options.family, options.seed, began.elapsed().as_secs_f64());
    for (name, counts) in NAMES.iter().zip(&scale.works) {
        counts.print(name);
    }
    true
}

fn main() -> ExitCode {
    let mut words: Vec<String> = std::env::args().skip(1).collect();
    let mut spoil = None;
    if let Some(at) = words.iter().position(|word| word == "--spoil") {
        spoil = words.get(at + 1).and_then(|text| oracle::form::from_hex(text.as_bytes()));
        words.drain(at..words.len().min(at + 2));
    }
    let options = match Options::from(words.into_iter()) {
        Ok(options) => options,
        Err(problem) => {
            eprintln!("scale: {problem}\n{}", generate::options::USAGE);
            return ExitCode::from(2);
        }
    };
    let worker = std::thread::Builder::new().stack_size(oracle::STACK).spawn(move || run(options, spoil));
    match worker.expect("a thread with a large stack").join() {
        Ok(true) => ExitCode::SUCCESS,
        _ => ExitCode::from(2),
    }
}
