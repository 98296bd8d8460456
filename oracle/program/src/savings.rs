//! The report over a list of forms (document 02, "Ask 2"): sums over what the mode `full --rules` has of each form.

use std::io::{self, BufRead, Write};
use std::panic::{catch_unwind, resume_unwind, AssertUnwindSafe};

use clvm_rs::allocator::Allocator;
use clvm_rs::error::EvalErr;
use clvm_rs::run::GaveUp;

use crate::form::from_hex;
use crate::modes::{full, Answer, OUTPUT};

/// The most forms that a report has.
pub const FORMS: u64 = 4_096;
/// The refusal of one form more.
pub const TOO_MANY: u8 = 17;
/// So many columns a report has, each form standing in one, and so many numbers.
pub const COLUMNS: usize = 15;
pub const NUMBERS: usize = 27;

#[derive(Clone, Copy, Default, PartialEq, Eq, Debug)]
pub struct Savings {
    pub answered: u64,
    /// From refusal 1 on.
    pub refused: [u64; 14],
    pub marked: u64,
    /// Bytes of the answered forms as submitted, and of their finished trees.
    pub before: u64,
    pub after: u64,
    /// The greatest number of an answered form.
    pub passes: u64,
    /// How often each rule ended a pass, in answered forms.
    pub rules: [u64; 8],
}

impl Savings {
    /// Each form stands in one column, answered or a refusal. A report that a caller makes up may have any numbers.
    pub fn forms(&self) -> u64 {
        self.refused.iter().fold(self.answered, |sum, count| sum.saturating_add(*count))
    }

    /// All numbers, in the order in which they are printed: first the columns that forms stand in.
    pub fn numbers(&self) -> [u64; NUMBERS] {
        let sums = [self.marked, self.before, self.after, self.passes];
        let all = [&[self.answered][..], &self.refused, &sums, &self.rules].concat();
        all.try_into().expect("all numbers")
    }

    /// The report with these numbers.
    pub fn of(numbers: [u64; NUMBERS]) -> Self {
        let [answered, rest @ ..] = numbers;
        let (columns, rest) = rest.split_at(COLUMNS - 1);
        let (sums, rules) = rest.split_at(4);
        Savings {
            answered,
            refused: columns.try_into().expect("14 refusals"),
            marked: sums[0],
            before: sums[1],
            after: sums[2],
            passes: sums[3],
            rules: rules.try_into().expect("8 rules"),
        }
    }

    /// Works one form into the report and says 0 or its refusal; where the report is full it stays as it is. The error is what the text
    /// complains of. It unwinds where the form is given up.
    pub fn add(&mut self, store: &mut Allocator, form: &[u8]) -> Result<u8, EvalErr> {
        if self.forms() >= FORMS {
            return Ok(TOO_MANY);
        }
        match full(store, form, OUTPUT) {
            Ok(answer) => {
                self.add_answer(form, &answer, &store.run.ended);
                Ok(0)
            }
            Err(EvalErr::Refused(number)) => {
                self.refused[number as usize - 1] += 1;
                Ok(number)
            }
            Err(complaint) => Err(complaint),
        }
    }

    fn add_answer(&mut self, form: &[u8], answer: &Answer, ended: &[u64; 8]) {
        self.answered += 1;
        self.marked += answer.mark as u64;
        self.before += form.len() as u64;
        self.after += answer.tree.len() as u64;
        self.passes = self.passes.max(answer.passes);
        for (sum, count) in self.rules.iter_mut().zip(ended) {
            *sum += count;
        }
    }

    fn print(&self, output: &mut dyn Write) -> io::Result<()> {
        writeln!(output, "forms {}", self.forms())?;
        writeln!(output, "answered {}", self.answered)?;
        for (at, count) in self.refused.iter().enumerate() {
            writeln!(output, "refused {} {count}", at + 1)?;
        }
        writeln!(output, "marked {}", self.marked)?;
        writeln!(output, "bytes {} {}", self.before, self.after)?;
        writeln!(output, "passes {}", self.passes)?;
        write!(output, "rules")?;
        for count in self.rules {
            write!(output, " {count}")?;
        }
        writeln!(output)
    }
}

/// What a list had beside the forms of its report.
#[derive(Default)]
pub struct Beside {
    pub no_lines: u64,
    /// Forms that were given up, or of which the text complained: the report is without them.
    pub lost: u64,
}

/// Prints what the program prints for a list: `no line` for each line that is no form, then the report, then perhaps refusal 17. Nothing
/// is read behind the form that gets it.
pub fn print_report(store: &mut Allocator, input: &mut dyn BufRead, output: &mut dyn Write) -> io::Result<Beside> {
    let (mut savings, mut beside) = (Savings::default(), Beside::default());
    let (mut line, mut too_many) = (Vec::new(), false);
    while !too_many && next_line(input, &mut line)? {
        match from_hex(&line) {
            None => {
                beside.no_lines += 1;
                writeln!(output, "no line")?;
                output.flush()?;
            }
            Some(form) => match added(&mut savings, store, &form) {
                Some(number) => too_many = number == TOO_MANY,
                None => beside.lost += 1,
            },
        }
    }
    savings.print(output)?;
    if too_many {
        writeln!(output, "no {TOO_MANY}")?;
    }
    output.flush()?;
    Ok(beside)
}

/// The last line needs no end.
fn next_line(input: &mut dyn BufRead, line: &mut Vec<u8>) -> io::Result<bool> {
    line.clear();
    let read = input.read_until(b'\n', line)?;
    if line.last() == Some(&b'\n') {
        line.pop();
    }
    Ok(read > 0)
}

/// What was said of the form; nothing where it is lost.
fn added(savings: &mut Savings, store: &mut Allocator, form: &[u8]) -> Option<u8> {
    match catch_unwind(AssertUnwindSafe(|| savings.add(store, form))) {
        Ok(said) => said.ok(),
        Err(thrown) if thrown.is::<GaveUp>() => None,
        Err(thrown) => resume_unwind(thrown),
    }
}
