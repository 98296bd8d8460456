//! The seventeen refusals, each with its number.

use std::error::Error;
use std::fmt;

/// Why a form or a text was not answered, or not added to a report. The numbers are part of what is promised: `Refusal::Fails as u8` is 8.
#[derive(Clone, Copy, Debug, PartialEq, Eq, PartialOrd, Ord, Hash)]
#[repr(u8)]
pub enum Refusal {
    RoomSmall = 1,
    FormLong = 2,
    EndsEarly = 3,
    BadPrefix = 4,
    AtomLong = 5,
    BytesAfter = 6,
    UnitsOut = 7,
    Fails = 8,
    NoOperator = 9,
    StepsOut = 10,
    PathLong = 11,
    PassesOut = 12,
    TooDeep = 13,
    OutputShort = 14,
    NoParse = 15,
    TextLong = 16,
    ReportFull = 17,
}

use Refusal::*;

impl Refusal {
    /// All of them, in the order of their numbers.
    pub const ALL: [Refusal; 17] = [
        RoomSmall, FormLong, EndsEarly, BadPrefix, AtomLong, BytesAfter, UnitsOut, Fails, NoOperator, StepsOut, PathLong,
        PassesOut, TooDeep, OutputShort, NoParse, TextLong, ReportFull,
    ];

    pub fn number(self) -> u8 {
        self as u8
    }

    pub fn from_number(number: u8) -> Option<Refusal> {
        Refusal::ALL.get(usize::from(number).checked_sub(1)?).copied()
    }

    pub fn when(self) -> &'static str {
        match self {
            RoomSmall => "lent working room too small",
            FormLong => "form over 8,192 bytes",
            EndsEarly => "form ends early",
            BadPrefix => "prefix not carried: fc, fd or fe",
            AtomLong => "atom over 64 bytes",
            BytesAfter => "bytes after the form",
            UnitsOut => "units run out",
            Fails => "evaluation fails",
            NoOperator => "evaluation meets an operator not carried, or an operator that is a pair",
            StepsOut => "a 4,097th evaluation step",
            PathLong => "the path rule's result needs over 64 bytes",
            PassesOut => "a 65,537th pass",
            TooDeep => "a driver call at nesting 65",
            OutputShort => "result longer than the output",
            NoParse => "text that does not parse",
            TextLong => "text over 32,768 bytes",
            ReportFull => "a 4,097th form of a report",
        }
    }
}

impl fmt::Display for Refusal {
    fn fmt(&self, f: &mut fmt::Formatter<'_>) -> fmt::Result {
        write!(f, "refusal {}: {}", self.number(), self.when())
    }
}

impl Error for Refusal {}
