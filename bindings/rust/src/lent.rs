//! The functions as they are proved: on slices that the caller lends. Nothing is allocated.
//!
//! Every refusal leaves `out` as it came in. An answer writes the first bytes of `out`, as many as it says, and none after
//! them. `room` is all zero after every return but [`Refusal::RoomSmall`], which leaves it as it came in. A text is any bytes.
//! [`add_form`] has no `out`: it adds to a report that the caller keeps.

use crate::raw;
use crate::refusal::Refusal;

/// What optimising took: the finished tree is the first `length` bytes of the output.
#[derive(Clone, Copy, Debug, PartialEq, Eq)]
pub struct Optimised {
    pub length: usize,
    pub passes: usize,
    pub units: usize,
    pub mark: bool,
}

/// What evaluating took: the value is the first `length` bytes of the output.
#[derive(Clone, Copy, Debug, PartialEq, Eq)]
pub struct Evaluated {
    pub length: usize,
    pub steps: usize,
    pub units: usize,
}

/// Where each written part ends; a part that is not there has no bytes.
#[derive(Clone, Copy, Debug, PartialEq, Eq)]
pub struct Parts {
    pub names: usize,
    pub name_1: usize,
    pub node_1: usize,
    pub name_2: usize,
    pub node_2: usize,
}

/// Where a match failed: the first place, left before right, at which the expression disagrees with the pattern. It is a path from the
/// expression's root, one number, its highest byte first. Its bits from the lowest are turns, 0 left and 1 right, up to the top
/// bit: the root is 1, its left part 2, its right part 3, the left part of that 5. All zero is a place deeper than 511 turns.
#[derive(Clone, Copy, Debug, PartialEq, Eq)]
pub struct Place(pub [u8; 64]);

impl Place {
    /// The path in its shortest bytes, none where the place is too deep. As an atom it is a program that gives the part of the
    /// expression that stands there.
    pub fn path(&self) -> &[u8] {
        let zeros = self.0.iter().take_while(|b| **b == 0).count();
        &self.0[zeros..]
    }

    pub fn is_too_deep(&self) -> bool {
        self.path().is_empty()
    }
}

#[derive(Clone, Copy, Debug, PartialEq, Eq)]
pub enum Matched {
    Parts(Parts),
    NoMatch(Place),
    TooManyNames,
}

#[derive(Clone, Copy, Debug, PartialEq, Eq)]
pub struct Written {
    pub length: usize,
    pub units: usize,
}

/// Totals over forms, at most [`crate::FORMS`]; the default is an empty report. Each form stands in one column: in `answered`, or in
/// `refused` at its refusal's number less 1. The others are about the answered forms alone: how many are marked; their bytes as they were
/// passed, and those of their finished trees; the greatest number of passes; and how often each of the eight rules ended a pass, at any
/// nesting, thrown-away work included.
#[derive(Clone, Copy, Debug, Default, PartialEq, Eq)]
#[repr(C)]
pub struct Savings {
    pub answered: u64,
    pub refused: [u64; 14],
    pub marked: u64,
    pub before: u64,
    pub after: u64,
    pub passes: u64,
    pub rules: [u64; 8],
}

impl Savings {
    /// How many forms were refused so. No form of a report is refused with more than 14.
    pub fn refused_with(&self, refusal: Refusal) -> u64 {
        self.refused.get(usize::from(refusal.number()) - 1).copied().unwrap_or(0)
    }

    /// How many forms there are. (The numbers of a report that was not made here may be too great for a sum.)
    pub fn forms(&self) -> u64 {
        self.refused.iter().fold(self.answered, |sum, count| sum.saturating_add(*count))
    }
}

/// What became of a form that was to be added to a report.
#[derive(Clone, Copy, Debug, PartialEq, Eq)]
pub enum Added {
    /// It is counted as answered.
    Answered,
    /// It is counted as refused, with one of the numbers 1 to 14.
    Refused(Refusal),
    /// It is not counted, [`Refusal::ReportFull`]: the report has [`crate::FORMS`] forms, or a number of 2^63 or more, which no report
    /// has that started as the default.
    Full,
}

impl Added {
    /// As the library returns it: 0, 1 to 14, or 17.
    pub fn number(self) -> u8 {
        match self {
            Added::Answered => 0,
            Added::Refused(refusal) => refusal.number(),
            Added::Full => Refusal::ReportFull.number(),
        }
    }
}

/// 0 is an answer; the library returns no other number than those of the enum.
fn refused(number: u8) -> Result<(), Refusal> {
    match number {
        0 => Ok(()),
        _ => Err(Refusal::from_number(number).expect("the library returns only the numbers of its contract")),
    }
}

// In each call below the slices are live for as long as it runs, and apart: `&mut` says so. That is all the library asks.

/// The form's tree, optimised and written to the front of `out`.
pub fn optimise(form: &[u8], room: &mut [u8], out: &mut [u8]) -> Result<Optimised, Refusal> {
    let mut report = [0; 4];
    let number = unsafe {
        raw::umlazgrin_optimise(
            form.as_ptr(), form.len(), room.as_mut_ptr(), room.len(), out.as_mut_ptr(), out.len(), &mut report,
        )
    };
    refused(number)?;
    let [length, passes, units, mark] = report;
    Ok(Optimised { length, passes, units, mark: mark == 1 })
}

/// The value of the program, the bytes of `forms` before `first`, in the environment, those from there on.
pub fn evaluate(forms: &[u8], first: usize, room: &mut [u8], out: &mut [u8]) -> Result<Evaluated, Refusal> {
    let mut report = [0; 3];
    let number = unsafe {
        raw::umlazgrin_evaluate(
            forms.as_ptr(), forms.len(), first, room.as_mut_ptr(), room.len(), out.as_mut_ptr(), out.len(), &mut report,
        )
    };
    refused(number)?;
    let [length, steps, units] = report;
    Ok(Evaluated { length, steps, units })
}

/// Matches the expression, the bytes of `forms` from `first` on, against the pattern, those before.
pub fn matches(forms: &[u8], first: usize, room: &mut [u8], out: &mut [u8]) -> Result<Matched, Refusal> {
    let (mut report, mut place) = ([0; 5], Place([0; 64]));
    let number = unsafe {
        raw::umlazgrin_match_place(
            forms.as_ptr(), forms.len(), first, room.as_mut_ptr(), room.len(), out.as_mut_ptr(), out.len(), &mut report,
            &mut place.0,
        )
    };
    match number {
        100 => return Ok(Matched::NoMatch(place)),
        101 => return Ok(Matched::TooManyNames),
        _ => refused(number)?,
    }
    let [names, name_1, node_1, name_2, node_2] = report;
    Ok(Matched::Parts(Parts { names, name_1, node_1, name_2, node_2 }))
}

/// The units that the form costs.
pub fn check(form: &[u8], room: &mut [u8]) -> Result<usize, Refusal> {
    let mut report = [0; 1];
    let number = unsafe {
        raw::umlazgrin_check(form.as_ptr(), form.len(), room.as_mut_ptr(), room.len(), &mut report)
    };
    refused(number)?;
    Ok(report[0])
}

/// The form's tree written again, as the shortest form: the same bytes exactly where they were the shortest.
pub fn write(form: &[u8], room: &mut [u8], out: &mut [u8]) -> Result<Written, Refusal> {
    let mut report = [0; 2];
    let number = unsafe {
        raw::umlazgrin_write(
            form.as_ptr(), form.len(), room.as_mut_ptr(), room.len(), out.as_mut_ptr(), out.len(), &mut report,
        )
    };
    refused(number)?;
    let [length, units] = report;
    Ok(Written { length, units })
}

/// Works one form, as [`optimise`] does with [`crate::OUTPUT`] bytes of output, and adds it to the report; where it is refused, too. Only
/// [`Added::Full`] leaves the report as it came in.
pub fn add_form(form: &[u8], room: &mut [u8], report: &mut Savings) -> Added {
    let number = unsafe {
        raw::umlazgrin_add_form(form.as_ptr(), form.len(), room.as_mut_ptr(), room.len(), report)
    };
    match refused(number) {
        Ok(()) => Added::Answered,
        Err(Refusal::ReportFull) => Added::Full,
        Err(refusal) => Added::Refused(refusal),
    }
}

// ---- the notation

/// The serialised form of the text's tree.
pub fn read_text(text: &[u8], room: &mut [u8], out: &mut [u8]) -> Result<Written, Refusal> {
    let mut report = [0; 2];
    let number = unsafe {
        raw::umlazgrin_read_text(
            text.as_ptr(), text.len(), room.as_mut_ptr(), room.len(), out.as_mut_ptr(), out.len(), &mut report,
        )
    };
    refused(number)?;
    let [length, units] = report;
    Ok(Written { length, units })
}

/// The form's tree written as text.
pub fn write_text(form: &[u8], room: &mut [u8], out: &mut [u8]) -> Result<Written, Refusal> {
    let mut report = [0; 2];
    let number = unsafe {
        raw::umlazgrin_write_text(
            form.as_ptr(), form.len(), room.as_mut_ptr(), room.len(), out.as_mut_ptr(), out.len(), &mut report,
        )
    };
    refused(number)?;
    let [length, units] = report;
    Ok(Written { length, units })
}

/// The text's tree, optimised and written as text to the front of `out`.
pub fn optimise_text(text: &[u8], room: &mut [u8], out: &mut [u8]) -> Result<Optimised, Refusal> {
    let mut report = [0; 4];
    let number = unsafe {
        raw::umlazgrin_optimise_text(
            text.as_ptr(), text.len(), room.as_mut_ptr(), room.len(), out.as_mut_ptr(), out.len(), &mut report,
        )
    };
    refused(number)?;
    let [length, passes, units, mark] = report;
    Ok(Optimised { length, passes, units, mark: mark == 1 })
}

/// The value, as text, of the program, whose text is the bytes of `texts` before `first`, in the environment, whose text is those
/// from there on.
pub fn evaluate_text(texts: &[u8], first: usize, room: &mut [u8], out: &mut [u8]) -> Result<Evaluated, Refusal> {
    let mut report = [0; 3];
    let number = unsafe {
        raw::umlazgrin_evaluate_text(
            texts.as_ptr(), texts.len(), first, room.as_mut_ptr(), room.len(), out.as_mut_ptr(), out.len(), &mut report,
        )
    };
    refused(number)?;
    let [length, steps, units] = report;
    Ok(Evaluated { length, steps, units })
}

/// Where the text stops being one, as a count of the bytes before that place; none where it parses.
pub fn text_fault(text: &[u8], room: &mut [u8]) -> Result<Option<usize>, Refusal> {
    let mut report = [0; 2];
    let number = unsafe {
        raw::umlazgrin_text_fault(text.as_ptr(), text.len(), room.as_mut_ptr(), room.len(), &mut report)
    };
    refused(number)?;
    let [found, place] = report;
    Ok((found == 1).then_some(place))
}
