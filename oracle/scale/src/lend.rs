//! The library's side: what is lent to it, and what it left there.

use oracle::savings::NUMBERS;
use umlazgrin::raw;

use crate::rust::{Want, NO_MATCH, PLACE};
use crate::{Lengths, Work};

/// The most that is lent; what is not lent of it must stay as it is too.
pub const MOST_ROOM: usize = umlazgrin::ROOM + 64;
pub const MOST_OUT: usize = umlazgrin::OUTPUT;

/// What a report holds before.
const BEFORE: usize = 0x5eed_5eed_5eed;

pub struct Lent {
    room: Vec<u8>,
    out: Vec<u8>,
    report: [usize; 5],
    place: [u8; PLACE],
    savings: [u64; NUMBERS],
    number: u8,
    /// What room and output hold before a call: bytes without order.
    noise: Vec<u8>,
    zeros: Vec<u8>,
}

impl Lent {
    pub fn new() -> Self {
        let mut random = generate::random::Random::new(0x6e6f_6973_65, 0);
        Lent {
            room: vec![0; MOST_ROOM],
            out: vec![0; MOST_OUT],
            report: [0; 5],
            place: [0; PLACE],
            savings: [0; NUMBERS],
            number: 0,
            noise: (0..MOST_ROOM).map(|_| random.next() as u8).collect(),
            zeros: vec![0; MOST_ROOM],
        }
    }

    /// One call, on lent bytes full of noise.
    pub fn asked(&mut self, work: Work, forms: &[u8], lengths: Lengths) {
        self.room.copy_from_slice(&self.noise);
        self.out.copy_from_slice(&self.noise[..MOST_OUT]);
        self.report = [BEFORE; 5];
        self.place.copy_from_slice(&self.noise[..PLACE]);
        let (form, count) = (forms.as_ptr(), forms.len());
        let (room, room_length) = (self.room[..lengths.room].as_mut_ptr(), lengths.room);
        let (out, out_length) = (self.out[..lengths.out].as_mut_ptr(), lengths.out);
        let report = self.report.as_mut_ptr();
        let place = self.place.as_mut_ptr();
        if let Work::AddForm { before } = work {
            self.savings = before.numbers();
        }
        let savings = self.savings.as_mut_ptr();
        // Each slice is live, apart from the others and as long as it says; the report has room for the longest.
        self.number = unsafe {
            match work {
                Work::Optimise => {
                    raw::umlazgrin_optimise(form, count, room, room_length, out, out_length, report.cast())
                }
                Work::Evaluate { first } => {
                    raw::umlazgrin_evaluate(form, count, first, room, room_length, out, out_length, report.cast())
                }
                Work::Match { first } => {
                    raw::umlazgrin_match(form, count, first, room, room_length, out, out_length, report.cast())
                }
                Work::MatchPlace { first } => {
                    let report = report.cast();
                    raw::umlazgrin_match_place(form, count, first, room, room_length, out, out_length, report, place.cast())
                }
                Work::Check => raw::umlazgrin_check(form, count, room, room_length, report.cast()),
                Work::Write => raw::umlazgrin_write(form, count, room, room_length, out, out_length, report.cast()),
                Work::AddForm { .. } => raw::umlazgrin_add_form(form, count, room, room_length, savings.cast()),
            }
        };
    }

    /// Compares what the call returned and left with what it should have; the error says what differs.
    pub fn same_as(&self, want: &Want, lengths: Lengths) -> Result<(), String> {
        let (number, bytes, report): (u8, &[u8], &[usize]) = match want {
            Want::Answer { bytes, report } => (0, bytes, report),
            Want::Number(number) => (*number, &[], &[]),
            Want::NoMatch { .. } => (NO_MATCH, &[], &[]),
            Want::Added { number, .. } => (*number, &[], &[]),
            _ => return Ok(()),
        };
        if self.number != number {
            return Err(format!("the library returns {}, the Rust {number}", self.number));
        }
        let reported = &self.report[..report.len()];
        if reported != report || self.report[report.len()..].iter().any(|n| *n != BEFORE) {
            return Err(format!("the library reports {:?}, the Rust {report:?}", self.report));
        }
        if let Want::Added { after, .. } = want {
            same_numbers(&self.savings, &after.numbers())?;
        }
        let place = if let Want::NoMatch { place } = want { &place[..] } else { &self.noise[..PLACE] };
        if self.place != place {
            return Err(format!("the library says the place {:02x?}, the Rust {place:02x?}", self.place));
        }
        let (head, tail) = self.out.split_at(bytes.len());
        if head != bytes || tail != &self.noise[bytes.len()..MOST_OUT] {
            return Err("the output differs".to_string());
        }
        let after = if number == 1 { &self.noise[..lengths.room] } else { &self.zeros[..lengths.room] };
        let (lent, kept) = self.room.split_at(lengths.room);
        if lent != after || kept != &self.noise[lengths.room..] {
            return Err("the room differs".to_string());
        }
        Ok(())
    }
}

/// The first number of a report that differs, in the order of the C structure.
fn same_numbers(said: &[u64; NUMBERS], wanted: &[u64; NUMBERS]) -> Result<(), String> {
    match said.iter().zip(wanted).position(|(one, other)| one != other) {
        None => Ok(()),
        Some(at) => Err(format!("number {} of {NUMBERS} in the library's report is {}, the Rust's {}", at + 1, said[at], wanted[at])),
    }
}

impl Default for Lent {
    fn default() -> Self {
        Lent::new()
    }
}
