//! libFuzzer's function: the first byte chooses the work and what is lent, the rest are the forms. A difference ends the program,
//! and libFuzzer keeps the input.
#![no_main]

use std::cell::RefCell;

use oracle::savings::Savings;
use scale::{Both, Lengths, Work};

thread_local! {
    static BOTH: RefCell<Option<Both>> = const { RefCell::new(None) };
}

/// Half of all first bytes mean the optimiser with the usual lengths; `build` writes 0 before each form that it starts from, and
/// 11, a report over that form.
fn chosen(choice: u8, argument: u8, length: usize) -> (Work, Lengths) {
    let usual = Lengths::USUAL;
    let first = argument as usize % (length + 1);
    match choice % 16 {
        8 => (Work::Optimise, Lengths { out: argument as usize, ..usual }),
        9 => (Work::Optimise, Lengths { room: umlazgrin::ROOM - 1 + argument as usize % 4, ..usual }),
        10 => (Work::Evaluate { first }, usual),
        11 => (Work::AddForm { before: Savings::default() }, usual),
        12 => (Work::Match { first }, usual),
        13 => (Work::MatchPlace { first }, usual),
        14 => (Work::Check, usual),
        15 => (Work::Write, Lengths { out: argument as usize * 4, ..usual }),
        _ => (Work::Optimise, usual),
    }
}

/// SPOIL, hex in the environment, makes forms with these bytes differ: a trial of the fuzzer itself.
fn begun() -> Both {
    let mut both = Both::new();
    both.spoil = std::env::var("SPOIL").ok().and_then(|text| oracle::form::from_hex(text.as_bytes()));
    both
}

/// # Safety
/// libFuzzer calls it, with a pointer to `size` bytes.
#[no_mangle]
pub unsafe extern "C" fn LLVMFuzzerTestOneInput(data: *const u8, size: usize) -> i32 {
    if size < 2 {
        return 0;
    }
    let data = unsafe { std::slice::from_raw_parts(data, size) };
    let forms = &data[2..];
    let (work, lengths) = chosen(data[0], data[1], forms.len());
    BOTH.with_borrow_mut(|both| {
        // The main thread has a stack of `oracle::STACK` bytes: `run` sees to it.
        let both = both.get_or_insert_with(begun);
        if let Err(difference) = both.compare(work, forms, lengths) {
            eprintln!("DIFFERENT: {work:?}, {lengths:?}: {difference}");
            std::process::abort();
        }
    });
    0
}
