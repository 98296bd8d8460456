//! The static library's functions, unsafe as C has them: bindings/c/umlazgrin.h says what the caller owes. A slice is a pointer and
//! a length, a report an array of numbers, or [`Savings`], which is laid out as C has it. [`crate::lent`] has them safe.

use crate::lent::Savings;

extern "C" {
    pub fn umlazgrin_optimise(
        form: *const u8, form_length: usize, room: *mut u8, room_length: usize, out: *mut u8, out_length: usize,
        report: *mut [usize; 4],
    ) -> u8;
    pub fn umlazgrin_evaluate(
        forms: *const u8, forms_length: usize, first: usize, room: *mut u8, room_length: usize, out: *mut u8,
        out_length: usize, report: *mut [usize; 3],
    ) -> u8;
    pub fn umlazgrin_match(
        forms: *const u8, forms_length: usize, first: usize, room: *mut u8, room_length: usize, out: *mut u8,
        out_length: usize, report: *mut [usize; 5],
    ) -> u8;
    pub fn umlazgrin_match_place(
        forms: *const u8, forms_length: usize, first: usize, room: *mut u8, room_length: usize, out: *mut u8,
        out_length: usize, report: *mut [usize; 5], place: *mut [u8; 64],
    ) -> u8;
    pub fn umlazgrin_check(
        form: *const u8, form_length: usize, room: *mut u8, room_length: usize, report: *mut [usize; 1],
    ) -> u8;
    pub fn umlazgrin_write(
        form: *const u8, form_length: usize, room: *mut u8, room_length: usize, out: *mut u8, out_length: usize,
        report: *mut [usize; 2],
    ) -> u8;
    pub fn umlazgrin_add_form(
        form: *const u8, form_length: usize, room: *mut u8, room_length: usize, report: *mut Savings,
    ) -> u8;
    pub fn umlazgrin_read_text(
        text: *const u8, text_length: usize, room: *mut u8, room_length: usize, out: *mut u8, out_length: usize,
        report: *mut [usize; 2],
    ) -> u8;
    pub fn umlazgrin_write_text(
        form: *const u8, form_length: usize, room: *mut u8, room_length: usize, out: *mut u8, out_length: usize,
        report: *mut [usize; 2],
    ) -> u8;
    pub fn umlazgrin_optimise_text(
        text: *const u8, text_length: usize, room: *mut u8, room_length: usize, out: *mut u8, out_length: usize,
        report: *mut [usize; 4],
    ) -> u8;
    pub fn umlazgrin_evaluate_text(
        texts: *const u8, texts_length: usize, first: usize, room: *mut u8, room_length: usize, out: *mut u8,
        out_length: usize, report: *mut [usize; 3],
    ) -> u8;
    pub fn umlazgrin_text_fault(
        text: *const u8, text_length: usize, room: *mut u8, room_length: usize, report: *mut [usize; 2],
    ) -> u8;
}
