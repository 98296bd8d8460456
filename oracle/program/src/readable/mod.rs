//! The readable notation (document 02, "Ask 1"): texts to trees and trees to texts.
//!
//! Written from the request's words alone, so that it is no copy of the port's. Nothing here goes deeper on the stack as a
//! text nests deeper: brackets may nest 32,768 deep.

mod faults;
mod number;
mod reader;
mod words;
mod writer;

pub use faults::text_fault;
pub use reader::read_text;
pub use writer::write_text;

/// The names in operator place, for the bytes 1 to 9.
const NAMES: &[u8; 9] = b"qaicfrlx=";

/// The byte whose list holds data.
const QUOTE: u8 = 1;
