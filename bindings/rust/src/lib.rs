//! The classic Chialisp optimiser (stage 2), an evaluator, a matcher and a reader of the serialised form and of the readable
//! notation, each proved in Rattle to meet its contract, as a safe Rust library.
//!
//! [`Umlazgrin`] owns the working room and an output and hands out owned answers; [`lent`] has the functions on slices that
//! the caller lends. Give a thread that calls them 2 MiB of stack, which is what Rust gives one by itself: the most that a call was
//! seen to take is under 1.6 MiB.
//!
//! A form that is read may spell its lengths with spare bytes, as older exporters do; the answers are those of the shortest form. A
//! form that is written is always the shortest.
//!
//! ```
//! let mut u = umlazgrin::Umlazgrin::new();
//! let answer = u.optimise(&[0xff, 0x05, 0xff, 0x01, 0x80])?; // (f 1)
//! assert_eq!((answer.tree, answer.passes, answer.units, answer.mark), (vec![2], 1, 31, false));
//! assert_eq!(u.optimise(&[0x81, 0x05])?.tree, [0x05]); // an older exporter's spelling of the atom 5
//! assert_eq!(u.optimise(&[0xfc]).unwrap_err().number(), 4);
//! assert_eq!(u.optimise_text("(f (c 3 2))")?.text, "0x03");
//! assert_eq!(u.optimise_text("(f (c 3 2)").unwrap_err().number(), 15);
//! assert_eq!(u.text_fault("(f (c 3 2)")?, Some(10)); // at its end: a bracket is wanted
//! # Ok::<(), umlazgrin::Refusal>(())
//! ```

pub mod lent;
pub mod raw;
mod refusal;

pub use lent::{Added, Place, Savings};
pub use refusal::Refusal;

/// Bytes of working room that every function needs, at least.
pub const ROOM: usize = 65_536;
/// Bytes in a form, at most, as it is passed: the spare ones count.
pub const FORM: usize = 8_192;
/// Forms in a report of savings, at most.
pub const FORMS: usize = 4_096;
/// Bytes in a text, at most.
pub const TEXT: usize = 32_768;
/// Bytes of output, where the caller does not choose otherwise.
pub const OUTPUT: usize = 32_768;

/// A finished tree and what the run took. Where `mark` is false, the tree gives every value that the form gives, in every
/// environment.
#[derive(Clone, Debug, PartialEq, Eq)]
pub struct Answer {
    pub tree: Vec<u8>,
    pub passes: usize,
    pub units: usize,
    pub mark: bool,
}

/// A program's value, and what evaluating it took.
#[derive(Clone, Debug, PartialEq, Eq)]
pub struct Value {
    pub tree: Vec<u8>,
    pub steps: usize,
    pub units: usize,
}

/// A finished tree as text, and what the run took. `mark` is as in [`Answer`].
#[derive(Clone, Debug, PartialEq, Eq)]
pub struct TextAnswer {
    pub text: String,
    pub passes: usize,
    pub units: usize,
    pub mark: bool,
}

/// A program's value as text, and what evaluating it took.
#[derive(Clone, Debug, PartialEq, Eq)]
pub struct TextValue {
    pub text: String,
    pub steps: usize,
    pub units: usize,
}

/// A name, written as an atom, and the tree that it stands for.
#[derive(Clone, Debug, PartialEq, Eq)]
pub struct Binding {
    pub name: Vec<u8>,
    pub tree: Vec<u8>,
}

#[derive(Clone, Debug, PartialEq, Eq)]
pub enum Match {
    /// At most two, in the order in which they were bound.
    Bound(Vec<Binding>),
    /// Where the expression first disagrees with the pattern.
    NoMatch(Place),
    /// The pattern asks for a third name.
    TooManyNames,
}

/// The functions, with working room and output of their own.
pub struct Umlazgrin {
    room: Box<[u8]>,
    out: Box<[u8]>,
}

impl Default for Umlazgrin {
    fn default() -> Self {
        Umlazgrin::new()
    }
}

impl Umlazgrin {
    pub fn new() -> Self {
        Umlazgrin::with_output(OUTPUT)
    }

    /// A result of more than `length` bytes is [`Refusal::OutputShort`].
    pub fn with_output(length: usize) -> Self {
        Umlazgrin { room: vec![0; ROOM].into(), out: vec![0; length].into() }
    }

    pub fn optimise(&mut self, form: &[u8]) -> Result<Answer, Refusal> {
        let r = lent::optimise(form, &mut self.room, &mut self.out)?;
        Ok(Answer { tree: self.out[..r.length].to_vec(), passes: r.passes, units: r.units, mark: r.mark })
    }

    /// Works one form and adds it to the report, as answered or as refused. Its finished tree is held against [`OUTPUT`] bytes, whatever
    /// output this has.
    ///
    /// ```
    /// use umlazgrin::{Added, Refusal, Savings, Umlazgrin};
    /// let (mut u, mut report) = (Umlazgrin::new(), Savings::default());
    /// assert_eq!(u.add_form(&[0xff, 0x05, 0xff, 0x01, 0x80], &mut report), Added::Answered); // (f 1)
    /// assert_eq!(u.add_form(&[0xff, 0x05, 0xff, 0x80, 0x80], &mut report), Added::Refused(Refusal::Fails)); // (f 0)
    /// assert_eq!((report.before, report.after, report.rules[5]), (5, 1, 1));
    /// assert_eq!((report.forms(), report.answered, report.refused_with(Refusal::Fails)), (2, 1, 1));
    /// ```
    pub fn add_form(&mut self, form: &[u8], report: &mut Savings) -> Added {
        lent::add_form(form, &mut self.room, report)
    }

    pub fn evaluate(&mut self, program: &[u8], environment: &[u8]) -> Result<Value, Refusal> {
        let forms = [program, environment].concat();
        let r = lent::evaluate(&forms, program.len(), &mut self.room, &mut self.out)?;
        Ok(Value { tree: self.out[..r.length].to_vec(), steps: r.steps, units: r.units })
    }

    pub fn matches(&mut self, pattern: &[u8], expression: &[u8]) -> Result<Match, Refusal> {
        let forms = [pattern, expression].concat();
        let p = match lent::matches(&forms, pattern.len(), &mut self.room, &mut self.out)? {
            lent::Matched::NoMatch(place) => return Ok(Match::NoMatch(place)),
            lent::Matched::TooManyNames => return Ok(Match::TooManyNames),
            lent::Matched::Parts(p) => p,
        };
        let ends = [(0, p.name_1, p.node_1), (p.node_1, p.name_2, p.node_2)];
        let binding = |(from, name, node): &(usize, usize, usize)| Binding {
            name: self.out[*from..*name].to_vec(),
            tree: self.out[*name..*node].to_vec(),
        };
        Ok(Match::Bound(ends[..p.names].iter().map(binding).collect()))
    }

    /// Whether the bytes are a form within the limits, and the units that reading it costs.
    pub fn check(&mut self, form: &[u8]) -> Result<usize, Refusal> {
        lent::check(form, &mut self.room)
    }

    /// The form's tree written again, as the shortest form: the same bytes exactly where they were the shortest. What is written is
    /// read as the same tree.
    pub fn write(&mut self, form: &[u8]) -> Result<Vec<u8>, Refusal> {
        let r = lent::write(form, &mut self.room, &mut self.out)?;
        Ok(self.out[..r.length].to_vec())
    }

    /// The serialised form of the text's tree. A text is any bytes, a `&str` too.
    pub fn read_text(&mut self, text: impl AsRef<[u8]>) -> Result<Vec<u8>, Refusal> {
        let r = lent::read_text(text.as_ref(), &mut self.room, &mut self.out)?;
        Ok(self.out[..r.length].to_vec())
    }

    /// The form's tree as text: [`Umlazgrin::read_text`] makes of it what [`Umlazgrin::write`] makes of the form.
    pub fn write_text(&mut self, form: &[u8]) -> Result<String, Refusal> {
        let r = lent::write_text(form, &mut self.room, &mut self.out)?;
        Ok(self.written(r.length))
    }

    pub fn optimise_text(&mut self, text: impl AsRef<[u8]>) -> Result<TextAnswer, Refusal> {
        let r = lent::optimise_text(text.as_ref(), &mut self.room, &mut self.out)?;
        Ok(TextAnswer { text: self.written(r.length), passes: r.passes, units: r.units, mark: r.mark })
    }

    pub fn evaluate_text(
        &mut self, program: impl AsRef<[u8]>, environment: impl AsRef<[u8]>,
    ) -> Result<TextValue, Refusal> {
        let program = program.as_ref();
        let texts = [program, environment.as_ref()].concat();
        let r = lent::evaluate_text(&texts, program.len(), &mut self.room, &mut self.out)?;
        Ok(TextValue { text: self.written(r.length), steps: r.steps, units: r.units })
    }

    /// Where the text stops being one, as a count of the bytes before that place: at the first part that may not stand where it stands,
    /// or at the text's end where more is wanted. None where it parses, so exactly where [`Umlazgrin::read_text`] does not answer
    /// [`Refusal::NoParse`]; the one refusal is [`Refusal::TextLong`].
    pub fn text_fault(&mut self, text: impl AsRef<[u8]>) -> Result<Option<usize>, Refusal> {
        lent::text_fault(text.as_ref(), &mut self.room)
    }

    /// The writer has brackets, spaces, dots, names and hex digits only.
    fn written(&self, length: usize) -> String {
        String::from_utf8(self.out[..length].to_vec()).expect("a written text is ASCII")
    }
}
