//! libFuzzer's function: an input is a text, up to its first LF. The proved programs `read_text` and `text_fault`, children asked by the
//! line, must say of it what the oracle's modes `read-text` and `text-fault` say. A difference or a child's end ends the program, and
//! libFuzzer keeps the input.
#![no_main]

use std::cell::RefCell;
use std::io::{BufRead, BufReader, Error, ErrorKind, Write};
use std::process::{abort, Child, ChildStdin, ChildStdout, Command, Stdio};
use std::thread::sleep;
use std::time::Duration;

use clvm_rs::allocator::Allocator;
use oracle::modes::{answer, Mode};

thread_local! {
    static BOTH: RefCell<Option<Both>> = const { RefCell::new(None) };
}

/// A proved program as a child, and the oracle's mode that it is held against.
struct Asked {
    mode: Mode,
    child: Child,
    questions: ChildStdin,
    answers: BufReader<ChildStdout>,
}

impl Asked {
    /// `variable` names the child's command, which `run` sets. It gets the usual stack: this program's own is far larger.
    fn new(mode: Mode, variable: &str) -> Asked {
        let command = std::env::var(variable).unwrap_or_else(|_| panic!("{variable} is the command of a proved program"));
        let mut child = Command::new("sh")
            .args(["-c", &format!("ulimit -s 8192 && exec {command}")])
            .stdin(Stdio::piped())
            .stdout(Stdio::piped())
            .spawn()
            .expect("the child starts");
        Asked { mode, questions: child.stdin.take().unwrap(), answers: BufReader::new(child.stdout.take().unwrap()), child }
    }

    /// The child's line of answer.
    fn ask(&mut self, text: &[u8]) -> Result<Vec<u8>, Error> {
        self.questions.write_all(&[text, b"\n"].concat())?;
        let mut line = Vec::new();
        self.answers.read_until(b'\n', &mut line)?;
        // Without a line's end the child has ended; what stands behind one was not asked for.
        if line.pop() != Some(b'\n') {
            return Err(ErrorKind::UnexpectedEof.into());
        }
        line.extend_from_slice(self.answers.buffer());
        Ok(line)
    }

    fn compare(&mut self, store: &mut Allocator, text: &[u8]) -> Result<(), String> {
        let said = match self.ask(text) {
            Ok(said) => said,
            Err(error) => {
                // Its status is there a moment after its pipes close.
                sleep(Duration::from_millis(200));
                return Err(format!("the child does not answer: {error}; its status: {:?}", self.child.try_wait()));
            }
        };
        let wanted = answer(self.mode, store, text).line;
        if said != wanted.as_bytes() {
            return Err(format!("the oracle says\n{wanted}\nthe child says\n{}", said.escape_ascii()));
        }
        Ok(())
    }
}

struct Both {
    store: Allocator,
    programs: [Asked; 2],
    texts: u64,
    spoil: Option<Vec<u8>>,
}

impl Both {
    /// SPOIL, hex, makes texts with these bytes differ: a trial of the fuzzer itself.
    fn new() -> Both {
        let spoil = std::env::var("SPOIL").ok().filter(|text| !text.is_empty());
        Both {
            store: oracle::store(false),
            programs: [Asked::new(Mode::ReadText, "READ_TEXT"), Asked::new(Mode::TextFault, "TEXT_FAULT")],
            texts: 0,
            spoil: spoil.map(|text| oracle::form::from_hex(text.as_bytes()).expect("SPOIL is hex, in lower case")),
        }
    }

    fn compare(&mut self, text: &[u8]) -> Result<(), String> {
        self.texts += 1;
        for program in &mut self.programs {
            program.compare(&mut self.store, text)?;
        }
        if self.spoil.as_ref().is_some_and(|s| text.windows(s.len()).any(|w| w == s)) {
            return Err("the bytes of SPOIL are in the text".to_string());
        }
        Ok(())
    }
}

extern "C" {
    fn signal(number: i32, action: usize) -> usize;
}

/// # Safety
/// libFuzzer calls it once, before anything else.
#[no_mangle]
pub unsafe extern "C" fn LLVMFuzzerInitialize(_: *const i32, _: *const *const *const u8) -> i32 {
    // SIGPIPE is ignored, as Rust's own `main` would have it: a child that ended is an error to report.
    unsafe { signal(13, 1) };
    0
}

/// # Safety
/// libFuzzer calls it, with a pointer to `size` bytes.
#[no_mangle]
pub unsafe extern "C" fn LLVMFuzzerTestOneInput(data: *const u8, size: usize) -> i32 {
    let data = if size == 0 { &[] } else { unsafe { std::slice::from_raw_parts(data, size) } };
    let text = data.split(|c| *c == b'\n').next().unwrap_or(data);
    BOTH.with_borrow_mut(|both| {
        // The main thread has a stack of `oracle::STACK` bytes: `run` sees to it.
        let both = both.get_or_insert_with(Both::new);
        if let Err(difference) = both.compare(text) {
            eprintln!("DIFFERENT, text {} of these children, \"{}\": {difference}", both.texts, text.escape_ascii());
            abort();
        }
    });
    0
}
