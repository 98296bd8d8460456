//! Texts at every limit of the readable notation and one past it, alone and two limits at once. Where a name ends in a number,
//! that refusal is meant.

use crate::decimal::digits;
use crate::limits::units::{pad, ALL as UNITS};
use crate::random::Random;
use crate::sink::Sink;
use crate::spelling::{plain, spelled};
use crate::tree::*;

const TEXT: usize = 32768;
const FORM: usize = 8192;

pub fn print(sink: &mut Sink) {
    lengths(sink);
    forms(sink);
    atoms(sink);
    units_and_atoms(sink);
    numbers(sink);
    long_numbers(sink);
    brackets(sink);
    dots(sink);
    bytes(sink);
}

fn put(sink: &mut Sink, name: &str, text: impl AsRef<[u8]>) {
    sink.text(name, text.as_ref());
}

/// `before`, some number of `fill`, `after`: exactly `total` bytes, where `fill` is one byte.
fn filled(total: usize, before: &str, fill: &str, after: &str) -> String {
    format!("{before}{}{after}", fill.repeat(total - before.len() - after.len()))
}

/// 32,768 bytes of text, whatever they are; and lines far longer.
fn lengths(sink: &mut Sink) {
    let kinds = [
        ("", " ", "5"), ("5", "\t", ""), ("", "\r", "(f 1)"), ("(f", " ", "1)"), ("(f 1)", " ", "\r"), ("", "0", ""), ("-", "0", "7"),
        ("", " ", ""), ("\"", "a", "\""), ("(q . \"", "~", "\")"), ("\"", "a", ""), ("", "(", ""), ("", ")", ""), ("", "a", ""),
        ("(", " ", ")"), ("(q", " ", ""), ("", "\"", ""), ("(5 .", " ", "6)"), ("(5 .", "\t", "6 7)"), ("", "\x00", ""),
    ];
    for (before, fill, after) in kinds {
        for total in [TEXT - 1, TEXT, TEXT + 1] {
            put(sink, "text-length", filled(total, before, fill, after));
        }
    }
    for total in [TEXT + 2, 36864, 40959, 65535, 65536, 65537, 100_000] {
        put(sink, "text-length-16", filled(total, "", " ", "5"));
        put(sink, "text-length-16", filled(total, "5", " ", ""));
    }
    for bytes in [TEXT / 2 - 2, TEXT / 2 - 1, TEXT / 2] {
        put(sink, "text-length", format!("0x{}", "ab".repeat(bytes)));
    }
}

/// 8,192 bytes of form: nils in a list cost few units, and one atom at the end makes up the length.
fn forms(sink: &mut Sink) {
    for last in ["5", "0x80", "-1", "200", "0x8080", "0x808080", "\"ab\"", "()", "(5)", ". 5", ". 0x80", ". \"abc\"", ". ()"] {
        for nils in 4090..=4096 {
            put(sink, "text-form", format!("({} {last})", "() ".repeat(nils).trim_end()));
        }
    }
    for nils in [4094, 4095] {
        put(sink, "text-form", format!("({})", "0 ".repeat(nils)));
        put(sink, "text-form", format!("({})", "\"\"".repeat(nils)));
        put(sink, "text-form", format!("(q{})", "()".repeat(nils)));
    }
    // Too long, and something else besides: first in the text, last in it, or both.
    let long = "() ".repeat(4097);
    let wide = "0x80".to_string() + &"80".repeat(64);
    for (before, after) in [
        ("(", ")"), ("(", ""), ("", ")"), ("(q ", " f)"), ("(c ", " f)"), ("(c f ", ")"), ("(c ", " . 5 6)"), ("(c . ", ")"), ("(0x5 ", ")"),
        ("(", " \")"), ("(", "))"), ("(", ") 5"), ("(q ", "(f))"), ("(f ", "(f))"), ("(q (f) ", ")"), ("+5 (", ")"), ("(", " 0x)"), ("(.", ")"),
    ] {
        put(sink, "text-form-and", format!("{before}{long}{after}"));
    }
    put(sink, "text-form-and-2", format!("({wide} {long})"));
    put(sink, "text-form-and-2", format!("({long} {wide})"));
    put(sink, "text-form-and-2", format!("({})", "5 ".repeat(4096)));
    put(sink, "text-form-and-7", format!("({})", "5 ".repeat(4095)));
    put(sink, "text-form-and-15", format!("({} 5", "5 ".repeat(4096)));
}

/// So many bytes of 7e, in each spelling.
fn spellings(length: usize) -> [String; 3] {
    [format!("0x{}", "7e".repeat(length)), format!("\"{}\"", "~".repeat(length)), digits(&vec![0x7e; length])]
}

/// Atoms of 64 and 65 bytes, and as long as a form may be.
fn atoms(sink: &mut Sink) {
    for length in [63, 64, 65, 66, 255, 256, FORM - 66, FORM - 2, FORM - 1, FORM, FORM + 1] {
        for atom in spellings(length) {
            put(sink, "text-atom", &atom);
            if length < 256 {
                put(sink, "text-atom", format!("(q . {atom})"));
                put(sink, "text-atom", format!("({atom} f)"));
                put(sink, "text-atom", format!("(({atom}) (f {atom}))"));
            }
        }
    }
    // In a list an atom of the form's whole length but for what stands around it.
    for length in [FORM - 6, FORM - 5, FORM - 4, FORM - 3] {
        for atom in spellings(length) {
            put(sink, "text-atom-in-list", format!("(f {atom})"));
            put(sink, "text-atom-in-list", format!("(q . {atom})"));
        }
    }
}

/// 32,768 units, and which of 5 and 7 the form meets first: a list's pairs are charged behind it, a nest's on the way.
fn units_and_atoms(sink: &mut Sink) {
    let mut random = Random::new(1, 1);
    for total in [UNITS - 1, UNITS, UNITS + 1, UNITS + 13] {
        for tree in [quote(pad(total - 13)), pair(byte(F), pad(total - 13)), pad(total)] {
            put(sink, "text-units", plain(&tree));
            put(sink, "text-units", spelled(&mut random, &tree));
        }
    }
    let wide = format!("0x{}", "80".repeat(65));
    for count in [2500, 2519, 2520, 2521, 2600] {
        let list = "5 ".repeat(count);
        let nest = format!("{}5{}", "(".repeat(count), " . 5)".repeat(count));
        put(sink, "text-units-or-5", format!("({wide} {list})"));
        put(sink, "text-units-or-5", format!("({list} {wide})"));
        put(sink, "text-units-or-5", format!("({list} . {wide})"));
        put(sink, "text-units-or-5", format!("({wide} {nest})"));
        put(sink, "text-units-or-5", format!("({nest} {wide})"));
        put(sink, "text-units-or-15", format!("({nest} {wide}"));
    }
}

/// Every length's greatest and least number, and their neighbours.
fn numbers(sink: &mut Sink) {
    for bytes in (1..=70).chain([127, 128, 129]) {
        for number in around_the_sign(bytes) {
            put(sink, "text-number", number);
        }
    }
    for text in ["0", "-0", "00", "-00", "1", "-1", "01", "-01", "-", "--1", "1-", "-1-", "+1", "1.0", "1e3", "0b1", "1_000", "1,0", "0x-1", "-0x01"] {
        put(sink, "text-number", text);
    }
}

/// 2^(8n - 1) and its neighbours, with and without a sign.
fn around_the_sign(bytes: usize) -> Vec<String> {
    let mut below = vec![0xff; bytes];
    below[0] = 0x7f;
    let mut at = vec![0x00; bytes];
    at[0] = 0x80;
    let mut above = at.clone();
    above[bytes - 1] |= 1;
    [below, at, above].iter().map(|size| digits(size)).flat_map(|size| [size.clone(), format!("-{size}")]).collect()
}

/// 2 against 5 by a number's exact length, with zeros in front as well; and digits to the text's end.
fn long_numbers(sink: &mut Sink) {
    for bytes in [FORM - 2, FORM - 1] {
        for number in around_the_sign(bytes) {
            put(sink, "text-long-number", &number);
        }
    }
    for number in around_the_sign(FORM - 5) {
        put(sink, "text-long-number", format!("(f {number})"));
    }
    let zeros = |number: &str, total: usize| match number.strip_prefix('-') {
        Some(size) => filled(total, "-", "0", size),
        None => filled(total, "", "0", number),
    };
    for number in [&around_the_sign(FORM - 2)[0], &around_the_sign(FORM - 2)[5], &around_the_sign(64)[0], &around_the_sign(64)[3]] {
        put(sink, "text-long-number", zeros(number, 32_000));
        put(sink, "text-long-number", zeros(number, TEXT));
    }
    for count in [154, 155, 156, 19_000, 19_724, 19_725, 32_000, TEXT - 1] {
        put(sink, "text-long-number", "9".repeat(count));
        put(sink, "text-long-number", format!("-1{}", "0".repeat(count - 1)));
    }
    for count in [1000, 32_000] {
        put(sink, "text-long-number-15", "9".repeat(count) + "a");
        put(sink, "text-long-number-15", "9".repeat(count) + " 9");
        put(sink, "text-long-number-15", format!("(q . {}", "9".repeat(count)));
    }
    let number = "1234567890".repeat(8);
    put(sink, "text-many-numbers", format!("({})", format!("{number} ").repeat(120)));
    put(sink, "text-many-numbers", format!("({})", format!("-{number} ").repeat(400)));
}

/// Brackets to the text's end.
fn brackets(sink: &mut Sink) {
    for depth in [1, 2, 4095, 4096, 4097, 8192, TEXT / 2 - 1, TEXT / 2] {
        let (open, close) = ("(".repeat(depth), ")".repeat(depth));
        let nests = [
            format!("{open}{close}"), format!("{open}f{close}"), format!("{open}5{close}"), format!("{open}\"\"{close}"), format!("(q{open}{close})"),
            format!("(q{open}f{close})"), format!("(f{open}f{close})"), format!("{open}{close})"), format!("({open}{close}"), format!("{close}{open}"),
            format!("{open}q{close}"), format!("{open}.{close}"),
        ];
        for nest in nests {
            put(sink, "text-brackets", nest);
        }
    }
    for count in [TEXT - 1, TEXT, TEXT + 1] {
        for text in ["(", ")", "()", ")(", "(()", "())"] {
            put(sink, "text-brackets", text.repeat(count / text.len()));
        }
        put(sink, "text-brackets", format!("({})", "()".repeat((count - 2) / 2)));
    }
    // Names at the end of deep code, and at the head of each level.
    for depth in [60, 2000, 6000] {
        put(sink, "text-brackets", format!("{}1{}", "(f ".repeat(depth), ")".repeat(depth)));
        put(sink, "text-brackets", format!("{}f{}", "(f ".repeat(depth), ")".repeat(depth)));
        put(sink, "text-brackets", format!("{}(f){}", "(f ".repeat(depth), ")".repeat(depth)));
        put(sink, "text-brackets", format!("{}1{}", "(q ".repeat(depth), ")".repeat(depth)));
        put(sink, "text-brackets", format!("(q {}{})", "(1 ".repeat(depth), ")".repeat(depth)));
    }
}

/// Dots before lists, as deep as the text allows: the tree is one list.
fn dots(sink: &mut Sink) {
    for depth in [1, 2, 1000, 2519, 2520, 4000, 4094, 4095, 4096, 5400] {
        let close = ")".repeat(depth);
        for (level, last) in [("(().", "()"), ("(().", "\"a\""), ("(().", "(f)"), ("(().", "((f))"), ("(5 . ", "()"), ("(5 . ", "6")] {
            put(sink, "text-dots", format!("{}{last}{close}", level.repeat(depth)));
        }
        put(sink, "text-dots", format!("(f . {}(){close})", "(() . ".repeat(depth.min(5000))));
        put(sink, "text-dots", format!("(q . {}(f){close})", "(() . ".repeat(depth.min(5000))));
    }
    for text in [
        "(f . 1)", "(f . (1))", "(f . (1) )", "(f . ((f)))", "(f . (f))", "(q . q)", "(q . (q))", "(q q)", "(q (q))", "(q)", "(q . ())", "((q) q)", "((q) (q))",
        "((q . 1) . (2))", "((q . 1) . ((f 1)))", "((q . 1) (f 1) . (r))", "(f 1 . (r 1))", "(f 1 . ((r 1)))", "(f (q . 1) . ((q 1)))", "(1 . ((f)))", "(0x01 f)",
        "(\"\" (f))", "(0 (f))", "(((q 1)) (f))", "(((f)) f)", "(((q)))", "(((q) f))", "(q . \"f\")", "(-255 (f))", "(257 (f))", "(0x0101 f)", "( . )", "(.)", "(. ())",
        "(5 .)", "(5 . )", "(5 . 6 7)", "(5 . 6 . 7)", "(5 . . 6)", "(5 . () 6)", "(5 . () . 6)", "(5 . ())", "(5 . (()))", ".", "..", "(5 .. 6)", "5 . 6", ". 5", "(5. 6)",
        "(5 .6)", "(\"5\".6)", "(\"5\". 6)", "(5 .\"6\")", "(5 .(6))", "((5).6)", "((5). 6)", "((5).(6))", "(q.5)", "(q .5)", "(q. 5)", "(5 . (6 . (7 . 8)))",
    ] {
        put(sink, "text-dots", text);
    }
}

/// Every byte but a line's end: alone, between words, inside a word, inside quotes, and as an operator.
fn bytes(sink: &mut Sink) {
    for byte in (0..=255u8).filter(|byte| *byte != b'\n') {
        let around: [(&[u8], &[u8]); 7] = [(b"", b""), (b"(5", b"6)"), (b"0x0", b""), (b"\"a", b"b\""), (b"(", b" 5)"), (b"1", b""), (b"(", b")")];
        for (before, after) in around {
            put(sink, "text-byte", [before, &[byte], after].concat());
        }
    }
}
