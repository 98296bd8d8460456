//! The notation: answers, each refusal that a text can meet, and every lent byte.

use umlazgrin::lent;
use umlazgrin::{Refusal, TextAnswer, TextValue, Umlazgrin, FORM, OUTPUT, ROOM, TEXT};

/// Bytes that no function could take for its own.
fn filled(length: usize) -> Vec<u8> {
    (0..length).map(|i| (i * 7 + 3) as u8 | 1).collect()
}

/// The part, so many times, in brackets.
fn list(part: &str, count: usize) -> String {
    format!("({})", part.repeat(count))
}

#[test]
fn answers() {
    let mut u = Umlazgrin::new();
    let form = [0xff, 0x05, 0xff, 0x82, 0x61, 0x62, 0xff, 0x81, 0xab, 0xff, 0x81, 0xff, 0x80];
    assert_eq!(u.read_text("(f\"ab\" . (0xAB -1))").unwrap(), form);
    assert_eq!(u.read_text(b"\t(f 24930\r\n0xab 0xFF)").unwrap(), form);
    assert_eq!(u.write_text(&form).unwrap(), "(f 0x6162 0xab 0xff)");
    let run = |text: &str, passes, units, mark| Ok(TextAnswer { text: text.into(), passes, units, mark });
    assert_eq!(u.optimise_text("(a (q 4 3 2) 2)"), run("(c 0x06 0x04)", 4, 186, false));
    assert_eq!(u.optimise_text("(f 0xff80)"), run("0x0100", 1, 33, true));
    let value = TextValue { text: "(f . 0x06)".into(), steps: 3, units: 65 };
    assert_eq!(u.evaluate_text("(c 2 3)", "(5 . 6)"), Ok(value));
}

/// Each function that takes a text refuses this one; as a program it is evaluated in the environment nil. `text_fault` refuses it where it is
/// too long, and finds a fault exactly where it does not parse.
fn refused(u: &mut Umlazgrin, text: &str, refusal: Refusal) {
    let start = &text[..text.len().min(20)];
    assert_eq!(u.read_text(text), Err(refusal), "{start}");
    assert_eq!(u.optimise_text(text), Err(refusal), "{start}");
    assert_eq!(u.evaluate_text(text, "()"), Err(refusal), "{start}");
    match refusal {
        Refusal::TextLong => assert_eq!(u.text_fault(text), Err(refusal), "{start}"),
        _ => assert_eq!(u.text_fault(text).unwrap().is_some(), refusal == Refusal::NoParse, "{start}"),
    }
}

#[test]
fn refusals_of_a_text() {
    let mut u = Umlazgrin::new();
    refused(&mut u, &" ".repeat(TEXT + 1), Refusal::TextLong);
    refused(&mut u, &" ".repeat(TEXT), Refusal::NoParse);
    refused(&mut u, &"(".repeat(TEXT), Refusal::NoParse);
    for text in ["", "(f 1", "f", "(q f)", "5 6", "(1.2)", "0x5", "\"", "\u{e9}"] {
        refused(&mut u, text, Refusal::NoParse);
    }
    refused(&mut u, &list("1 ", 4096), Refusal::FormLong);
    refused(&mut u, &list("1 ", 4095), Refusal::UnitsOut);
    refused(&mut u, &format!("0x{}", "ab".repeat(65)), Refusal::AtomLong);
    refused(&mut u, &format!("-{}", "7".repeat(19_000)), Refusal::AtomLong);
    refused(&mut u, &"7".repeat(TEXT), Refusal::FormLong);
    refused(&mut u, &format!("{})", "7".repeat(TEXT - 1)), Refusal::NoParse);
    assert_eq!(u.read_text(format!("0x{}", "ab".repeat(64))).unwrap().len(), 66);
    assert_eq!(u.read_text(format!("1{}", " ".repeat(TEXT - 1))).unwrap(), [1]);
    assert_eq!(u.read_text([0x28, 0x00, 0x29]), Err(Refusal::NoParse));
}

/// At the start, in the middle, at the end, where more is wanted, and inside quotes.
#[test]
fn faults() {
    let mut u = Umlazgrin::new();
    for (text, place) in [
        (")", 0), ("f", 0), ("0x5", 0), ("+5", 0), (". 5", 0), ("(. 5)", 1), ("(1.2)", 1), ("5 6", 2), ("()()", 2), ("(q f)", 3),
        ("(5 . . 6)", 5), ("(5 .)", 4), ("(c . (f 1))", 6), ("(5 . 6 7)", 7), ("(f 1))", 5), ("\t\r ", 3), ("", 0), ("(", 1),
        ("(f 1", 4), ("(5 .", 4), ("(5 . ", 5), ("\"a\tb\"", 2), ("(5 \"\u{7f}\")", 4), ("(\"a\" \"b\u{e9}\")", 7), ("\"a\0b\"", 2),
        ("(\0)", 1), ("5 \"\t\"", 3), ("\"a\t", 2), ("\"ab", 0), ("(5 \"ab)", 3), ("(5 \"ab\"\")", 7),
    ] {
        assert_eq!(u.text_fault(text), Ok(Some(place)), "{text}");
        assert_eq!(u.read_text(text), Err(Refusal::NoParse), "{text}");
    }
    for text in ["(f\"ab\" . (0xAB -1))", "\" ~\"", "()", "(c . ((f 1)))", "(0x0001 (f))"] {
        assert_eq!(u.text_fault(text), Ok(None), "{text}");
    }
    assert_eq!(u.text_fault([0x22, 0x80, 0x22]), Ok(Some(1)));
    assert_eq!(Umlazgrin::with_output(0).text_fault("(f 1)"), Ok(None));
}

/// The longest texts, and one byte more.
#[test]
fn faults_far_in() {
    let mut u = Umlazgrin::new();
    let blanks = " ".repeat(TEXT - 1);
    assert_eq!(u.text_fault(format!("{blanks} ")), Ok(Some(TEXT)));
    assert_eq!(u.text_fault(format!("{blanks}f")), Ok(Some(TEXT - 1)));
    assert_eq!(u.text_fault(format!("{blanks}5")), Ok(None));
    assert_eq!(u.text_fault(format!("{blanks}5 ")), Err(Refusal::TextLong));
    assert_eq!(u.text_fault("(".repeat(TEXT)), Ok(Some(TEXT)));
    assert_eq!(u.text_fault("(".repeat(TEXT + 1)), Err(Refusal::TextLong));
    assert_eq!(u.text_fault(format!("{}a", "7".repeat(TEXT - 1))), Ok(Some(0)));
}

#[test]
fn refusals_of_the_work() {
    let mut u = Umlazgrin::new();
    assert_eq!(u.optimise_text("(f 0)"), Err(Refusal::Fails));
    assert_eq!(u.evaluate_text("(x)", "()"), Err(Refusal::Fails));
    assert_eq!(u.evaluate_text("(10)", "()"), Err(Refusal::NoOperator));
    assert_eq!(u.write_text(&[]), Err(Refusal::EndsEarly));
    assert_eq!(u.write_text(&[0xfc]), Err(Refusal::BadPrefix));
    assert_eq!(u.write_text(&[0x05, 0x05]), Err(Refusal::BytesAfter));
    assert_eq!(u.write_text(&[0xff; FORM + 1]), Err(Refusal::FormLong));
    assert_eq!(u.write_text(&[&[0xc0, 0x41][..], &[0x11; 65]].concat()), Err(Refusal::AtomLong));
    assert_eq!(u.write_text(&[[0xff, 0x05].repeat(2521), vec![0x80]].concat()), Err(Refusal::UnitsOut));
}

/// The program is read whole before the environment, and both are on one budget of units.
#[test]
fn environments() {
    let mut u = Umlazgrin::new();
    assert_eq!(u.evaluate_text("1", ""), Err(Refusal::NoParse));
    assert_eq!(u.evaluate_text("1", " ".repeat(TEXT + 1)), Err(Refusal::TextLong));
    assert_eq!(u.evaluate_text(list("5 ", 2521), "x"), Err(Refusal::UnitsOut));
    assert_eq!(u.evaluate_text(list("1 ", 2520), "0x01020304").unwrap().units, 32_768);
    assert_eq!(u.evaluate_text(list("1 ", 2520), "0x0102030405"), Err(Refusal::UnitsOut));
    assert_eq!(u.evaluate_text("1 ", " 2").unwrap().text, "0x02");
}

/// Whatever is written is read again, to the same form: each of these is the shortest.
#[test]
fn there_and_back() {
    let mut u = Umlazgrin::new();
    let left = [vec![0xff; 4095], vec![0x80; 4096]].concat();
    let right = [[0xff, 0x80].repeat(4095), vec![0x80]].concat();
    let atoms = [[&[0xff, 0xc0, 0x40][..], &[0x2e; 64]].concat().repeat(122), vec![0x80]].concat();
    let quoted = vec![0xff, 0x01, 0xff, 0x02, 0x03];
    for form in [left, right, atoms, quoted, vec![0xff, 0x05, 0x05], vec![0xff, 0xff, 0x09, 0x80, 0x02]] {
        let text = u.write_text(&form).unwrap();
        assert!(text.len() < TEXT);
        assert_eq!(u.read_text(&text).unwrap(), form);
    }
}

/// A form with spare bytes becomes the text of its tree, and that the shortest form.
#[test]
fn spare_spellings() {
    let mut u = Umlazgrin::new();
    let list = [0xff, 0x81, 0x05, 0xff, 0xc0, 0x01, 0x01, 0xe0, 0x00, 0x00];
    for (form, text) in [(&[0x81, 0x05][..], "0x05"), (&[0xc0, 0x00][..], "()"), (&list[..], "(f 0x01)")] {
        assert_eq!(u.write_text(form).unwrap(), text);
        assert_eq!(u.read_text(text), u.write(form));
    }
}

/// A program that pairs its value with itself, so many times: all parts of the value are shared.
fn doubled(inner: &str, times: usize) -> String {
    format!("{}{inner}{}", "(a (q 4 1 1) ".repeat(times), ")".repeat(times))
}

/// The text of the value: a last part that is a list goes on with the list around it.
fn paired(times: usize) -> String {
    (1..times).fold("(())".into(), |text, _| format!("({text} {}", &text[1..]))
}

/// The form of 2^13 leaves would have 16,383 bytes, its text 20,479; that of 2^14 is too long, and that of 2^60 is not written out.
#[test]
fn shared_parts() {
    let mut u = Umlazgrin::new();
    let value = u.evaluate_text(doubled("1", 13), "()").unwrap();
    assert_eq!((value.text, value.steps, value.units), (paired(13), 66, 1_162));
    let run = u.optimise_text(doubled("(q)", 13)).unwrap();
    assert_eq!((&run.text[..3], &run.text[3..]), ("(q ", &paired(13)[1..]));
    assert_eq!((run.passes, run.units, run.mark), (2, 1_183, false));
    assert_eq!(u.read_text(&run.text), Err(Refusal::FormLong));
    for times in [14, 60] {
        assert_eq!(u.evaluate_text(doubled("1", times), "()"), Err(Refusal::OutputShort));
        assert_eq!(u.optimise_text(doubled("(q)", times)), Err(Refusal::OutputShort));
    }
    assert_eq!(Umlazgrin::with_output(40_959).evaluate_text(doubled("1", 14), "()").unwrap().text, paired(14));
    assert_eq!(Umlazgrin::with_output(40_958).evaluate_text(doubled("1", 14), "()"), Err(Refusal::OutputShort));
}

/// One of the four on lent slices: the length of its answer.
type Work = fn(&mut [u8], &mut [u8]) -> Result<usize, Refusal>;

const WORKS: [(Work, &[u8]); 4] = [
    (|room, out| lent::read_text(b"(f 1)", room, out).map(|r| r.length), &[0xff, 0x05, 0xff, 0x01, 0x80]),
    (|room, out| lent::write_text(&[0xff, 0x05, 0xff, 0x01, 0x80], room, out).map(|r| r.length), b"(f 0x01)"),
    (|room, out| lent::optimise_text(b"(f 1)", room, out).map(|r| r.length), b"0x02"),
    (|room, out| lent::evaluate_text(b"1(1 2)", 1, room, out).map(|r| r.length), b"(q 0x02)"),
];

const REFUSED: [Work; 4] = [
    |room, out| lent::read_text(b"(f 1", room, out).map(|r| r.length),
    |room, out| lent::write_text(&[0xff], room, out).map(|r| r.length),
    |room, out| lent::optimise_text(b"(f 0)", room, out).map(|r| r.length),
    |room, out| lent::evaluate_text(b"(f 1)x", 5, room, out).map(|r| r.length),
];

#[test]
fn every_lent_byte() {
    let clean = |room: &[u8]| room.iter().all(|b| *b == 0);
    for (work, wanted) in WORKS {
        let (mut room, mut out) = (filled(ROOM + 5), filled(OUTPUT));
        assert_eq!(work(&mut room, &mut out), Ok(wanted.len()));
        assert_eq!((&out[..wanted.len()], &out[wanted.len()..]), (wanted, &filled(OUTPUT)[wanted.len()..]));
        assert!(clean(&room));

        let (mut room, mut out) = (filled(ROOM), filled(wanted.len() - 1));
        assert_eq!(work(&mut room, &mut out), Err(Refusal::OutputShort));
        assert_eq!(out, filled(wanted.len() - 1));
        assert!(clean(&room));

        let (mut room, mut out) = (filled(ROOM - 1), filled(40));
        assert_eq!(work(&mut room, &mut out), Err(Refusal::RoomSmall));
        assert_eq!((room, out), (filled(ROOM - 1), filled(40)));
        assert_eq!(work(&mut [], &mut []), Err(Refusal::RoomSmall));
    }
    for work in REFUSED {
        let (mut room, mut out) = (filled(ROOM), filled(40));
        assert!(work(&mut room, &mut out).is_err());
        assert_eq!(out, filled(40));
        assert!(clean(&room));
    }
}

/// `text_fault` has no output: the room alone is written.
#[test]
fn every_lent_byte_of_a_fault() {
    let long = " ".repeat(TEXT + 1);
    for (text, wanted) in [("(f 1)", Ok(None)), ("(q f)", Ok(Some(3))), (&long[..], Err(Refusal::TextLong))] {
        for length in [ROOM, ROOM + 5] {
            let mut room = filled(length);
            assert_eq!(lent::text_fault(text.as_bytes(), &mut room), wanted);
            assert!(room.iter().all(|b| *b == 0));
        }
        let mut room = filled(ROOM - 1);
        assert_eq!(lent::text_fault(text.as_bytes(), &mut room), Err(Refusal::RoomSmall));
        assert_eq!(room, filled(ROOM - 1));
        assert_eq!(lent::text_fault(text.as_bytes(), &mut []), Err(Refusal::RoomSmall));
    }
}
