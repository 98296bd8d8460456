//! A report over many forms: each in its column, the sums, a report that is full or foreign, and the room.

use umlazgrin::lent;
use umlazgrin::{Added, Refusal, Savings, Umlazgrin, FORMS, ROOM};

const FIRST: &str = "ff05ff0180"; // (f 1)
const FAILS: &str = "ff05ff8080"; // (f 0)
const MARKED: &str = "ff05ff82ff8080"; // (f 0xff80)
const SWAPS: &str = "ff02ffff01ff04ff03ff0280ff0280"; // (a (q 4 3 2) 2)

fn bytes(hex: &str) -> Vec<u8> {
    (0..hex.len() / 2).map(|i| u8::from_str_radix(&hex[2 * i..2 * i + 2], 16).unwrap()).collect()
}

/// Works the form into the report, with lent room that the function cannot take for its own, and that it must leave clean.
fn add(hex: &str, report: &mut Savings) -> Added {
    let mut room: Vec<u8> = (0..ROOM + 5).map(|i| (i * 7 + 3) as u8 | 1).collect();
    let added = lent::add_form(&bytes(hex), &mut room, report);
    assert!(room.iter().all(|b| *b == 0));
    added
}

/// A report of these forms, all of them answered.
fn over(forms: &[&str]) -> Savings {
    let mut report = Savings::default();
    for form in forms {
        assert_eq!(add(form, &mut report), Added::Answered, "{form}");
    }
    report
}

/// Counts of the eight rules, from pairs of a rule's number and its count.
fn rules(pairs: &[(usize, u64)]) -> [u64; 8] {
    let mut counts = [0; 8];
    pairs.iter().for_each(|(rule, count)| counts[rule - 1] = *count);
    counts
}

#[test]
fn a_form() {
    let zero = Savings::default();
    assert_eq!(over(&[]), Savings { answered: 0, refused: [0; 14], marked: 0, before: 0, after: 0, passes: 0, rules: [0; 8] });
    let first = Savings { answered: 1, before: 5, after: 1, passes: 1, rules: rules(&[(6, 1)]), ..zero };
    assert_eq!(over(&[FIRST]), first);
    let marked = Savings { answered: 1, marked: 1, before: 7, after: 3, passes: 1, rules: rules(&[(6, 1)]), ..zero };
    assert_eq!(over(&[MARKED]), marked);
    assert_eq!(over(&["f80000000105"]), Savings { answered: 1, before: 6, after: 1, ..zero });
    assert_eq!(over(&["80"]), Savings { answered: 1, before: 1, after: 1, ..zero });
}

/// Sums, but for the passes: there the greatest counts, wherever it stands.
#[test]
fn several_forms() {
    let report = over(&[FIRST, SWAPS, MARKED]);
    let wanted = Savings {
        answered: 3, marked: 1, before: 27, after: 11, passes: 4, rules: rules(&[(4, 1), (6, 4)]), ..Savings::default()
    };
    assert_eq!(report, wanted);
    assert_eq!(over(&[SWAPS, MARKED, FIRST]), wanted);
    let twice = over(&[SWAPS, MARKED, FIRST, FIRST, MARKED, SWAPS]);
    assert_eq!((twice.answered, twice.marked, twice.before, twice.after, twice.passes), (6, 2, 54, 22, 4));
    assert_eq!(twice.rules, rules(&[(4, 2), (6, 8)]));
}

/// Each refusal but 1 stands in its column, and changes nothing else.
#[test]
fn refusals() {
    let mut report = over(&[SWAPS]);
    let refused = [
        (Refusal::FormLong, format!("{}05", "ff".repeat(8192))),
        (Refusal::EndsEarly, String::new()),
        (Refusal::BadPrefix, "fc".into()),
        (Refusal::AtomLong, "c041".into()),
        (Refusal::BytesAfter, "0505".into()),
        (Refusal::UnitsOut, format!("{}80", "ff01".repeat(4095))),
        (Refusal::Fails, FAILS.into()),
        (Refusal::NoOperator, "ff10ffff010180".into()),
        (Refusal::StepsOut, "ff02ffff01ff02ff01ff0180ffff01ff02ff01ff018080".into()),
        (Refusal::PathLong, format!("ff05ffc04080000080{}80", "00".repeat(60))),
        (Refusal::PassesOut, passes_out()),
        (Refusal::TooDeep, "ff02ffff01ff08ff8900800000000000000080ff0280".into()),
        (Refusal::OutputShort, copies("8e8383838383838383838383838383")),
    ];
    for (i, (refusal, form)) in refused.iter().enumerate() {
        let before = report;
        assert_eq!(add(form, &mut report), Added::Refused(*refusal));
        assert_eq!((report.refused_with(*refusal), report.forms()), (1, i as u64 + 2));
        assert_eq!(Savings { refused: before.refused, ..report }, before);
    }
    assert_eq!(report.refused, [0, 1, 1, 1, 1, 1, 1, 1, 1, 1, 1, 1, 1, 1]);
}

/// Fourteen times (x (a (q . 1) ..)) around (x (8 . 5)), and three constants.
fn passes_out() -> String {
    let wrappers = "ff08ffff02ffff0101ff".repeat(14);
    format!("{wrappers}ff08ffff080580{}80{}80", "8080".repeat(13), "ffff0105".repeat(3))
}

/// Eleven times (a (q 4 1 1) ..) around a quote: its value has 2,048 shared copies of the atom.
fn copies(atom: &str) -> String {
    format!("{}ff01{atom}{}", "ff02ffff01ff04ff01ff0180ff".repeat(11), "80".repeat(11))
}

/// The finished tree is held against 32,768 bytes, whatever output the wrapper has.
#[test]
fn outputs() {
    let form = bytes(&copies("8d83838383838383838383838383"));
    for mut u in [Umlazgrin::new(), Umlazgrin::with_output(0)] {
        let mut report = Savings::default();
        assert_eq!(u.add_form(&form, &mut report), Added::Answered);
        assert_eq!((report.before, report.after, report.passes, report.rules), (170, 30_721, 2, rules(&[(2, 1)])));
    }
}

/// Every rule. Counted as the driver without a memo works: what it works twice counts twice, and thrown-away work too.
#[test]
fn counts_of_rules() {
    let nest = format!("{}ff08ffff05ff018080{}", "ff08ffff02ffff0101ff".repeat(6), "8080".repeat(6));
    for (form, passes, counts) in [
        ("ff06ffff04ffff05ff0180ffff05ff01808080", 2, &[(1, 1), (6, 1)][..]), // (r (c (f 1) (f 1)))
        ("ff04ffff0105ffff010680", 2, &[(2, 1)]),                             // (c (q . 5) (q . 6))
        ("ff02ffff01ff05ff0180ff0180", 2, &[(3, 1), (6, 1)]),                 // (a (q 5 1) 1)
        (SWAPS, 4, &[(4, 1), (6, 2)]),
        ("ff04ffff05ff0180ffff05ff018080", 4, &[(5, 1), (6, 2)]), // (c (f 1) (f 1))
        ("ff0180", 1, &[(7, 1)]),                                 // (q)
        ("ff02ff80ff0580", 1, &[(8, 1)]),                         // (a () 5)
        ("ff0880", 1, &[]),                                       // (x)
        ("ff02ffff01ff04ff02ffff088080ff0280", 4, &[(6, 1)]),     // (a (q 4 2 (8)) 2), which comes back as it was
        (nest.as_str(), 1121, &[(4, 32), (5, 63), (6, 32)]),      // six times (x (a (q . 1) ..)) around (x (f 1))
    ] {
        let report = over(&[form]);
        assert_eq!((report.passes, report.rules), (passes, rules(counts)), "{form}");
    }
}

/// A small room is the form's refusal 1, and is not touched.
#[test]
fn rooms() {
    let (mut room, mut report) = (vec![7; ROOM - 1], Savings::default());
    for form in [FIRST, FAILS, ""] {
        assert_eq!(lent::add_form(&bytes(form), &mut room, &mut report), Added::Refused(Refusal::RoomSmall));
    }
    assert_eq!(lent::add_form(&[], &mut [], &mut report), Added::Refused(Refusal::RoomSmall));
    assert!(room.iter().all(|b| *b == 7));
    assert_eq!((report.refused[0], report.forms()), (4, 4));
    assert_eq!(Savings { refused: [0; 14], ..report }, Savings::default());
}

/// Whatever the form, a full report stays as it is.
fn full(report: &Savings) {
    for form in [FIRST, FAILS, ""] {
        let mut same = *report;
        assert_eq!(add(form, &mut same), Added::Full);
        assert_eq!(same, *report);
    }
}

#[test]
fn the_last_form() {
    let (mut u, mut report) = (Umlazgrin::new(), Savings::default());
    for i in 0..FORMS {
        let form = bytes([FIRST, FAILS, MARKED, ""][i % 4]);
        let wanted = [Added::Answered, Added::Refused(Refusal::Fails), Added::Answered, Added::Refused(Refusal::EndsEarly)];
        assert_eq!(u.add_form(&form, &mut report), wanted[i % 4], "{i}");
    }
    assert_eq!((report.answered, report.marked, report.before, report.after, report.passes), (2048, 1024, 12_288, 4096, 1));
    assert_eq!((report.refused_with(Refusal::EndsEarly), report.refused_with(Refusal::Fails)), (1024, 1024));
    assert_eq!((report.rules, report.forms()), (rules(&[(6, 2048)]), 4096));
    full(&report);
    // 17 comes before 1, and leaves a small room clean too.
    let (mut room, before) = (vec![7; ROOM - 1], report);
    assert_eq!(lent::add_form(&bytes(FIRST), &mut room, &mut report), Added::Full);
    assert_eq!(lent::add_form(&bytes(FIRST), &mut [], &mut report), Added::Full);
    assert!(report == before && room.iter().all(|b| *b == 0));
}

/// Only how many forms there were matters. No report has a number of 2^63; below it every number is taken, and nothing wraps.
#[test]
fn foreign_reports() {
    let zero = Savings::default();
    full(&Savings { answered: 4096, ..zero });
    full(&Savings { answered: 96, refused: [4000, 0, 0, 0, 0, 0, 0, 0, 0, 0, 0, 0, 0, 0], ..zero });
    full(&Savings { answered: 1 << 62, refused: [1 << 62; 14], ..zero });
    for huge in [1 << 63, u64::MAX] {
        full(&Savings { marked: huge, ..zero });
        full(&Savings { before: huge, ..zero });
        full(&Savings { after: huge, ..zero });
        full(&Savings { passes: huge, ..zero });
        (1..9).for_each(|rule| full(&Savings { rules: rules(&[(rule, huge)]), ..zero }));
    }
    let most = (1 << 63) - 1;
    let mut report = Savings { marked: most, before: most, after: most, passes: most, rules: rules(&[(6, most)]), ..zero };
    assert_eq!(add(MARKED, &mut report), Added::Answered);
    let (marked, before, after) = (report.marked, report.before, report.after);
    assert_eq!((marked, before, after, report.passes), (most + 1, most + 7, most + 3, most));
    assert_eq!((report.rules, report.answered), (rules(&[(6, most + 1)]), 1));
    full(&report);
}

#[test]
fn numbers() {
    assert_eq!((Added::Answered.number(), Added::Refused(Refusal::Fails).number(), Added::Full.number()), (0, 8, 17));
    let report = Savings { refused: [1, 2, 3, 4, 5, 6, 7, 8, 9, 10, 11, 12, 13, 14], answered: 7, ..Savings::default() };
    assert_eq!(report.forms(), 112);
    for refusal in Refusal::ALL {
        let number = u64::from(refusal.number());
        assert_eq!(report.refused_with(refusal), if number < 15 { number } else { 0 });
    }
    assert_eq!(Savings { refused: [u64::MAX; 14], ..report }.forms(), u64::MAX);
}
