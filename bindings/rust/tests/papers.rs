//! 01's table "Forms on both sides", and the other functions on small forms.

use umlazgrin::{Binding, Match, Refusal, Umlazgrin};

fn bytes(hex: &str) -> Vec<u8> {
    (0..hex.len() / 2).map(|i| u8::from_str_radix(&hex[2 * i..2 * i + 2], 16).unwrap()).collect()
}

/// `f` so many times over 1.
fn firsts(times: usize) -> Vec<u8> {
    let mut form = vec![0x01];
    for _ in 0..times {
        form = [&[0xff, 0x05, 0xff][..], &form, &[0x80]].concat();
    }
    form
}

#[test]
fn the_table() {
    let mut u = Umlazgrin::new();
    let rows = [
        ("ff05ffff04ff02ff038080", "02", false),
        ("ff06ffff04ff02ff038080", "03", false),
        ("ff02ffff01ff05ff0180ff0180", "02", false),
        ("ff0180", "80", false),
        ("ff02ff8005", "80", false),
        ("ff04ffff0105ffff010680", "ff01ff0506", false),
        ("ff0880", "ff0880", false),
        ("ff02ffff01ff04ff03ff0280ff0280", "ff04ff06ff0480", false),
        ("ff02ffff01ff04ff80ff0280ff0280", "ff04ff02ff0480", true),
        ("ff05ff4080", "8180", false),
        ("ff05ff82ff8080", "820100", true),
    ];
    for (form, tree, mark) in rows {
        let answer = u.optimise(&bytes(form)).unwrap();
        assert_eq!((answer.tree, answer.mark), (bytes(tree), mark), "{form}");
    }
    for form in ["ff02ff8080", "ff05ff8080"] {
        assert_eq!(u.optimise(&bytes(form)), Err(Refusal::Fails), "{form}");
    }
}

#[test]
fn at_the_limits() {
    let mut u = Umlazgrin::new();
    let over_32 = u.optimise(&firsts(32)).unwrap();
    assert_eq!((over_32.tree, over_32.mark), (bytes("820100"), true));
    assert!(u.optimise(&firsts(63)).is_ok());
    assert_eq!(u.optimise(&firsts(64)), Err(Refusal::TooDeep));
    let atom = |n: u8| [&[0xc0, n][..], &vec![0x11; n as usize]].concat();
    assert_eq!(u.optimise(&atom(64)).unwrap().tree, atom(64));
    assert_eq!(u.optimise(&atom(65)), Err(Refusal::AtomLong));
    assert_eq!(u.optimise(&[0xff; 8192]), Err(Refusal::EndsEarly));
    assert_eq!(u.optimise(&[0xff; 8193]), Err(Refusal::FormLong));
    assert_eq!(u.optimise(&[]), Err(Refusal::EndsEarly));
    assert_eq!(Umlazgrin::with_output(0).optimise(&[0x80]), Err(Refusal::OutputShort));
    assert_eq!(Umlazgrin::with_output(1).optimise(&[0x80]).unwrap().tree, [0x80]);
}

#[test]
fn evaluation() {
    let mut u = Umlazgrin::new();
    let value = u.evaluate(&bytes("ff04ff02ff0380"), &bytes("ff0506")).unwrap();
    assert_eq!((value.tree, value.steps, value.units), (bytes("ff0506"), 3, 65));
    assert_eq!(u.evaluate(&bytes("ff0880"), &bytes("80")), Err(Refusal::Fails));
    assert_eq!(u.evaluate(&bytes("ff0a80"), &bytes("80")), Err(Refusal::NoOperator));
    assert_eq!(u.evaluate(&bytes("02"), &[]), Err(Refusal::EndsEarly));
}

/// Where a match failed.
fn path(said: Match) -> Vec<u8> {
    match said {
        Match::NoMatch(place) => place.path().to_vec(),
        _ => panic!("{said:?}"),
    }
}

/// The path as a program gives what the expression has at the place.
#[test]
fn the_part_at_the_place() {
    let mut u = Umlazgrin::new();
    let expression = bytes("ff05ffff06ff02ff038080"); // (f (r 2 3))
    let place = path(u.matches(&bytes("ff05ffff04ff02ff038080"), &expression).unwrap());
    assert_eq!(place, [9]);
    assert_eq!(u.evaluate(&place, &expression).unwrap().tree, [6]);
}

#[test]
fn matching() {
    let mut u = Umlazgrin::new();
    let bound = |pairs: &[(&str, &str)]| {
        Match::Bound(pairs.iter().map(|(name, tree)| Binding { name: bytes(name), tree: bytes(tree) }).collect())
    };
    let two = bytes("ffff3a41ff3a42");
    assert_eq!(u.matches(&two, &bytes("ff0506")), Ok(bound(&[("41", "05"), ("42", "06")])));
    assert_eq!(u.matches(&bytes("ff3a41"), &bytes("ff0506")), Ok(bound(&[("41", "ff0506")])));
    assert_eq!(u.matches(&bytes("ff2405"), &bytes("07")), Ok(bound(&[("05", "07")])));
    assert_eq!(u.matches(&bytes("ff2405"), &bytes("ff0607")).map(path), Ok(bytes("02")));
    assert_eq!(u.matches(&bytes("ff05ff0180"), &bytes("ff05ff0280")).map(path), Ok(bytes("05")));
    assert_eq!(u.matches(&bytes("ffff3a41ff3a41"), &bytes("ff0506")).map(path), Ok(bytes("03")));
    assert_eq!(u.matches(&bytes("05"), &bytes("05")), Ok(bound(&[])));
    assert_eq!(u.matches(&bytes("ffff3a41ffff3a42ff3a43"), &bytes("ff05ff0607")), Ok(Match::TooManyNames));
    assert_eq!(u.matches(&two, &bytes("ff05")), Err(Refusal::EndsEarly));
}

#[test]
fn reading_and_writing() {
    let mut u = Umlazgrin::new();
    assert_eq!(u.check(&bytes("ff05ff0180")), Ok(26));
    assert_eq!(u.check(&bytes("0505")), Err(Refusal::BytesAfter));
    assert_eq!(u.write(&bytes("ff05ff0180")), Ok(bytes("ff05ff0180")));
}

/// 02: any length prefix from `81` to `fb` is taken with whatever length it states, zero included; the writer uses the shortest.
#[test]
fn spare_spellings() {
    let mut u = Umlazgrin::new();
    let one_byte = ["8105", "c00105", "e0000105", "f000000105", "f80000000105"].map(|form| (form, "05", 5));
    let nil = ["c000", "e00000", "f0000000", "f800000000"].map(|form| (form, "80", 0));
    let others = [
        ("8100", "00", 5),
        ("817f", "7f", 5),
        ("c00180", "8180", 5),
        ("e000020005", "820005", 6),
        ("ff8105ffc00101e00000", "ff05ff0180", 26),
    ];
    for (form, shortest, units) in one_byte.into_iter().chain(nil).chain(others) {
        assert_eq!(u.check(&bytes(form)), Ok(units), "{form}");
        assert_eq!(u.write(&bytes(form)), Ok(bytes(shortest)), "{form}");
        assert_eq!(u.write(&bytes(shortest)), Ok(bytes(shortest)), "{form}");
        assert_eq!(u.optimise(&bytes(form)), u.optimise(&bytes(shortest)), "{form}");
    }
    let value = u.evaluate(&bytes("ff8104ff02ffc0010380"), &bytes("ff8105c00106")).unwrap();
    assert_eq!((value.tree, value.steps, value.units), (bytes("ff0506"), 3, 65));
    let bound = Match::Bound(vec![Binding { name: bytes("41"), tree: bytes("05") }]);
    assert_eq!(u.matches(&bytes("ff813ac00141"), &bytes("e0000105")), Ok(bound));
    assert_eq!(u.matches(&bytes("ff05ff0180"), &bytes("ff8105ff810280")).map(path), Ok(bytes("05")));
}

/// At one atom: missing prefix bytes 3; `fc`, `fd`, `fe` 4; over 64 bytes 5; missing body 3; units 7.
#[test]
fn the_order_at_one_atom() {
    let mut u = Umlazgrin::new();
    for form in ["c0", "df", "e0", "efff", "f0ffff", "f8ffffff", "fbffffff"] {
        assert_eq!(u.check(&bytes(form)), Err(Refusal::EndsEarly), "{form}");
    }
    for form in ["fc", "fd", "fe", "fc0105", "fd00", "feff", "ff05fc", "fffe05"] {
        assert_eq!(u.check(&bytes(form)), Err(Refusal::BadPrefix), "{form}");
    }
    for form in ["c041", "e00041", "f0000041", "f800000041", "fbffffffff"] {
        assert_eq!(u.check(&bytes(form)), Err(Refusal::AtomLong), "{form}");
    }
    for form in ["81", "bf", "c001", "c040", "e00001", "f800000001"] {
        assert_eq!(u.check(&bytes(form)), Err(Refusal::EndsEarly), "{form}");
    }
    // Pairs in left parts: all but the outermost are charged before the last atom, which has 16 units left.
    let last = |atom: &str| [vec![0xff; 2520], vec![0x05; 2520], bytes(atom)].concat();
    assert_eq!(u.check(&last("c00401020304")), Ok(32_768));
    assert_eq!(u.check(&last("c00d0102030405060708090a0b0c0d")), Err(Refusal::UnitsOut));
    assert_eq!(u.check(&last("c00d0102030405060708090a0b0c")), Err(Refusal::EndsEarly));
    assert_eq!(u.check(&last("c041")), Err(Refusal::AtomLong));
}

/// A form's limit counts its bytes as they were submitted.
#[test]
fn spare_bytes_count() {
    let mut u = Umlazgrin::new();
    let ending = |end: &str| [bytes("fff80000000105").repeat(1170), bytes(end)].concat();
    assert_eq!((ending("c000").len(), u.check(&ending("c000"))), (8_192, Ok(15_210)));
    assert_eq!(u.write(&ending("c000")), Ok([[0xff, 0x05].repeat(1170), vec![0x80]].concat()));
    assert_eq!(u.check(&ending("e00000")), Err(Refusal::FormLong));
}

#[test]
fn numbers() {
    for (i, refusal) in Refusal::ALL.iter().enumerate() {
        assert_eq!(usize::from(refusal.number()), i + 1);
        assert_eq!(Refusal::from_number(refusal.number()), Some(*refusal));
    }
    assert_eq!((Refusal::from_number(0), Refusal::from_number(18)), (None, None));
    assert_eq!(Refusal::Fails.to_string(), "refusal 8: evaluation fails");
    assert_eq!((Refusal::NoParse.number(), Refusal::TextLong.number(), Refusal::ReportFull.number()), (15, 16, 17));
}
