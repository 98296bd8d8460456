//! Every lent byte: what an answer writes and leaves, what a refusal leaves, and the room.

use umlazgrin::lent::{check, evaluate, matches, optimise, write, Matched};
use umlazgrin::{Place, Refusal, ROOM};

const FORM: [u8; 5] = [0xff, 0x05, 0xff, 0x01, 0x80]; // (f 1)
const FAILS: [u8; 5] = [0xff, 0x05, 0xff, 0x80, 0x80]; // (f 0)

/// Bytes that no function could take for its own.
fn filled(length: usize) -> Vec<u8> {
    (0..length).map(|i| (i * 7 + 3) as u8 | 1).collect()
}

#[test]
fn an_answer() {
    let (mut room, mut out) = (filled(ROOM + 5), filled(40));
    let report = optimise(&FORM, &mut room, &mut out).unwrap();
    assert_eq!((report.length, report.passes, report.units, report.mark), (1, 1, 31, false));
    assert_eq!((out[0], &out[1..]), (2, &filled(40)[1..]));
    assert!(room.iter().all(|b| *b == 0));
}

#[test]
fn a_refusal() {
    let (mut room, mut out) = (filled(ROOM), filled(40));
    assert_eq!(optimise(&FAILS, &mut room, &mut out), Err(Refusal::Fails));
    assert_eq!(out, filled(40));
    assert!(room.iter().all(|b| *b == 0));
}

#[test]
fn a_small_room() {
    let (mut room, mut out) = (filled(ROOM - 1), filled(40));
    assert_eq!(optimise(&FORM, &mut room, &mut out), Err(Refusal::RoomSmall));
    assert_eq!(evaluate(&FORM, 3, &mut room, &mut out), Err(Refusal::RoomSmall));
    assert_eq!(matches(&FORM, 3, &mut room, &mut out), Err(Refusal::RoomSmall));
    assert_eq!(check(&FORM, &mut room), Err(Refusal::RoomSmall));
    assert_eq!(write(&FORM, &mut room, &mut out), Err(Refusal::RoomSmall));
    assert_eq!((room, out), (filled(ROOM - 1), filled(40)));
}

#[test]
fn a_short_output() {
    let (mut room, mut out) = (filled(ROOM), filled(4));
    assert_eq!(write(&FORM, &mut room, &mut out), Err(Refusal::OutputShort));
    assert_eq!(out, filled(4));
    assert!(room.iter().all(|b| *b == 0));
    assert_eq!(optimise(&FORM, &mut room, &mut []), Err(Refusal::OutputShort));
}

/// The output holds the shortest form, which may have fewer bytes than the one that was read.
#[test]
fn a_spare_spelling() {
    let spare = [0xff, 0x81, 0x05, 0xff, 0xc0, 0x01, 0x01, 0xe0, 0x00, 0x00];
    let (mut room, mut out) = (filled(ROOM), filled(40));
    assert_eq!(write(&spare, &mut room, &mut out[..4]), Err(Refusal::OutputShort));
    assert_eq!(out, filled(40));
    let report = write(&spare, &mut room, &mut out[..5]).unwrap();
    assert_eq!((report.length, report.units), (5, 26));
    assert_eq!((&out[..5], &out[5..]), (&FORM[..], &filled(40)[5..]));
    assert!(room.iter().all(|b| *b == 0));
}

#[test]
fn empty_slices() {
    assert_eq!(optimise(&[], &mut [], &mut []), Err(Refusal::RoomSmall));
    let mut room = filled(ROOM);
    assert_eq!(optimise(&[], &mut room, &mut []), Err(Refusal::EndsEarly));
    assert_eq!(matches(&[5, 6], usize::MAX, &mut room, &mut []), Err(Refusal::BytesAfter));
    assert_eq!(matches(&[5, 6], 1, &mut room, &mut []), Ok(Matched::NoMatch(at(1))));
}

/// The place of a short path.
fn at(path: u16) -> Place {
    let mut bytes = [0; 64];
    bytes[62..].copy_from_slice(&path.to_be_bytes());
    Place(bytes)
}

/// Where a match of two forms fails, and that it leaves the output, and a clean room.
fn failure(pattern: &[u8], expression: &[u8]) -> Place {
    let (mut room, mut out) = (filled(ROOM + 5), filled(40));
    let said = matches(&[pattern, expression].concat(), pattern.len(), &mut room, &mut out);
    assert_eq!(out, filled(40));
    assert!(room.iter().all(|b| *b == 0));
    match said {
        Ok(Matched::NoMatch(place)) => place,
        _ => panic!("{said:?}"),
    }
}

#[test]
fn places() {
    assert_eq!(failure(&[5], &[6]), at(1));
    assert_eq!(failure(&[5], &FORM), at(1));
    assert_eq!(failure(&FORM, &[5]), at(1));
    assert_eq!(failure(&[0xff, 5, 6], &[0xff, 7, 8]), at(2));
    assert_eq!(failure(&[0xff, 5, 6], &[0xff, 5, 0xff, 6, 7]), at(3));
    assert_eq!(failure(&[0xff, 5, 0xff, 6, 7], &[0xff, 5, 6]), at(3));
    assert_eq!(failure(&FORM, &FAILS), at(5));
    // One name for two trees: the later place. ($ . 5) goes into a pair.
    assert_eq!(failure(&[0xff, 0xff, 0x3a, 0x41, 0xff, 0x3a, 0x41], &[0xff, 5, 6]), at(3));
    assert_eq!(failure(&[0xff, 0x24, 5], &[0xff, 6, 7]), at(2));
}

/// So many turns to the left, then so many to the right, then an atom.
fn nest(left: usize, right: usize, atom: u8) -> Vec<u8> {
    [vec![0xff; left], [0xff, 0x80].repeat(right), vec![atom], vec![0x80; left]].concat()
}

/// A turn is a bit, the first the lowest. 511 turns fill the place; more do not fit.
#[test]
fn deep_places() {
    let deep = |left, right| failure(&nest(left, right, 5), &nest(left, right, 6));
    assert_eq!(deep(7, 0), at(0x80));
    assert_eq!(deep(7, 1), at(0x180));
    assert_eq!(deep(0, 8), at(0x1ff));
    assert_eq!(deep(0, 511), Place([0xff; 64]));
    assert_eq!(deep(511, 0).path(), [vec![0x80], vec![0; 63]].concat());
    assert_eq!(deep(509, 1).path(), [vec![0x60], vec![0; 63]].concat());
    assert!(!deep(511, 0).is_too_deep());
    for (left, right) in [(512, 0), (0, 512), (256, 256), (2000, 0), (0, 2000)] {
        assert_eq!(deep(left, right), Place([0; 64]));
        assert!(deep(left, right).is_too_deep() && deep(left, right).path().is_empty());
    }
    assert_eq!((at(1).path(), at(0x180).path()), (&[1][..], &[1, 0x80][..]));
}

/// A program that calls itself until its steps run out, `depth` operands deep.
fn without_end(depth: usize) -> Vec<u8> {
    let body = [&[0x01, 0xff, 0x04, 0xff][..], &[0xff, 0x02, 0xff, 0x01, 0xff, 0x01, 0x80], &[0xff, 0x01, 0x80]].concat();
    let mut form = [&[0xff, 0x02, 0xff, 0xff][..], &body, &[0xff, 0xff], &body, &[0x80]].concat();
    for _ in 0..depth {
        form = [&[0xff, 0x08, 0xff][..], &form, &[0x80]].concat();
    }
    form
}

/// The work that was seen to go deepest, on a thread with the stack that is asked for.
#[test]
fn deep_work() {
    let work = || {
        let (mut room, mut out) = (filled(ROOM), filled(32_768));
        let left = [[0xff; 4095].to_vec(), vec![0x80; 4096]].concat();
        let right = [[0xff, 0x80].repeat(4095), vec![0x80]].concat();
        assert_eq!(optimise(&left, &mut room, &mut out), Err(Refusal::NoOperator));
        assert_eq!(check(&right, &mut room), Ok(4095 * 8));
        assert_eq!(optimise(&without_end(61), &mut room, &mut out), Err(Refusal::StepsOut));
    };
    std::thread::Builder::new().stack_size(2 << 20).spawn(work).unwrap().join().unwrap();
}
