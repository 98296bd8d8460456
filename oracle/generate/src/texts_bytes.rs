//! Texts of stray bytes and tokens: quotes that close late or never, bytes that no text has, and long texts that are spoiled far in.

use crate::options::Options;
use crate::random::Random;
use crate::sink::Sink;
use crate::texts_damaged::damage;

const LONGEST: usize = 33_000;

pub fn print(options: &Options, sink: &mut Sink) {
    for index in 0..options.count {
        let mut random = Random::new(options.seed, index);
        let text = match random.below(40) {
            0 => spoiled_far_in(&mut random),
            1..=9 => any_bytes(&mut random),
            10..=19 => telling_bytes(&mut random),
            _ => stray_tokens(&mut random),
        };
        sink.text("text-bytes", &text);
    }
}

/// No line's end comes in.
fn any_bytes(random: &mut Random) -> Vec<u8> {
    let quoted = random.once_in(2);
    let bytes = (0..random.below(40)).map(|_| random.below(256) as u8).map(|any| if any == b'\n' { b'"' } else { any });
    let bytes: Vec<u8> = bytes.collect();
    if quoted { [b"(q \"", &bytes[..]].concat() } else { bytes }
}

fn telling_bytes(random: &mut Random) -> Vec<u8> {
    (0..random.between(1, 30)).map(|_| random.pick(b"((())) . \"\"\"0x51-qfa=\t\r\x00\x1f\x7f\x80\xff")).collect()
}

/// Sound tokens and others, close together or apart.
fn stray_tokens(random: &mut Random) -> Vec<u8> {
    let sound: [&[u8]; 16] =
        [b"(", b"(", b"(", b"(", b")", b")", b")", b")", b".", b"()", b"5", b"(q", b"(f", b"\"a b\"", b"0x05", b"-129"];
    let other: [&[u8]; 12] =
        [b"f", b"q", b"\"", b"\"\t\"", b"\"\xc3\xa9\"", b"0x5", b"+5", b"\x00", b"five", b"..", b"\xff", b"1.2"];
    let strays = random.between(1, 12);
    let mut text = Vec::new();
    for _ in 0..random.between(1, 25) {
        let token = if random.once_in(2 * strays) { random.pick(&other) } else { random.pick(&sound) };
        text.extend(token);
        (0..random.below(3)).for_each(|_| text.push(random.pick(b"   \t\r")));
    }
    text
}

/// One long list in which one byte or two are not as they should be.
fn spoiled_far_in(random: &mut Random) -> Vec<u8> {
    let parts: [&[u8]; 7] = [b"5 ", b"(f 1)", b"\"a b\"", b"(q . 5)", b"0xab ", b"(c . (2 (r 3)))", b"((a) -129)"];
    let most = random.between(1000, LONGEST);
    let mut text = b"(c ".to_vec();
    while text.len() < most {
        text.extend(random.pick(&parts));
    }
    text.push(b')');
    (0..random.between(1, 2)).for_each(|_| damage(random, &mut text));
    text
}
