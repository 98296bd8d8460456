//! Damaged texts: what the reader must refuse lies one byte away from what it must take.

use crate::code;
use crate::options::Options;
use crate::random::Random;
use crate::sink::Sink;
use crate::spelling::{plain, spelled};
use crate::trees;

pub fn print(options: &Options, sink: &mut Sink) {
    for index in 0..options.count {
        let mut random = Random::new(options.seed, index);
        let tree = if random.once_in(2) { code::small(&mut random) } else { trees::form(&mut random) };
        let mut text = if random.once_in(3) { plain(&tree) } else { spelled(&mut random, &tree) };
        for _ in 0..1 + random.below(3) / 2 {
            damage(&mut random, &mut text);
        }
        sink.text("text-damaged", &text);
    }
}

/// One byte changed, dropped, doubled, put in or changed over with the next; or the text cut. No line's end comes in.
pub fn damage(random: &mut Random, text: &mut Vec<u8>) {
    if text.is_empty() {
        return text.push(stray(random));
    }
    let place = random.below(text.len());
    match random.below(12) {
        0..=2 => text[place] = stray(random),
        3..=5 => {
            text.remove(place);
        }
        6 | 7 => text.insert(place, text[place]),
        8 => text.insert(place, stray(random)),
        9 | 10 if place + 1 < text.len() => text.swap(place, place + 1),
        _ => text.truncate(place),
    }
}

fn stray(random: &mut Random) -> u8 {
    if random.once_in(4) {
        let any = random.below(256) as u8;
        return if any == b'\n' { 0x0b } else { any };
    }
    random.pick(b"()()\". .\t\r 0123456789abcdefABCDEFxX-+qaicfrlx=g_,;'\x00\x1f\x7f\x80\xff")
}
