//! Random forms, each on two lines: in some spelling of each of its atoms, then in the shortest. Whoever reads both must answer both alike,
//! but where the first has over 8,192 bytes. A few have a fault, in the same part on both lines.

use crate::code;
use crate::kept::kept;
use crate::large;
use crate::options::Options;
use crate::prefixes::{greatest, put_spelled, FIRST};
use crate::random::Random;
use crate::sink::Sink;
use crate::tree::*;
use crate::trees;

pub fn print(options: &Options, sink: &mut Sink) {
    for index in 0..options.count {
        let mut random = Random::new(options.seed, index);
        let tree = form(&mut random);
        let fault = fault(&mut random, leaves(&tree));
        let mut speller = Speller::new(&mut random);
        sink.bytes("spelled", &written(&tree, &fault, &mut |bytes, out| speller.atom(bytes, out)));
        sink.bytes("spelled-shortest", &written(&tree, &fault, &mut write_atom));
    }
}

fn form(random: &mut Random) -> Tree {
    match random.below(64) {
        0 => large::form(random),
        1..=31 => code::form(random),
        32..=39 => code::small(random),
        40..=47 => kept(random),
        _ => trees::form(random),
    }
}

/// What is wrong with a form beside its spelling. Atoms are counted in the order in which they are written.
enum Fault {
    None,
    /// A prefix that is not carried, instead of this atom.
    NotCarried(usize, u8),
    /// The form ends behind this atom; behind the last one it is whole.
    Cut(usize),
    After(Vec<u8>),
}

fn fault(random: &mut Random, leaves: usize) -> Fault {
    match random.below(32) {
        0 => Fault::NotCarried(random.below(leaves), random.pick(&[0xfc, 0xfd, 0xfe])),
        1 => Fault::Cut(random.below(leaves)),
        2 => Fault::After(vec![random.below(256) as u8; random.between(1, 3)]),
        _ => Fault::None,
    }
}

fn written(tree: &Tree, fault: &Fault, spell: &mut WriteAtom) -> Vec<u8> {
    let (mut out, mut number, mut end) = (Vec::new(), 0, None);
    write_by(tree, &mut out, &mut |bytes, out| {
        match fault {
            Fault::NotCarried(here, first) if *here == number => out.push(*first),
            _ => spell(bytes, out),
        }
        if matches!(fault, Fault::Cut(here) if *here == number) {
            end = Some(out.len());
        }
        number += 1;
    });
    out.truncate(end.unwrap_or(out.len()));
    if let Fault::After(more) = fault {
        out.extend(more);
    }
    out
}

/// One kind of prefix wherever it can be, as an exporter would write, or any, and now and then the shortest.
struct Speller<'a> {
    random: &'a mut Random,
    steady: Option<usize>,
}

impl Speller<'_> {
    fn new(random: &mut Random) -> Speller<'_> {
        let steady = if random.once_in(3) { Some(random.below(FIRST.len())) } else { None };
        Speller { random, steady }
    }

    fn atom(&mut self, bytes: &[u8], out: &mut Vec<u8>) {
        let kind = match self.steady {
            Some(kind) => kind,
            None if self.random.once_in(5) => return write_atom(bytes, out),
            None => self.random.below(FIRST.len()),
        };
        // Only the first kind can be too small for an atom here.
        let kind = if bytes.len() as u64 <= greatest(kind) { kind } else { self.random.between(1, FIRST.len() - 1) };
        put_spelled(kind, bytes, out);
    }
}
