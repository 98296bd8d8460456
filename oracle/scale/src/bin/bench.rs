//! bench [--count N] [--seed N] [--repeats N]: the time that the proved library takes for answered forms of 1,000 to 4,000 bytes,
//! beside the published Rust with the oracle's runner, in one process: both read the bytes, optimise and write the bytes.
//!
//! The room is cleared, and the Rust's store emptied, before each call and outside the time. A form's time is the least of its
//! repeats, which go in turns. Compared with two builds of the Rust: `published`, the text as it is, with its memo; and `charged`,
//! the oracle's patched copy, which also counts units, passes and nesting and has no memo. ./instructions counts instructions.

use std::hint::black_box;
use std::time::{Duration, Instant};

use clvm_rs::allocator::Allocator;
use generate::options::Options;
use generate::sink::Sink;

struct Bench {
    charged: Allocator,
    published: Allocator,
    room: Vec<u8>,
    out: Vec<u8>,
}

// The three sides, under names that a profiler finds.

#[inline(never)]
#[no_mangle]
fn bench_library(form: &[u8], room: &mut [u8], out: &mut [u8]) -> usize {
    umlazgrin::lent::optimise(form, room, out).map_or(0, |report| report.length)
}

#[inline(never)]
#[no_mangle]
fn bench_published(form: &[u8], store: &mut Allocator) -> usize {
    oracle::modes::published(store, form).map_or(0, |tree| tree.map_or(0, |bytes| bytes.len()))
}

#[inline(never)]
#[no_mangle]
fn bench_charged(form: &[u8], store: &mut Allocator) -> usize {
    oracle::modes::full(store, form, umlazgrin::OUTPUT).map_or(0, |answer| answer.tree.len())
}

fn timed(work: impl FnOnce() -> usize) -> Duration {
    let began = Instant::now();
    black_box(work());
    began.elapsed()
}

impl Bench {
    fn new() -> Self {
        Bench {
            charged: oracle::store(false),
            published: oracle::store(false),
            room: vec![0; umlazgrin::ROOM],
            out: vec![0; umlazgrin::OUTPUT],
        }
    }

    /// Library, published, charged: one call each.
    fn once(&mut self, form: &[u8]) -> [Duration; 3] {
        self.room.fill(0);
        let library = timed(|| bench_library(form, &mut self.room, &mut self.out));
        self.published.clear(false);
        let published = timed(|| bench_published(form, &mut self.published));
        self.charged.clear(true);
        let charged = timed(|| bench_charged(form, &mut self.charged));
        [library, published, charged]
    }
}

/// So many forms that are answered, of 1,000 to 4,000 bytes.
fn forms(seed: u64, count: usize) -> Vec<Vec<u8>> {
    let mut answered = umlazgrin::Umlazgrin::new();
    let mut forms = Vec::new();
    let words = ["large", "--seed", &seed.to_string(), "--count", &(2 * count).to_string()].map(String::from);
    let options = Options::from(words.into_iter()).expect("the family is there");
    generate::print(
        &options,
        &mut Sink::new(|_, form| {
            let within = (1_000..=4_000).contains(&form[0].len());
            if within && forms.len() < count && answered.optimise(form[0]).is_ok() {
                forms.push(form[0].to_vec());
            }
        }),
    );
    forms
}

fn report(name: &str, library: &[f64], other: &[f64]) {
    let mut ratios: Vec<f64> = library.iter().zip(other).map(|(l, o)| l / o).collect();
    ratios.sort_by(f64::total_cmp);
    let sum = |times: &[f64]| times.iter().sum::<f64>() / times.len() as f64;
    println!(
        "library / {name}: median {:.3}, worst {:.3}, best {:.3}; mean microseconds {:.1} / {:.1}",
        ratios[ratios.len() / 2], ratios[ratios.len() - 1], ratios[0], sum(library), sum(other)
    );
}

fn run(seed: u64, count: usize, repeats: usize) {
    let forms = forms(seed, count);
    let sizes: Vec<usize> = forms.iter().map(|form| form.len()).collect();
    println!("{} answered forms of {} to {} bytes, seed {seed}, least of {repeats}", forms.len(), sizes.iter().min().unwrap_or(&0), sizes.iter().max().unwrap_or(&0));
    let mut bench = Bench::new();
    let mut times = [const { Vec::new() }; 3];
    for form in &forms {
        let mut least = bench.once(form);
        for _ in 1..repeats {
            for (best, time) in least.iter_mut().zip(bench.once(form)) {
                *best = time.min(*best);
            }
        }
        for (side, time) in times.iter_mut().zip(least) {
            side.push(time.as_secs_f64() * 1e6);
        }
    }
    let [library, published, charged] = &times;
    report("published", library, published);
    report("charged", library, charged);
}

fn main() {
    let words: Vec<String> = std::env::args().skip(1).collect();
    let option = |name: &str, usual: usize| {
        let at = words.iter().position(|word| word == name);
        at.map_or(usual, |at| words.get(at + 1).and_then(|n| n.parse().ok()).unwrap_or(usual))
    };
    let (seed, count, repeats) = (option("--seed", 1) as u64, option("--count", 1000), option("--repeats", 9));
    let worker = std::thread::Builder::new().stack_size(oracle::STACK).spawn(move || run(seed, count, repeats));
    worker.expect("a thread with a large stack").join().expect("the work");
}
