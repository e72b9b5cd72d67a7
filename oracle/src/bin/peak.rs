//! The running peak: runs through `peak.rs` and through the C function, at every limit and at random; every difference is printed.
//! Usage: peak [COUNT] [SEED].

use std::process::ExitCode;

use oracle::ffi;
use oracle::format::SETUP;
use oracle::peak::{peak, RUN_LIMIT, TURNED_AWAY, WINDOW_LIMIT};
use oracle::random::Rng;

/// Words that meet each other at every rule: zeros, NaNs, infinities, subnormals and numbers beside each other.
const EDGES: [u64; 20] = [
    0x0000_0000_0000_0000,
    0x8000_0000_0000_0000,
    0x0000_0000_0000_0001,
    0x8000_0000_0000_0001,
    0x000f_ffff_ffff_ffff,
    0x800f_ffff_ffff_ffff,
    0x0010_0000_0000_0000,
    0x8010_0000_0000_0000,
    0x3ff0_0000_0000_0000,
    0x3ff0_0000_0000_0001,
    0xbff0_0000_0000_0000,
    0x7fef_ffff_ffff_ffff,
    0xffef_ffff_ffff_ffff,
    0x7ff0_0000_0000_0000,
    0xfff0_0000_0000_0000,
    0x7ff0_0000_0000_0001,
    0xfff0_0000_0000_0001,
    0x7ff8_0000_0000_0000,
    0xfff8_0000_0000_0000,
    0xffff_ffff_ffff_ffff,
];

/// Kinds of runs: any edge, zeros alone, NaNs alone, few numbers among NaNs, any bits, rising, falling.
fn word(rng: &mut Rng, kind: u64, i: usize) -> u64 {
    let any = rng.bits() as usize;
    match kind {
        0 => EDGES[any % EDGES.len()],
        1 => EDGES[any % 2],
        2 => EDGES[15 + any % 5],
        3 if any.is_multiple_of(16) => EDGES[any / 16 % 15],
        3 => EDGES[15 + any % 5],
        4 => rng.bits(),
        5 => (i as f64).to_bits(),
        _ => (-(i as f64)).to_bits(),
    }
}

fn run(rng: &mut Rng, length: usize) -> Vec<u64> {
    let kind = rng.bits() % 7;
    (0..length).map(|i| word(rng, kind, i)).collect()
}

/// Cases by answer, and differences.
#[derive(Default)]
struct Tally {
    numbers: [u64; 13],
    differences: u64,
}

impl Tally {
    /// One case over bytes, beginning at any address. What is no whole number of words is refused by 8.
    fn compare(&mut self, run: &[u8], w: u64, out: &[u8]) {
        let words = |bytes: &[u8]| -> Vec<u64> {
            bytes.chunks_exact(8).map(|b| u64::from_le_bytes(b.try_into().unwrap())).collect()
        };
        let whole = run.len().is_multiple_of(8) && out.len().is_multiple_of(8);
        let (mut expected, mut found) = (out.to_vec(), out.to_vec());
        let mut number = SETUP;
        if whole {
            let mut after = words(out);
            number = peak(&words(run), w, &mut after);
            expected = after.iter().flat_map(|word| word.to_le_bytes()).collect();
        }
        let given = ffi::peak(run, w, &mut found);
        self.numbers[number as usize] += 1;
        if (given, &found) != (number, &expected) {
            self.differences += 1;
            let at = expected.iter().zip(&found).position(|(a, b)| a != b);
            println!("run {run:?}\n  window {w}, output {} bytes\n  expected {number}, found {given}, bytes differ at {at:?}", out.len());
        }
    }

    fn words(&mut self, rng: &mut Rng, length: usize, w: u64, room: usize) {
        let bytes = |words: &[u64]| -> Vec<u8> { words.iter().flat_map(|word| word.to_le_bytes()).collect() };
        let (words, lent) = (run(rng, length), run(rng, room));
        self.compare(&bytes(&words), w, &bytes(&lent));
    }

    fn limits(&mut self, rng: &mut Rng) {
        for w in 1..=WINDOW_LIMIT {
            for length in [0, 1, w as usize - 1, w as usize, w as usize + 1, 3 * w as usize, 200] {
                self.words(rng, length, w, length + w as usize % 3);
            }
            self.words(rng, RUN_LIMIT, w, RUN_LIMIT);
        }
        for w in [0, WINDOW_LIMIT + 1, 1 << 32, (1 << 32) + 1, u64::MAX] {
            self.words(rng, 9, w, 9);
        }
        for length in [RUN_LIMIT - 1, RUN_LIMIT, RUN_LIMIT + 1, 2 * RUN_LIMIT] {
            for room in [0, 1, RUN_LIMIT - 1, RUN_LIMIT, RUN_LIMIT + 1, 2 * RUN_LIMIT + 1] {
                let w = 1 + rng.bits() % WINDOW_LIMIT;
                self.words(rng, length, w, room);
            }
        }
        for (length, room) in [(1, 8), (8, 9), (15, 16), (16, 23), (17, 17), (32_769, 40_000), (40_000, 32_769)] {
            self.compare(&vec![0xa5; length], 2, &vec![0x5a; room]);
        }
    }
}

fn main() -> ExitCode {
    let number = |i: usize, default: u64| std::env::args().nth(i).map_or(default, |n| n.parse().expect("a number"));
    let (count, mut rng, mut tally) = (number(1, 20_000), Rng(number(2, 1)), Tally::default());
    tally.limits(&mut rng);
    for _ in 0..count {
        let longest = [8, 200, RUN_LIMIT + 2][(rng.bits() % 16).saturating_sub(13) as usize];
        let length = rng.bits() as usize % longest;
        let w = rng.bits() % (WINDOW_LIMIT + 2);
        let room = (length + rng.bits() as usize % 4).saturating_sub((rng.bits() % 16 == 0) as usize);
        tally.words(&mut rng, length, w, room);
    }
    let [accepted, wrong, away] = [0, SETUP, TURNED_AWAY].map(|n| tally.numbers[n as usize]);
    let total = accepted + wrong + away;
    println!("peak: {total} cases, 0: {accepted}, 8: {wrong}, 12: {away}, {} differences", tally.differences);
    ExitCode::from((tally.differences > 0) as u8)
}
