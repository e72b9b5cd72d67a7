//! Runs answers and reference points through the rendering of document 02 and through the C function, and prints every difference.
//! Usage: compare-nearest [COUNT] [SEED].

use std::process::ExitCode;

use oracle::ffi;
use oracle::lists::LENT;
use oracle::nearest::{nearest, Found};
use oracle::random::{any_word, calm_word, Rng};

/// The answer's 24 bytes.
fn told(found: Found) -> [u8; 24] {
    let numbers = [found.number as u64, found.index.is_some() as u64, found.index.unwrap_or(0) as u64];
    let mut bytes = [0; 24];
    for (i, n) in numbers.iter().enumerate() {
        bytes[8 * i..8 * i + 8].copy_from_slice(&n.to_le_bytes());
    }
    bytes
}

/// Whether the C function gives what is expected, for points of so many bytes and an answer of so many.
fn agrees(re: u64, im: u64, points: &[u8], room: usize) -> bool {
    let mut answer = vec![LENT; room];
    let number = ffi::nearest(re, im, points, &mut answer);
    let words: Vec<u64> = points.chunks_exact(8).map(|w| u64::from_le_bytes(w.try_into().unwrap())).collect();
    let whole = points.len().is_multiple_of(8);
    let expected = if whole { nearest(re, im, &words) } else { Found { number: 8, index: None } };
    if room != 24 {
        return number == 8 && answer.iter().all(|b| *b == LENT);
    }
    number == expected.number && answer == told(expected)
}

/// A word for a point: near the answer, of a small range so that distances tie, special, or any bits.
fn point_word(rng: &mut Rng, near: u64) -> u64 {
    match rng.below(6) {
        0 => near,
        1 => near ^ 1 << 63,
        2 => (rng.below(5) as f64 - 2.0).to_bits(),
        3 => calm_word(rng),
        4 => near.wrapping_add(rng.below(5) as u64).wrapping_sub(2),
        _ => any_word(rng),
    }
}

fn main() -> ExitCode {
    let mut arguments = std::env::args().skip(1).map(|a| a.parse().expect("a number"));
    let (count, seed): (u64, u64) = (arguments.next().unwrap_or(50_000), arguments.next().unwrap_or(1));
    let mut rng = Rng(seed);
    let (mut differences, mut found, mut none, mut refused) = (0u64, 0u64, 0u64, 0u64);
    for case in 0..count {
        // every length about the limits in turn, then any
        let length = match case {
            0..=1 => case as usize,
            2..=9 => 1020 + case as usize - 2,
            _ if rng.once_in(50) => rng.below(1100),
            _ => 2 * rng.below(20),
        };
        let (re, im) = (any_word(&mut rng), any_word(&mut rng));
        let words: Vec<u64> = (0..length).map(|i| point_word(&mut rng, if i % 2 == 0 { re } else { im })).collect();
        let mut points = ffi::to_bytes(&words);
        if rng.once_in(40) {
            points.truncate(points.len().saturating_sub(1 + rng.below(7)));
        }
        let room = if rng.once_in(40) { rng.below(49) } else { 24 };
        match nearest(re, im, &words) {
            Found { number: 13, .. } => refused += 1,
            Found { index: None, .. } => none += 1,
            _ => found += 1,
        }
        if !agrees(re, im, &points, room) {
            differences += 1;
            println!("answer {re:016x} {im:016x}, {} bytes of points, room {room}: {words:016x?}", points.len());
        }
    }
    println!("nearest: {count} cases, {found} with a nearest point, {none} with none, {refused} refused by 13, {differences} differences");
    if differences == 0 {
        ExitCode::SUCCESS
    } else {
        ExitCode::FAILURE
    }
}
