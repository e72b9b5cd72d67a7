//! Times the C function beside a plain loop in Rust over the same bytes, 512 points. Usage: speed-nearest [ROUNDS]. A figure is that of the
//! fastest round; the rounds of both sides alternate.

use std::hint::black_box;
use std::time::Instant;

use oracle::ffi;
use oracle::random::{calm_word, Rng};

const CALLS: u32 = 200;

fn word(bytes: &[u8]) -> f64 {
    f64::from_bits(u64::from_le_bytes(bytes.try_into().unwrap()))
}

/// The plain loop: the least distance so far and its index.
fn plain(re: f64, im: f64, points: &[u8]) -> Option<usize> {
    let mut best: Option<(usize, f64)> = None;
    for (i, p) in points.chunks_exact(16).enumerate() {
        let (a, b) = (re - word(&p[..8]), im - word(&p[8..]));
        let far = a * a + b * b;
        if !far.is_nan() && best.is_none_or(|(_, least)| far <= least) {
            best = Some((i, far));
        }
    }
    best.map(|(i, _)| i)
}

fn nanoseconds(mut work: impl FnMut()) -> f64 {
    let start = Instant::now();
    for _ in 0..CALLS {
        work();
    }
    start.elapsed().as_secs_f64() * 1e9 / CALLS as f64
}

fn main() {
    let rounds: u32 = std::env::args().nth(1).map_or(200, |a| a.parse().expect("a number"));
    let mut rng = Rng(1);
    let points = ffi::to_bytes(&(0..1024).map(|_| calm_word(&mut rng)).collect::<Vec<_>>());
    let (re, im) = (calm_word(&mut rng), calm_word(&mut rng));
    let (mut rust, mut ours) = (f64::INFINITY, f64::INFINITY);
    for _ in 0..rounds {
        rust = rust.min(nanoseconds(|| {
            black_box(plain(f64::from_bits(black_box(re)), f64::from_bits(black_box(im)), black_box(&points)));
        }));
        ours = ours.min(nanoseconds(|| {
            black_box(ffi::nearest(black_box(re), black_box(im), black_box(&points), &mut [0; 24]));
        }));
    }
    println!("nearest of 512 points: the plain loop {rust:.0} ns, ours {ours:.0} ns, {:.2} times", ours / rust);
}
