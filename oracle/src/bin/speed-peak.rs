//! Times the C function of the running peak beside the plain loop of `peak.rs`, which looks through each window anew, on runs of 4,096
//! words. Usage: speed-peak [ROUNDS] [SEED]. A figure is that of the fastest round, in nanoseconds for a position; both sides take turns.

use std::hint::black_box;
use std::time::Instant;

use oracle::ffi;
use oracle::peak::{peak, RUN_LIMIT};
use oracle::random::Rng;

fn main() {
    let number = |i: usize, default: u64| std::env::args().nth(i).map_or(default, |n| n.parse().expect("a number"));
    let (rounds, mut rng) = (number(1, 2_000), Rng(number(2, 1)));
    println!("| Run | w | Plain loop | `tulipcricket_peak` |\n|---|---|---|---|");
    let random = |rng: &mut Rng| (rng.bits() as i64 as f64).to_bits();
    let kinds: [(&str, Vec<u64>); 3] = [
        ("random", (0..RUN_LIMIT).map(|_| random(&mut rng)).collect()),
        ("rising", (0..RUN_LIMIT).map(|i| (i as f64).to_bits()).collect()),
        ("falling", (0..RUN_LIMIT).map(|i| (-(i as f64)).to_bits()).collect()),
    ];
    for (name, run) in &kinds {
        let bytes: Vec<u8> = run.iter().flat_map(|word| word.to_le_bytes()).collect();
        for w in [1, 8, 64] {
            let (mut words, mut out, mut least) = (vec![0; RUN_LIMIT], vec![0; 8 * RUN_LIMIT], [f64::INFINITY; 2]);
            for _ in 0..rounds {
                let start = Instant::now();
                peak(black_box(run), w, black_box(&mut words));
                let middle = Instant::now();
                ffi::peak(black_box(&bytes), w, black_box(&mut out));
                let end = Instant::now();
                for (least, time) in least.iter_mut().zip([middle - start, end - middle]) {
                    *least = least.min(time.as_secs_f64() * 1e9 / RUN_LIMIT as f64);
                }
            }
            println!("| {name} | {w} | {:.2} | {:.2} |", least[0], least[1]);
        }
    }
}
