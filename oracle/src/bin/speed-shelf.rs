//! Times the shelf figures beside lowering, through the C functions over the same sheets. Usage: speed-shelf [ROUNDS]. A figure is that of
//! the fastest round; the rounds of both sides alternate.

use std::hint::black_box;
use std::time::Instant;

use oracle::ffi;
use oracle::random::{parts, Rng};

const SHEETS: usize = 20;

fn microseconds(mut work: impl FnMut()) -> f64 {
    let start = Instant::now();
    work();
    start.elapsed().as_secs_f64() * 1e6 / SHEETS as f64
}

fn main() {
    let rounds: u32 = std::env::args().nth(1).map_or(100, |a| a.parse().expect("a number"));
    let mut rng = Rng(1);
    let accepted = |sheet: &Vec<u8>| ffi::shelf(sheet, &mut [0; 40]) == 0;
    let sheets: Vec<Vec<u8>> =
        std::iter::repeat_with(|| parts(&mut rng, 600).sheet()).filter(accepted).take(SHEETS).collect();
    let (mut lower, mut shelf) = (f64::INFINITY, f64::INFINITY);
    let (mut listing, mut constants) = (vec![0; 65_536], vec![0; 2_048]);
    for _ in 0..rounds {
        lower = lower.min(microseconds(|| {
            for sheet in &sheets {
                black_box(ffi::lower(
                    black_box(sheet),
                    &mut listing,
                    &mut constants,
                    &mut [0; ffi::ORIGINS],
                    &mut [0; ffi::LOWER_ANSWER],
                ));
            }
        }));
        shelf = shelf.min(microseconds(|| {
            for sheet in &sheets {
                black_box(ffi::shelf(black_box(sheet), &mut [0; 40]));
            }
        }));
    }
    println!(
        "a sheet of 600 instructions: lowering {lower:.1} us, its figures {shelf:.1} us, {:.2} times",
        shelf / lower
    );
}
