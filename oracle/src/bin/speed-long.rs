//! Times lowering and the shelf figures on sheets that are too long: 10 MiB of records beside a tenth of them. Looking ahead is one pass, so
//! ten times the bytes take about ten times as long; more than 12 times fails. Usage: speed-long [ROUNDS]. A figure is that of the fastest
//! round by the process's own clock; the rounds of both sheets alternate.

use std::hint::black_box;
use std::process::ExitCode;

use oracle::format::*;
use oracle::{ffi, make};

const BYTES: usize = 10 << 20;
const MOST: f64 = 12.0;

/// A sheet of so many bytes of one record over and over, behind a Branch 3 and before its Label.
fn sheet(record: &[u8], bytes: usize) -> Vec<u8> {
    let row = [make::branch(3), record.repeat(bytes / record.len()), make::label(3)];
    [make::header(false, &[0; 64]), row.concat()].concat()
}

fn lowered(sheet: &[u8]) -> u32 {
    let (mut listing, mut constants, mut answer) =
        (vec![0; LISTING_LIMIT], vec![0; 8 * TABLE], vec![0; ffi::LOWER_ANSWER]);
    ffi::lower(black_box(sheet), &mut listing, &mut constants, &mut [0; ffi::ORIGINS], &mut answer)
}

fn shelved(sheet: &[u8]) -> u32 {
    ffi::shelf(black_box(sheet), &mut [0; 40])
}

#[repr(C)]
struct Time {
    seconds: i64,
    nanoseconds: i64,
}

extern "C" {
    fn clock_gettime(clock: i32, time: *mut Time) -> i32;
}

/// CLOCK_PROCESS_CPUTIME_ID of Linux: what the process has computed, which other work on the machine does not lengthen.
const COMPUTED: i32 = 2;

fn now() -> f64 {
    let mut time = Time { seconds: 0, nanoseconds: 0 };
    // SAFETY: `time` is a timespec of 64-bit Linux.
    assert_eq!(unsafe { clock_gettime(COMPUTED, &mut time) }, 0);
    time.seconds as f64 + time.nanoseconds as f64 / 1e9
}

/// Seconds of the fastest round of each sheet.
fn fastest(rounds: u64, work: fn(&[u8]) -> u32, sheets: &[Vec<u8>; 2]) -> [f64; 2] {
    let mut least = [f64::INFINITY; 2];
    for _ in 0..rounds {
        for (sheet, least) in sheets.iter().zip(&mut least) {
            let start = now();
            assert_eq!(work(sheet), LONG);
            *least = least.min(now() - start);
        }
    }
    least
}

fn main() -> ExitCode {
    let rounds = std::env::args().nth(1).map_or(20, |w| w.parse().expect("a number"));
    let mut within = true;
    println!("| Records | Function | 1 MiB, ms | 10 MiB, ms | Ratio |");
    println!("|---|---|---|---|---|");
    for (name, record) in [("Nop", make::nop()), ("Branch 3", make::branch(3))] {
        let sheets = [sheet(&record, BYTES / 10), sheet(&record, BYTES)];
        for (function, work) in [("lower", lowered as fn(&[u8]) -> u32), ("shelf", shelved)] {
            let [short, long] = fastest(rounds, work, &sheets);
            println!("| {name} | {function} | {:.3} | {:.3} | {:.1} |", 1e3 * short, 1e3 * long, long / short);
            within &= long / short <= MOST;
        }
    }
    if within {
        ExitCode::SUCCESS
    } else {
        ExitCode::FAILURE
    }
}
