//! Times lowering and playing with labels and branches, through the C functions: nanoseconds for a call and for a record, of the fastest
//! round; the rounds of all rows alternate. Usage: speed-branches [ROUNDS].

use std::hint::black_box;
use std::time::Instant;

use oracle::ffi;
use oracle::format::{LISTING_LIMIT, MEM, STORE, TABLE};
use oracle::make::*;
use oracle::names::bi::PLUS;

/// A row: what it is, its records, and one call.
struct Row {
    name: &'static str,
    records: usize,
    call: Box<dyn FnMut()>,
    least: f64,
}

fn row(name: &'static str, records: usize, call: impl FnMut() + 'static) -> Row {
    Row { name, records, call: Box::new(call), least: f64::INFINITY }
}

/// A sheet of these instructions, lowered.
fn lowering(name: &'static str, instructions: Vec<Vec<u8>>) -> Row {
    let sheet = sheet(false, &[0; 64], &[], &instructions);
    let (mut listing, mut constants, mut answer) = (vec![0; LISTING_LIMIT], vec![0; 8 * TABLE], [0; ffi::LOWER_ANSWER]);
    let mut origins = [0; ffi::ORIGINS];
    assert_eq!(ffi::lower(&sheet, &mut listing, &mut constants, &mut origins, &mut answer), 0);
    row(name, instructions.len(), move || {
        black_box(ffi::lower(black_box(&sheet), &mut listing, &mut constants, &mut origins, &mut answer));
    })
}

/// A listing of these records, played on zeros.
fn playing(name: &'static str, records: Vec<Vec<u8>>) -> Row {
    let (listing, mut store, mut answer) = (records.concat(), vec![0; 8 * STORE], [0; 24]);
    assert_eq!(ffi::play(&listing, &[], &mut store, 0, &mut answer), 0);
    row(name, records.len(), move || {
        black_box(ffi::play(black_box(&listing), &[], &mut store, 0, &mut answer));
    })
}

/// The instruction with this index, of loads and sums.
fn calm(i: usize) -> Vec<u8> {
    let register = |factor| (i * factor % 28) as u8;
    match i % 2 {
        0 => load(register(5), MEM, (i % 200) as u16),
        _ => bi(PLUS, register(5), register(7), register(11)),
    }
}

/// The same with a Label or a BranchIf in every tenth place: 30 parts of up to 20 instructions that are jumped over or not.
fn parted(i: usize) -> Vec<u8> {
    let number = 3 + (i / 20) as u8;
    match i % 20 {
        0 => branch_if(1, number, 0),
        10 => label(number),
        _ => calm(i),
    }
}

/// So many records, and a last one.
fn then(count: usize, record: Vec<u8>, last: Vec<u8>) -> Vec<Vec<u8>> {
    let mut found = vec![record; count];
    found.push(last);
    found
}

fn rows() -> Vec<Row> {
    vec![
        lowering("lowering a Nop", vec![nop()]),
        lowering("lowering a Label", vec![label(3)]),
        lowering("lowering loads and sums", (0..600).map(calm).collect()),
        lowering("lowering them with 30 BranchIfs and Labels", (0..600).map(parted).collect()),
        lowering("lowering Branches to one Label", then(326, branch(3), label(3))),
        lowering("lowering Branches to one Label", then(3_262, branch(3), label(3))),
        playing("playing BranchIfs that do not branch", then(936, branch_if(4, 3, 0), label(3))),
        playing("playing BranchIfs that do not branch", then(9_361, branch_if(4, 3, 0), label(3))),
        playing("playing Branches, of which the first goes to the end", then(1_306, branch(3), label(3))),
        playing("playing Branches, of which the first goes to the end", then(13_106, branch(3), label(3))),
    ]
}

fn main() {
    let rounds: u64 = std::env::args().nth(1).map_or(2_000, |a| a.parse().expect("a number"));
    let mut rows = rows();
    for _ in 0..rounds {
        for row in &mut rows {
            let start = Instant::now();
            (row.call)();
            row.least = row.least.min(start.elapsed().as_secs_f64() * 1e9);
        }
    }
    println!("| Call | Records | Nanoseconds | for a record |\n|---|---|---|---|");
    for row in rows {
        println!("| {} | {} | {:.0} | {:.1} |", row.name, row.records, row.least, row.least / row.records as f64);
    }
}
