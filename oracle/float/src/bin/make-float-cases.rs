//! make-float-cases FILE: writes the list of cases that the program `float_replay` replays, and prints how many of each
//! operation it holds. The answers are this machine's hardware's. Equal machines write equal lists: the seed is fixed.
//!
//! A case is 41 bytes, words little-endian:
//!
//! | Bytes | Hold |
//! |---|---|
//! | 0 | the operation's number, its position in `OPERATIONS` |
//! | 1 to 32 | four operands, 8 bytes each; those the operation does not have are 0 |
//! | 33 to 40 | the answer |
//!
//! Behind the cases of the last operation stand those with NaNs for each operation once more.

use oracle_float::float_cases::{grid, listed_marks, CORE, SPECIAL};
use oracle_float::hardware;
use oracle_float::operations::{Operands, Operation, OPERATIONS};
use oracle_float::random::Rng;

const SEED: u64 = 0x1d0_c0de;

/// Special words in every combination where the list has room for them, then random cases.
fn cases(operation: &Operation, rng: &mut Rng) -> Vec<Operands> {
    let mut rows = match operation.operands {
        1 => grid(operation, &SPECIAL),
        2 | 3 => grid(operation, &CORE),
        _ => Vec::new(),
    };
    if rows.len() > operation.listed / 2 {
        rows.clear();
    }
    while rows.len() < operation.listed {
        let mut row = (operation.draw)(rng);
        row[operation.operands..].fill(0);
        rows.push(row);
    }
    rows
}

fn write(list: &mut Vec<u8>, number: u8, operation: &Operation, row: &Operands) {
    list.push(number);
    list.extend(row.iter().flat_map(|word| word.to_le_bytes()));
    list.extend((operation.hardware)(row).to_le_bytes());
}

fn main() {
    let file = std::env::args().nth(1).expect("make-float-cases FILE");
    let mut rng = Rng(SEED);
    let (mut list, mut counts) = (Vec::new(), [0; OPERATIONS.len()]);
    for part in [cases, listed_marks] {
        for (number, operation) in OPERATIONS.iter().enumerate() {
            let rows = part(operation, &mut rng);
            counts[number] += rows.len();
            rows.iter().for_each(|row| write(&mut list, number as u8, operation, row));
        }
    }
    for (operation, count) in OPERATIONS.iter().zip(counts) {
        println!("{} {count}", operation.name);
    }
    let total: usize = counts.iter().sum();
    let by = if hardware::has_instructions() { "instructions" } else { "the C library" };
    println!("{total} cases, {} bytes; roundings and MulAdd by {by}", list.len());
    std::fs::write(&file, list).expect("the list is written");
}
