//! Which words a record of a listing reads and writes, as store indices.

use crate::format::*;
use crate::names::bi;
use crate::player::place_word;

/// A word written, and the words its new value depends on.
pub struct Write {
    pub word: usize,
    pub reads: Vec<usize>,
}

fn write(word: u8, reads: &[u8]) -> Write {
    Write { word: word as usize, reads: reads.iter().map(|r| *r as usize).collect() }
}

fn place(fields: &[u8], at: usize) -> usize {
    place_word(fields[at], two(fields, at + 1))
}

/// What a record of an accepted listing writes, in order; its operands are read first. A Xor of a register with itself reads nothing.
pub fn writes(record: &[u8]) -> Vec<Write> {
    let f = &record[4..];
    match two(record, 2) {
        1 => vec![write(f[1], &f[2..])],
        2 if f[0] == bi::XOR && f[2] == f[3] => vec![write(f[1], &[])],
        2 => vec![write(f[1], &f[2..])],
        3 => vec![write(f[0], &f[1..])],
        4 => vec![Write { word: f[0] as usize, reads: vec![place(f, 1)] }],
        5 => vec![Write { word: place(f, 1), reads: vec![f[0] as usize] }],
        6 => vec![write(f[0], &[])],
        7 => vec![write(f[1], &f[2..])],
        8 => vec![Write { word: f[0] as usize, reads: vec![f[1] as usize, f[2] as usize, place(f, 3)] }],
        11 => (0..2).map(|half| Write { word: f[half] as usize, reads: vec![place(f, 2) + half] }).collect(),
        12 => (0..2).map(|half| Write { word: place(f, 2) + half, reads: vec![f[half] as usize] }).collect(),
        13 if f[0] <= 1 => vec![write(f[1], &[f[3], f[5]]), write(f[2], &[f[4], f[6]])],
        13 => vec![write(f[1], &f[3..]), write(f[2], &f[3..])],
        _ => Vec::new(),
    }
}

/// The records a play from `start` reaches, in order; a lowered listing without a BranchIf always plays the same ones.
pub fn played<'a>(listing: &[&'a [u8]], start: usize) -> Vec<&'a [u8]> {
    let label = |number: u8| listing.iter().position(|r| two(r, 2) == 14 && r[4] == number).unwrap();
    let (mut at, mut back, mut found) = (start, None, Vec::new());
    while at < listing.len() {
        let record = listing[at];
        found.push(record);
        at = match (two(record, 2), record.get(4)) {
            (15, Some(0)) => back.take().expect("a lowered block is only called"),
            (15, Some(number)) => label(*number),
            (16, Some(number)) => {
                back = Some(at + 1);
                label(*number)
            }
            _ => at + 1,
        };
    }
    found
}
