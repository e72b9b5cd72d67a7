//! Lists of cases with their answers, for replay by another program.
//!
//! All numbers are little-endian; `u32` has four bytes, a word eight.
//!
//! The list of sheets: u32 count of cases, then each case:
//!   u32 length of the sheet, u32 bytes of the listing slice lent, u32 words of the constants slice lent,
//!   u32 number, u32 index, u32 bytes written, u32 count of constants,
//!   96 bytes of realness (32 register flags by sheet number, 64 bytes of places as in a header),
//!   132 bytes of marks (66 of the registers filled, 66 of those drawn on before being filled, by listing number),
//!   the sheet, the listing bytes written, the words of the constants counted.
//! Lent bytes and words are all LENT; those past the ones written must still be.
//!
//! The list of plays: u32 count of cases, then each case:
//!   u32 length of the listing, u32 count of constants, u32 words of the store, u32 words set before, u32 words changed,
//!   word start record, u32 number, word index, word records played,
//!   the listing, the constants,
//!   the word that fills the store, then the words set before, each a u32 store index and a word,
//!   then the words changed at the end, likewise; all others are as before.

use std::collections::BTreeMap;

use crate::machine::{Machine, Reference};
use crate::player::Played;
use crate::random::{ToLower, ToPlay};
use crate::reference::Answer;

/// Every byte of a slice that is lent to be written.
pub const LENT: u8 = 0xa5;
pub const LENT_WORD: u64 = 0xa5a5_a5a5_a5a5_a5a5;

fn numbers(out: &mut Vec<u8>, row: &[usize]) {
    out.extend(row.iter().flat_map(|value| u32::try_from(*value).unwrap().to_le_bytes()));
}

fn words(out: &mut Vec<u8>, row: &[u64]) {
    out.extend(row.iter().flat_map(|w| w.to_le_bytes()));
}

/// What a machine makes of a sheet: its answer and both slices whole.
pub fn lowered(machine: &impl Machine, case: &ToLower) -> (Answer, Vec<u8>, Vec<u64>) {
    let (mut listing, mut constants) = (vec![LENT; case.room], vec![LENT_WORD; case.table]);
    let answer = machine.lower(&case.sheet, &mut listing, &mut constants);
    (answer, listing, constants)
}

/// What a machine makes of a play: its answer and the store.
pub fn played(machine: &impl Machine, case: &ToPlay) -> (Played, Vec<u64>) {
    let mut store = case.store.clone();
    let answer = machine.play(&case.listing, &case.constants, &mut store, case.start);
    (answer, store)
}

fn sheet_case(out: &mut Vec<u8>, case: &ToLower) {
    let (answer, listing, constants) = lowered(&Reference, case);
    let head = [
        case.sheet.len(),
        case.room,
        case.table,
        answer.number as usize,
        answer.index as usize,
        answer.written as usize,
        answer.count as usize,
    ];
    numbers(out, &head);
    out.extend(answer.realness.registers.map(|real| real as u8));
    out.extend(answer.realness.places);
    out.extend([answer.marks.filled, answer.marks.drawn].concat().iter().map(|mark| *mark as u8));
    out.extend(&case.sheet);
    out.extend(&listing[..answer.written as usize]);
    words(out, &constants[..answer.count as usize]);
}

/// The list of these sheets.
pub fn sheets(cases: &[ToLower]) -> Vec<u8> {
    let mut out = Vec::new();
    numbers(&mut out, &[cases.len()]);
    cases.iter().for_each(|case| sheet_case(&mut out, case));
    out
}

/// Where two stores of one length differ.
fn differing(one: &[u64], other: &[u64]) -> Vec<usize> {
    (0..one.len()).filter(|i| one[*i] != other[*i]).collect()
}

fn at_indices(out: &mut Vec<u8>, store: &[u64], indices: &[usize]) {
    for i in indices {
        numbers(out, &[*i]);
        words(out, &[store[*i]]);
    }
}

/// The word that stands most often in a store, the highest of those that do.
fn commonest(store: &[u64]) -> u64 {
    let mut counts = BTreeMap::new();
    store.iter().for_each(|word| *counts.entry(*word).or_insert(0) += 1);
    counts.into_iter().max_by_key(|(_, count)| *count).map_or(0, |(word, _)| word)
}

fn play_case(out: &mut Vec<u8>, case: &ToPlay) {
    let (answer, last) = played(&Reference, case);
    let fill = commonest(&case.store);
    let set = differing(&vec![fill; case.store.len()], &case.store);
    let changed = differing(&case.store, &last);
    numbers(out, &[case.listing.len(), case.constants.len(), case.store.len(), set.len(), changed.len()]);
    words(out, &[case.start]);
    numbers(out, &[answer.number as usize]);
    words(out, &[answer.index, answer.played]);
    out.extend(&case.listing);
    words(out, &case.constants);
    words(out, &[fill]);
    at_indices(out, &case.store, &set);
    at_indices(out, &last, &changed);
}

/// The list of these plays.
pub fn plays(cases: &[ToPlay]) -> Vec<u8> {
    let mut out = Vec::new();
    numbers(&mut out, &[cases.len()]);
    cases.iter().for_each(|case| play_case(&mut out, case));
    out
}
