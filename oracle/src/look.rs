//! Looking before playing, written from document 02, f): "It equals playing that record on a copy."

use crate::format::{MEM, STORE};
use crate::make;
use crate::names::{bi, uni};
use crate::player::play_one;
use crate::random::ToPlay;

/// What comes back. Refused, nothing is shown and record 0 follows.
#[derive(Clone, Debug, PartialEq, Eq)]
pub struct Looked {
    pub number: u32,
    /// Of the refused record; accepted, the count of records.
    pub index: u64,
    /// "The record that follows is always named; for a Branch 0 that is the record count, the end."
    pub follows: u64,
    /// "Which words that one record would write, as store indices in the order written, and the bits they would then hold".
    pub words: Vec<(usize, u64)>,
}

/// The words of a copy at these indices; "a word written twice is shown once".
fn shown(written: &[usize], copy: &[u64]) -> Vec<(usize, u64)> {
    let mut found: Vec<(usize, u64)> = Vec::new();
    for index in written {
        if found.iter().all(|(i, _)| i != index) {
            found.push((*index, copy[*index]));
        }
    }
    found
}

/// The look at one record of a listing with its constants, on a store.
pub fn look(listing: &[u8], constants: &[u64], store: &[u64], record: u64) -> Looked {
    match play_one(listing, constants, store, record) {
        Err((number, index)) => Looked { number, index, follows: 0, words: Vec::new() },
        Ok(single) => {
            let words = shown(&single.written, &single.store);
            let mut put = store.to_vec();
            words.iter().for_each(|(index, bits)| put[*index] = *bits);
            assert!(put == single.store, "what is shown is not what the record writes");
            Looked { number: 0, index: single.records as u64, follows: single.next as u64, words }
        }
    }
}

/// A listing with every kind of jump, a block, and records of one and of two destinations, equal ones too; from each record and past the end.
pub fn examples() -> Vec<ToPlay> {
    let row = [
        make::branch_if(0, 3, 0),
        make::branch_if(0, 3, 1),
        make::branch(3),
        make::label(3),
        make::branch(2),
        make::label(1),
        make::uni(uni::NEG, 0, 0),
        make::branch(0),
        make::label(2),
        make::call(1),
        make::load_complex(8, 8, MEM, 0),
        make::complex_bi(2, [4, 4, 0, 1, 2, 3]),
        make::bi(bi::PLUS, 5, 4, 1),
        make::save_complex(5, 4, MEM, 1),
        make::branch(0),
        make::load_const(9, 0),
    ];
    let (lost, one) = (0x7ff0_0000_0000_0005, 1.0f64.to_bits());
    let mut store = vec![0; STORE];
    store[..4].copy_from_slice(&[0, lost, one, one]);
    let from = |start| ToPlay { listing: row.concat(), constants: vec![lost], store: store.clone(), start };
    (0..=row.len() as u64 + 1).map(from).collect()
}
