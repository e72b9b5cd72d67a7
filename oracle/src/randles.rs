//! The Randles circuit of ../examples: its sheet made here, and the rows of its table.

use crate::format::{MEM, PARAM, STORE};
use crate::make;
use crate::meaning::{self, Sheet, State};
use crate::names::{bi, uni};
use crate::player::place_word;
use crate::random::{any_nan, Rng};
use crate::tidy;
use crate::value::Value;

/// Z = Rs + 1 / (1 / (Rct + sigma (1 - i) / root w) + i w Cdl), with w at Param 0, which is real, i at Param 1 and Z at Mem 0.
pub fn sheet(stable: bool) -> Vec<u8> {
    let (w, i, z, t) = (0, 1, 2, 3);
    let [one, sigma, rct, cdl, rs] = [0, 1, 2, 3, 4];
    let row = [
        make::load(w, PARAM, 0),
        make::load(i, PARAM, 1),
        make::load_const(z, one),
        make::bi(bi::MINUS, z, z, i),
        make::load_const(t, sigma),
        make::bi(bi::TIMES, z, t, z),
        make::uni(uni::ROOT, t, w),
        make::bi(bi::DIVIDE, z, z, t),
        make::load_const(t, rct),
        make::bi(bi::PLUS, z, t, z),
        make::uni(uni::RECIP, z, z),
        make::load_const(t, cdl),
        make::bi(bi::TIMES, t, w, t),
        make::bi(bi::TIMES, t, i, t),
        make::bi(bi::PLUS, z, z, t),
        make::uni(uni::RECIP, z, z),
        make::load_const(t, rs),
        make::bi(bi::PLUS, z, t, z),
        make::save(z, MEM, 0),
    ];
    let constants = [1.0, 150.0, 250.0, 40e-6, 20.0].map(f64::to_bits);
    make::sheet(stable, &make::real_places(&[(PARAM, 0)]), &constants, &row)
}

/// A row of the table: the frequency, and the bits of both halves of Z.
pub struct Row {
    pub frequency: f64,
    pub impedance: (u64, u64),
}

/// The rows of `examples/randles.csv`: lines of five numbers, the last two as bits.
pub fn rows(table: &str) -> Vec<Row> {
    let mut found = Vec::new();
    for line in table.lines() {
        let words: Vec<&str> = line.split(',').collect();
        let bits = |at: usize| u64::from_str_radix(words[at], 16).ok();
        if let (5, Some(Ok(frequency))) = (words.len(), words.first().map(|w| w.parse::<f64>())) {
            let impedance = (bits(3).expect("bits of Re Z"), bits(4).expect("bits of Im Z"));
            found.push(Row { frequency, impedance });
        }
    }
    found
}

/// A store with w and i for a frequency, and a lost reading of its own in every other word.
pub fn store(frequency: f64, rng: &mut Rng) -> Vec<u64> {
    let mut store: Vec<u64> = (0..STORE).map(|_| any_nan(rng)).collect();
    let (w, i) = (place_word(PARAM, 0), place_word(PARAM, 1));
    store[w] = (2.0 * std::f64::consts::PI * frequency).to_bits();
    store[i] = 0;
    store[i + 1] = 1.0f64.to_bits();
    store
}

/// Z by the rows of the tables alone.
pub fn by_rows(sheet: &[u8], store: &[u64]) -> Value {
    let sheet = Sheet::read(sheet);
    let mut state = State::start(&sheet, store);
    let mut at = 0;
    while at < sheet.instructions.len() {
        at = tidy::row(&mut state, &sheet, at);
    }
    state.places[meaning::place(MEM, 0)]
}
