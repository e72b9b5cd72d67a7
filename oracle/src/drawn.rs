//! Document 02's claim about registers drawn on, l), tried on one sheet and two stores: "If no mark is set, two plays from record 0 whose stores
//! agree in all places end with equal places, however their registers began". With marks the stores agree in the marked registers too. And of
//! each row of a sheet's first instructions, which is refused behind them, the marks beside those of the Rust's listing.

use crate::format::*;
use crate::machine::Machine;
use crate::marks::{self, REGISTERS};
use crate::player::Played;
use crate::random::{self, Parts, Rng};
use crate::reference::{lower_with_points, Answer, Point};

/// What a trial came to.
#[derive(Debug, PartialEq)]
pub enum Drawn {
    /// The sheet is refused; its marks are compared, and the claim says nothing.
    Refused,
    /// With the count of marks, and whether the plays end apart where the marked registers differ too.
    Holds {
        marks: usize,
        apart: bool,
    },
    Fails(String),
}

/// The Rust's lowering of a sheet: the answer, and the listing at each of its points.
struct Listed {
    answer: Answer,
    listing: Vec<u8>,
    constants: Vec<u64>,
    points: Vec<Point>,
}

fn listed(sheet: &[u8]) -> Listed {
    let (mut listing, mut constants) = (vec![0; LISTING_LIMIT], vec![0; TABLE]);
    let (answer, points) = lower_with_points(sheet, &mut listing, &mut constants);
    constants.truncate(answer.count as usize);
    Listed { answer, listing, constants, points }
}

fn answered(machine: &impl Machine, sheet: &[u8]) -> Answer {
    machine.lower(sheet, &mut vec![0; LISTING_LIMIT], &mut [0; TABLE])
}

/// The marks of the sheet and of each row of its finished instructions, beside those of the Rust's listing.
fn check_marks(machine: &impl Machine, parts: &Parts, rust: &Listed) -> Result<(), String> {
    let whole = answered(machine, &parts.sheet());
    if whole != rust.answer {
        return Err(format!("expected {:?}, found {whole:?}", rust.answer));
    }
    for (count, point) in rust.points.iter().enumerate() {
        let (found, expected) = (answered(machine, &parts.cut(count)).marks, marks::of(&rust.listing[..point.bytes]));
        if found != expected {
            return Err(format!("the first {count} instructions: expected {expected:?}, found {found:?}"));
        }
    }
    Ok(())
}

/// Another word than this.
fn other_word(rng: &mut Rng, word: u64) -> u64 {
    std::iter::repeat_with(|| random::any_word(rng)).find(|other| *other != word).unwrap()
}

/// The store with another word in each register but the kept ones.
fn with_others(rng: &mut Rng, store: &[u64], kept: &[bool; REGISTERS]) -> Vec<u64> {
    let mut altered = store.to_vec();
    for register in (0..REGISTERS).filter(|r| !kept[*r]) {
        altered[register] = other_word(rng, store[register]);
    }
    altered
}

/// How a play of a lowered listing ends: its answer, and the words of all places.
fn ending(machine: &impl Machine, rust: &Listed, mut store: Vec<u64>) -> (Played, Vec<u64>) {
    let listing = &rust.listing[..rust.answer.written as usize];
    let played = machine.play(listing, &rust.constants, &mut store, 0);
    (played, store.split_off(REGISTERS))
}

/// The claim on one sheet and store.
pub fn try_one(machine: &impl Machine, parts: &Parts, store: &[u64], rng: &mut Rng) -> Drawn {
    let rust = listed(&parts.sheet());
    if let Err(text) = check_marks(machine, parts, &rust) {
        return Drawn::Fails(text);
    }
    if rust.answer.number != 0 {
        return Drawn::Refused;
    }
    let drawn = &rust.answer.marks.drawn;
    let first = ending(machine, &rust, store.to_vec());
    let second = ending(machine, &rust, with_others(rng, store, drawn));
    if first.0.number != 0 || first != second {
        return Drawn::Fails(format!("{:?} and {:?}, or other places", first.0, second.0));
    }
    let third = ending(machine, &rust, with_others(rng, store, &[false; REGISTERS]));
    Drawn::Holds { marks: rust.answer.marks.outside().len(), apart: first != third }
}

/// One random trial, on a sheet in one of these modes with branches or without; half of the sheets fill their registers first.
pub fn random_trial(machine: &impl Machine, modes: &[u8], branches: bool, rng: &mut Rng) -> (Parts, Drawn) {
    let length = rng.below(16);
    let mode = rng.pick(modes);
    let parts = random::parts_in(mode, rng, length);
    let parts = if branches { random::woven(rng, &parts) } else { parts };
    let parts = if rng.once_in(2) { random::filling(rng, &parts) } else { parts };
    let indices: Vec<u16> = random::indices_of(&parts.instructions.concat());
    let store = if branches { random::store_of_conditions(rng, &indices) } else { random::any_store(rng, &indices) };
    let trial = try_one(machine, &parts, &store, rng);
    (parts, trial)
}
