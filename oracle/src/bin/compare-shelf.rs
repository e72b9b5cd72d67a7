//! Shelf figures of sheets through the C function, against what lowering with 65,536 bytes and playing from record 0 report, both through
//! the C functions and by the Rust with the independent player; of a sheet with a Branch or BranchIf against the bound on the records
//! played. Prints every difference. Usage: compare-shelf [COUNT] [SEED].

use std::process::ExitCode;

use oracle::ffi::{self, Linked};
use oracle::format::*;
use oracle::lists::LENT;
use oracle::machine::{Machine, Reference};
use oracle::random::{self, Rng};
use oracle::{boundary, branches, make};

const ANSWER: usize = 40;

/// Number, index, bytes, constants, records.
type Figures = [u64; 5];

/// Whether an accepted sheet has a Branch or a BranchIf.
fn has_branch(sheet: &[u8]) -> bool {
    records(&sheet[HEADER_LENGTH..]).iter().any(|r| matches!(two(r, 2), BRANCH | BRANCH_IF))
}

/// "all records plus calls times block records", the block counted from Label 1 to the first Branch 0 after it, both included.
fn bound(listing: &[u8]) -> u64 {
    let found = records(listing);
    let calls = found.iter().filter(|r| two(r, 2) == CALL).count();
    let from = found.iter().position(|r| **r == make::label(1));
    let block = from.map_or(0, |from| 1 + found[from..].iter().position(|r| **r == make::branch(0)).expect("an end"));
    (found.len() + calls * block) as u64
}

/// What a machine reports of a sheet, on a store with one word everywhere; figures 0 where it refuses.
fn reported(machine: &impl Machine, sheet: &[u8], fill: u64) -> Figures {
    let (mut listing, mut constants) = (vec![0; LISTING_LIMIT], vec![0; TABLE]);
    let answer = machine.lower(sheet, &mut listing, &mut constants);
    if answer.number != 0 {
        return [answer.number as u64, answer.index, 0, 0, 0];
    }
    let (bytes, count) = (answer.written, answer.count);
    let listing = &listing[..bytes as usize];
    let played = machine.play(listing, &constants[..count as usize], &mut vec![fill; STORE], 0);
    assert_eq!(played.number, 0, "a lowered listing is played");
    assert!(played.played <= bound(listing), "the bound holds");
    let most = if has_branch(sheet) { bound(listing) } else { played.played };
    [0, answer.index, bytes, count, most]
}

/// What the C function says, and whether its number is the answer's.
fn told(sheet: &[u8]) -> Figures {
    let mut answer = [LENT; ANSWER];
    let number = ffi::shelf(sheet, &mut answer);
    let figures = std::array::from_fn(|i| word(&answer, 8 * i));
    assert_eq!(number as u64, figures[0], "the returned number is the answer's");
    figures
}

/// An answer of another length is as lent, and the number 8.
fn wrong_length(sheet: &[u8], length: usize) -> bool {
    let mut answer = vec![LENT; length];
    ffi::shelf(sheet, &mut answer) == 8 && answer.iter().all(|b| *b == LENT)
}

/// Cases by their number, and differences.
#[derive(Default)]
struct Tally {
    numbers: [u64; 15],
    roots: u64,
    differences: u64,
}

impl Tally {
    fn compare(&mut self, sheet: &[u8], fill: u64) {
        let (found, linked, reference) =
            (told(sheet), reported(&Linked, sheet, fill), reported(&Reference, sheet, !fill));
        self.numbers[found[0] as usize] += 1;
        self.roots += u64::from(5 * found[4] > found[2]);
        if found != linked || found != reference {
            self.differences += 1;
            println!("sheet {sheet:?}\n  figures {found:?}\n  through C {linked:?}\n  by the Rust {reference:?}");
        }
    }

    fn report(&self, what: &str) {
        println!(
            "{what}: {} cases, numbers 0 to 14: {:?}, {} surely with calls, {} differences",
            self.numbers.iter().sum::<u64>(),
            self.numbers,
            self.roots,
            self.differences
        );
    }
}

fn main() -> ExitCode {
    let mut arguments = std::env::args().skip(1).map(|a| a.parse().expect("a number"));
    let (count, seed): (u64, u64) = (arguments.next().unwrap_or(100_000), arguments.next().unwrap_or(1));
    let mut rng = Rng(seed);
    let mut limits = Tally::default();
    boundary::sheets().iter().chain(&boundary::far_sheets()).for_each(|case| limits.compare(&case.sheet, 0));
    limits.report("sheets at limits");
    let mut some = Tally::default();
    (0..count).for_each(|_| some.compare(&random::to_lower(&mut rng).sheet, rng.bits()));
    some.report("random sheets");
    let mut branching = Tally::default();
    branches::sheets().iter().for_each(|case| branching.compare(&case.sheet, 0));
    (0..count)
        .for_each(|_| branching.compare(&random::branching_to_lower(&mut rng).sheet, rng.pick(&[0, 1, u64::MAX])));
    branching.report("sheets with labels and branches");
    let wrong = (0..=2 * ANSWER).filter(|n| *n != ANSWER && !wrong_length(&boundary::paper(), *n)).count();
    println!("{wrong} wrong lengths of the answer not refused");
    if limits.differences + some.differences + branching.differences + wrong as u64 == 0 {
        ExitCode::SUCCESS
    } else {
        ExitCode::FAILURE
    }
}
