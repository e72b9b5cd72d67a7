//! Runs sheets and plays through the reference and through the C functions, and prints every difference.
//! Usage: compare [COUNT] [SEED], or compare FOLDER for the inputs that fuzzing kept there.

use std::fs;
use std::process::ExitCode;

use oracle::ffi::{wrong_lengths, Linked};
use oracle::inputs::{cut, Call};
use oracle::lists::{lowered, played};
use oracle::machine::Reference;
use oracle::random::{self, Rng, ToLower, ToPlay};
use oracle::{boundary, branches};

/// Cases tried and differences found, by answer number.
#[derive(Default)]
struct Tally {
    numbers: [u64; 15],
    differences: u64,
}

impl Tally {
    fn report(&self, what: &str) {
        let total: u64 = self.numbers.iter().sum();
        println!("{what}: {total} cases, answers 0 to 14: {:?}, {} differences", self.numbers, self.differences);
    }

    /// Counts an answer and prints what differs: the answer, then the first place of each slice.
    fn note(&mut self, number: u32, same: bool, text: impl FnOnce() -> String) {
        self.numbers[number as usize] += 1;
        if !same {
            self.differences += 1;
            println!("{}", text());
        }
    }
}

/// The first place where two slices differ.
fn first_difference<T: PartialEq>(one: &[T], other: &[T]) -> Option<usize> {
    one.iter().zip(other).position(|(a, b)| a != b)
}

fn compare_sheet(case: &ToLower, tally: &mut Tally) {
    let (expected, found) = (lowered(&Reference, case), lowered(&Linked, case));
    tally.note(expected.0.number, expected == found, || {
        format!(
            "sheet {:?}\n  room {}, table {}\n  expected {:?}\n  found {:?}\n  listing differs at {:?}, constants at {:?}",
            case.sheet,
            case.room,
            case.table,
            expected.0,
            found.0,
            first_difference(&expected.1, &found.1),
            first_difference(&expected.2, &found.2)
        )
    });
}

fn compare_play(case: &ToPlay, tally: &mut Tally) {
    let (expected, found) = (played(&Reference, case), played(&Linked, case));
    tally.note(expected.0.number, expected == found, || {
        let at = first_difference(&expected.1, &found.1);
        let words = at.map(|i| format!("{:016x} {:016x} {:016x}", case.store[i], expected.1[i], found.1[i]));
        format!(
            "listing {:?}\n  constants {}, start {}\n  expected {:?}\n  found {:?}\n  store differs at {:?}: before, expected, found {:?}",
            case.listing,
            case.constants.len(),
            case.start,
            expected.0,
            found.0,
            at,
            words
        )
    });
}

/// Every input of a folder, cut as the fuzzing harness cuts it; the differences.
fn compare_inputs(folder: &str) -> u64 {
    let (mut sheets, mut plays) = (Tally::default(), Tally::default());
    for entry in fs::read_dir(folder).expect("a folder") {
        match cut(&fs::read(entry.expect("a file").path()).expect("a file")) {
            Some(Call::Lower(case)) => compare_sheet(&case, &mut sheets),
            Some(Call::Play(case)) => compare_play(&case, &mut plays),
            None => {}
        }
    }
    sheets.report("sheets kept");
    plays.report("plays kept");
    sheets.differences + plays.differences
}

/// Every limit of labels and branches, and `count` random sheets and listings with them; the differences.
fn compare_branches(count: u64, rng: &mut Rng) -> u64 {
    let mut sheets = Tally::default();
    branches::sheets().iter().for_each(|case| compare_sheet(case, &mut sheets));
    sheets.report("sheets at limits of labels and branches");
    let mut random_sheets = Tally::default();
    (0..count).for_each(|_| compare_sheet(&random::branching_to_lower(rng), &mut random_sheets));
    random_sheets.report("random sheets with branches");

    let mut plays = Tally::default();
    branches::plays().iter().for_each(|case| compare_play(case, &mut plays));
    branches::jump_rows(4).iter().for_each(|case| compare_play(case, &mut plays));
    plays.report("plays at limits of labels and branches");
    let mut random_plays = Tally::default();
    (0..count).for_each(|_| compare_play(&random::branching_to_play(rng), &mut random_plays));
    random_plays.report("random plays with branches");
    [sheets, random_sheets, plays, random_plays].iter().map(|t| t.differences).sum()
}

/// Every limit, and `count` random cases of each kind; the differences.
fn compare_cases(count: u64, mut rng: Rng) -> u64 {
    let mut sheets = Tally::default();
    boundary::sheets().iter().chain(&boundary::far_sheets()).for_each(|case| compare_sheet(case, &mut sheets));
    sheets.report("sheets at limits");
    let mut random_sheets = Tally::default();
    (0..count).for_each(|_| compare_sheet(&random::to_lower(&mut rng), &mut random_sheets));
    random_sheets.report("random sheets");

    let mut plays = Tally::default();
    boundary::plays().iter().for_each(|case| compare_play(case, &mut plays));
    boundary::jump_rows(4).iter().for_each(|case| compare_play(case, &mut plays));
    plays.report("plays at limits");
    let mut random_plays = Tally::default();
    (0..count).for_each(|_| compare_play(&random::to_play(&mut rng), &mut random_plays));
    random_plays.report("random plays");

    let mut arithmetic = Tally::default();
    for _ in 0..count {
        let [a, b, c] = std::array::from_fn(|_| random::any_word(&mut rng));
        compare_play(&boundary::all_operations(a, b, c), &mut arithmetic);
    }
    arithmetic.report("every operation on random words");

    let branching = compare_branches(count, &mut rng);
    let wrong = wrong_lengths();
    wrong.iter().for_each(|text| println!("{text}"));
    let tallies = [&sheets, &random_sheets, &plays, &random_plays, &arithmetic];
    branching + wrong.len() as u64 + tallies.iter().map(|t| t.differences).sum::<u64>()
}

fn main() -> ExitCode {
    let words: Vec<String> = std::env::args().skip(1).collect();
    let numbers: Vec<u64> = words.iter().map_while(|w| w.parse().ok()).collect();
    let differences = match words.first() {
        Some(folder) if numbers.is_empty() => compare_inputs(folder),
        _ => compare_cases(*numbers.first().unwrap_or(&10_000), Rng(*numbers.get(1).unwrap_or(&1))),
    };
    println!("{differences} differences");
    if differences == 0 {
        ExitCode::SUCCESS
    } else {
        ExitCode::FAILURE
    }
}
