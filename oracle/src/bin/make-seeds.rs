//! Writes inputs of the fuzzing harness, a file each, into a folder: sheets and plays at limits and random ones, with branches and without.
//! Usage: make-seeds FOLDER [COUNT] [SEED]. About COUNT of each of the four kinds; the format is that of ../fuzz/README.md.

use std::fs;
use std::path::Path;

use oracle::inputs::{of_lowering, of_play, variants};
use oracle::random::{self, Rng};
use oracle::{boundary, branches, look};

/// Up to `count` of the cases, evenly spread.
fn spread<T: Clone>(cases: &[T], count: usize) -> Vec<T> {
    let step = cases.len().div_ceil(count.max(1)).max(1);
    cases.iter().step_by(step).cloned().collect()
}

fn write(folder: &Path, name: &str, inputs: &[Vec<u8>]) {
    for (i, bytes) in inputs.iter().enumerate() {
        fs::write(folder.join(format!("{name}-{i:04}")), bytes).expect("the folder can be written");
    }
    println!("{name}: {} inputs", inputs.len());
}

/// The inputs, and the variants of a short one.
fn with_variants(mut inputs: Vec<Vec<u8>>) -> Vec<Vec<u8>> {
    let short = inputs.iter().filter(|input| input.len() < 1000).max_by_key(|input| input.len()).cloned();
    inputs.extend(short.iter().flat_map(|input| variants(input)));
    inputs
}

fn main() {
    let mut words = std::env::args().skip(1);
    let folder = words.next().expect("a folder");
    let count = words.next().map_or(150, |w| w.parse().expect("a count"));
    let mut rng = Rng(words.next().map_or(1, |w| w.parse().expect("a seed")));

    let mut sheets = boundary::kept_sheets();
    sheets.extend(spread(&boundary::sheets(), count));
    sheets.extend((0..count).map(|_| random::to_lower(&mut rng)));
    sheets.extend(branches::sheet_examples().into_iter().map(|(case, _, _)| case));
    sheets.extend((0..count).map(|_| random::branching_to_lower(&mut rng)));
    write(Path::new(&folder), "lower", &with_variants(sheets.iter().filter_map(of_lowering).collect()));

    let mut plays = boundary::kept_plays();
    plays.extend(spread(&boundary::plays(), count / 2));
    plays.extend(spread(&boundary::jump_rows(4), count / 2));
    plays.push(boundary::all_operations(random::SPECIAL[2], random::SPECIAL[19], random::SPECIAL[30]));
    plays.extend((0..count).map(|_| random::to_play(&mut rng)));
    plays.extend(look::examples());
    plays.extend(branches::play_examples().into_iter().map(|(case, _)| case));
    plays.extend((0..count).map(|_| random::branching_to_play(&mut rng)));
    write(Path::new(&folder), "play", &with_variants(plays.iter().filter_map(of_play).collect()));
}
