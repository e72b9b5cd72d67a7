//! Writes the lists `sheets` and `plays` for replay (formats: lists.rs) into a folder.
//! Usage: make-lists FOLDER [COUNT] [SEED]. Of each list COUNT cases are random; about so many, too, of sheets two thirds of so many, are drawn
//! from the limits. Behind them stand the examples of labels and branches, and random ones with them that are short: an eighth of COUNT of sheets, half as many plays.

use std::fs;
use std::path::Path;

use oracle::random::{self, Rng};
use oracle::{boundary, branches, lists};

/// Up to `count` of the cases, evenly spread.
fn spread<T: Clone>(cases: &[T], count: usize) -> Vec<T> {
    let step = cases.len().div_ceil(count.max(1)).max(1);
    cases.iter().step_by(step).cloned().collect()
}

fn write(folder: &Path, name: &str, bytes: &[u8]) {
    fs::write(folder.join(name), bytes).expect("the folder can be written");
    println!("{name}: {} bytes", bytes.len());
}

fn main() {
    let mut words = std::env::args().skip(1);
    let folder = words.next().expect("a folder");
    let count = words.next().map_or(500, |w| w.parse().expect("a count"));
    let mut rng = Rng(words.next().map_or(1, |w| w.parse().expect("a seed")));

    let mut sheets = boundary::kept_sheets();
    sheets.extend(spread(&boundary::sheets(), 2 * count / 3));
    sheets.extend((0..count).map(|_| random::to_lower(&mut rng)));
    let mut branching = Rng(rng.0);
    sheets.extend(branches::sheet_examples().into_iter().map(|(case, _, _)| case));
    let short = std::iter::repeat_with(|| random::branching_to_lower(&mut branching)).filter(|c| c.sheet.len() < 600);
    sheets.extend(short.take(count / 8));
    write(Path::new(&folder), "sheets", &lists::sheets(&sheets));

    let mut plays = boundary::kept_plays();
    plays.extend(spread(&boundary::plays(), count / 2));
    plays.extend(spread(&boundary::jump_rows(4), count / 2));
    plays.extend((0..count).map(|_| random::to_play(&mut rng)));
    plays.extend(boundary::lost_readings());
    plays.extend(branches::play_examples().into_iter().map(|(case, _)| case));
    let short = std::iter::repeat_with(|| random::branching_to_play(&mut branching))
        .filter(|c| c.listing.len() < 400 && c.constants.len() < 20);
    plays.extend(short.take(count / 16));
    write(Path::new(&folder), "plays", &lists::plays(&plays));
}
