//! What sheets mean by the tables of docs/SHEET.md, 2, beside the plays of the unchanged Rust's listings by the independent player: at
//! each point every register and place, its type and its words. First the rows of the Randles table by the tables alone, then sheets of
//! one instruction in every form, then random sheets, each on two stores, until so many more points were compared. Usage: compare-meaning [POINTS] [SEED].

use std::process::ExitCode;

use oracle::format::{two, MODES, PARAM, RET, STACK, TEMP};
use oracle::make;
use oracle::names::{SHEET_BI, SHEET_UNI};
use oracle::points::{compared, lowered, Met, FORMS};
use oracle::randles;
use oracle::random::{self, Parts, Rng};
use oracle::value::Value;

/// Differences that are printed.
const SHOWN: u64 = 10;

/// The registers of an instruction, as positions in its record.
fn registers(record: &[u8]) -> &'static [usize] {
    match two(record, 2) {
        1 => &[5, 6],
        2 => &[5, 6, 7],
        3 => &[4, 5],
        4..=6 | 17 => &[4],
        7 => &[5, 6, 7, 8],
        8 => &[4, 5, 6],
        9 | 10 => &[5, 6],
        _ => &[],
    }
}

/// The sheet with general registers in place of Ret and Temp, and another index in place of 2: most of these are tidy.
fn untangled(parts: &Parts) -> Parts {
    let mut made = parts.clone();
    for record in &mut made.instructions {
        for at in registers(record) {
            record[*at] = match record[*at] {
                RET => 5,
                TEMP => 6,
                other => other,
            };
        }
        let at = match two(record, 2) {
            4 | 5 => 6,
            8 | 9 => 8,
            _ => continue,
        };
        if two(record, at) == 2 {
            record[at] = 7;
        }
    }
    made
}

fn any_sheet(rng: &mut Rng) -> Vec<u8> {
    let length = rng.below(24);
    let mut parts = random::parts(rng, length);
    if rng.once_in(3) {
        parts = untangled(&parts);
    }
    if !rng.once_in(4) {
        parts = random::woven(rng, &parts);
    }
    parts.sheet()
}

/// A store of the makers; in one of four more NaNs, each with a mark of its own.
fn any_store(rng: &mut Rng, indices: &[u16]) -> Vec<u64> {
    let mut store = match rng.below(3) {
        0 => random::store_of_conditions(rng, indices),
        _ => random::any_store(rng, indices),
    };
    if rng.once_in(4) {
        for word in &mut store {
            if rng.once_in(4) {
                *word = random::any_nan(rng);
            }
        }
    }
    store
}

/// The registers of the sheets that have one instruction of every form.
const FEW: [u8; 4] = [0, 1, RET, TEMP];

/// Every Mov, Uni, Bi, IfElse, LoadMath, LoadConstMath and Fused over these registers; c of a Fused is general. Param 0 is real, Param 4
/// complex.
fn every_instruction() -> Vec<Vec<u8>> {
    let mut found = Vec::new();
    for (d, a) in FEW.iter().flat_map(|d| FEW.map(|a| (*d, a))) {
        found.push(make::mov(d, a));
        found.extend(SHEET_UNI.map(|op| make::uni(op, d, a)));
        for op in 0..4 {
            found.push(make::load_const_math(op, d, a, 0));
            found.extend([0, 4].map(|index| make::load_math(op, d, a, PARAM, index)));
        }
        for b in FEW {
            found.extend(SHEET_BI.map(|op| make::bi(op, d, a, b)));
            found.push(make::if_else(d, a, b, STACK, 0));
            found.extend([0, 1, 2, 3].map(|op| make::fused(op, d, a, b, 1)));
        }
    }
    found
}

/// The sheet in which those registers are real that have a bit in `reals`, and then the instruction stands.
fn with_record(mode: u8, reals: usize, instruction: &[u8], constant: u64) -> Vec<u8> {
    let places = make::real_places(&[0, 1, 2, 3].map(|index| (PARAM, index)));
    let loads = (0..4).filter(|i| reals >> i & 1 == 1).map(|i| make::load(FEW[i], PARAM, i as u16));
    let row: Vec<Vec<u8>> = loads.chain([instruction.to_vec()]).collect();
    make::sheet(mode, &places, &[constant], &row)
}

/// The differences on sheets of one instruction, for every record of its registers, in every mode, each on two stores.
fn compare_every(met: &mut Met, rng: &mut Rng) -> u64 {
    let (mut sheets, mut barred, mut differences) = (0, 0, 0);
    for instruction in every_instruction() {
        for (mode, reals) in MODES.iter().flat_map(|mode| (0..16).map(|reals| (*mode, reals))) {
            let Some(sheet) = lowered(with_record(mode, reals, &instruction, random::calm_word(rng))) else {
                barred += 1;
                continue;
            };
            sheets += 1;
            for _ in 0..2 {
                let store = random::any_store(rng, &[0, 1, 2, 3, 4]);
                if let Err(text) = compared(&sheet, &store, met) {
                    differences += 1;
                    if differences <= SHOWN {
                        println!("{text}\n  mode {mode}, reals {reals:04b}, instruction {instruction:?}");
                    }
                }
            }
        }
    }
    println!(
        "meaning: {sheets} sheets of one instruction over registers 0, 1, Ret and Temp with every record of them, {barred} more barred, \
         {differences} differences"
    );
    differences
}

/// The differences on the Randles circuit: the table's rows by the rows alone, and both modes at each point.
fn compare_randles(met: &mut Met, rng: &mut Rng) -> u64 {
    let table = include_str!("../../../examples/randles.csv");
    let sheets = [false, true].map(|stable| lowered(randles::sheet(stable)).expect("an accepted sheet"));
    let (mut rows, mut differences) = (0, 0);
    for row in randles::rows(table) {
        rows += 1;
        let store = randles::store(row.frequency, rng);
        let found = randles::by_rows(&randles::sheet(false), &store);
        if found != Value::C(row.impedance.0, row.impedance.1) {
            differences += 1;
            println!("Randles at {} Hz: {:x?}, by the rows alone {found:x?}", row.frequency, row.impedance);
        }
        for sheet in &sheets {
            if let Err(text) = compared(sheet, &store, met) {
                differences += 1;
                println!("Randles at {} Hz: {text}", row.frequency);
            }
        }
    }
    println!("meaning: {rows} rows of the Randles table by the rows of the tables alone, {differences} differences");
    differences + u64::from(rows != 60)
}

fn main() -> ExitCode {
    let mut words = std::env::args().skip(1).map(|w| w.parse::<u64>().expect("a number"));
    let wanted = words.next().unwrap_or(1_000_000);
    let mut rng = Rng(words.next().unwrap_or(1));
    let mut met = Met::default();
    let mut differences = compare_randles(&mut met, &mut rng) + compare_every(&mut met, &mut rng);
    let (before, mut met) = (met.points, Met::default());
    let (mut sheets, mut refused) = (0u64, 0u64);
    while met.points < wanted && differences < 1000 {
        let bytes = any_sheet(&mut rng);
        let Some(sheet) = lowered(bytes.clone()) else {
            refused += 1;
            continue;
        };
        sheets += 1;
        let indices = random::indices_of(&sheet.listing);
        for _ in 0..2 {
            let store = any_store(&mut rng, &indices);
            if let Err(text) = compared(&sheet, &store, &mut met) {
                differences += 1;
                if differences <= SHOWN {
                    println!("{text}\n  sheet {bytes:?}");
                }
            }
        }
    }
    println!(
        "meaning: {before} points of these, and {} points of {sheets} random sheets on two stores each ({refused} sheets refused), {} of {FORMS} forms, {} jumps, \
         {} words lost by a Half, {} points by the rows of the tables alone, {differences} differences",
        met.points,
        met.forms.len(),
        met.jumps,
        met.lost,
        met.tidy
    );
    if differences == 0 && met.forms.len() == FORMS {
        ExitCode::SUCCESS
    } else {
        ExitCode::FAILURE
    }
}
