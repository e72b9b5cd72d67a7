//! Every operation of a listing through `tulipcricket_play` and through the independent player, on lost readings: every combination of
//! special words, and COUNT random cases of each operation, a NaN among their operands in most. Prints the cases and differences of each
//! operation, and the first that differs. Usage: compare-marks [COUNT] [SEED] [NAME..].
//!
//! A play takes 256 cases: their operands stand in Param and Mem, the third of them in Stack too, where an IfElse looks for it, and the
//! results go to Stack.

use std::process::ExitCode;

use oracle::ffi::Linked;
use oracle::format::{MEM, PARAM, STACK, STORE};
use oracle::machine::{Machine, Reference};
use oracle::make;
use oracle::names::{ARITH, BI, LISTING_BI, LISTING_UNI, UNI};
use oracle::player::place_word;
use oracle::random::{any_nan, any_word, Rng};

/// A case: x1, y1, x2, y2.
type Operands = [u64; 4];

/// Cases of one play.
const CASES: usize = 256;

/// Signalling and quiet NaNs of both signs, each with another mark; infinities, zeros, subnormals, normals.
const SPECIAL: [u64; 20] = [
    0x7ff0_0000_0000_0001,
    0xfff0_0000_0000_0002,
    0x7ff8_0000_0000_0003,
    0xfff8_0000_0000_0004,
    0x7ff7_ffff_ffff_ffff,
    0xfffc_0000_0000_1234,
    0x7ff8_0000_0000_0000,
    0xffff_ffff_ffff_ffff,
    0x7ff0_0000_0000_0000,
    0xfff0_0000_0000_0000,
    0,
    1 << 63,
    1,
    0x800f_ffff_ffff_ffff,
    0x0010_0000_0000_0000,
    0x3ff0_0000_0000_0000,
    0xbff8_0000_0000_0000,
    0x3fe0_0000_0000_0000,
    0x7fef_ffff_ffff_ffff,
    0xffef_ffff_ffff_ffff,
];

/// A record over registers 4 to 7 into register 8, or 8 and 9; with a name and the count of operands. `IfElse` names a place of the case.
struct Operation {
    name: String,
    operands: usize,
    record: Box<dyn Fn(u16) -> Vec<u8>>,
}

fn operations() -> Vec<Operation> {
    let row = |name: &str, operands, record: Vec<u8>| Operation {
        name: name.into(),
        operands,
        record: Box::new(move |_| record.clone()),
    };
    let mut found: Vec<_> = LISTING_UNI.iter().map(|op| row(UNI[*op as usize], 1, make::uni(*op, 8, 4))).collect();
    found.extend(LISTING_BI.iter().map(|op| row(BI[*op as usize], 2, make::bi(*op, 8, 4, 5))));
    found.push(row("Mov", 1, make::mov(8, 4)));
    found.push(row("MulAdd", 3, make::fused(0, 8, 4, 5, 6)));
    let if_else = |case| make::if_else(8, 4, 5, STACK, case);
    found.push(Operation { name: "IfElse".into(), operands: 3, record: Box::new(if_else) });
    for (op, name) in ARITH.iter().enumerate() {
        found.push(row(&format!("{name}Complex"), 4, make::complex_bi(op as u8, [8, 9, 4, 5, 6, 7])));
    }
    found
}

/// The listing that does the operation on each of `count` cases.
fn listing(operation: &Operation, count: usize) -> Vec<u8> {
    let one = |case| {
        let (x, y) = (make::load_complex(4, 5, PARAM, case), make::load_complex(6, 7, MEM, case));
        [x, y, (operation.record)(case), make::save_complex(8, 9, STACK, case)].concat()
    };
    (0..count as u16).flat_map(one).collect()
}

fn store(cases: &[Operands]) -> Vec<u64> {
    let mut words = vec![0; STORE];
    for (case, [x1, y1, x2, y2]) in cases.iter().enumerate() {
        for (class, pair) in [(PARAM, [*x1, *y1]), (MEM, [*x2, *y2]), (STACK, [*x2, 0])] {
            let at = place_word(class, case as u16);
            words[at..at + 2].copy_from_slice(&pair);
        }
    }
    words
}

/// Cases, those of them with a NaN, and differences; the first difference with what is expected and what was found.
#[derive(Default)]
struct Tally {
    cases: u64,
    nans: u64,
    differences: u64,
    first: Option<String>,
}

impl Tally {
    fn play(&mut self, listing: &[u8], cases: &[Operands], operands: usize) {
        let (mut expected, mut found) = (store(cases), store(cases));
        let answers = (Reference.play(listing, &[], &mut expected, 0), Linked.play(listing, &[], &mut found, 0));
        assert_eq!(answers.0, answers.1);
        assert_eq!(answers.0.number, 0, "the listing is played");
        self.cases += cases.len() as u64;
        let nan = |word: &u64| f64::from_bits(*word).is_nan();
        self.nans += cases.iter().filter(|case| case[..operands].iter().any(nan)).count() as u64;
        if expected == found {
            return;
        }
        let before = self.differences;
        for (case, row) in cases.iter().enumerate() {
            let at = place_word(STACK, case as u16);
            let (right, given) = (&expected[at..at + 2], &found[at..at + 2]);
            if right != given {
                self.differences += 1;
                let text = || format!("{:016x?}: expected {right:016x?}, found {given:016x?}", &row[..operands]);
                self.first.get_or_insert_with(text);
            }
        }
        if self.differences == before {
            self.differences += 1;
            self.first.get_or_insert("the store elsewhere than in the results".into());
        }
    }
}

/// Every tuple of special words; operands that the operation does not have are 0.
fn combinations(operands: usize) -> Vec<Operands> {
    let mut rows = vec![[0; 4]];
    for at in 0..operands {
        let with = |row: &Operands, word: &u64| {
            let mut longer = *row;
            longer[at] = *word;
            longer
        };
        rows = rows.iter().flat_map(|row| SPECIAL.iter().map(move |word| with(row, word))).collect();
    }
    rows
}

/// A word: a NaN of any mark, special, or any.
fn random_word(rng: &mut Rng) -> u64 {
    match rng.below(4) {
        0 => any_nan(rng),
        1 => rng.pick(&SPECIAL),
        _ => any_word(rng),
    }
}

fn compare(operation: &Operation, count: u64, seed: u64) -> Tally {
    let mut tally = Tally::default();
    let whole = listing(operation, CASES);
    for rows in combinations(operation.operands).chunks(CASES) {
        tally.play(&listing(operation, rows.len()), rows, operation.operands);
    }
    let mut rng = Rng(seed);
    for _ in 0..count.div_ceil(CASES as u64) {
        let rows: [Operands; CASES] = std::array::from_fn(|_| std::array::from_fn(|_| random_word(&mut rng)));
        tally.play(&whole, &rows, operation.operands);
    }
    tally
}

fn main() -> ExitCode {
    let words: Vec<String> = std::env::args().skip(1).collect();
    let numbers: Vec<u64> = words.iter().map_while(|w| w.parse().ok()).collect();
    let (count, seed) = (*numbers.first().unwrap_or(&100_000), *numbers.get(1).unwrap_or(&1));
    let named = &words[numbers.len()..];
    let mut total = Tally::default();
    for operation in operations() {
        if !named.is_empty() && !named.contains(&operation.name) {
            continue;
        }
        let tally = compare(&operation, count, seed);
        println!(
            "{}: {} cases, {} with a NaN, {} differences",
            operation.name, tally.cases, tally.nans, tally.differences
        );
        tally.first.iter().for_each(|text| println!("  first: {text}"));
        total.cases += tally.cases;
        total.nans += tally.nans;
        total.differences += tally.differences;
    }
    println!("marks: {} cases, {} with a NaN, {} differences", total.cases, total.nans, total.differences);
    if total.differences == 0 {
        ExitCode::SUCCESS
    } else {
        ExitCode::FAILURE
    }
}
