//! compare-floats COUNT SEED [NAME..]: of each operation, or of those named, every combination of special words and COUNT
//! random cases, by the C functions of `float_calls` and by this machine's hardware. Prints the cases, those with a NaN operand and the
//! differences of each operation, and the first differing case. The exit status is 1 where any case differs.

use oracle_float::calls::CALLS;
use oracle_float::float_cases::{grid, special, with_marks};
use oracle_float::hardware;
use oracle_float::operations::{Operands, Operation, OPERATIONS};
use oracle_float::random::Rng;

#[derive(Default)]
struct Tally {
    cases: u64,
    nans: u64,
    differ: u64,
    first: Option<Operands>,
}

impl Tally {
    fn add(&mut self, row: &Operands, operands: usize, same: bool) {
        self.cases += 1;
        self.nans += u64::from(row[..operands].iter().any(|word| f64::from_bits(*word).is_nan()));
        if !same {
            self.differ += 1;
            self.first.get_or_insert(*row);
        }
    }
}

fn compare(operation: &Operation, call: fn(&Operands) -> u64, count: u64, seed: u64) -> Tally {
    let mut tally = Tally::default();
    let mut add = |row: Operands| tally.add(&row, operation.operands, call(&row) == (operation.hardware)(&row));
    grid(operation, &special(operation)).into_iter().for_each(&mut add);
    let mut rng = Rng(seed);
    (0..count).for_each(|_| add(with_marks(operation, &mut rng)));
    tally
}

fn number(text: Option<String>) -> u64 {
    text.and_then(|t| t.parse().ok()).expect("compare-floats COUNT SEED [NAME..]")
}

fn main() {
    let mut args = std::env::args().skip(1);
    let count = number(args.next());
    let seed = number(args.next());
    let named: Vec<String> = args.collect();
    if !hardware::has_instructions() {
        println!(
            "this machine has no instruction for the roundings to a whole number or MulAdd: theirs are the C library's"
        );
    }
    let mut total = Tally::default();
    for (operation, call) in OPERATIONS.iter().zip(CALLS) {
        if !named.is_empty() && !named.iter().any(|name| name == operation.name) {
            continue;
        }
        let tally = compare(operation, call, count, seed);
        println!("{}: {} cases, {} with a NaN, {} differ", operation.name, tally.cases, tally.nans, tally.differ);
        if let Some(row) = tally.first {
            let (ours, theirs) = (call(&row), (operation.hardware)(&row));
            println!("  first: {row:016x?}: float {ours:016x}, hardware {theirs:016x}");
        }
        total.cases += tally.cases;
        total.nans += tally.nans;
        total.differ += tally.differ;
    }
    println!("{} cases, {} with a NaN, {} differ", total.cases, total.nans, total.differ);
    if total.differ > 0 {
        std::process::exit(1);
    }
}
