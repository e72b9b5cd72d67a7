//! Runs the program `listing` on sheets, and prints every difference between what it writes and the reference's page or refusal.
//! The sheets are every third of those at limits, those of labels and branches spread thinner, and random ones with branches and without.
//! Usage: compare-listing PROGRAM [COUNT] [SEED].

use std::io::Write;
use std::process::{Command, ExitCode, Stdio};

use oracle::format::{LISTING_LIMIT, TABLE};
use oracle::machine::{Machine, Reference};
use oracle::names::bi;
use oracle::random::{self, Rng};
use oracle::{boundary, branches, make, print};

/// The reference's number for a sheet, and what the program is to write.
fn expected(sheet: &[u8]) -> (u32, String) {
    let (mut listing, mut constants) = (vec![0; LISTING_LIMIT], vec![0; TABLE]);
    let answer = Reference.lower(sheet, &mut listing, &mut constants);
    let text = match answer.number {
        0 => print::page(&listing[..answer.written as usize], &constants[..answer.count as usize]),
        number => format!("refused {number} {}\n", answer.index),
    };
    (answer.number, text)
}

/// Stable divisions: 496 of them list 65,472 bytes, and one more has no room.
fn nearly_full(count: usize) -> Vec<u8> {
    make::sheet(true, &[0; 64], &[], &vec![make::bi(bi::DIVIDE, 27, 28, 29); count])
}

/// What the program writes for a sheet, which it reads to its end before it writes.
fn written(program: &str, sheet: &[u8]) -> Vec<u8> {
    let mut child =
        Command::new(program).stdin(Stdio::piped()).stdout(Stdio::piped()).spawn().expect("the program starts");
    child.stdin.take().expect("its input is open").write_all(sheet).expect("the sheet is read");
    child.wait_with_output().expect("the program ends").stdout
}

fn main() -> ExitCode {
    let mut words = std::env::args().skip(1);
    let program = words.next().expect("the program");
    let count = words.next().map_or(500, |w| w.parse().expect("a count"));
    let mut rng = Rng(words.next().map_or(1, |w| w.parse().expect("a seed")));

    let mut sheets: Vec<Vec<u8>> = boundary::sheets().into_iter().step_by(3).map(|case| case.sheet).collect();
    sheets.extend(boundary::far_sheets().into_iter().map(|case| case.sheet));
    sheets.extend([496, 497].map(nearly_full));
    sheets.extend((0..count).map(|_| random::to_lower(&mut rng).sheet));
    sheets.extend(branches::sheet_examples().into_iter().map(|(case, _, _)| case.sheet));
    sheets.extend(branches::sheets().into_iter().step_by(29).map(|case| case.sheet));
    sheets.extend((0..count).map(|_| random::branching_to_lower(&mut rng).sheet));
    let (mut numbers, mut differences) = ([0u64; 15], 0u64);
    for sheet in &sheets {
        let (number, text) = expected(sheet);
        numbers[number as usize] += 1;
        let found = written(&program, sheet);
        if found != text.as_bytes() {
            differences += 1;
            println!("sheet {sheet:?}\n  expected {text}\n  found {}", String::from_utf8_lossy(&found));
        }
    }
    println!("listing: {} sheets, answers 0 to 14: {numbers:?}, {differences} differences", sheets.len());
    if differences == 0 {
        ExitCode::SUCCESS
    } else {
        ExitCode::FAILURE
    }
}
