//! The five misreadings document 01 names: what holds instead.

use oracle::format::*;
use oracle::names::{bi, uni};
use oracle::player::play;
use oracle::reference::{lower_with_points, Point};
use oracle::{make, print};

const NONE: [u8; 64] = [0; 64];

/// The listing's bytes, lines, constants and points.
fn lowered(stable: bool, constants: &[u64], row: &[Vec<u8>]) -> (Vec<u8>, Vec<String>, Vec<u64>, Vec<Point>) {
    let (mut listing, mut table) = (vec![0; LISTING_LIMIT], vec![0; TABLE]);
    let (answer, points) = lower_with_points(&make::sheet(stable, &NONE, constants, row), &mut listing, &mut table);
    assert_eq!(answer.number, 0);
    listing.truncate(answer.written as usize);
    table.truncate(answer.count as usize);
    let lines = records(&listing).iter().map(|r| print::record(r)).collect();
    (listing, lines, table, points)
}

/// The store after a play on registers set by sheet number, real half then imaginary.
fn after(listing: &[u8], constants: &[u64], set: &[(usize, f64)]) -> Vec<f64> {
    let mut store = vec![0; STORE];
    for (index, value) in set {
        store[*index] = value.to_bits();
    }
    assert_eq!(play(listing, constants, &mut store, 0).number, 0);
    store.into_iter().map(f64::from_bits).collect()
}

#[test]
fn a_second_root_calls_the_first_ones_block() {
    for stable in [false, true] {
        let row = [make::uni(uni::ROOT, 1, 0), make::uni(uni::ROOT, 2, 1)];
        let (listing, lines, constants, points) = lowered(stable, &[], &row);
        assert_eq!(lines[points[1].records..], ["Mov G0 G6", "Mov G1 G7", "Call 1", "Mov G8 Ret", "Mov G9 Temp"]);
        assert_eq!(lines.iter().filter(|l| *l == "Label 1").count(), 1);
        let store = after(&listing, &constants, &[(4, 16.0)]);
        assert_eq!((store[6], store[7], store[8], store[9]), (4.0, 0.0, 2.0, 0.0));
    }
}

#[test]
fn stable_divide_to_temp_loses_the_dividend() {
    let (listing, lines, constants, _) = lowered(true, &[], &[make::bi(bi::DIVIDE, TEMP, 0, 1)]);
    let last: Vec<&String> = lines.iter().rev().take(5).rev().collect();
    assert_eq!(
        last,
        ["Times G0 G4 G2", "Times G1 G5 G2", "Times G0 G6 G2", "Times G1 G7 G2", "DivideComplex G0 G1 G0 G1 G0 G1"]
    );
    let store = after(&listing, &constants, &[(4, 6.0), (6, 2.0)]);
    assert_eq!((store[0], store[1]), (1.0, 0.0));
}

#[test]
fn plain_divide_of_a_real_temp_reads_what_it_overwrote() {
    let row = [make::load_const(TEMP, 0), make::bi(bi::DIVIDE, 2, TEMP, 1)];
    let (listing, lines, constants, _) = lowered(false, &[6.0f64.to_bits()], &row);
    assert_eq!(lines[1..4], ["Times G2 G6 G6", "MulAdd G0 G7 G7 G2", "Times G2 G0 G6"]);
    let store = after(&listing, &constants, &[(6, 2.0)]);
    assert_eq!(store[8], 2.0); // (2 squared) times 2 over 2 squared, where 6 over 2 is 3
}

#[test]
fn half_leaves_the_records() {
    let row = [make::load_const(0, 0), make::uni(uni::HALF, 1, 0), make::uni(uni::HALF, 0, 1)];
    let (_, _, _, points) = lowered(false, &[7], &row);
    for point in &points[1..] {
        assert!(point.realness.registers[0]);
        assert!(!point.realness.registers[1]);
    }
}

#[test]
fn a_complex_divide_reads_its_operands_before_writing() {
    // Register 0 holds x1: (6 + 8i) over (1 + 2i) is (22 - 4i) over 5.
    let record = make::complex_bi(3, [4, 5, 0, 1, 6, 7]);
    let store = after(&record, &[], &[(0, 6.0), (1, 8.0), (6, 1.0), (7, 2.0)]);
    assert_eq!((store[4], store[5], store[0], store[1]), (22.0 / 5.0, -4.0 / 5.0, 6.0, 8.0));
    // The destination is x2 and y2 themselves, both halves swapped.
    let record = make::complex_bi(3, [7, 6, 0, 1, 6, 7]);
    let store = after(&record, &[], &[(0, 6.0), (1, 8.0), (6, 1.0), (7, 2.0)]);
    assert_eq!((store[7], store[6]), (22.0 / 5.0, -4.0 / 5.0));
}
