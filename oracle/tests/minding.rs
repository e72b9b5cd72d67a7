//! Document 02's mode 2, n): its Half and its Divide into Temp, typed from its sentences; all else as mode 1.

use oracle::boundary::every_instruction;
use oracle::format::*;
use oracle::make;
use oracle::names::{bi, uni};
use oracle::player::play;
use oracle::print;
use oracle::reference::{lower, lower_with_points, Answer, Realness};

const TWO: u64 = 0x4000_0000_0000_0000;

/// What the last instruction lists, after LoadConst of each register that is to be real, with what is recorded then.
struct Listed {
    answer: Answer,
    lines: Vec<String>,
    constants: Vec<u64>,
}

fn listed(mode: u8, real: &[u8], instruction: &[u8]) -> Listed {
    let mut row: Vec<Vec<u8>> = real.iter().map(|r| make::load_const(*r, 0)).collect();
    row.push(instruction.to_vec());
    let places = make::real_places(&[(STACK, 7), (PARAM, 7)]);
    let (mut listing, mut table) = (vec![0; 1024], vec![0; TABLE]);
    let (answer, points) = lower_with_points(&make::sheet(mode, &places, &[TWO], &row), &mut listing, &mut table);
    let from = points[real.len()].bytes;
    let lines = records(&listing[from..answer.written as usize]).iter().map(|r| print::record(r)).collect();
    table.truncate(answer.count as usize);
    Listed { answer, lines, constants: table }
}

/// Whether these registers are recorded as real.
fn reals(realness: &Realness, registers: &[u8]) -> Vec<bool> {
    registers.iter().map(|r| realness.registers[*r as usize]).collect()
}

#[test]
fn half_of_a_real_register_lists_its_real_line_alone() {
    let found = listed(MINDING, &[0], &make::uni(uni::HALF, 1, 0));
    assert_eq!(
        (found.lines, reals(&found.answer.realness, &[0, 1])),
        (vec!["Half G6 G4".to_string()], vec![true, true])
    );
    let found = listed(MINDING, &[0, 1], &make::uni(uni::HALF, 1, 0));
    assert_eq!(
        (found.lines, reals(&found.answer.realness, &[0, 1])),
        (vec!["Half G6 G4".to_string()], vec![true, true])
    );
    let found = listed(MINDING, &[RET], &make::uni(uni::HALF, TEMP, RET));
    assert_eq!(
        (found.lines, reals(&found.answer.realness, &[RET, TEMP])),
        (vec!["Half G0 Ret".to_string()], vec![true, true])
    );
}

#[test]
fn half_of_a_complex_register_lists_both_and_copies_its_record() {
    for real in [&[][..], &[1]] {
        let found = listed(MINDING, real, &make::uni(uni::HALF, 1, 0));
        assert_eq!(found.lines, ["Half G7 G5", "Half G6 G4"]);
        assert_eq!(reals(&found.answer.realness, &[0, 1]), [false, false]);
    }
    let found = listed(MINDING, &[RET], &make::uni(uni::HALF, RET, TEMP));
    assert_eq!(found.lines, ["Half Temp G1", "Half Ret G0"]);
    assert_eq!(reals(&found.answer.realness, &[RET, TEMP]), [false, false]);
}

#[test]
fn modes_0_and_1_list_half_as_the_rust_does() {
    for mode in [PLAIN, STABLE] {
        let found = listed(mode, &[0], &make::uni(uni::HALF, 1, 0));
        assert_eq!(found.lines, ["Half G7 G5", "Half G6 G4"]);
        assert_eq!(reals(&found.answer.realness, &[0, 1]), [true, false]);
    }
}

#[test]
fn a_divide_by_a_complex_register_into_temp_goes_by_ret() {
    for real in [&[][..], &[0], &[RET], &[0, RET, TEMP]] {
        let into_ret = listed(STABLE, real, &make::bi(bi::DIVIDE, RET, 0, 1));
        let found = listed(MINDING, real, &make::bi(bi::DIVIDE, TEMP, 0, 1));
        let expected: Vec<String> =
            into_ret.lines.into_iter().chain(["Mov G0 Ret", "Mov G1 Temp"].map(String::from)).collect();
        assert_eq!((found.lines, found.constants), (expected, into_ret.constants));
        assert_eq!(reals(&found.answer.realness, &[RET, TEMP]), [false, false]);
    }
}

/// The two halves of Temp after 6 over 2 into Temp.
fn quotient(mode: u8) -> [f64; 2] {
    let (mut listing, mut table) = (vec![0; 1024], vec![0; TABLE]);
    let sheet = make::sheet(mode, &[0; 64], &[], &[make::bi(bi::DIVIDE, TEMP, 0, 1)]);
    let answer = lower(&sheet, &mut listing, &mut table);
    let mut store = vec![0; STORE];
    store[4] = 6.0f64.to_bits();
    store[6] = 2.0f64.to_bits();
    assert_eq!(play(&listing[..answer.written as usize], &table[..answer.count as usize], &mut store, 0).number, 0);
    [store[0], store[1]].map(f64::from_bits)
}

#[test]
fn the_dividend_survives() {
    assert_eq!((quotient(MINDING), quotient(STABLE), quotient(PLAIN)), ([3.0, 0.0], [1.0, 0.0], [3.0, 0.0]));
}

#[test]
fn a_divide_by_a_real_register_is_that_of_mode_1() {
    for real in [&[1][..], &[0, 1], &[1, RET], &[1, TEMP]] {
        let record = make::bi(bi::DIVIDE, TEMP, 0, 1);
        let (found, other) = (listed(MINDING, real, &record), listed(STABLE, real, &record));
        assert_eq!((&found.lines, &found.answer), (&other.lines, &other.answer));
        assert_eq!(found.answer.realness.registers[RET as usize], real.contains(&RET));
    }
}

#[test]
fn six_is_given_as_in_mode_1() {
    for (s1, s2) in [(RET, 1), (TEMP, 1), (0, RET), (0, TEMP), (RET, TEMP)] {
        for dst in [2, RET, TEMP] {
            assert_eq!(listed(MINDING, &[], &make::bi(bi::DIVIDE, dst, s1, s2)).answer.number, BARRED);
        }
    }
    assert_eq!(listed(MINDING, &[TEMP], &make::bi(bi::DIVIDE, TEMP, RET, TEMP)).answer.number, 0);
    assert_eq!(listed(MINDING, &[], &make::load_math(3, TEMP, 0, MEM, 7)).answer.number, BARRED);
    assert_eq!(listed(MINDING, &[], &make::load_math(3, TEMP, 0, STACK, 7)).answer.number, 0);
    assert_eq!(listed(MINDING, &[], &make::uni(uni::ABS, 1, RET)).answer.number, BARRED);
}

#[test]
fn a_mode_above_2_is_8() {
    for mode in 0..=255u8 {
        let answer = lower(&make::sheet(mode, &[0; 64], &[], &[make::nop()]), &mut [0; 8], &mut [0; TABLE]);
        assert_eq!(answer.number, if mode <= 2 { 0 } else { SETUP });
    }
}

/// Whether mode 2 may list an instruction otherwise than mode 1: a Half, and a Divide into Temp.
fn otherwise(record: &[u8]) -> bool {
    let kind = two(record, 2);
    kind == 1 && record[4] == uni::HALF || kind == 2 && record[4] == bi::DIVIDE && record[5] == TEMP
}

#[test]
fn all_else_is_mode_1() {
    let registers = [0, 1, RET, TEMP];
    for record in every_instruction(&registers).iter().filter(|record| !otherwise(record)) {
        for bits in 0..16 {
            let real: Vec<u8> = (0..4).filter(|i| bits >> i & 1 == 1).map(|i| registers[i]).collect();
            let (found, other) = (listed(MINDING, &real, record), listed(STABLE, &real, record));
            assert_eq!((found.answer, found.lines, found.constants), (other.answer, other.lines, other.constants));
        }
    }
}
