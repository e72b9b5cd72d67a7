//! Document 01's sheet on paper and the examples beside it.

use oracle::boundary::paper;
use oracle::format::*;
use oracle::names::{bi, uni};
use oracle::player::play;
use oracle::reference::{lower, Answer};
use oracle::{make, print};

const NONE: [u8; 64] = [0; 64];
const TWO: u64 = 0x4000_0000_0000_0000;

/// The answer, the listing's lines and the constants.
fn lowered(sheet: &[u8]) -> (Answer, Vec<String>, Vec<u64>) {
    let (mut listing, mut constants) = (vec![0; LISTING_LIMIT], vec![0; TABLE]);
    let answer = lower(sheet, &mut listing, &mut constants);
    let lines = records(&listing[..answer.written as usize]).iter().map(|r| print::record(r)).collect();
    constants.truncate(answer.count as usize);
    (answer, lines, constants)
}

fn refusal(sheet: &[u8]) -> (u32, u64) {
    let (answer, _, _) = lowered(sheet);
    (answer.number, answer.index)
}

/// The lines of a sheet that is accepted.
fn lines(stable: bool, constants: &[u64], instructions: &[Vec<u8>]) -> Vec<String> {
    let (answer, lines, _) = lowered(&make::sheet(stable, &NONE, constants, instructions));
    assert_eq!(answer.number, 0);
    lines
}

fn one(instruction: Vec<u8>) -> Vec<u8> {
    make::sheet(false, &NONE, &[TWO], &[instruction])
}

#[test]
fn the_sheet_on_paper() {
    let (mut listing, mut constants) = (vec![0; LISTING_LIMIT], vec![0; TABLE]);
    let answer = lower(&paper(), &mut listing, &mut constants);
    assert_eq!((answer.number, answer.index, answer.written, answer.count), (0, 4, 41, 1));
    assert_eq!(
        print::page(&listing[..41], &constants[..1]),
        "constants 1\n0 4000000000000000\nlisting 5 41\nLoadConst G4 0\nLoadComplex G6 G7 Mem 3\nTimes G5 G4 G7\n\
         Times G4 G4 G6\nSaveComplex G4 G5 Mem 4\n"
    );
}

#[test]
fn forty_bytes_are_too_few() {
    let (mut listing, mut constants) = (vec![9; 40], vec![9; TABLE]);
    let answer = lower(&paper(), &mut listing, &mut constants);
    assert_eq!((answer.number, answer.index, answer.written, answer.count), (FULL, 3, 32, 1));
    assert_eq!(listing[32..], [9; 8]);
    assert_eq!(constants[1..], [9; 255]);
    assert_eq!(answer.realness.registers, [false; 32]);
}

#[test]
fn general_29_becomes_62_and_63() {
    assert_eq!(lines(false, &[], &[make::load(29, MEM, 0)]), ["LoadComplex G62 G63 Mem 0"]);
}

#[test]
fn mov_of_3_to_3_lists_nothing() {
    assert_eq!(lines(false, &[], &[make::mov(3, 3)]), [""; 0]);
}

#[test]
fn real_minus_complex() {
    let found = lines(false, &[TWO], &[make::load_const(0, 0), make::bi(bi::MINUS, 2, 0, 1)]);
    assert_eq!(found[1..], ["Minus G8 G4 G6", "Neg G9 G7"]);
}

#[test]
fn half_of_real_into_complex() {
    let found = lines(false, &[TWO], &[make::load_const(0, 0), make::uni(uni::HALF, 1, 0)]);
    assert_eq!(found[1..], ["Half G7 G5", "Half G6 G4"]);
}

#[test]
fn fused_with_c_ret_is_barred() {
    for stable in [false, true] {
        for op in 0..4 {
            let sheet = make::sheet(stable, &NONE, &[TWO], &[make::nop(), make::fused(op, 1, 2, 3, RET)]);
            assert_eq!(refusal(&sheet), (BARRED, 1));
            let sheet = make::sheet(stable, &NONE, &[TWO], &[make::load_const(RET, 0), make::fused(op, 1, 2, 3, RET)]);
            assert_eq!(refusal(&sheet), (BARRED, 1));
            let sheet = make::sheet(stable, &NONE, &[], &[make::fused(op, RET, RET, RET, TEMP)]);
            assert_eq!(refusal(&sheet), (0, 1));
        }
    }
}

#[test]
fn stable_abs_adds_three_constants() {
    let (answer, _, constants) = lowered(&make::sheet(true, &NONE, &[], &[make::uni(uni::ABS, 1, 2)]));
    assert_eq!(answer.number, 0);
    assert_eq!(constants, [0x0020_0000_0000_0000, 0x7fe0_0000_0000_0000, 0x7ff0_0000_0000_0000]);
}

#[test]
fn constants_that_stand_earlier_are_found() {
    let own = [5, 0x7ff0_0000_0000_0000, 7, 0x0020_0000_0000_0000];
    let (_, lines, constants) = lowered(&make::sheet(true, &NONE, &own, &[make::uni(uni::ABS, 1, 2)]));
    assert_eq!(constants, [5, 0x7ff0_0000_0000_0000, 7, 0x0020_0000_0000_0000, 0x7fe0_0000_0000_0000]);
    let loads: Vec<&String> = lines.iter().filter(|l| l.starts_with("LoadConst")).collect();
    assert_eq!(loads, ["LoadConst G3 3", "LoadConst G3 4", "LoadConst G3 1"]);
}

#[test]
fn no_instructions_list_nothing() {
    let (answer, lines, constants) = lowered(&make::sheet(false, &NONE, &[TWO], &[]));
    assert_eq!((answer.number, answer.index, answer.written), (0, 0, 0));
    assert_eq!(lines, [""; 0]);
    assert_eq!(constants, [TWO]);
}

#[test]
fn register_31_and_32() {
    assert_eq!(refusal(&one(make::mov(31, 1))), (0, 1));
    assert_eq!(refusal(&one(make::mov(32, 1))), (REGISTER, 0));
    assert_eq!(refusal(&one(make::mov(1, 31))), (0, 1));
    assert_eq!(refusal(&one(make::mov(1, 32))), (REGISTER, 0));
}

#[test]
fn place_255_and_256() {
    for class in [STACK, MEM, PARAM] {
        assert_eq!(refusal(&one(make::load(1, class, 255))), (0, 1));
        assert_eq!(refusal(&one(make::load(1, class, 256))), (PLACE, 0));
    }
    assert_eq!(refusal(&one(make::load(1, 3, 0))), (PLACE, 0));
    assert_eq!(refusal(&one(make::save(1, PARAM, 0))), (PLACE, 0));
    assert_eq!(refusal(&one(make::if_else(1, 2, 3, MEM, 0))), (PLACE, 0));
    assert_eq!(refusal(&one(make::if_else(1, 2, 3, PARAM, 0))), (PLACE, 0));
}

#[test]
fn constants_251_and_252() {
    let row = |count| make::sheet(false, &NONE, &vec![TWO; count], &[make::load_const(1, 250)]);
    assert_eq!(refusal(&row(251)), (0, 1));
    assert_eq!(refusal(&row(252)), (SETUP, 0));
    assert_eq!(refusal(&row(250)), (MISSING, 0));
}

#[test]
fn divide_by_complex_temp() {
    let row = |stable| make::sheet(stable, &NONE, &[TWO], &[make::bi(bi::DIVIDE, 2, 1, TEMP)]);
    assert_eq!(refusal(&row(true)), (BARRED, 0));
    assert_eq!(refusal(&row(false)), (0, 1));
    let real =
        |stable| make::sheet(stable, &NONE, &[TWO], &[make::load_const(TEMP, 0), make::bi(bi::DIVIDE, 2, RET, TEMP)]);
    assert_eq!(refusal(&real(true)), (0, 2));
}

/// One record's result from registers 0, 1 and 2.
fn result(record: Vec<u8>, words: [u64; 3]) -> u64 {
    let mut store = vec![0; STORE];
    store[..3].copy_from_slice(&words);
    assert_eq!(play(&record, &[], &mut store, 0).number, 0);
    store[5]
}

#[test]
fn words_on_paper() {
    assert_eq!(result(make::uni(uni::HALF, 5, 0), [3, 0, 0]), 2);
    assert_eq!(result(make::uni(uni::ROOT, 5, 0), [1 << 63, 0, 0]), 1 << 63);
    let words = [0x3ff0_0000_0000_0001, 0x3ff0_0000_0000_0001, 0xbff0_0000_0000_0002];
    assert_eq!(result(make::fused(0, 5, 0, 1, 2), words), 0x3970_0000_0000_0000);
}
