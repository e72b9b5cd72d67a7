//! The refusals of lowering: their order, their index, and what they leave.

use oracle::format::*;
use oracle::make;
use oracle::marks::Marks;
use oracle::names::{bi, uni};
use oracle::reference::{lower, Answer, Realness};

const NONE: [u8; 64] = [0; 64];
const TWO: u64 = 0x4000_0000_0000_0000;

fn lowered(sheet: &[u8], room: usize) -> (Answer, Vec<u8>, Vec<u64>) {
    let (mut listing, mut constants) = (vec![9; room], vec![9; TABLE]);
    let answer = lower(sheet, &mut listing, &mut constants);
    (answer, listing, constants)
}

fn refusal(sheet: &[u8]) -> (u32, u64) {
    let (answer, _, _) = lowered(sheet, LISTING_LIMIT);
    (answer.number, answer.index)
}

/// A sheet with these bytes after a Nop.
fn then(bytes: &[u8]) -> Vec<u8> {
    let mut sheet = make::sheet(false, &NONE, &[TWO], &[make::nop()]);
    sheet.extend(bytes);
    sheet
}

#[test]
fn setup_changes_nothing() {
    let short = &make::header(false, &[255; 64])[..68];
    let mut long_header = make::header(false, &[255; 64]);
    long_header[0] = 70;
    let mut other_kind = make::header(false, &[255; 64]);
    other_kind[2] = 33;
    let mut fourth_mode = make::header(false, &[255; 64]);
    fourth_mode[4] = 3;
    for sheet in [&[], short, &long_header, &other_kind, &fourth_mode] {
        let (answer, listing, constants) = lowered(sheet, 100);
        let (realness, marks) = (Realness::all_complex(), Marks::none());
        let expected = Answer { number: SETUP, index: 0, written: 0, count: 0, realness, marks, origins: vec![] };
        assert_eq!(answer, expected);
        assert_eq!((listing, constants), (vec![9; 100], vec![9; TABLE]));
    }
}

#[test]
fn slices_of_other_lengths() {
    let sheet = make::header(false, &NONE);
    for (room, table, number) in [(65_536, 256, 0), (65_537, 256, SETUP), (0, 255, SETUP), (0, 257, SETUP), (0, 256, 0)]
    {
        let answer = lower(&sheet, &mut vec![0; room], &mut vec![0; table]);
        assert_eq!(answer.number, number);
    }
}

/// 14 comes before any other number; what stands before it is finished.
#[test]
fn the_instruction_at_index_612() {
    let nops = |count: usize, then: &[u8]| [&make::header(false, &NONE)[..], &make::nop().repeat(count), then].concat();
    assert_eq!(refusal(&nops(611, &[])), (0, 611));
    assert_eq!(refusal(&nops(612, &[])), (0, 612));
    assert_eq!(refusal(&nops(613, &[])), (LONG, 612));
    assert_eq!(refusal(&nops(611, &[0])), (TORN, 611));
    assert_eq!(refusal(&nops(612, &[0])), (LONG, 612));
    assert_eq!(refusal(&nops(612, &make::mov(32, 1))), (LONG, 612));
    assert_eq!(refusal(&nops(612, &make::branch(3))), (LONG, 612));
    let (answer, listing, _) = lowered(&nops(611, &[make::mov(1, 2), make::mov(1, 2)].concat()), 100);
    assert_eq!((answer.number, answer.index, answer.written), (LONG, 612, 12));
    assert_eq!(listing[12..], [9; 88]);
}

/// A sheet of a Branch 3, Nops, and a Label 3 at an index, with more behind it or not.
#[test]
fn looking_ahead_goes_past_index_612() {
    let far = |label: usize, torn: usize| {
        let mut row = vec![make::nop(); label + 1];
        row[0] = make::branch(3);
        row[label] = make::label(3);
        if torn < label {
            row[torn] = vec![5, 0, 0, 0, 0];
        }
        refusal(&make::sheet(false, &NONE, &[], &row))
    };
    assert_eq!(far(611, 9999), (0, 612));
    for label in [612, 613, 60_000] {
        assert_eq!(far(label, 99_999), (LONG, 612));
    }
    assert_eq!(far(613, 612), (MISPLACED, 0));
}

#[test]
fn constants_that_do_not_stand() {
    let head = make::header(false, &NONE);
    let with = |bytes: &[u8]| [&head[..], bytes].concat();
    assert_eq!(refusal(&with(&make::raw(CONSTANT, &[0; 7]))), (SETUP, 0));
    assert_eq!(refusal(&with(&make::raw(CONSTANT, &[0; 9]))), (SETUP, 0));
    assert_eq!(refusal(&with(&make::constant(1)[..11])), (SETUP, 0));
    assert_eq!(refusal(&with(&make::constant(1)[..4])), (SETUP, 0));
    assert_eq!(refusal(&with(&make::constant(1)[..3])), (TORN, 0));
    let many = make::constant(1).repeat(251);
    assert_eq!(refusal(&with(&many)), (0, 0));
    assert_eq!(refusal(&with(&[&many[..], &make::raw(CONSTANT, &[])].concat())), (SETUP, 0));
}

#[test]
fn torn_records() {
    for bytes in [&[0][..], &[0; 3], &[3, 0, 0, 0], &[5, 0, 0, 0], &[0, 0, 0, 0], &[7, 0, 1, 0, 0, 1]] {
        assert_eq!(refusal(&then(bytes)), (TORN, 1));
    }
    assert_eq!(refusal(&then(&[5, 0, 0, 0, 0])), (TORN, 1)); // a Nop of five bytes
    assert_eq!(refusal(&then(&make::constant(1))), (UNKNOWN, 1));
    assert_eq!(refusal(&then(&make::constant(1)[..11])), (TORN, 1));
}

#[test]
fn unknown_work() {
    for kind in [11, 12, 13, 16, 18, 32, 33, 255, 256, 257, 266, 270] {
        assert_eq!(refusal(&then(&make::raw(kind, &[0; 3]))), (UNKNOWN, 1));
    }
    for op in [20, 21, 255] {
        assert_eq!(refusal(&then(&make::uni(op, 255, 1))), (UNKNOWN, 1));
    }
    for op in [bi::AND_NOT, 15, 255] {
        assert_eq!(refusal(&then(&make::bi(op, 1, 255, 1))), (UNKNOWN, 1));
    }
    for op in [4, 255] {
        assert_eq!(refusal(&then(&make::fused(op, 1, 2, 3, 255))), (UNKNOWN, 1));
        assert_eq!(refusal(&then(&make::load_math(op, 1, 2, 9, 999))), (UNKNOWN, 1));
        assert_eq!(refusal(&then(&make::load_const_math(op, 1, 99, 999))), (UNKNOWN, 1));
    }
    assert_eq!(refusal(&then(&make::raw(1, &[255, 1]))), (TORN, 1)); // the kind's length before the operation
}

/// Every operation of mir.rs but AndNot.
#[test]
fn known_work() {
    for op in 0..20 {
        assert_eq!(refusal(&then(&make::uni(op, 1, 2))), (0, 2));
    }
    for op in (0..15).filter(|op| *op != bi::AND_NOT) {
        assert_eq!(refusal(&then(&make::bi(op, 1, 2, 3))), (0, 2));
    }
}

#[test]
fn registers_before_places_before_constants() {
    assert_eq!(refusal(&then(&make::load(32, 9, 999))), (REGISTER, 1));
    assert_eq!(refusal(&then(&make::load(31, 9, 0))), (PLACE, 1));
    assert_eq!(refusal(&then(&make::if_else(1, 2, 32, MEM, 0))), (REGISTER, 1));
    assert_eq!(refusal(&then(&make::load_const(32, 1))), (REGISTER, 1));
    assert_eq!(refusal(&then(&make::load_const(31, 1))), (MISSING, 1));
    assert_eq!(refusal(&then(&make::load_const_math(3, 1, 2, 256))), (MISSING, 1));
    assert_eq!(refusal(&then(&make::fused(0, 1, 2, 32, RET))), (REGISTER, 1));
}

#[test]
fn appended_constants_are_not_the_sheets_own() {
    let row = [make::uni(uni::ABS, 1, 2), make::load_const(1, 1)];
    assert_eq!(refusal(&make::sheet(true, &NONE, &[TWO], &row)), (MISSING, 1));
}

#[test]
fn barred_comes_before_full() {
    let sheet = make::sheet(true, &NONE, &[], &[make::fused(0, 1, 2, 3, RET)]);
    let (answer, _, _) = lowered(&sheet, 0);
    assert_eq!((answer.number, answer.index), (BARRED, 0));
}

#[test]
fn barred_goes_by_the_record_the_rust_sees() {
    let places = make::real_places(&[(STACK, 7), (PARAM, 7)]);
    let one = |record: Vec<u8>| refusal(&make::sheet(true, &places, &[TWO], &[record])).0;
    assert_eq!(one(make::load_math(3, 1, 2, STACK, 7)), 0);
    assert_eq!(one(make::load_math(3, TEMP, RET, PARAM, 7)), 0);
    assert_eq!(one(make::load_math(3, 1, 2, MEM, 7)), BARRED);
    assert_eq!(one(make::load_math(3, 1, 2, STACK, 8)), BARRED);
    assert_eq!(one(make::load_const_math(3, RET, TEMP, 0)), 0);
    assert_eq!(one(make::uni(uni::ABS, 1, RET)), BARRED);
    assert_eq!(one(make::uni(uni::ABS, RET, TEMP)), 0);
    let saved = [make::save(1, STACK, 7), make::load_math(3, 1, 2, STACK, 7)];
    assert_eq!(refusal(&make::sheet(true, &places, &[TWO], &saved)), (BARRED, 1));
}

#[test]
fn full_leaves_the_instruction_out_with_its_constants() {
    let row = [make::load_const(2, 0), make::uni(uni::ABS, 1, 3)];
    let (answer, listing, constants) = lowered(&make::sheet(true, &NONE, &[TWO], &row), 100);
    assert_eq!((answer.number, answer.index, answer.written, answer.count), (FULL, 1, 7, 1));
    assert!(answer.realness.registers[2]);
    assert_eq!(listing[7..], [9; 93]);
    assert_eq!(constants[1..], [9; 255]);
}

#[test]
fn nothing_listed_needs_no_room() {
    let row = [make::nop(), make::mov(4, 4), make::nop()];
    let (answer, _, _) = lowered(&make::sheet(false, &NONE, &[], &row), 0);
    assert_eq!((answer.number, answer.index, answer.written), (0, 3, 0));
}

#[test]
fn refusals_carry_the_realness_before() {
    let places = make::real_places(&[(STACK, 0), (STACK, 255), (PARAM, 0), (PARAM, 255)]);
    let row = [make::save(1, STACK, 255), make::load_const(5, 0), make::uni(20, 1, 1)];
    let (answer, _, _) = lowered(&make::sheet(false, &places, &[TWO], &row), 100);
    assert_eq!((answer.number, answer.index), (UNKNOWN, 2));
    assert_eq!(answer.realness.places, make::real_places(&[(STACK, 0), (PARAM, 0), (PARAM, 255)]));
    assert_eq!(answer.realness.registers.iter().position(|real| *real), Some(5));
}
