//! Document 02's origins, m), typed from its sentences: "per constant, the instruction that first appended it, or 65,535 for one from the sheet".

use oracle::format::*;
use oracle::make::*;
use oracle::names::{bi, uni as op};
use oracle::reference::lower;

/// What stable Abs adds, by document 01, and what stable Divide and Recip add besides (docs/SHEET.md, 2).
const ABS: [u64; 3] = [0x0020_0000_0000_0000, 0x7fe0_0000_0000_0000, 0x7ff0_0000_0000_0000];
const DIVIDE: [u64; 2] = [0x0010_0000_0000_0000, 0x3fd0_0000_0000_0000];

const OWN: u16 = 65_535;

/// The number of a lowering in so much room, with the constants and their origins.
fn lowered(mode: u8, room: usize, own: &[u64], row: &[Vec<u8>]) -> (u32, Vec<(u64, u16)>) {
    let mut table = [0; TABLE];
    let answer = lower(&sheet(mode, &[0; 64], own, row), &mut vec![0; room], &mut table);
    assert_eq!(answer.origins.len() as u64, answer.count);
    (answer.number, table.into_iter().zip(answer.origins).collect())
}

fn abs() -> Vec<u8> {
    uni(op::ABS, 1, 0)
}

#[test]
fn an_added_constant_names_the_instruction_that_appended_it() {
    let added = |at: u16| ABS.map(|bits| (bits, at)).to_vec();
    assert_eq!(lowered(STABLE, 1024, &[], &[abs()]), (0, added(0)));
    assert_eq!(lowered(STABLE, 1024, &[], &[nop(), nop(), abs(), abs()]), (0, added(2)));
    assert_eq!(lowered(MINDING, 1024, &[], &[nop(), abs()]), (0, added(1)));
}

#[test]
fn a_later_instruction_names_what_it_appends_alone() {
    let (number, found) = lowered(STABLE, 1024, &[], &[abs(), nop(), bi(bi::DIVIDE, 2, 0, 1), uni(op::RECIP, 2, 0)]);
    let mut expected = ABS.map(|bits| (bits, 0)).to_vec();
    expected.extend(DIVIDE.map(|bits| (bits, 2)));
    assert_eq!((number, found), (0, expected));
}

#[test]
fn a_constant_of_the_sheet_keeps_65535_where_it_is_found() {
    let expected = vec![(7, OWN), (ABS[2], OWN), (ABS[0], 0), (ABS[1], 0)];
    assert_eq!(lowered(STABLE, 1024, &[7, ABS[2]], &[abs()]), (0, expected));
    assert_eq!(lowered(STABLE, 1024, &ABS, &[abs()]), (0, ABS.map(|bits| (bits, OWN)).to_vec()));
}

#[test]
fn plain_mode_appends_none() {
    assert_eq!(lowered(PLAIN, 1024, &[7], &[abs(), bi(bi::DIVIDE, 2, 0, 1)]), (0, vec![(7, OWN)]));
    assert_eq!(lowered(PLAIN, 1024, &[], &[abs()]), (0, vec![]));
}

#[test]
fn a_refused_instruction_names_none() {
    let kept = ABS.map(|bits| (bits, 0)).to_vec();
    assert_eq!(lowered(STABLE, 1024, &[], &[abs(), bi(bi::DIVIDE, 2, RET, 1)]), (BARRED, kept.clone()));
    assert_eq!(lowered(STABLE, 1024, &[], &[abs(), vec![0]]), (TORN, kept));
    assert_eq!(lowered(STABLE, 8, &[7], &[abs()]), (FULL, vec![(7, OWN)]));
    assert_eq!(lowered(STABLE, LISTING_LIMIT + 1, &[7], &[abs()]), (SETUP, vec![]));
}
