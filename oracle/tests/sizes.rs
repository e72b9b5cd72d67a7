//! The sizes that buffers and tables rely on, over every instruction, realness and mode.

use oracle::boundary::every_instruction;
use oracle::format::*;
use oracle::make;
use oracle::names::uni;
use oracle::reference::lower_with_points;

const REGISTERS: [u8; 4] = [0, 1, RET, TEMP];

/// Bytes, records and constants that an instruction lists after these are real; nothing where it is refused.
fn size(stable: bool, places: &[u8; 64], rooted: bool, real: u32, instruction: &[u8]) -> [usize; 3] {
    let mut row = Vec::new();
    if rooted {
        row.push(make::uni(uni::ROOT, 9, 9));
    }
    row.extend((0..4).filter(|i| real >> i & 1 == 1).map(|i| make::load_const(REGISTERS[i], 0)));
    let before = row.len();
    row.push(instruction.to_vec());
    let mut constants = [0; TABLE];
    let sheet = make::sheet(stable, places, &[7], &row);
    let (answer, points) = lower_with_points(&sheet, &mut [0; 1024], &mut constants);
    match points.get(before + 1) {
        Some(point) => {
            let earlier = if rooted && stable { 4 } else { 1 };
            [
                point.bytes - points[before].bytes,
                point.records - points[before].records,
                answer.count as usize - earlier,
            ]
        }
        None => [0; 3],
    }
}

#[test]
fn one_instruction_at_most() {
    let places = make::real_places(&[(STACK, 7), (PARAM, 7)]);
    let mut most = [0; 3];
    for instruction in every_instruction(&REGISTERS) {
        for real in 0..16 {
            for case in 0..8 {
                let places = if case & 4 == 0 { &[0; 64] } else { &places };
                let found = size(case & 1 == 1, places, case & 2 == 2, real, &instruction);
                most = std::array::from_fn(|i| most[i].max(found[i]));
            }
        }
    }
    assert_eq!(most, [343, 47, 3]);
    let root = make::uni(uni::ROOT, 1, 0);
    assert_eq!(size(true, &[0; 64], false, 1, &root), [343, 47, 3]);
}

/// Bytes and records of the block of the first Root.
fn block(stable: bool) -> (usize, usize) {
    let mut listing = vec![0; LISTING_LIMIT];
    let sheet = make::sheet(stable, &[0; 64], &[], &[make::uni(uni::ROOT, 1, 0)]);
    let (answer, _) = lower_with_points(&sheet, &mut listing, &mut [0; TABLE]);
    let found = records(&listing[..answer.written as usize]);
    let from = found.iter().position(|r| **r == make::label(1)).unwrap();
    let to = found.iter().position(|r| **r == make::branch(0)).unwrap();
    (found[from..=to].iter().map(|r| r.len()).sum(), to + 1 - from)
}

#[test]
fn the_block() {
    assert_eq!(block(false), (161, 21));
    assert_eq!(block(true), (296, 39));
}

#[test]
fn stable_mode_appends_five_constants_in_all() {
    let divides = |i: &Vec<u8>| two(i, 2) == 9 && i[4] == 3;
    let general = |i: &Vec<u8>| i[4..].iter().all(|b| *b < RET);
    let row: Vec<Vec<u8>> = every_instruction(&REGISTERS).into_iter().filter(|i| general(i) && !divides(i)).collect();
    let mut constants = vec![0; TABLE];
    let sheet = make::sheet(true, &[0; 64], &[7], &row);
    let (answer, _) = lower_with_points(&sheet, &mut vec![0; LISTING_LIMIT], &mut constants);
    assert_eq!((answer.number, answer.index), (0, row.len() as u64));
    let mut appended = constants[1..answer.count as usize].to_vec();
    appended.sort();
    let every = [0x0010u64, 0x0020, 0x3fd0, 0x7fe0, 0x7ff0].map(|high| high << 48);
    assert_eq!(appended, every);
}
