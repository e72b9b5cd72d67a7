//! The player on short listings: jumps, counts, refusals, words.

use oracle::format::*;
use oracle::names::{bi, uni};
use oracle::player::{place_word, play, Played};
use oracle::{make, random};

fn accepted(index: u64, played: u64) -> Played {
    Played { number: 0, index, played }
}

fn refused(number: u32, index: u64) -> Played {
    Played { number, index, played: 0 }
}

/// A play of records from a start on a store of zeros but for some words.
fn run(row: &[Vec<u8>], start: u64, set: &[(usize, u64)]) -> (Played, Vec<u64>) {
    let mut store = vec![0; STORE];
    for (index, word) in set {
        store[*index] = *word;
    }
    let played = play(&row.concat(), &[11, 22], &mut store, start);
    (played, store)
}

fn answer(row: &[Vec<u8>], start: u64) -> Played {
    run(row, start, &[]).0
}

#[test]
fn records_in_turn() {
    let row = [make::load_const(3, 1), make::mov(4, 3), make::save(4, MEM, 255), make::save_complex(3, 9, STACK, 0)];
    let (played, store) = run(&row, 0, &[(9, 7)]);
    assert_eq!(played, accepted(4, 4));
    assert_eq!((store[3], store[4], store[place_word(MEM, 255)]), (22, 22, 22));
    assert_eq!((store[66], store[67]), (22, 7));
    assert_eq!(place_word(MEM, 255), 66 + 512 + 510);
}

#[test]
fn an_empty_listing() {
    assert_eq!(answer(&[], 0), accepted(0, 0));
    assert_eq!(answer(&[], 1), refused(STRAY, 1));
}

#[test]
fn starts() {
    let row = [make::load_const(3, 0), make::load_const(4, 1)];
    let (played, store) = run(&row, 1, &[]);
    assert_eq!((played, store[3], store[4]), (accepted(2, 1), 0, 22));
    assert_eq!(answer(&row, 2), accepted(2, 0));
    assert_eq!(answer(&row, 3), refused(STRAY, 3));
    assert_eq!(answer(&row, u64::MAX), refused(STRAY, u64::MAX));
}

/// Two calls of a block that doubles register 3, jumped over.
fn with_block() -> Vec<Vec<u8>> {
    vec![
        make::call(1),
        make::branch(2),
        make::label(1),
        make::bi(bi::PLUS, 3, 3, 3),
        make::branch(0),
        make::label(2),
        make::call(1),
    ]
}

#[test]
fn calls_count_the_block_each_time() {
    let (played, store) = run(&with_block(), 0, &[(3, 1.0f64.to_bits())]);
    assert_eq!(played, accepted(7, 10)); // call, block of 3, branch, label, call, block of 3
    assert_eq!(f64::from_bits(store[3]), 4.0);
}

#[test]
fn the_block_outside_a_call_ends_the_play() {
    let (played, store) = run(&with_block(), 2, &[(3, 1.0f64.to_bits())]);
    assert_eq!((played, f64::from_bits(store[3])), (accepted(7, 3), 2.0));
    assert_eq!(answer(&with_block(), 4), accepted(7, 1));
    assert_eq!(answer(&[make::branch(0), make::mov(1, 2)], 0), accepted(2, 1));
}

#[test]
fn jump_rules() {
    let stray = |row: &[Vec<u8>], index| assert_eq!(answer(row, 0), refused(STRAY, index));
    stray(&[make::label(0)], 0);
    stray(&[make::mov(1, 2), make::branch(1)], 1);
    stray(&[make::branch(2)], 0);
    stray(&[make::label(2), make::branch(2)], 1);
    stray(&[make::label(2), make::branch(2), make::label(2)], 2);
    stray(&[make::call(0)], 0);
    stray(&[make::label(2), make::call(2)], 1);
    stray(&[make::call(1)], 0);
    stray(&[make::mov(1, 2), make::label(1), make::label(2)], 1);
    stray(&[make::label(1), make::label(2), make::branch(0)], 1);
    stray(&[make::label(1), make::call(1), make::branch(0)], 1);
    stray(&[make::label(1), make::branch(2), make::branch(0), make::label(2)], 1);
    stray(&[make::label(1), make::branch(0), make::label(1), make::branch(0)], 2);
    assert_eq!(answer(&[make::branch(0), make::label(1), make::branch(0), make::call(1)], 0), accepted(4, 1));
}

#[test]
fn records_come_before_the_start_and_that_before_jumps() {
    let row = [make::label(0), make::mov(1, 66)];
    assert_eq!(answer(&row, 9), refused(REGISTER, 1));
    assert_eq!(answer(&[make::label(0)], 9), refused(STRAY, 9));
}

#[test]
fn refused_records() {
    let one = |record: Vec<u8>, number| assert_eq!(answer(&[make::mov(1, 2), record], 0), refused(number, 1));
    one(vec![0; 3], TORN);
    one(make::nop(), UNKNOWN);
    one(make::raw(9, &[0; 6]), UNKNOWN);
    one(make::raw(256, &[]), UNKNOWN);
    one(make::raw(3, &[1]), TORN);
    one(make::uni(uni::REAL_ROOT, 1, 2), UNKNOWN);
    one(make::uni(uni::IS_NOT_ZERO, 1, 2), UNKNOWN);
    one(make::bi(bi::COMPLEX, 1, 2, 3), UNKNOWN);
    one(make::bi(bi::AND_NOT, 1, 2, 3), UNKNOWN);
    one(make::fused(1, 1, 2, 3, 4), UNKNOWN);
    one(make::complex_bi(4, [1; 6]), UNKNOWN);
    one(make::raw(18, &[0; 3]), UNKNOWN);
    one(make::branch_if(66, 3, 2), UNKNOWN);
    one(make::branch_if(66, 3, 1), REGISTER);
    one(make::call(3), STRAY);
    one(make::mov(65, 66), REGISTER);
    one(make::load(1, 3, 0), PLACE);
    one(make::load_complex(1, 2, PARAM, 256), PLACE);
    one(make::save_complex(1, 2, PARAM, 0), PLACE);
    one(make::if_else(1, 2, 3, MEM, 0), PLACE);
    one(make::load_const(1, 2), MISSING);
}

#[test]
fn wrong_setups() {
    for (store, constants, listing, number) in [
        (1601, 0, 0, SETUP),
        (1603, 0, 0, SETUP),
        (1602, 256, 0, 0),
        (1602, 257, 0, SETUP),
        (1602, 0, 65_536, TORN),
        (1602, 0, 65_537, SETUP),
    ] {
        let mut words = vec![5; store];
        let played = play(&vec![0; listing], &vec![0; constants], &mut words, 0);
        assert_eq!((played.number, played.index, played.played), (number, 0, 0));
        assert_eq!(words, vec![5; store]);
    }
}

/// A record's result from registers 0 and 1.
fn word(record: Vec<u8>, a: u64, b: u64) -> u64 {
    run(&[record], 0, &[(0, a), (1, b)]).1[5]
}

const NAN: u64 = 0x7ff8_0000_0000_0000;

/// Two lost readings, and what arithmetic hands on of each.
const LOST: [u64; 2] = [0xfff0_0000_0000_1234, 0x7ff4_0000_0000_0005];
const KEPT: [u64; 2] = [0xfff8_0000_0000_1234, 0x7ffc_0000_0000_0005];

#[test]
fn the_first_nan_is_handed_on_with_bit_51() {
    let one = 1.0f64.to_bits();
    for op in [bi::PLUS, bi::MINUS, bi::TIMES, bi::DIVIDE] {
        assert_eq!(word(make::bi(op, 5, 0, 1), LOST[0], LOST[1]), KEPT[0]);
        assert_eq!(word(make::bi(op, 5, 1, 0), LOST[0], LOST[1]), KEPT[1]);
        assert_eq!(word(make::bi(op, 5, 0, 1), LOST[0], one), KEPT[0]);
        assert_eq!(word(make::bi(op, 5, 1, 0), LOST[0], one), KEPT[0]);
    }
    for op in [uni::ROOT, uni::ROUND, uni::FLOOR, uni::CEILING, uni::TRUNC, uni::HALF, uni::RECIP] {
        assert_eq!(word(make::uni(op, 5, 0), LOST[0], 0), KEPT[0]);
        assert_eq!(word(make::uni(op, 5, 0), KEPT[1], 0), KEPT[1]);
    }
}

#[test]
fn mul_add_hands_on_a_before_b_before_c() {
    let (infinity, one) = (f64::INFINITY.to_bits(), 1.0f64.to_bits());
    let fused = |a, b, c| run(&[make::fused(0, 5, 0, 1, 2)], 0, &[(0, a), (1, b), (2, c)]).1[5];
    assert_eq!(fused(LOST[0], LOST[1], one), KEPT[0]);
    assert_eq!(fused(one, LOST[1], LOST[0]), KEPT[1]);
    assert_eq!(fused(one, one, LOST[0]), KEPT[0]);
    assert_eq!(fused(infinity, 0, LOST[1]), KEPT[1]);
    assert_eq!(fused(infinity, 0, one), NAN);
}

#[test]
fn a_nan_of_operands_that_are_none() {
    let (infinity, minus_one) = (f64::INFINITY.to_bits(), (-1.0f64).to_bits());
    assert_eq!(word(make::uni(uni::ROOT, 5, 0), minus_one, 0), NAN);
    assert_eq!(word(make::bi(bi::MINUS, 5, 0, 1), infinity, infinity), NAN);
    assert_eq!(word(make::bi(bi::TIMES, 5, 0, 1), infinity, 1 << 63), NAN);
    assert_eq!(word(make::bi(bi::DIVIDE, 5, 0, 1), 0, 1 << 63), NAN);
}

#[test]
fn what_acts_on_bits_sets_none() {
    let lost = LOST[0];
    assert_eq!(word(make::uni(uni::NEG, 5, 0), lost, 0), 0x7ff0_0000_0000_1234);
    assert_eq!(word(make::uni(uni::ABS, 5, 0), lost, 0), 0x7ff0_0000_0000_1234);
    assert_eq!(word(make::uni(uni::SIGN, 5, 0), lost, 0), 1 << 63);
    assert_eq!(word(make::uni(uni::NOT, 5, 0), lost, 0), !lost);
    assert_eq!(word(make::bi(bi::AND, 5, 0, 1), lost, u64::MAX), lost);
    assert_eq!(word(make::bi(bi::OR, 5, 0, 1), lost, 0), lost);
    assert_eq!(word(make::bi(bi::XOR, 5, 0, 1), lost, 0), lost);
    assert_eq!(word(make::mov(5, 0), lost, 0), lost);
}

/// Each single operation hands on its own first NaN: the product as written, then the sum, then the numerator before the denominator.
#[test]
fn complex_operations_hand_on_step_by_step() {
    let (infinity, one) = (f64::INFINITY.to_bits(), 1.0f64.to_bits());
    let complex = |op, row: [u64; 4]| {
        let set: Vec<_> = row.into_iter().enumerate().collect();
        let store = run(&[make::complex_bi(op, [5, 6, 0, 1, 2, 3])], 0, &set).1;
        [store[5], store[6]]
    };
    let ([a, b], [x, y]) = (LOST, KEPT);
    assert_eq!(complex(0, [a, b, b, a]), [x, y]);
    assert_eq!(complex(1, [one, a, b, one]), [y, x]);
    assert_eq!(complex(2, [a, b, one, one]), [x, y]); // y1 x2 stands before x1 y2
    assert_eq!(complex(2, [one, one, a, b]), [x, x]);
    assert_eq!(complex(2, [infinity, a, 0, one]), [NAN, x]); // infinity times zero is a NaN before y1 y2
    assert_eq!(complex(3, [one, one, a, b]), [x, x]);
    assert_eq!(complex(3, [one, a, one, b]), [x, x]); // the denominator has b alone
    assert_eq!(complex(3, [a, b, one, one]), [x, y]);
}

#[test]
fn comparisons_with_a_nan() {
    let never = [bi::GREATER_THAN, bi::GREATER_THAN_EQUAL, bi::LITTLE_THAN, bi::LITTLE_THAN_EQUAL, bi::EQUAL];
    for (op, holds) in never.map(|op| (op, 0)).into_iter().chain([(bi::NOT_EQUAL, u64::MAX)]) {
        assert_eq!(word(make::bi(op, 5, 0, 1), NAN, 0), holds);
        assert_eq!(word(make::bi(op, 5, 0, 0), NAN, 0), holds);
    }
    assert_eq!(word(make::bi(bi::EQUAL, 5, 0, 1), 1 << 63, 0), u64::MAX);
    assert_eq!(word(make::bi(bi::LITTLE_THAN, 5, 0, 1), 1 << 63, 0), 0);
    assert_eq!(word(make::bi(bi::GREATER_THAN_EQUAL, 5, 0, 1), 1 << 63, 0), u64::MAX);
    assert_eq!(word(make::bi(bi::LITTLE_THAN_EQUAL, 5, 1, 0), 1 << 63, 0), u64::MAX);
}

#[test]
fn either_zero_is_zero() {
    for (a, expected) in [(0, u64::MAX), (1 << 63, u64::MAX), (1, 0), (1 << 63 | 1, 0), (NAN, 0), (u64::MAX, 0)] {
        assert_eq!(word(make::uni(uni::IS_ZERO, 5, 0), a, 0), expected);
    }
}

#[test]
fn rounding_to_even() {
    for (value, expected) in
        [(0.5, 0.0), (1.5, 2.0), (2.5, 2.0), (-0.5, -0.0), (-1.5, -2.0), (4503599627370495.5, 4503599627370496.0)]
    {
        assert_eq!(word(make::uni(uni::ROUND, 5, 0), f64::to_bits(value), 0), f64::to_bits(expected));
    }
}

/// Toward minus infinity, plus infinity and zero; a zero keeps the sign.
#[test]
fn rounding_in_a_direction() {
    for (value, floor, ceiling, trunc) in [
        (1.5, 1.0, 2.0, 1.0),
        (-1.5, -2.0, -1.0, -1.0),
        (0.5, 0.0, 1.0, 0.0),
        (-0.5, -1.0, -0.0, -0.0),
        (-0.0, -0.0, -0.0, -0.0),
        (f64::from_bits(1), 0.0, 1.0, 0.0),
        (-3.0, -3.0, -3.0, -3.0),
        (-4503599627370495.5, -4503599627370496.0, -4503599627370495.0, -4503599627370495.0),
        (f64::NEG_INFINITY, f64::NEG_INFINITY, f64::NEG_INFINITY, f64::NEG_INFINITY),
    ] {
        for (op, expected) in [(uni::FLOOR, floor), (uni::CEILING, ceiling), (uni::TRUNC, trunc)] {
            assert_eq!(word(make::uni(op, 5, 0), f64::to_bits(value), 0), f64::to_bits(expected), "{op} of {value}");
        }
    }
}

#[test]
fn if_else_takes_bits() {
    let (_, store) = run(&[make::if_else(5, 0, 1, STACK, 3)], 0, &[(0, 0xaaaa), (1, 0x5555), (72, 0xff00)]);
    assert_eq!(store[5], 0xaa55);
}

#[test]
fn one_register_for_both_halves() {
    let (_, store) =
        run(&[make::complex_bi(0, [5, 5, 0, 1, 0, 1])], 0, &[(0, 1.0f64.to_bits()), (1, 2.0f64.to_bits())]);
    assert_eq!(f64::from_bits(store[5]), 4.0);
    let (_, store) = run(&[make::load_complex(5, 5, PARAM, 0)], 0, &[(66 + 1024, 1), (66 + 1025, 2)]);
    assert_eq!(store[5], 2);
}

/// The count is at most all records plus calls times block records.
#[test]
fn the_bound_on_records_played() {
    let mut rng = random::Rng(3);
    let mut tried = 0;
    while tried < 300 {
        let case = random::to_play(&mut rng);
        let mut store = case.store.clone();
        let played = play(&case.listing, &case.constants, &mut store, case.start);
        let found = records(&case.listing);
        if played.number != 0 || found.len() > 400 {
            continue;
        }
        tried += 1;
        let calls = found.iter().filter(|r| two(r, 2) == 16).count();
        let block = match found.iter().position(|r| **r == make::label(1)) {
            Some(from) => found[from..].iter().position(|r| **r == make::branch(0)).unwrap() + 1,
            None => 0,
        };
        assert!(played.played <= (found.len() + calls * block) as u64);
    }
}
