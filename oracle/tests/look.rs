//! Looking before playing on listings of which document 02, f) says what is shown and what follows.

use oracle::format::*;
use oracle::look::{examples, look, Looked};
use oracle::make::*;
use oracle::names::{bi, uni};

const ONE: u64 = 0x3ff0_0000_0000_0000;
const TWO: u64 = 0x4000_0000_0000_0000;
const THREE: u64 = 0x4008_0000_0000_0000;
/// A lost reading, and what arithmetic makes of it.
const LOST: u64 = 0x7ff0_0000_0000_0005;
const HANDED_ON: u64 = 0x7ff8_0000_0000_0005;

/// A store of zeros but for these words.
fn store(set: &[(usize, u64)]) -> Vec<u64> {
    let mut words = vec![0; STORE];
    set.iter().for_each(|(index, word)| words[*index] = *word);
    words
}

fn accepted(records: u64, follows: u64, words: &[(usize, u64)]) -> Looked {
    Looked { number: 0, index: records, follows, words: words.to_vec() }
}

fn refused(number: u32, index: u64) -> Looked {
    Looked { number, index, follows: 0, words: Vec::new() }
}

#[test]
fn one_word_and_the_next_record() {
    let listing = [bi(bi::PLUS, 4, 0, 1), uni(uni::HALF, 5, 4)].concat();
    let words = store(&[(0, ONE), (1, LOST), (4, THREE)]);
    assert_eq!(look(&listing, &[], &words, 0), accepted(2, 1, &[(4, HANDED_ON)]));
    // the last record names the count; the record before it was not played
    assert_eq!(look(&listing, &[], &words, 1), accepted(2, 2, &[(5, 0x3ff8_0000_0000_0000)]));
}

#[test]
fn two_words_in_the_order_written() {
    // real word of Mem 4: 66 + 512 + 8
    let listing = [save_complex(7, 6, MEM, 4), load_complex(9, 8, PARAM, 255), load_const(3, 1)].concat();
    let words = store(&[(6, ONE), (7, LOST), (1600, TWO), (1601, THREE)]);
    assert_eq!(look(&listing, &[ONE, LOST], &words, 0), accepted(3, 1, &[(586, LOST), (587, ONE)]));
    assert_eq!(look(&listing, &[ONE, LOST], &words, 1), accepted(3, 2, &[(9, TWO), (8, THREE)]));
    assert_eq!(look(&listing, &[ONE, LOST], &words, 2), accepted(3, 3, &[(3, LOST)]));
}

#[test]
fn a_word_written_twice_is_shown_once() {
    // "Of two destinations the first is written first": the later bits stay
    let listing = [load_complex(8, 8, STACK, 0), complex_bi(0, [4, 4, 0, 1, 2, 3])].concat();
    let words = store(&[(66, ONE), (67, TWO), (0, LOST), (1, ONE), (2, ONE), (3, TWO)]);
    assert_eq!(look(&listing, &[], &words, 0), accepted(2, 1, &[(8, TWO)]));
    assert_eq!(look(&listing, &[], &words, 1), accepted(2, 2, &[(4, THREE)]));
}

#[test]
fn a_word_is_shown_where_its_bits_stay() {
    assert_eq!(look(&mov(4, 4), &[], &store(&[(4, LOST)]), 0), accepted(1, 1, &[(4, LOST)]));
    assert_eq!(look(&save(0, STACK, 3), &[], &store(&[]), 0), accepted(1, 1, &[(72, 0)]));
}

/// Branch 2; Label 1; Neg; Branch 0; Label 2; Call 1; Branch 0; Mov.
fn with_a_block() -> Vec<u8> {
    let block = [label(1), uni(uni::NEG, 0, 0), branch(0)].concat();
    [branch(2), block, label(2), call(1), branch(0), mov(1, 2)].concat()
}

#[test]
fn jumps_show_no_word_and_name_what_follows() {
    let follows: Vec<Looked> = (0..=8).map(|r| look(&with_a_block(), &[], &store(&[]), r)).collect();
    let none = |record| accepted(8, record, &[]);
    assert_eq!(follows[0], none(4)); // Branch 2
    assert_eq!(follows[1], none(2)); // Label 1
    assert_eq!(follows[2], accepted(8, 3, &[(0, 1 << 63)]));
    assert_eq!(follows[3], none(8)); // Branch 0 inside the block: the end
    assert_eq!(follows[4], none(5)); // Label 2
    assert_eq!(follows[5], none(1)); // Call
    assert_eq!(follows[6], none(8)); // Branch 0 outside it
    assert_eq!(follows[7], accepted(8, 8, &[(1, 0)]));
    assert_eq!(follows[8], none(8)); // "A start equal to the record count shows no word and the end."
}

#[test]
fn a_branch_if_goes_by_the_store_lent() {
    let listing = |is_else| [branch_if(6, 200, is_else), mov(1, 2), branch(200), label(200)].concat();
    let next = |is_else, word| look(&listing(is_else), &[], &store(&[(6, word)]), 0);
    assert_eq!([next(0, 0), next(1, 0)], [1, 3].map(|record| accepted(4, record, &[])));
    for word in [1, 1 << 63, LOST, ONE] {
        assert_eq!([next(0, word), next(1, word)], [3, 1].map(|record| accepted(4, record, &[])));
    }
    assert_eq!(look(&listing(0), &[], &store(&[]), 2), accepted(4, 3, &[]));
}

#[test]
fn every_record_of_the_seeds_names_what_follows() {
    let found: Vec<(u32, u64, usize)> = examples()
        .iter()
        .map(|case| look(&case.listing, &case.constants, &case.store, case.start))
        .map(|looked| (looked.number, looked.follows, looked.words.len()))
        .collect();
    let follows = [1, 3, 3, 4, 8, 6, 7, 16, 9, 5, 11, 12, 13, 14, 16, 16, 16];
    let words = [0, 0, 0, 0, 0, 0, 1, 0, 0, 0, 1, 1, 1, 2, 0, 1, 0];
    let mut expected: Vec<(u32, u64, usize)> =
        follows.iter().zip(words).map(|(next, count)| (0, *next, count)).collect();
    expected.push((STRAY, 0, 0));
    assert_eq!(found, expected);
}

#[test]
fn nothing_to_look_at() {
    assert_eq!(look(&[], &[], &store(&[]), 0), accepted(0, 0, &[]));
    assert_eq!(look(&[], &[], &store(&[]), 1), refused(STRAY, 1));
}

#[test]
fn the_players_refusals_in_its_order() {
    let good = mov(1, 2);
    assert_eq!(look(&good, &[], &[0; STORE - 1], 7), refused(SETUP, 0));
    assert_eq!(look(&good, &[0; TABLE + 1], &store(&[]), 7), refused(SETUP, 0));
    assert_eq!(look(&good.repeat(10_923), &[], &store(&[]), 0), refused(SETUP, 0));
    assert_eq!(look(&good, &[], &store(&[]), 2), refused(STRAY, 2));
    assert_eq!(look(&good, &[], &store(&[]), u64::MAX), refused(STRAY, u64::MAX));
    // 1 to 5 of any record before the start, the start before the jump rules, these from the lowest index on
    let with = |bad: Vec<u8>| [good.clone(), bad].concat();
    assert_eq!(look(&with(vec![9]), &[], &store(&[]), 9), refused(TORN, 1));
    assert_eq!(look(&with(nop()), &[], &store(&[]), 0), refused(UNKNOWN, 1));
    assert_eq!(look(&with(mov(66, 0)), &[], &store(&[]), 0), refused(REGISTER, 1));
    assert_eq!(look(&with(save(0, PARAM, 0)), &[], &store(&[]), 0), refused(PLACE, 1));
    assert_eq!(look(&with(load_const(0, 1)), &[ONE], &store(&[]), 0), refused(MISSING, 1));
    assert_eq!(look(&with(branch(1)), &[], &store(&[]), 3), refused(STRAY, 3));
    assert_eq!(look(&[branch(1), label(0)].concat(), &[], &store(&[]), 1), refused(STRAY, 0));
}
