//! Inputs of the fuzzing harness, in the format of ../fuzz/README.md: made from cases, and cut into cases as the harness cuts them.

use crate::format::*;
use crate::random::{ToLower, ToPlay};

const LOWER_HEAD: usize = 4;
const PLAY_HEAD: usize = 17;
const WORD_SET: usize = 10;
/// The most bytes that the harness lends.
const LENT: usize = 65_544;

/// The two bytes of a number; 0xffff and 0xfffe stand for numbers that two bytes cannot hold.
fn shown(number: u64, highest: u64, next: u64) -> [u8; 2] {
    let bytes = match number {
        n if n == highest => 0xffff,
        n if n == next => 0xfffe,
        n => n.min(0xfffd) as u16,
    };
    bytes.to_le_bytes()
}

/// The input of a lowering whose constants slice has the right length.
pub fn of_lowering(case: &ToLower) -> Option<Vec<u8>> {
    let room = shown(case.room as u64, LISTING_LIMIT as u64, LISTING_LIMIT as u64 + 1);
    (case.table == TABLE).then(|| [&[0, 0], &room[..], &case.sheet].concat())
}

/// The input of a play whose store has the right length and whose listing's length fits in two bytes.
pub fn of_play(case: &ToPlay) -> Option<Vec<u8>> {
    if case.store.len() != STORE || case.listing.len() > 0xffff {
        return None;
    }
    let fill = *case.store.last()?;
    let mut bytes = vec![1, 0];
    bytes.extend(shown(case.start, u64::MAX, u64::MAX));
    bytes.extend((case.constants.len() as u16).to_le_bytes());
    bytes.extend((case.listing.len() as u16).to_le_bytes());
    bytes.push(0);
    bytes.extend(fill.to_le_bytes());
    bytes.extend(case.constants.iter().flat_map(|w| w.to_le_bytes()));
    bytes.extend(&case.listing);
    for (i, word) in case.store.iter().enumerate().filter(|(_, word)| **word != fill) {
        bytes.extend((i as u16).to_le_bytes());
        bytes.extend(word.to_le_bytes());
    }
    Some(bytes)
}

/// An input with slices of each wrong length that the harness lends, and that of a play with its listing 256 times over.
pub fn variants(input: &[u8]) -> Vec<Vec<u8>> {
    let with = |at: usize, byte: u8| {
        let mut copy = input.to_vec();
        copy[at] = byte;
        copy
    };
    let mut found: Vec<Vec<u8>> = (240..=255).map(|byte| with(1, byte)).collect();
    if input[0] % 2 == 1 {
        found.push(with(8, 255));
    }
    found
}

/// What an input calls, with slices of the right lengths.
pub enum Call {
    Lower(ToLower),
    Play(ToPlay),
}

/// An input cut as the harness cuts it; `None` where it is too short to call anything.
pub fn cut(input: &[u8]) -> Option<Call> {
    if input.first()? % 2 == 0 {
        (input.len() >= LOWER_HEAD).then(|| Call::Lower(lowering(input)))
    } else {
        (input.len() >= PLAY_HEAD).then(|| Call::Play(play(input)))
    }
}

fn lowering(input: &[u8]) -> ToLower {
    let room = match two(input, 2) {
        0xffff => LISTING_LIMIT,
        0xfffe => LISTING_LIMIT + 1,
        number => number as usize,
    };
    let sheet = &input[LOWER_HEAD..];
    ToLower { sheet: sheet[..sheet.len().min(LENT)].to_vec(), room, table: TABLE }
}

fn play(input: &[u8]) -> ToPlay {
    let rest = &input[PLAY_HEAD..];
    let words = (two(input, 4) as usize % 258).min(rest.len() / 8);
    let (constants, rest) = rest.split_at(8 * words);
    let (once, sets) = rest.split_at((two(input, 6) as usize).min(rest.len()));
    let mut listing = once.repeat(1 + input[8] as usize);
    listing.truncate(LISTING_LIMIT + 1);
    let mut store = vec![word(input, 9); STORE];
    for set in sets.chunks_exact(WORD_SET) {
        store[two(set, 0) as usize % STORE] = word(set, 2);
    }
    let start = if two(input, 2) == 0xffff { u64::MAX } else { two(input, 2) as u64 };
    ToPlay { listing, constants: (0..words).map(|i| word(constants, 8 * i)).collect(), store, start }
}
