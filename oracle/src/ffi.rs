//! The C functions of libtulipcricket.a, behind the same entries as the reference.

use crate::format::{two, word, SETUP, STABLE};
use crate::lists::LENT;
use crate::machine::Machine;
use crate::make;
use crate::marks::{Marks, REGISTERS};
use crate::player::Played;
use crate::reference::{Answer, Realness};

extern "C" {
    fn tulipcricket_lower(
        sheet: *const u8,
        sheet_len: usize,
        listing: *mut u8,
        listing_len: usize,
        constants: *mut u8,
        constants_len: usize,
        origins: *mut u8,
        origins_len: usize,
        answer: *mut u8,
        answer_len: usize,
    ) -> u32;

    fn tulipcricket_play(
        listing: *const u8,
        listing_len: usize,
        constants: *const u8,
        constants_len: usize,
        store: *mut u8,
        store_len: usize,
        start: u64,
        answer: *mut u8,
        answer_len: usize,
    ) -> u32;

    fn tulipcricket_peak(run: *const u8, run_len: usize, window: u64, out: *mut u8, out_len: usize) -> u32;

    fn tulipcricket_nearest(
        re: u64,
        im: u64,
        points: *const u8,
        points_len: usize,
        answer: *mut u8,
        answer_len: usize,
    ) -> u32;

    fn tulipcricket_shelf(sheet: *const u8, sheet_len: usize, answer: *mut u8, answer_len: usize) -> u32;

    fn tulipcricket_look(
        listing: *const u8,
        listing_len: usize,
        constants: *const u8,
        constants_len: usize,
        store: *const u8,
        store_len: usize,
        record: u64,
        answer: *mut u8,
        answer_len: usize,
    ) -> u32;

    fn tulipcricket_pages(
        listing: *const u8,
        listing_len: usize,
        constants: *const u8,
        constants_len: usize,
        pages: *mut u8,
        pages_len: usize,
        answer: *mut u8,
        answer_len: usize,
    ) -> u32;
}

pub const LOWER_ANSWER: usize = 260;
/// Bytes of the origins, and of those on either side of them that must be as lent.
pub const ORIGINS: usize = 512;
const AROUND: usize = 64;
const PLAY_ANSWER: usize = 24;

/// `tulipcricket_lower` over slices; the number it returns.
pub fn lower(sheet: &[u8], listing: &mut [u8], constants: &mut [u8], origins: &mut [u8], answer: &mut [u8]) -> u32 {
    // SAFETY: each pointer comes with the length of the slice it was taken from, and the function keeps none.
    unsafe {
        tulipcricket_lower(
            sheet.as_ptr(),
            sheet.len(),
            listing.as_mut_ptr(),
            listing.len(),
            constants.as_mut_ptr(),
            constants.len(),
            origins.as_mut_ptr(),
            origins.len(),
            answer.as_mut_ptr(),
            answer.len(),
        )
    }
}

/// `tulipcricket_play` over slices; the number it returns.
pub fn play(listing: &[u8], constants: &[u8], store: &mut [u8], start: u64, answer: &mut [u8]) -> u32 {
    // SAFETY: each pointer comes with the length of the slice it was taken from, and the function keeps none.
    unsafe {
        tulipcricket_play(
            listing.as_ptr(),
            listing.len(),
            constants.as_ptr(),
            constants.len(),
            store.as_mut_ptr(),
            store.len(),
            start,
            answer.as_mut_ptr(),
            answer.len(),
        )
    }
}

/// `tulipcricket_peak` over slices; the number it returns.
pub fn peak(run: &[u8], window: u64, out: &mut [u8]) -> u32 {
    // SAFETY: each pointer comes with the length of the slice it was taken from, and the function keeps none.
    unsafe { tulipcricket_peak(run.as_ptr(), run.len(), window, out.as_mut_ptr(), out.len()) }
}

/// `tulipcricket_nearest` over slices; the number it returns.
pub fn nearest(re: u64, im: u64, points: &[u8], answer: &mut [u8]) -> u32 {
    // SAFETY: each pointer comes with the length of the slice it was taken from, and the function keeps none.
    unsafe { tulipcricket_nearest(re, im, points.as_ptr(), points.len(), answer.as_mut_ptr(), answer.len()) }
}

/// `tulipcricket_shelf` over slices; the number it returns.
pub fn shelf(sheet: &[u8], answer: &mut [u8]) -> u32 {
    // SAFETY: each pointer comes with the length of the slice it was taken from, and the function keeps none.
    unsafe { tulipcricket_shelf(sheet.as_ptr(), sheet.len(), answer.as_mut_ptr(), answer.len()) }
}

/// `tulipcricket_look` over slices; the number it returns.
pub fn look(listing: &[u8], constants: &[u8], store: &[u8], record: u64, answer: &mut [u8]) -> u32 {
    // SAFETY: each pointer comes with the length of the slice it was taken from, and the function keeps none.
    unsafe {
        tulipcricket_look(
            listing.as_ptr(),
            listing.len(),
            constants.as_ptr(),
            constants.len(),
            store.as_ptr(),
            store.len(),
            record,
            answer.as_mut_ptr(),
            answer.len(),
        )
    }
}

/// `tulipcricket_pages` over slices; the number it returns.
pub fn pages(listing: &[u8], constants: &[u8], pages: &mut [u8], answer: &mut [u8]) -> u32 {
    // SAFETY: each pointer comes with the length of the slice it was taken from, and the function keeps none.
    unsafe {
        tulipcricket_pages(
            listing.as_ptr(),
            listing.len(),
            constants.as_ptr(),
            constants.len(),
            pages.as_mut_ptr(),
            pages.len(),
            answer.as_mut_ptr(),
            answer.len(),
        )
    }
}

pub fn to_bytes(words: &[u64]) -> Vec<u8> {
    words.iter().flat_map(|w| w.to_le_bytes()).collect()
}

fn from_bytes(bytes: &[u8], words: &mut [u64]) {
    for (i, w) in words.iter_mut().enumerate() {
        *w = word(bytes, 8 * i);
    }
}

/// Flags of a byte each.
fn flags<const N: usize>(bytes: &[u8], at: usize) -> [bool; N] {
    std::array::from_fn(|i| {
        assert!(bytes[at + i] <= 1, "a flag is 0 or 1");
        bytes[at + i] == 1
    })
}

/// The origins of the constants counted; those past them, and all on a refusal by 8, are as lent.
fn origins_of(bytes: &[u8], count: usize) -> Vec<u16> {
    assert!(kept(&[&bytes[2 * count..]]), "an origin past the count is written");
    (0..count).map(|i| two(bytes, 2 * i)).collect()
}

/// The 260 bytes of a lowering's answer, and the origins.
fn lowered(number: u32, bytes: &[u8], origins: &[u8]) -> Answer {
    assert_eq!(number as u64, word(bytes, 0), "the returned number is the answer's");
    let realness = Realness { registers: flags(bytes, 32), places: bytes[64..128].try_into().unwrap() };
    let marks = Marks { filled: flags(bytes, 128), drawn: flags(bytes, 128 + REGISTERS) };
    let [index, written, count] = [8, 16, 24].map(|at| word(bytes, at));
    let origins = origins_of(origins, count as usize);
    Answer { number, index, written, count, realness, marks, origins }
}

/// The library that is linked.
pub struct Linked;

impl Machine for Linked {
    fn lower(&self, sheet: &[u8], listing: &mut [u8], constants: &mut [u64]) -> Answer {
        let mut table = to_bytes(constants);
        let (mut lent, mut answer) = ([LENT; AROUND + ORIGINS + AROUND], [LENT; LOWER_ANSWER]);
        let (before, rest) = lent.split_at_mut(AROUND);
        let (origins, behind) = rest.split_at_mut(ORIGINS);
        let number = lower(sheet, listing, &mut table, origins, &mut answer);
        from_bytes(&table, constants);
        assert!(kept(&[before, behind]), "a byte beside the origins is written");
        lowered(number, &answer, origins)
    }

    fn play(&self, listing: &[u8], constants: &[u64], store: &mut [u64], start: u64) -> Played {
        let table = to_bytes(constants);
        let mut words = to_bytes(store);
        let mut answer = [LENT; PLAY_ANSWER];
        let number = play(listing, &table, &mut words, start, &mut answer);
        from_bytes(&words, store);
        assert_eq!(number as u64, word(&answer, 0), "the returned number is the answer's");
        Played { number, index: word(&answer, 8), played: word(&answer, 16) }
    }
}

/// Whether every byte is as lent.
fn kept(slices: &[&[u8]]) -> bool {
    slices.iter().all(|s| s.iter().all(|b| *b == LENT))
}

/// `tulipcricket_lower` of a sheet and slices by which it is refused by 8; it fills the answer unless that has another length.
fn wrong_lower(sheet: &[u8], constants: usize, origins: usize, length: usize) -> Option<String> {
    let (mut listing, mut table, mut answer) = (vec![LENT; 64], vec![LENT; constants], vec![LENT; length]);
    let mut lent = vec![LENT; origins];
    let number = lower(sheet, &mut listing, &mut table, &mut lent, &mut answer);
    let expected = [&(SETUP as u64).to_le_bytes()[..], &[0; LOWER_ANSWER - 8]].concat();
    let told = if length == LOWER_ANSWER { answer == expected } else { kept(&[&answer]) };
    if number == SETUP && told && kept(&[&listing, &table, &lent]) {
        return None;
    }
    Some(format!(
        "lower with {constants} bytes of constants, {origins} of origins and {length} of answer: {number}, {answer:?}"
    ))
}

/// The same of `tulipcricket_play` with a store of another length.
fn wrong_play(constants: usize, words: usize, length: usize) -> Option<String> {
    let (table, mut store, mut answer) = (vec![LENT; constants], vec![LENT; words], vec![LENT; length]);
    let number = play(&[], &table, &mut store, 0, &mut answer);
    let expected = [&(SETUP as u64).to_le_bytes()[..], &[0; PLAY_ANSWER - 8]].concat();
    let told = if length == PLAY_ANSWER { answer == expected } else { kept(&[&answer]) };
    if number == SETUP && told && kept(&[&store]) {
        return None;
    }
    Some(format!(
        "play with {constants} bytes of constants, {words} of store, {length} of answer: {number}, {answer:?}"
    ))
}

/// Slices of lengths that only the C functions can be lent; what is not as it should be.
pub fn wrong_lengths() -> Vec<String> {
    let mut found = Vec::new();
    for constants in [0, 8, 2040, 2047, 2048, 2049, 2056] {
        found.extend([0, 128, 259, 260, 261, 520].map(|length| wrong_lower(&[], constants, ORIGINS, length)));
    }
    let empty = make::header(STABLE, &[0; 64]);
    for origins in [0, 1, 2, 256, 510, 511, 513, 514, 1024] {
        found.extend([0, 260].map(|length| wrong_lower(&empty, 2048, origins, length)));
    }
    for constants in [0, 7, 8, 9, 2047, 2048, 2056] {
        for words in [0, 8, 12_808, 12_815, 12_817, 12_824] {
            found.extend([0, 23, 24, 25].map(|length| wrong_play(constants, words, length)));
        }
    }
    found.into_iter().flatten().collect()
}
