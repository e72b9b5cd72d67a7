//! Lays listings out on pages through the C function and by the rendering of document 02, and prints every difference, with lent bytes around
//! the pages: COUNT random listings, in room of the right length, more and less; every length of a page that is too short; every length
//! about the end of two and three pages; the longest listing; every operation and register; slices of wrong lengths.
//! Usage: compare-pages [COUNT] [SEED].

use std::process::ExitCode;

use oracle::ffi;
use oracle::format::{LISTING_LIMIT, TABLE};
use oracle::lists::LENT;
use oracle::make;
use oracle::names::{LISTING_BI, LISTING_UNI};
use oracle::pages::{pages, Paged, LINE, PAGE};
use oracle::random::{any_word, branching_to_play, to_play, Rng};

const ANSWER: usize = 24;
/// Bytes before and after the pages, which may not be touched.
const AROUND: usize = 64;

fn told(paged: Paged) -> Vec<u8> {
    ffi::to_bytes(&[paged.number as u64, paged.index, paged.pages])
}

/// Layouts tried, by answer number, pages written and differences.
#[derive(Default)]
struct Tally {
    numbers: [u64; 10],
    pages: u64,
    differences: u64,
}

impl Tally {
    /// One listing into so much room, by both: the answer and every byte.
    fn compare(&mut self, listing: &[u8], constants: &[u64], room: usize) -> Paged {
        let mut expected = vec![LENT; AROUND + room + AROUND];
        let (mut found, mut answer) = (expected.clone(), [LENT; ANSWER]);
        let paged = pages(listing, constants, &mut expected[AROUND..AROUND + room]);
        let number = ffi::pages(listing, &ffi::to_bytes(constants), &mut found[AROUND..AROUND + room], &mut answer);
        self.numbers[paged.number as usize] += 1;
        self.pages += paged.pages;
        if number != paged.number || answer[..] != told(paged) || found != expected {
            self.differences += 1;
            let at = expected.iter().zip(&found).position(|(a, b)| a != b);
            println!("listing {listing:?}, {} constants, room {room}\n  expected {paged:?}\n  found {number}, {answer:?}, bytes differ at {at:?}", constants.len());
        }
        paged
    }

    fn report(&self, what: &str) {
        println!(
            "{what}: {} layouts, {} pages, answers 0 to 9: {:?}, {} differences",
            self.numbers.iter().sum::<u64>(),
            self.pages,
            self.numbers,
            self.differences
        );
    }
}

/// Random listings in all the room that they need or more, then in a room that is too short where they need any.
fn random(count: u64, rng: &mut Rng) -> Tally {
    let mut tally = Tally::default();
    for _ in 0..count {
        let case = if rng.once_in(2) { to_play(rng) } else { branching_to_play(rng) };
        let lines = case.constants.len() + case.listing.len() / 5;
        let most = lines.div_ceil(60) * PAGE;
        let paged = tally.compare(&case.listing, &case.constants, most + rng.below(3));
        let needed = paged.pages as usize * PAGE;
        if needed > 0 {
            let less = rng.pick(&[1, 1, 2, LINE - 1, LINE, LINE + 1, PAGE - 1, PAGE, needed]);
            tally.compare(&case.listing, &case.constants, needed - less);
            tally.compare(&case.listing, &case.constants, needed);
        } else if rng.once_in(4) {
            tally.compare(&case.listing, &case.constants, rng.below(PAGE));
        }
    }
    tally
}

/// Every length up to a page, and every length within two lines of the end of two and of three pages.
fn lengths() -> Tally {
    let mut tally = Tally::default();
    for room in 0..=PAGE + 1 {
        tally.compare(&make::mov(1, 2), &[1], room);
    }
    for (records, constants) in [(60, 0), (61, 0), (60, 1), (1, 60), (119, 1), (120, 0), (121, 0)] {
        let listing = make::mov(3, 4).repeat(records);
        let needed = (records + constants).div_ceil(60) * PAGE;
        for room in needed - 2 * LINE..=needed + 2 * LINE {
            tally.compare(&listing, &vec![7; constants], room);
        }
    }
    tally
}

/// Every operation, every register, every label and every place index, on listings that are played.
fn every_field() -> Tally {
    let mut row: Vec<Vec<u8>> = LISTING_UNI.map(|op| make::uni(op, 64, 65)).to_vec();
    row.extend(LISTING_BI.map(|op| make::bi(op, 65, 64, 63)));
    row.extend((0..4).map(|op| make::complex_bi(op, [65; 6])));
    row.push(make::fused(0, 65, 65, 65, 65));
    for r in 0..66 {
        row.extend([
            make::mov(r, r),
            make::load_const(r, 255),
            make::complex_bi(2, [r; 6]),
            make::fused(0, r, r, r, r),
        ]);
        row.extend([make::if_else(r, r, r, 0, 255), make::branch_if(r, 255, r % 2)]);
    }
    row.push(make::label(255));
    for index in 0..256 {
        row.extend((0..3).flat_map(|class| [make::load(65, class, index), make::load_complex(64, 65, class, index)]));
        row.extend((0..2).flat_map(|class| [make::save(65, class, index), make::save_complex(64, 65, class, index)]));
        row.push(make::load_const(65, index));
    }
    row.extend((3..255).flat_map(|number| [make::branch(number), make::label(number)]));
    let mut tally = Tally::default();
    let listing = row.concat();
    let constants: Vec<u64> = (0..TABLE as u64).map(|i| i.wrapping_mul(0x0123_4567_89ab_cdef)).collect();
    assert_eq!(tally.compare(&listing, &constants, (row.len() + TABLE).div_ceil(60) * PAGE).number, 0);
    tally
}

/// The longest listing with the most constants, its neighbours, and room that is too short for it.
fn longest(rng: &mut Rng) -> Tally {
    let constants: Vec<u64> = (0..TABLE + 1).map(|_| any_word(rng)).collect();
    let listing = make::branch(0).repeat(13_107);
    let mut tally = Tally::default();
    let paged = tally.compare(&listing, &constants[..TABLE], 223 * PAGE);
    assert_eq!(paged, Paged { number: 0, index: 13_107, pages: 223 });
    for room in [0, 222 * PAGE, 223 * PAGE - 1, 223 * PAGE + 1] {
        tally.compare(&listing, &constants[..TABLE], room);
    }
    let longer = [&listing[..], &make::branch(0)].concat();
    assert!(longer.len() > LISTING_LIMIT);
    tally.compare(&longer, &constants[..TABLE], 224 * PAGE);
    tally.compare(&listing, &constants, 224 * PAGE);
    tally.compare(&[&listing[..], &[5]].concat(), &constants[..TABLE], 224 * PAGE);
    tally
}

/// Constants that are no whole words, or an answer of another length: 8, nothing written but an answer of the right length; what is not so.
fn wrong(constants: usize, length: usize) -> Option<String> {
    let (mut out, mut answer) = (vec![LENT; 2 * PAGE], vec![LENT; length]);
    let number = ffi::pages(&make::mov(1, 2), &vec![LENT; constants], &mut out, &mut answer);
    let expected = told(Paged { number: 8, index: 0, pages: 0 });
    let as_told = if length == ANSWER { answer == expected } else { answer.iter().all(|b| *b == LENT) };
    if number == 8 && as_told && out.iter().all(|b| *b == LENT) {
        return None;
    }
    Some(format!("{constants} bytes of constants, {length} of answer: {number}, {answer:?}"))
}

fn wrong_lengths() -> Vec<String> {
    let mut found = Vec::new();
    for constants in [0, 8, 1, 7, 9, 15, 8 * TABLE - 1, 8 * TABLE + 1, 8 * TABLE + 8] {
        let whole = constants % 8 == 0 && constants <= 8 * TABLE;
        let lengths = [0, 1, 16, 23, 25, 32].into_iter().chain((!whole).then_some(ANSWER));
        found.extend(lengths.filter_map(|length| wrong(constants, length)));
    }
    found
}

fn main() -> ExitCode {
    let mut words = std::env::args().skip(1).map(|w| w.parse::<u64>().expect("a number"));
    let count = words.next().unwrap_or(100_000);
    let mut rng = Rng(words.next().unwrap_or(1));
    let rows = [
        ("random listings", random(count, &mut rng)),
        ("every length about the end of a page", lengths()),
        ("every operation, register, place and label", every_field()),
        ("the longest listing", longest(&mut rng)),
    ];
    rows.iter().for_each(|(what, tally)| tally.report(what));
    let wrong = wrong_lengths();
    wrong.iter().for_each(|text| println!("{text}"));
    let differences = wrong.len() as u64 + rows.iter().map(|(_, tally)| tally.differences).sum::<u64>();
    println!("pages: {differences} differences");
    if differences == 0 {
        ExitCode::SUCCESS
    } else {
        ExitCode::FAILURE
    }
}
