//! Looks at records through the C function and by the rendering of document 02, and prints every difference: at every record of every
//! listing of up to LENGTH records over jumps, two sums and a ComplexBi with equal destinations, on stores with marks of lost readings, and
//! one past the end; at COUNT records of random listings; and with slices of wrong lengths. Of two listings that differ by exchanging labels
//! 3 and 4 one is tried. Usage: compare-look [LENGTH] [COUNT] [SEED].

use std::process::ExitCode;

use oracle::ffi;
use oracle::format::{records, OWN_LABEL, STORE, TABLE};
use oracle::lists::LENT;
use oracle::look::{look, Looked};
use oracle::make::{bi, branch, branch_if, call, complex_bi, label, load_const};
use oracle::names::bi::PLUS;
use oracle::random::{any_nan, branching_to_play, to_play, Rng};

const ANSWER: usize = 64;
/// Bytes before and after the answer, which no look may touch.
const AROUND: usize = 16;

/// A store as words and as bytes.
struct Store {
    words: Vec<u64>,
    bytes: Vec<u8>,
}

impl Store {
    fn new(words: Vec<u64>) -> Store {
        Store { bytes: ffi::to_bytes(&words), words }
    }

    fn of(first: [u64; 5]) -> Store {
        let mut words = vec![0; STORE];
        words[..5].copy_from_slice(&first);
        Store::new(words)
    }
}

/// The answer's 64 bytes: number, index, the record that follows, how many words, index and bits of each.
fn told(looked: &Looked) -> Vec<u8> {
    let mut numbers = vec![looked.number as u64, looked.index, looked.follows, looked.words.len() as u64];
    numbers.extend(looked.words.iter().flat_map(|(index, bits)| [*index as u64, *bits]));
    numbers.resize(ANSWER / 8, 0);
    ffi::to_bytes(&numbers)
}

/// Looks tried, by answer number and by how many words an accepted one shows, and differences.
#[derive(Default)]
struct Tally {
    numbers: [u64; 10],
    shown: [u64; 3],
    differences: u64,
}

impl Tally {
    /// One look by both; what the rendering says. The bytes of all slices afterwards are compared.
    fn compare(&mut self, listing: &[u8], constants: &[u64], store: &Store, record: u64) -> Looked {
        let expected = look(listing, constants, &store.words, record);
        let (table, mut lent) = (ffi::to_bytes(constants), [LENT; AROUND + ANSWER + AROUND]);
        let words = store.bytes.clone();
        let number = ffi::look(listing, &table, &words, record, &mut lent[AROUND..AROUND + ANSWER]);
        let around = lent[..AROUND].iter().chain(&lent[AROUND + ANSWER..]).all(|b| *b == LENT);
        let answer = &lent[AROUND..AROUND + ANSWER];
        self.numbers[expected.number as usize] += 1;
        if expected.number == 0 {
            self.shown[expected.words.len()] += 1;
        }
        if number != expected.number || answer != told(&expected) || !around || words != store.bytes {
            self.differences += 1;
            println!("listing {listing:?}, {} constants, record {record}\n  expected {expected:?}\n  found {number}, {answer:?}", constants.len());
        }
        expected
    }

    fn report(&self, what: &str) {
        println!(
            "{what}: {} looks, answers 0 to 9: {:?}, of no, one and two words: {:?}, {} differences",
            self.numbers.iter().sum::<u64>(),
            self.numbers,
            self.shown,
            self.differences
        );
    }
}

/// The records, each with its label, 0 where it has none. Register 0 is the condition.
fn alphabet() -> Vec<(u8, Vec<u8>)> {
    let mut found = vec![(0, bi(PLUS, 0, 0, 1)), (0, bi(PLUS, 1, 1, 0)), (0, complex_bi(0, [2, 2, 0, 1, 3, 4]))];
    for number in 0..=4 {
        found.extend([label(number), branch(number), call(number), branch_if(0, number, 0)].map(|r| (number, r)));
    }
    found.extend([3, 4].map(|number| (number, branch_if(0, number, 1))));
    found
}

/// Marks of lost readings; the condition is zero, minus zero, and a lost reading itself.
fn stores() -> [Store; 3] {
    let (one, lost) = (0x3ff0_0000_0000_0000, 0x7ff0_0000_0000_0005);
    [
        Store::of([0, lost, one, 0xfff0_0000_0000_0003, one]),
        Store::of([1 << 63, one, lost, one, 0x7ff8_0000_0000_0004]),
        Store::of([0xfff4_0000_0000_0007, lost, 0, lost, one]),
    ]
}

struct Every {
    alphabet: Vec<(u8, Vec<u8>)>,
    stores: [Store; 3],
    listings: u64,
    tally: Tally,
}

impl Every {
    /// All listings that begin so and have at most `more` records more; `third`: label 3 is named. What refuses one is not the store.
    fn longer(&mut self, listing: &mut Vec<u8>, count: u64, third: bool, more: usize) {
        self.listings += 1;
        for record in 0..=count + 1 {
            if self.tally.compare(listing, &[], &self.stores[0], record).number == 0 {
                self.stores[1..].iter().for_each(|store| drop(self.tally.compare(listing, &[], store, record)));
            }
        }
        if more == 0 {
            return;
        }
        for at in 0..self.alphabet.len() {
            let (number, record) = self.alphabet[at].clone();
            if number > OWN_LABEL && !third {
                continue;
            }
            let length = listing.len();
            listing.extend(record);
            self.longer(listing, count + 1, third || number == OWN_LABEL, more - 1);
            listing.truncate(length);
        }
    }
}

/// Looks at one in `ROUND` of the records of a random listing, and past its end.
const ROUND: u64 = 16;

fn random(count: u64, rng: &mut Rng) -> Tally {
    let mut tally = Tally::default();
    let mut left = count;
    while left > 0 {
        let case = if rng.once_in(2) { to_play(rng) } else { branching_to_play(rng) };
        let mut words = case.store;
        words.iter_mut().take(66).for_each(|word| {
            if rng.once_in(8) {
                *word = any_nan(rng);
            }
        });
        let (store, size) = (Store::new(words), records(&case.listing).len());
        for _ in 0..ROUND.min(left) {
            let record = if rng.once_in(100) { rng.bits() } else { rng.below(size + 2) as u64 };
            tally.compare(&case.listing, &case.constants, &store, record);
        }
        left -= ROUND.min(left);
    }
    tally
}

/// A look with a wrong length is refused by 8, with the answer filled unless that has another length; what is not so.
fn wrong(constants: usize, words: usize, length: usize) -> Option<String> {
    let (table, store, mut answer) = (vec![LENT; constants], vec![LENT; words], vec![LENT; length]);
    let number = ffi::look(&load_const(4, 0), &table, &store, 0, &mut answer);
    let kept = [&table, &store].iter().all(|slice| slice.iter().all(|b| *b == LENT));
    let expected = told(&Looked { number: 8, index: 0, follows: 0, words: Vec::new() });
    let as_told = if length == ANSWER { answer == expected } else { answer.iter().all(|b| *b == LENT) };
    if number == 8 && kept && as_told {
        return None;
    }
    Some(format!("{constants} bytes of constants, {words} of store, {length} of answer: {number}, {answer:?}"))
}

/// Lengths that only the C function can be lent, and the neighbours of the right ones; what is not as it should be.
fn wrong_lengths() -> Vec<String> {
    let mut found = Vec::new();
    for constants in [0, 1, 7, 8, 9, 15, 8 * TABLE - 1, 8 * TABLE + 1, 8 * TABLE + 8] {
        for words in [0, 1, 8, 8 * STORE - 8, 8 * STORE - 1, 8 * STORE, 8 * STORE + 1, 8 * STORE + 8] {
            let whole = constants % 8 == 0 && constants <= 8 * TABLE && words == 8 * STORE;
            let lengths = [0, 1, 63, 65, 72, 128].into_iter().chain((!whole).then_some(ANSWER));
            found.extend(lengths.filter_map(|length| wrong(constants, words, length)));
        }
    }
    found
}

fn main() -> ExitCode {
    let mut words = std::env::args().skip(1).map(|w| w.parse::<u64>().expect("a number"));
    let length = words.next().unwrap_or(4) as usize;
    let count = words.next().unwrap_or(1_000_000);
    let mut rng = Rng(words.next().unwrap_or(1));
    let mut every = Every { alphabet: alphabet(), stores: stores(), listings: 0, tally: Tally::default() };
    every.longer(&mut Vec::new(), 0, false, length);
    every.tally.report(&format!("{} listings of up to {length} records, each record", every.listings));
    let tally = random(count, &mut rng);
    tally.report("records of random listings");
    let wrong = wrong_lengths();
    wrong.iter().for_each(|text| println!("{text}"));
    let differences = every.tally.differences + tally.differences + wrong.len() as u64;
    println!("look: {differences} differences");
    if differences == 0 {
        ExitCode::SUCCESS
    } else {
        ExitCode::FAILURE
    }
}
