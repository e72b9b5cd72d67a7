//! Every listing of up to LENGTH records over Label, Branch, Call and BranchIf with the labels 0 to 4 and two sums, from every start and
//! one past the end, through the C function and by the independent player; prints every difference. Labels 3 and 4 are alike, so of two
//! listings that differ by exchanging them one is tried. Usage: compare-jumps [LENGTH].

use std::process::ExitCode;

use oracle::ffi;
use oracle::format::{word, OWN_LABEL, STORE};
use oracle::lists::LENT;
use oracle::make::{bi, branch, branch_if, call, label};
use oracle::names::bi::PLUS;
use oracle::player::{play, Played};

/// The records, each with its label; 0 for a sum. Register 0 is the condition: it is zero until the first sum.
fn alphabet() -> Vec<(u8, Vec<u8>)> {
    let mut found = vec![(0, bi(PLUS, 0, 0, 1)), (0, bi(PLUS, 1, 1, 0))];
    for number in 0..=4 {
        found.extend([label(number), branch(number), call(number), branch_if(0, number, 0)].map(|r| (number, r)));
    }
    found.extend([3, 4].map(|number| (number, branch_if(0, number, 1))));
    found
}

/// What is tried, and what was found. The stores are as before each play; sums write words 0 and 1 alone.
struct Trials {
    alphabet: Vec<(u8, Vec<u8>)>,
    words: Vec<u64>,
    bytes: Vec<u8>,
    expected: Vec<u8>,
    listings: u64,
    numbers: [u64; 10],
    differences: u64,
}

/// Words 0 and 1 before a play, and as bytes.
const FIRST: [u64; 2] = [0, 0x3ff0_0000_0000_0000];

fn put(bytes: &mut [u8], words: &[u64]) {
    bytes[..16].copy_from_slice(&ffi::to_bytes(words));
}

impl Trials {
    /// One play by both.
    fn compare(&mut self, listing: &[u8], start: u64) {
        let mut answer = [LENT; 24];
        let expected = play(listing, &[], &mut self.words, start);
        put(&mut self.expected, &self.words[..2]);
        let number = ffi::play(listing, &[], &mut self.bytes, start, &mut answer);
        let found = Played { number, index: word(&answer, 8), played: word(&answer, 16) };
        let same = self.bytes == self.expected;
        self.numbers[expected.number as usize] += 1;
        if expected != found || word(&answer, 0) != number as u64 || !same {
            self.differences += 1;
            println!("listing {listing:?}, start {start}\n  expected {expected:?}\n  found {found:?}, store as expected: {same}");
            self.bytes.copy_from_slice(&self.expected);
        }
        self.words[..2].copy_from_slice(&FIRST);
        put(&mut self.bytes, &FIRST);
    }

    /// All listings that begin so and have at most `more` records more; `third`: label 3 is named.
    fn longer(&mut self, listing: &mut Vec<u8>, records: u64, third: bool, more: usize) {
        self.listings += 1;
        for start in 0..=records + 1 {
            self.compare(listing, start);
        }
        if more == 0 {
            return;
        }
        for at in 0..self.alphabet.len() {
            let (number, record) = self.alphabet[at].clone();
            if number > OWN_LABEL && !third {
                continue;
            }
            let length = listing.len();
            listing.extend(record);
            self.longer(listing, records + 1, third || number == OWN_LABEL, more - 1);
            listing.truncate(length);
        }
    }
}

fn main() -> ExitCode {
    let length = std::env::args().nth(1).map_or(5, |w| w.parse().expect("a length"));
    let mut words = vec![0; STORE];
    words[..2].copy_from_slice(&FIRST);
    let (bytes, expected) = (ffi::to_bytes(&words), ffi::to_bytes(&words));
    let mut trials =
        Trials { alphabet: alphabet(), words, bytes, expected, listings: 0, numbers: [0; 10], differences: 0 };
    trials.longer(&mut Vec::new(), 0, false, length);
    println!(
        "{} listings of up to {length} jumps and sums, from every start: {} plays, answers 0 to 9: {:?}, {} differences",
        trials.listings,
        trials.numbers.iter().sum::<u64>(),
        trials.numbers,
        trials.differences
    );
    if trials.differences == 0 {
        ExitCode::SUCCESS
    } else {
        ExitCode::FAILURE
    }
}
