//! Document 02's marks, l): which registers of a listing are filled at its end, and which are drawn on before being filled, over the order of
//! play from record 0. It follows the ways through the records of a lowered listing, with what may be unfilled on some way to each record.

use crate::format::*;
use crate::names::bi;

/// How many registers a listing has.
pub const REGISTERS: usize = 66;

/// The marks of a listing, by listing register.
#[derive(Clone, Debug, PartialEq)]
pub struct Marks {
    pub filled: [bool; REGISTERS],
    pub drawn: [bool; REGISTERS],
}

impl Marks {
    /// Of no instruction, and of a refusal by 8: "filled or not yet", and none is drawn on.
    pub fn none() -> Marks {
        Marks { filled: [false; REGISTERS], drawn: [false; REGISTERS] }
    }

    /// The registers drawn on before being filled.
    pub fn outside(&self) -> Vec<u8> {
        (0..REGISTERS as u8).filter(|r| self.drawn[*r as usize]).collect()
    }
}

/// A set of registers, a bit each.
type Set = u128;

const ALL: Set = (1 << REGISTERS) - 1;

fn set(registers: &[u8]) -> Set {
    registers.iter().fold(0, |found, r| found | 1 << r)
}

fn flags(set: Set) -> [bool; REGISTERS] {
    std::array::from_fn(|i| set >> i & 1 == 1)
}

/// The registers whose words a record reads; "a Xor of one register with itself draws on nothing".
fn drawn_by(record: &[u8]) -> Set {
    let f = &record[4..];
    match two(record, 2) {
        1 => set(&f[2..3]),
        2 if f[0] == bi::XOR && f[2] == f[3] => 0,
        2 => set(&f[2..4]),
        3 => set(&f[1..2]),
        5 | BRANCH_IF => set(&f[..1]),
        7 => set(&f[2..5]),
        8 => set(&f[1..3]),
        12 => set(&f[..2]),
        13 => set(&f[3..7]),
        _ => 0,
    }
}

/// The registers whose words a record writes: "Only a written word fills one".
fn filled_by(record: &[u8]) -> Set {
    let f = &record[4..];
    match two(record, 2) {
        1 | 2 | 7 => set(&f[1..2]),
        3 | 4 | 6 | 8 => set(&f[..1]),
        11 => set(&f[..2]),
        13 => set(&f[1..3]),
        _ => 0,
    }
}

/// Where a label stands; a refused sheet's branch may have none yet.
fn standing(records: &[&[u8]], label: u8) -> Option<usize> {
    records.iter().position(|r| two(r, 2) == LABEL && r[4] == label)
}

/// The records of Root's block, from its Label 1 to the Branch 0 after it.
fn block<'a>(records: &'a [&'a [u8]]) -> &'a [&'a [u8]] {
    let from = standing(records, 1).expect("a Call has its Label 1");
    let length =
        records[from..].iter().position(|r| two(r, 2) == BRANCH && r[4] == 0).expect("the block has its Branch 0");
    &records[from..=from + length]
}

/// The ways through a listing: for each record, and for the end, what is unfilled on some way there; `None` where no way leads there.
struct Ways {
    unfilled: Vec<Option<Set>>,
    drawn: Set,
}

impl Ways {
    fn lead(&mut self, to: usize, unfilled: Set) {
        self.unfilled[to] = Some(self.unfilled[to].unwrap_or(0) | unfilled);
    }

    /// A record draws, then it fills; what is unfilled then.
    fn play(&mut self, record: &[u8], unfilled: Set) -> Set {
        self.drawn |= drawn_by(record) & unfilled;
        unfilled & !filled_by(record)
    }

    /// The ways from record `at` on: after a Branch 2 its Label alone; after a Branch or BranchIf to a label from 3 up both its Label, where
    /// that stands already, and the record below; after a Call the record below, through the block; after any other the record below.
    fn go(&mut self, records: &[&[u8]], at: usize, unfilled: Set) {
        let record = records[at];
        let after = match two(record, 2) {
            CALL => block(records).iter().fold(unfilled, |now, r| self.play(r, now)),
            _ => self.play(record, unfilled),
        };
        let label = match two(record, 2) {
            BRANCH => Some(record[4]),
            BRANCH_IF => Some(record[5]),
            _ => None,
        };
        if let Some(there) = label.and_then(|label| standing(records, label)) {
            self.lead(there, after);
        }
        if label.is_none_or(|label| label >= OWN_LABEL) {
            self.lead(at + 1, after);
        }
    }
}

/// The marks of a lowered listing, of all its records or of those of the first instructions.
pub fn of(listing: &[u8]) -> Marks {
    let records = records(listing);
    let mut ways = Ways { unfilled: vec![None; records.len() + 1], drawn: 0 };
    ways.lead(0, ALL);
    for at in 0..records.len() {
        if let Some(unfilled) = ways.unfilled[at] {
            ways.go(&records, at, unfilled);
        }
    }
    let unfilled = ways.unfilled[records.len()].expect("a way leads to the end");
    Marks { filled: flags(ALL & !unfilled), drawn: flags(ways.drawn) }
}
