//! The printed page, written from document 02, i).

use crate::format::{records, FULL, STORE};
use crate::player::play;
use crate::print;

/// "Pages of 60 lines, each 72 characters and a line feed."
pub const LINES: usize = 60;
pub const LINE: usize = 73;
pub const PAGE: usize = LINES * LINE;

/// What comes back.
#[derive(Clone, Copy, Debug, PartialEq, Eq)]
pub struct Paged {
    pub number: u32,
    /// Of the refused record; accepted, the count of records.
    pub index: u64,
    pub pages: u64,
}

/// "Index right-aligned in 5, a space, the operation's name left-aligned in 16, a space, operands .. left-aligned in 49."
fn line(index: usize, name: &str, operands: &str) -> String {
    let text = format!("{index:>5} {name:<16} {operands:<49}\n");
    assert_eq!(text.len(), LINE, "No field is ever cut");
    text
}

/// A record: its first word as the `listing` program prints it is the operation's name, what stands behind it are the operands.
fn record_line(index: usize, record: &[u8]) -> String {
    let text = print::record(record);
    let (name, operands) = text.split_once(' ').unwrap_or((&text, ""));
    line(index, name, operands)
}

/// The pages of a listing that the player accepts: "Bits of constants come first, each on a line with its own index", then the records. "The
/// last page is filled with blank lines; an empty listing without constants is no page."
pub fn text(listing: &[u8], constants: &[u64]) -> String {
    let mut lines: Vec<String> = Vec::new();
    lines.extend(constants.iter().enumerate().map(|(i, bits)| line(i, "Constant", &format!("{bits:016x}"))));
    lines.extend(records(listing).iter().enumerate().map(|(i, record)| record_line(i, record)));
    while !lines.len().is_multiple_of(LINES) {
        lines.push(" ".repeat(LINE - 1) + "\n");
    }
    lines.concat()
}

/// "A listing that the player would refuse from record 0 gets the player's refusal, and nothing is written. .. If the lent page slice is too
/// short, which is tested last, nothing is written and the answer is 7 with index 0. Otherwise the count of pages comes back, and later bytes
/// stay as lent."
pub fn pages(listing: &[u8], constants: &[u64], out: &mut [u8]) -> Paged {
    let played = play(listing, constants, &mut [0; STORE], 0);
    if played.number != 0 {
        return Paged { number: played.number, index: played.index, pages: 0 };
    }
    let text = text(listing, constants);
    match out.get_mut(..text.len()) {
        None => Paged { number: FULL, index: 0, pages: 0 },
        Some(front) => {
            front.copy_from_slice(text.as_bytes());
            Paged { number: 0, index: played.index, pages: (text.len() / PAGE) as u64 }
        }
    }
}
