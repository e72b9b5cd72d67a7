//! Numbers of documents 01 and 02 that sheets and listings share.

/// Lengths of records by kind, 0 Nop to 17 BranchIf.
pub const LENGTHS: [usize; 18] = [4, 7, 8, 6, 8, 8, 7, 9, 10, 10, 9, 9, 9, 11, 5, 5, 5, 7];

pub const LABEL: u16 = 14;
pub const BRANCH: u16 = 15;
pub const CALL: u16 = 16;
pub const BRANCH_IF: u16 = 17;
/// The lowest label of a sheet's own; those below are the listing's.
pub const OWN_LABEL: u8 = 3;

/// Modes of a sheet: plain, stable, and document 02's stable mode in which Half minds the record.
pub const PLAIN: u8 = 0;
pub const STABLE: u8 = 1;
pub const MINDING: u8 = 2;
pub const MODES: [u8; 3] = [PLAIN, STABLE, MINDING];

pub const HEADER: u16 = 32;
pub const CONSTANT: u16 = 33;
pub const HEADER_LENGTH: usize = 69;
pub const CONSTANT_LENGTH: usize = 12;

/// The most instructions of a sheet, and the bytes of the longest one: 251 constants, and instructions of ten bytes.
pub const INSTRUCTIONS: usize = 612;
pub const LONGEST_SHEET: usize = HEADER_LENGTH + SHEET_CONSTANTS * CONSTANT_LENGTH + 10 * INSTRUCTIONS;
pub const LISTING_LIMIT: usize = 65_536;
pub const SHEET_CONSTANTS: usize = 251;
pub const TABLE: usize = 256;
pub const STORE: usize = 1_602;

/// Sheet registers 30 and 31, listing registers 64 and 65.
pub const RET: u8 = 30;
pub const TEMP: u8 = 31;
pub const LISTING_RET: u8 = 64;
pub const LISTING_TEMP: u8 = 65;

pub const STACK: u8 = 0;
pub const MEM: u8 = 1;
pub const PARAM: u8 = 2;

/// Refusals by the numbers of documents 01 and 02.
pub const TORN: u32 = 1;
pub const UNKNOWN: u32 = 2;
pub const REGISTER: u32 = 3;
pub const PLACE: u32 = 4;
pub const MISSING: u32 = 5;
pub const BARRED: u32 = 6;
pub const FULL: u32 = 7;
pub const SETUP: u32 = 8;
pub const STRAY: u32 = 9;
pub const MISPLACED: u32 = 10;
pub const UNEQUAL: u32 = 11;
pub const LONG: u32 = 14;

/// The two bytes at `at`, as a number.
pub fn two(bytes: &[u8], at: usize) -> u16 {
    u16::from_le_bytes([bytes[at], bytes[at + 1]])
}

/// The eight bytes at `at`, as a word.
pub fn word(bytes: &[u8], at: usize) -> u64 {
    u64::from_le_bytes(bytes[at..at + 8].try_into().unwrap())
}

/// The first record of `rest`, if its length is readable.
pub fn first(rest: &[u8]) -> Option<&[u8]> {
    if rest.len() < 4 {
        return None;
    }
    let length = two(rest, 0) as usize;
    if length < 4 {
        return None;
    }
    rest.get(..length)
}

/// The records of bytes in which every length is readable.
pub fn records(mut rest: &[u8]) -> Vec<&[u8]> {
    let mut found = Vec::new();
    while let Some(record) = first(rest) {
        found.push(record);
        rest = &rest[record.len()..];
    }
    found
}
