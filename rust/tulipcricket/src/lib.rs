//! Tulipcricket from Rust: `lower` a sheet to a listing, `play` the listing on a store, `look` at one of its records, lay it out on `pages`,
//! the `shelf` figures of a sheet, the running `peak` of answers, the reference point `nearest` to one. The C functions that do the work are
//! proved; this wrapper, which lends them slices of the
//! right lengths, is not.
//!
//! The library is `libtulipcricket.a`, which `c/library` makes; see build.rs for where it is looked for. Its answers do not depend on the
//! thread's floating-point environment.
//!
//! Lowering lists what the Rust that it is a port of lists, faults too. In plain mode a LoadMath Divide of a real register by a complex place
//! gives a wrong quotient: 6 / (1 + i) plays as 6 - 3i. Load the place into a general register and Divide by that.

mod c;
pub mod sheet;

/// Bytes of the longest listing; the room to ask for where it does not matter.
pub const LISTING_LIMIT: usize = 65_536;
/// Bytes of a printed page: 60 lines of 72 characters and a line feed.
pub const PAGE: usize = 4_380;
const LINES: usize = 60;
const SHORTEST_RECORD: usize = 5;
const TABLE: usize = 256;
const WORDS: usize = 1_602;
const REGISTERS: usize = 66;

/// The refusals of documents 01 and 02, by their numbers.
#[derive(Clone, Copy, Debug, PartialEq, Eq)]
pub enum Why {
    TornRecord = 1,
    UnknownWork = 2,
    BadRegister = 3,
    BadPlace = 4,
    MissingConstant = 5,
    BarredOperand = 6,
    ListingFull = 7,
    WrongSetup = 8,
    StrayJump = 9,
    /// A label outside 3 to 255 or standing twice, a branch without its label after it or with one before it, an else above 1.
    MisplacedLabel = 10,
    /// What is recorded as real at a label is not what is at a branch to it.
    UnequalRecords = 11,
    /// A window outside 1 to 64, or a run of more than 4,096 words.
    WrongRun = 12,
    WrongPoints = 13,
    /// Something stands behind 612 instructions.
    SheetTooLong = 14,
}

/// Why the work was refused, and at which instruction or record; 0 where there is none.
#[derive(Clone, Copy, Debug, PartialEq, Eq)]
pub struct Refused {
    pub why: Why,
    pub index: u64,
}

impl std::fmt::Display for Refused {
    fn fmt(&self, f: &mut std::fmt::Formatter<'_>) -> std::fmt::Result {
        write!(f, "refused {} {} ({:?})", self.why as u8, self.index, self.why)
    }
}

impl std::error::Error for Refused {}

/// `Ok` for 0, else the refusal of that number.
fn accepted(number: u32, index: u64) -> Result<(), Refused> {
    let why = match number {
        0 => return Ok(()),
        1 => Why::TornRecord,
        2 => Why::UnknownWork,
        3 => Why::BadRegister,
        4 => Why::BadPlace,
        5 => Why::MissingConstant,
        6 => Why::BarredOperand,
        7 => Why::ListingFull,
        8 => Why::WrongSetup,
        10 => Why::MisplacedLabel,
        11 => Why::UnequalRecords,
        12 => Why::WrongRun,
        13 => Why::WrongPoints,
        14 => Why::SheetTooLong,
        _ => Why::StrayJump,
    };
    Err(Refused { why, index })
}

/// What an accepted sheet is lowered to.
#[derive(Clone, Debug, PartialEq, Eq)]
pub struct Lowered {
    pub listing: Vec<u8>,
    pub constants: Vec<u64>,
    /// Instructions of the sheet.
    pub instructions: u64,
    /// Whether a sheet's register is recorded as real at the end, by its number (30 Ret, 31 Temp).
    pub real_registers: [bool; 32],
    /// The places recorded as real at the end, as in a header.
    pub real_places: [u8; 64],
    marks: [[bool; REGISTERS]; 2],
    origins: Vec<u16>,
}

/// The origin of a constant from the sheet.
const FROM_THE_SHEET: u16 = 65_535;

impl Lowered {
    /// Of each constant the instruction that first appended it; `None` of one from the sheet.
    pub fn origins(&self) -> Vec<Option<u16>> {
        self.origins.iter().map(|origin| (*origin != FROM_THE_SHEET).then_some(*origin)).collect()
    }

    /// The listing's registers that are filled at the end, by their numbers (64 Ret, 65 Temp).
    pub fn filled(&self) -> Vec<u8> {
        marked(&self.marks[0])
    }

    /// The listing's registers that it draws on before they are filled. Where there is none, plays from record 0 on stores that agree in all
    /// places end with equal places, however their registers began; else where the stores agree in these registers too. One that is named here
    /// may still not matter to any play.
    pub fn drawn(&self) -> Vec<u8> {
        marked(&self.marks[1])
    }
}

fn marked(marks: &[bool; REGISTERS]) -> Vec<u8> {
    (0..REGISTERS as u8).filter(|register| marks[*register as usize]).collect()
}

/// Eight bytes of an answer as a number.
fn number(bytes: &[u8], at: usize) -> u64 {
    u64::from_le_bytes(bytes[at..at + 8].try_into().expect("eight bytes"))
}

fn to_bytes(words: &[u64]) -> Vec<u8> {
    words.iter().flat_map(|w| w.to_le_bytes()).collect()
}

/// Lowers a sheet to a listing of at most `room` bytes. What was listed before a refusal is dropped.
pub fn lower(sheet: &[u8], room: usize) -> Result<Lowered, Refused> {
    let (mut listing, mut table, mut answer) = (vec![0; room], [0; 8 * TABLE], [0; 260]);
    let mut origins = [0; 2 * TABLE];
    let refusal = c::lower(sheet, &mut listing, &mut table, &mut origins, &mut answer);
    accepted(refusal, number(&answer, 8))?;
    listing.truncate(number(&answer, 16) as usize);
    let count = number(&answer, 24) as usize;
    Ok(Lowered {
        listing,
        constants: (0..count).map(|i| number(&table, 8 * i)).collect(),
        origins: (0..count).map(|i| u16::from_le_bytes([origins[2 * i], origins[2 * i + 1]])).collect(),
        instructions: number(&answer, 8),
        real_registers: std::array::from_fn(|i| answer[32 + i] == 1),
        real_places: answer[64..128].try_into().expect("64 bytes"),
        marks: [128, 194].map(|at| std::array::from_fn(|i| answer[at + i] == 1)),
    })
}

/// How much shelf an accepted sheet will take.
#[derive(Clone, Copy, Debug, PartialEq, Eq)]
pub struct Shelf {
    /// Instructions of the sheet.
    pub instructions: u64,
    /// Bytes of the listing.
    pub bytes: u64,
    pub constants: u64,
    /// Records that a play from record 0 runs, on any store; of a sheet with branches the most that one can run.
    pub records: u64,
}

/// The figures of a sheet, with no listing written: those that `lower` with `LISTING_LIMIT` bytes and `play` from record 0 report, with
/// branches the bound on the records of such a play, and the refusals of that `lower`.
pub fn shelf(sheet: &[u8]) -> Result<Shelf, Refused> {
    let mut answer = [0; 40];
    let refusal = c::shelf(sheet, &mut answer);
    accepted(refusal, number(&answer, 8))?;
    let [instructions, bytes, constants, records] = [8, 16, 24, 32].map(|at| number(&answer, at));
    Ok(Shelf { instructions, bytes, constants, records })
}

/// What an accepted play gives back.
#[derive(Clone, Copy, Debug, PartialEq, Eq)]
pub struct Played {
    /// Records of the listing.
    pub records: u64,
    /// Records played.
    pub played: u64,
}

/// Plays a listing with its constants on a store, from the record `start` on. A refused play leaves the store.
pub fn play(listing: &[u8], constants: &[u64], store: &mut Store, start: u64) -> Result<Played, Refused> {
    let mut answer = [0; 24];
    let refusal = c::play(listing, &to_bytes(constants), &mut store.bytes, start, &mut answer);
    accepted(refusal, number(&answer, 8))?;
    Ok(Played { records: number(&answer, 8), played: number(&answer, 16) })
}

/// What one record would do.
#[derive(Clone, Debug, PartialEq, Eq)]
pub struct Looked {
    /// Records of the listing.
    pub records: u64,
    /// The record that follows; the count of records where the play ends.
    pub follows: u64,
    /// The words that the record writes, at most two, in the order written: the store's index, and the bits that the word then holds.
    pub words: Vec<(usize, u64)>,
}

/// Looks at one record of a listing before it is played, on a store that stays as it is. The refusals are those of `play` from that record.
pub fn look(listing: &[u8], constants: &[u64], store: &Store, record: u64) -> Result<Looked, Refused> {
    let mut answer = [0; 64];
    let refusal = c::look(listing, &to_bytes(constants), &store.bytes, record, &mut answer);
    accepted(refusal, number(&answer, 8))?;
    let word = |i: usize| (number(&answer, 32 + 16 * i) as usize, number(&answer, 40 + 16 * i));
    Ok(Looked {
        records: number(&answer, 8),
        follows: number(&answer, 16),
        words: (0..number(&answer, 24) as usize).map(word).collect(),
    })
}

/// A listing and its constants as pages of text, `PAGE` bytes each: first a line for each constant, then one for each record. The refusals are
/// those of `play` from record 0.
pub fn pages(listing: &[u8], constants: &[u64]) -> Result<String, Refused> {
    let lines = constants.len() + listing.len() / SHORTEST_RECORD;
    let (mut text, mut answer) = (vec![0; lines.div_ceil(LINES) * PAGE], [0; 24]);
    let refusal = c::pages(listing, &to_bytes(constants), &mut text, &mut answer);
    accepted(refusal, number(&answer, 8))?;
    text.truncate(number(&answer, 16) as usize * PAGE);
    Ok(String::from_utf8(text).expect("pages are ASCII"))
}

/// For each position of a run of f64 words, the largest of the `window` words that end there, fewer at the start. Of equal ones, zeros of both
/// signs among them, the earliest; a NaN is passed over, and NaNs alone give 7ff8000000000000.
pub fn peak(run: &[u64], window: u64) -> Result<Vec<u64>, Refused> {
    let mut out = vec![0; 8 * run.len()];
    accepted(c::peak(&to_bytes(run), window, &mut out), 0)?;
    Ok((0..run.len()).map(|i| number(&out, 8 * i)).collect())
}

/// The index of the point nearest to an answer, the latest of equal ones; `None` where no distance is a number. At most 512 points.
pub fn nearest(answer: (f64, f64), points: &[(f64, f64)]) -> Result<Option<usize>, Refused> {
    let words: Vec<u64> = points.iter().flat_map(|p| [p.0.to_bits(), p.1.to_bits()]).collect();
    let mut told = [0; 24];
    let refusal = c::nearest(answer.0.to_bits(), answer.1.to_bits(), &to_bytes(&words), &mut told);
    accepted(refusal, 0)?;
    Ok((number(&told, 8) == 1).then(|| number(&told, 16) as usize))
}

/// Classes of places.
#[derive(Clone, Copy, Debug, PartialEq, Eq)]
pub enum Class {
    Stack = 0,
    Mem = 1,
    Param = 2,
}

/// A store: 66 registers and 256 places of each class, all words 0 at first.
#[derive(Clone, Debug, PartialEq, Eq)]
pub struct Store {
    bytes: Vec<u8>,
}

impl Default for Store {
    fn default() -> Store {
        Store::new()
    }
}

impl Store {
    pub fn new() -> Store {
        Store { bytes: vec![0; 8 * WORDS] }
    }

    /// A store of the bytes of a file: `None` unless there are 12,816.
    pub fn from_bytes(bytes: &[u8]) -> Option<Store> {
        (bytes.len() == 8 * WORDS).then(|| Store { bytes: bytes.to_vec() })
    }

    /// The store's 12,816 bytes, as a file keeps them: eight for each word, the lowest first.
    pub fn bytes(&self) -> &[u8] {
        &self.bytes
    }

    /// The word at an index of the store, below 1,602: registers first, then pairs of Stack, Mem, Param.
    pub fn word(&self, index: usize) -> u64 {
        number(&self.bytes, 8 * index)
    }

    pub fn set_word(&mut self, index: usize, word: u64) {
        self.bytes[8 * index..8 * index + 8].copy_from_slice(&word.to_le_bytes());
    }

    /// Real and imaginary part of a place.
    pub fn place(&self, class: Class, index: u8) -> (f64, f64) {
        let at = word_of(class, index);
        (f64::from_bits(self.word(at)), f64::from_bits(self.word(at + 1)))
    }

    pub fn set_place(&mut self, class: Class, index: u8, (real, imaginary): (f64, f64)) {
        let at = word_of(class, index);
        self.set_word(at, real.to_bits());
        self.set_word(at + 1, imaginary.to_bits());
    }
}

/// Where a place's real word stands.
fn word_of(class: Class, index: u8) -> usize {
    66 + 512 * class as usize + 2 * index as usize
}
