//! Sheets and listings at every limit of document 01, and of the 612 instructions of document 02.

use crate::format::*;
use crate::make;
use crate::names::{uni, LISTING_BI, LISTING_UNI, SHEET_BI, SHEET_UNI};
use crate::random::{ToLower, ToPlay, SPECIAL};

const NONE: [u8; 64] = [0; 64];
const TWO: u64 = 0x4000_0000_0000_0000;
const SIGN: u64 = 1 << 63;

/// Bytes at which a field's meaning changes.
const BYTES: [u8; 36] = [
    0, 1, 2, 3, 4, 5, 6, 7, 8, 9, 10, 11, 12, 13, 14, 15, 16, 17, 18, 19, 20, 21, 28, 29, 30, 31, 32, 33, 63, 64, 65,
    66, 127, 128, 254, 255,
];

fn whole(sheet: Vec<u8>) -> ToLower {
    ToLower { sheet, room: LISTING_LIMIT, table: TABLE }
}

/// Document 01's sheet on paper.
pub fn paper() -> Vec<u8> {
    let instructions = [make::load_const(0, 0), make::load(1, MEM, 3), make::bi(2, 0, 0, 1), make::save(0, MEM, 4)];
    make::sheet(PLAIN, &NONE, &[TWO], &instructions)
}

/// A valid record of each kind of a sheet.
fn sheet_records() -> Vec<Vec<u8>> {
    vec![
        make::nop(),
        make::uni(0, 1, 2),
        make::bi(0, 1, 2, 3),
        make::mov(1, 2),
        make::load(1, STACK, 2),
        make::save(1, STACK, 2),
        make::load_const(1, 0),
        make::fused(0, 1, 2, 3, 4),
        make::if_else(1, 2, 3, STACK, 2),
        make::load_math(0, 1, 2, STACK, 2),
        make::load_const_math(0, 1, 2, 0),
    ]
}

/// A valid record of each kind of a listing, jumps aside.
fn listing_records() -> Vec<Vec<u8>> {
    vec![
        make::uni(0, 1, 2),
        make::bi(0, 1, 2, 3),
        make::mov(1, 2),
        make::load(1, STACK, 2),
        make::save(1, STACK, 2),
        make::load_const(1, 0),
        make::fused(0, 1, 2, 3, 4),
        make::if_else(1, 2, 3, STACK, 2),
        make::load_complex(1, 2, STACK, 2),
        make::save_complex(1, 2, STACK, 2),
        make::complex_bi(0, [1, 2, 3, 4, 5, 6]),
    ]
}

/// Each record with each byte of its fields at each of `BYTES`.
pub fn each_field(records: &[Vec<u8>]) -> Vec<Vec<u8>> {
    let mut found = Vec::new();
    for record in records {
        for at in 4..record.len() {
            for byte in BYTES {
                let mut copy = record.clone();
                copy[at] = byte;
                found.push(copy);
            }
        }
    }
    found
}

/// Each record with two bytes of its fields at fault, so that the order of refusals shows.
pub fn two_faults(records: &[Vec<u8>]) -> Vec<Vec<u8>> {
    let mut found = Vec::new();
    for record in records {
        for one in 4..record.len() {
            for other in one + 1..record.len() {
                let mut copy = record.clone();
                copy[one] = 255;
                copy[other] = 255;
                found.push(copy.clone());
                copy.push(0);
                copy[0] += 1;
                found.push(copy);
            }
        }
    }
    found
}

/// Each kind with each length, the length written being that of the record, one more or one less.
fn each_kind() -> Vec<Vec<u8>> {
    let mut found = Vec::new();
    for kind in (0..=40).chain([255, 256, 257, 266, 288, 289, 65535]) {
        for length in 0..=13u16 {
            for written in [length.saturating_sub(1), length, length + 1] {
                let mut record = written.to_le_bytes().to_vec();
                record.extend((kind as u16).to_le_bytes());
                record.resize(4.max(length as usize), 0);
                record.truncate(length as usize);
                found.push(record);
            }
        }
    }
    found
}

fn headers() -> Vec<Vec<u8>> {
    let good = make::header(PLAIN, &NONE);
    let mut found: Vec<Vec<u8>> = (0..=good.len()).map(|length| good[..length].to_vec()).collect();
    for (at, bytes) in
        [(0, [68, 69, 70, 0]), (1, [0, 1, 2, 255]), (2, [31, 32, 33, 0]), (3, [0, 1, 2, 255]), (4, [1, 2, 3, 255])]
    {
        for byte in bytes {
            let mut copy = good.clone();
            copy[at] = byte;
            found.push(copy.clone());
            copy.extend(make::mov(1, 2));
            found.push(copy);
        }
    }
    found
}

fn constants() -> Vec<Vec<u8>> {
    let mut found = Vec::new();
    for count in [0, 1, 250, 251, 252, 253] {
        let row: Vec<u64> = (0..count).collect();
        for record in [Vec::new(), make::load_const(3, 250), make::load_const(3, 251), make::uni(uni::ABS, 3, 4)] {
            found.extend(MODES.map(|mode| make::sheet(mode, &NONE, &row, std::slice::from_ref(&record))));
        }
        for length in 0..14 {
            let mut cut = make::sheet(PLAIN, &NONE, &row, &[]);
            cut.extend(&[&make::constant(7)[..], &[0, 0]].concat()[..length]);
            found.push(cut.clone());
            let at = 69 + 12 * count as usize;
            if length >= 4 {
                cut[at] = length as u8;
                found.push(cut);
            }
        }
    }
    found
}

/// A sheet of this instruction and so many Nops.
fn filled(first: Vec<u8>, nops: usize) -> ToLower {
    whole([make::header(PLAIN, &NONE), first, make::nop().repeat(nops)].concat())
}

/// The longest sheet that is accepted: 251 constants, 612 instructions of ten bytes.
fn longest_sheet() -> ToLower {
    let row = vec![make::if_else(1, 2, 3, STACK, 2); INSTRUCTIONS];
    let sheet = make::sheet(PLAIN, &NONE, &(0..SHEET_CONSTANTS as u64).collect::<Vec<_>>(), &row);
    assert_eq!(sheet.len(), LONGEST_SHEET);
    whole(sheet)
}

/// Sheets of 611, 612 and 613 instructions, with each kind in each of them, or as the first or the last of Nops.
fn of_each_kind() -> Vec<ToLower> {
    let mut found = Vec::new();
    let labels = [make::label(3), make::branch(3), make::branch_if(1, 3, 0)];
    for (record, count) in sheet_records().iter().chain(&labels).flat_map(|r| [611, 612, 613].map(|n| (r, n))) {
        let nops = vec![make::nop(); count - 1];
        let first = std::slice::from_ref(record);
        for row in [vec![record.clone(); count], [first, &nops].concat(), [&nops, first].concat()] {
            found.extend(MODES.map(|mode| whole(make::sheet(mode, &NONE, &[TWO], &row))));
        }
    }
    found
}

/// What may stand at index 612: stray bytes, torn records, and whatever earns each other number, or none.
fn at_the_limit() -> Vec<Vec<u8>> {
    let mut found: Vec<Vec<u8>> = (1..4).map(|count| vec![0; count]).collect();
    found.extend([vec![3, 0, 0, 0], vec![5, 0, 0, 0, 0], vec![255; 5], make::uni(0, 1, 2)[..6].to_vec()]);
    found.extend([make::raw(CALL, &[1]), make::raw(256, &[]), make::constant(7), make::uni(255, 1, 2)]);
    found.extend([make::mov(32, 1), make::load(1, 3, 0), make::save(1, PARAM, 0), make::load_const(1, 9)]);
    found.extend([make::fused(0, 1, 2, 3, RET), make::uni(uni::ABS, 1, RET), make::uni(uni::ROOT, 1, 2)]);
    found.extend([make::label(2), make::label(3), make::branch(3), make::branch(4), make::branch_if(1, 3, 2)]);
    found
}

/// Those behind 612 instructions, which are Nops, or a Branch 3 and Nops, or a Label 3 and Nops; with a Label 3 behind them, or none; in
/// all room, or none.
fn beyond() -> Vec<ToLower> {
    let mut found = Vec::new();
    for first in [make::nop(), make::branch(3), make::label(3), make::mov(1, 2), make::load_const(1, 0)] {
        for (last, behind) in at_the_limit().iter().flat_map(|r| [(r, Vec::new()), (r, make::label(3))]) {
            let nops = make::nop().repeat(INSTRUCTIONS - 1);
            let sheet = [make::sheet(PLAIN, &NONE, &[TWO], &[]), first.clone(), nops, last.clone(), behind].concat();
            found.extend([0, LISTING_LIMIT].map(|room| ToLower { sheet: sheet.clone(), room, table: TABLE }));
        }
    }
    found
}

/// A Branch 3 as the first instruction, its Label at each of these indices; a record in between, if there is one.
fn labels_at(indices: &[usize]) -> Vec<ToLower> {
    let mut found = Vec::new();
    for index in indices.iter().copied() {
        let torn = vec![5, 0, 0, 0, 0];
        for (at, record) in [(1, make::nop()), (612, torn.clone()), (613, torn), (612, make::raw(CALL, &[1]))] {
            let mut row = vec![make::nop(); index + 1];
            row[0] = make::branch(3);
            row[index] = make::label(3);
            if at < index {
                row[at] = record;
            }
            found.push(whole(make::sheet(PLAIN, &NONE, &[], &row)));
        }
    }
    found
}

/// A sheet of every operation on one and on two registers, of complex registers and of a real one.
fn every_operation(mode: u8) -> ToLower {
    let mut row = Vec::new();
    for op in SHEET_UNI {
        row.extend([make::uni(op, 3, 1), make::load_const(4, 0), make::uni(op, 5, 4)]);
    }
    for op in SHEET_BI {
        row.extend([make::bi(op, 3, 1, 2), make::load_const(4, 0), make::bi(op, 5, 4, 4)]);
    }
    whole(make::sheet(mode, &NONE, &[TWO], &row))
}

/// What every list of sheets has: every operation, and the most instructions, the longest sheet, the most room, the words of the constants
/// slice, and their neighbours.
pub fn kept_sheets() -> Vec<ToLower> {
    let mut found: Vec<ToLower> = [610, 611, 612].map(|nops| filled(make::uni(0, 1, 2), nops)).to_vec();
    found.push(longest_sheet());
    found.extend(MODES.map(every_operation));
    for room in [65_535, 65_536, 65_537] {
        found.push(ToLower { sheet: paper(), room, table: TABLE });
    }
    for table in [0, 1, 255, 256, 257] {
        found.push(ToLower { sheet: paper(), room: 100, table });
    }
    found
}

fn limits() -> Vec<ToLower> {
    let mut found = kept_sheets();
    for (op, count) in [(uni::ABS, 612), (uni::ROOT, 612), (uni::RECIP, 407), (uni::RECIP, 408), (uni::RECIP, 613)] {
        let row = vec![make::uni(op, 1, 2); count];
        found.extend(MODES.map(|mode| whole(make::sheet(mode, &NONE, &[], &row))));
    }
    for room in 0..=42 {
        found.push(ToLower { sheet: paper(), room, table: TABLE });
    }
    found
}

/// An instruction that needs room or is barred, after the room is nearly used up.
fn rooms() -> Vec<ToLower> {
    let mut found = Vec::new();
    for mode in MODES {
        for record in
            [make::uni(uni::ROOT, 1, 2), make::uni(uni::ABS, 1, 2), make::bi(3, 1, 2, 3), make::nop(), make::mov(3, 3)]
        {
            let sheet = make::sheet(mode, &NONE, &[TWO], &[make::load_const(2, 0), record]);
            found.extend((0..=360).map(|room| ToLower { sheet: sheet.clone(), room, table: TABLE }));
        }
    }
    found
}

/// What the Rust asserts, and its neighbours: Ret, Temp and a general register in every part, real or complex.
fn barred() -> Vec<Vec<u8>> {
    let special = [1, RET, TEMP];
    let mut found = Vec::new();
    for (s1, s2) in special.iter().flat_map(|a| special.map(|b| (*a, b))) {
        found.push(make::bi(3, 2, s1, s2));
        found.push(make::bi(3, s1, s1, s2));
        found.push(make::uni(uni::ABS, s1, s2));
        found.push(make::load_const_math(3, s1, s2, 0));
        found.extend((0..4).map(|op| make::fused(op, s1, s2, 1, s1)));
        found.extend((0..3).flat_map(|class| [7, 8].map(|index| make::load_math(3, s1, s2, class, index))));
    }
    found
}

/// Each of those after each choice of real registers; Stack 7 and Param 7 are real.
fn barred_sheets() -> Vec<ToLower> {
    let places = make::real_places(&[(STACK, 7), (PARAM, 7)]);
    let mut found = Vec::new();
    for record in barred() {
        for bits in 0..8 {
            let real = [1, RET, TEMP].into_iter().enumerate().filter(|(i, _)| bits >> i & 1 == 1);
            let mut row: Vec<Vec<u8>> = real.map(|(_, r)| make::load_const(r, 0)).collect();
            row.push(record.clone());
            found.extend(MODES.map(|mode| whole(make::sheet(mode, &places, &[TWO], &row))));
        }
    }
    found
}

/// Sheets of many more bytes than one that is accepted can have.
pub fn far_sheets() -> Vec<ToLower> {
    labels_at(&[5_000, 60_000])
}

/// Every limit of a sheet.
pub fn sheets() -> Vec<ToLower> {
    let mut found: Vec<ToLower> = headers().into_iter().chain(constants()).map(whole).collect();
    for record in each_kind() {
        found.push(whole(make::sheet(PLAIN, &NONE, &[TWO], &[make::mov(1, 2), record.clone()])));
        found.push(whole(make::sheet(STABLE, &NONE, &[TWO], &[record, make::nop()])));
    }
    for record in each_field(&sheet_records()).into_iter().chain(two_faults(&sheet_records())) {
        for mode in MODES {
            found.push(whole(make::sheet(mode, &NONE, &[TWO], &[make::mov(1, 2), record.clone()])));
        }
    }
    found.extend(limits());
    found.extend(of_each_kind());
    found.extend(beyond());
    found.extend(labels_at(&[610, 611, 612, 613, 614]));
    found.extend(rooms());
    found.extend(barred_sheets());
    found
}

fn on_zeros(listing: Vec<u8>, constants: usize, start: u64) -> ToPlay {
    ToPlay { listing, constants: vec![TWO; constants], store: vec![0; STORE], start }
}

/// Records that jump, and one that does not.
fn jumps() -> Vec<Vec<u8>> {
    let mut found = vec![make::mov(4, 5)];
    for number in 0..3 {
        found.extend([make::label(number), make::branch(number), make::call(number)]);
    }
    found
}

/// Every row of `count` records of an alphabet.
pub fn rows(alphabet: &[Vec<u8>], count: usize) -> Vec<Vec<Vec<u8>>> {
    let size = alphabet.len();
    let row = |number: usize| (0..count).map(|at| alphabet[number / size.pow(at as u32) % size].clone()).collect();
    (0..size.pow(count as u32)).map(row).collect()
}

/// Every row of up to `length` jumps, from every start.
pub fn jump_rows(length: usize) -> Vec<ToPlay> {
    let mut found = Vec::new();
    for row in (0..=length).flat_map(|count| rows(&jumps(), count)) {
        found.extend((0..=row.len() as u64 + 1).map(|start| on_zeros(row.concat(), 0, start)));
    }
    found
}

/// All operations on one triple of words: unary of the first, binary of the first two, MulAdd of all, the complex ones.
pub fn all_operations(a: u64, b: u64, c: u64) -> ToPlay {
    let mut row = Vec::new();
    let mut dst = 10;
    let mut next = || {
        dst += 1;
        dst
    };
    for op in LISTING_UNI {
        row.push(make::uni(op, next(), 0));
    }
    for op in LISTING_BI {
        row.push(make::bi(op, next(), 0, 1));
    }
    row.push(make::fused(0, next(), 0, 1, 2));
    row.push(make::save(2, STACK, 9));
    row.push(make::if_else(next(), 0, 1, STACK, 9));
    for op in 0..4 {
        row.push(make::complex_bi(op, [next(), next(), 0, 1, 2, 0]));
        row.push(make::complex_bi(op, [next(), next(), 1, 2, 0, 2]));
    }
    let mut store = vec![0; STORE];
    store[..3].copy_from_slice(&[a, b, c]);
    ToPlay { listing: row.concat(), constants: Vec::new(), store, start: 0 }
}

fn setups() -> Vec<ToPlay> {
    let mut found = kept_plays();
    for constants in [0, 1, 255, 256, 257] {
        for index in [0, 1, 254, 255, 256, 257] {
            found.push(on_zeros(make::load_const(4, index), constants, 0));
        }
    }
    for (first, nops) in [(make::mov(1, 2), 10_922), (make::uni(0, 1, 2), 10_922), (make::label(2), 10_922)] {
        let listing = [first, make::mov(3, 4).repeat(nops - 1)].concat();
        for more in [0, 3, 4, 5, 6] {
            let mut longer = listing.clone();
            longer.extend(&make::mov(5, 6)[..more]);
            found.push(on_zeros(longer, 0, 0));
        }
    }
    for (unis, movs) in [(3, 10_919), (4, 10_918), (5, 10_917)] {
        let listing = [make::uni(0, 1, 2).repeat(unis), make::mov(3, 4).repeat(movs)].concat();
        found.push(on_zeros(listing, 0, 0));
    }
    let calls = [make::label(1), make::branch(0), make::call(1).repeat(9_000)].concat();
    found.extend([0, 1, 2, 3, 9_002, 9_003, u64::MAX].map(|start| on_zeros(calls.clone(), 0, start)));
    found
}

/// Every instruction over these registers and Stack 7, Mem 7, Param 7; Stack 2 is the word that a block overwrites.
pub fn every_instruction(registers: &[u8]) -> Vec<Vec<u8>> {
    let pairs: Vec<[u8; 2]> = registers.iter().flat_map(|a| registers.iter().map(|b| [*a, *b])).collect();
    let triples: Vec<[u8; 3]> = pairs.iter().flat_map(|p| registers.iter().map(|c| [p[0], p[1], *c])).collect();
    let mut found = vec![make::nop()];
    for a in registers.iter().copied() {
        found.push(make::load_const(a, 0));
        found.extend([STACK, MEM, PARAM].map(|class| make::load(a, class, 7)));
        found.extend([STACK, MEM].map(|class| make::save(a, class, 7)));
        found.extend([make::load(a, STACK, 2), make::save(a, STACK, 2)]);
    }
    for [a, b] in &pairs {
        found.push(make::mov(*a, *b));
        found.extend(SHEET_UNI.map(|op| make::uni(op, *a, *b)));
        for op in 0..4 {
            found.extend([STACK, MEM, PARAM].map(|class| make::load_math(op, *a, *b, class, 7)));
            found.push(make::load_const_math(op, *a, *b, 0));
        }
    }
    for [a, b, c] in &triples {
        found.extend(SHEET_BI.map(|op| make::bi(op, *a, *b, *c)));
        found.push(make::if_else(*a, *b, *c, STACK, 7));
        for d in registers.iter().copied() {
            found.extend((0..4).map(|op| make::fused(op, *a, *b, *c, d)));
        }
    }
    found
}

/// What every list of plays has: the store's words, the count of constants, places by class, the infinities of MulAdd, and every
/// operation on words that rounding and comparing tell apart.
pub fn kept_plays() -> Vec<ToPlay> {
    let mut found = vec![on_zeros(make::load_const(4, 255), 256, 0), on_zeros(make::load_const(4, 255), 257, 0)];
    found.extend(
        [0, 1, 1601, 1602, 1603].map(|words| ToPlay { store: vec![7; words], ..on_zeros(make::mov(4, 5), 0, 0) }),
    );
    for class in [STACK, MEM, PARAM] {
        found.extend([0, 255, 256, 257, 65535].map(|index| on_zeros(make::load(4, class, index), 0, 0)));
    }
    let (infinity, zero, one) = (f64::INFINITY.to_bits(), 0, 1.0f64.to_bits());
    let minus_infinity = f64::NEG_INFINITY.to_bits();
    for (a, b, c) in [
        (infinity, zero, one),
        (zero, infinity, one),
        (infinity, one, minus_infinity),
        (one, minus_infinity, infinity),
        (infinity, one, infinity),
        (one, one, minus_infinity),
    ] {
        found.push(all_operations(a, b, c));
    }
    let (half, unit) = (0.5f64.to_bits(), 1);
    for (a, b) in [(half, one), (SIGN | half, zero), (SIGN, zero), (zero, unit), (SIGN | unit, SIGN), (TWO, SIGN | TWO)]
    {
        found.push(all_operations(a, b, one));
    }
    found
}

/// A constant that goes through every record which moves words.
fn moves(bits: u64) -> ToPlay {
    let row = [
        make::load_const(4, 0),
        make::mov(5, 4),
        make::save(5, MEM, 3),
        make::load(6, MEM, 3),
        make::save_complex(6, 5, STACK, 1),
        make::load_complex(7, 8, STACK, 1),
        make::if_else(9, 8, 10, STACK, 1),
    ];
    ToPlay { listing: row.concat(), constants: vec![bits], store: vec![0; STORE], start: 0 }
}

/// A lost reading that is moved about, and every operation on words of which one or two are lost readings. Every list of plays has these.
pub fn lost_readings() -> Vec<ToPlay> {
    let (infinity, zero, one) = (f64::INFINITY.to_bits(), 0, 1.0f64.to_bits());
    let (lost, other) = (0xfff0_0000_0000_0002, 0x7ff4_0000_0000_0003);
    let triples = [
        (lost, one, one),
        (one, lost, one),
        (one, one, lost),
        (lost, other, one),
        (other, lost, one),
        (lost, one, other),
        (one, lost, other),
        (one, other, lost),
        (infinity, zero, lost),
        (zero, SIGN | infinity, other),
        (lost, zero, infinity),
        (infinity, lost, zero),
    ];
    let mut found = vec![moves(lost)];
    found.extend(triples.map(|(a, b, c)| all_operations(a, b, c)));
    found
}

/// Every limit of a listing, start and store.
pub fn plays() -> Vec<ToPlay> {
    let mut found = setups();
    let faulty = each_field(&listing_records()).into_iter().chain(two_faults(&listing_records()));
    for record in each_kind().into_iter().chain(faulty) {
        found.push(on_zeros([make::mov(1, 2), record].concat(), 1, 0));
    }
    for number in 0..=255 {
        for record in [make::label(number), make::branch(number), make::call(number)] {
            found.push(on_zeros(record, 0, 0));
        }
    }
    for a in SPECIAL {
        found.extend(SPECIAL.map(|b| all_operations(a, b, SPECIAL[(a ^ b) as usize % SPECIAL.len()])));
    }
    found
}
