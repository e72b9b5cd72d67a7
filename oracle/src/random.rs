//! Random sheets, listings, stores and damage, the same for the same seed.

use crate::format::*;
use crate::machine::{Machine, Reference};
use crate::make;
use crate::names::{bi, uni, LISTING_BI, LISTING_UNI, SHEET_BI, SHEET_UNI};
use crate::reference::{lower_with_points, Point};

/// SplitMix64.
pub struct Rng(pub u64);

impl Rng {
    pub fn bits(&mut self) -> u64 {
        self.0 = self.0.wrapping_add(0x9e37_79b9_7f4a_7c15);
        let z = (self.0 ^ self.0 >> 30).wrapping_mul(0xbf58_476d_1ce4_e5b9);
        let z = (z ^ z >> 27).wrapping_mul(0x94d0_49bb_1331_11eb);
        z ^ z >> 31
    }

    /// A number below `limit`.
    pub fn below(&mut self, limit: usize) -> usize {
        (self.bits() % limit as u64) as usize
    }

    /// Holds once in `n`.
    pub fn once_in(&mut self, n: usize) -> bool {
        self.below(n) == 0
    }

    pub fn pick<T: Copy>(&mut self, row: &[T]) -> T {
        row[self.below(row.len())]
    }
}

/// Words at which arithmetic changes its mind, and the constants that stable mode appends.
pub const SPECIAL: [u64; 40] = [
    0,
    1 << 63,
    u64::MAX,
    1,
    3,
    0x8000_0000_0000_0001,
    0x0010_0000_0000_0000,
    0x000f_ffff_ffff_ffff,
    0x0020_0000_0000_0000,
    0x7fe0_0000_0000_0000,
    0x7fef_ffff_ffff_ffff,
    0xffef_ffff_ffff_ffff,
    0x7ff0_0000_0000_0000,
    0xfff0_0000_0000_0000,
    0x7ff8_0000_0000_0000,
    0xfff8_0000_0000_0000,
    0x7ff0_0000_0000_0001,
    0xfff4_0000_0000_1234,
    0x7ff8_0000_0000_5678,
    0x3ff0_0000_0000_0000,
    0xbff0_0000_0000_0000,
    0x3ff0_0000_0000_0001,
    0x3fef_ffff_ffff_ffff,
    0xbff0_0000_0000_0002,
    0x3fe0_0000_0000_0000,
    0x3fd0_0000_0000_0000,
    0x3ff8_0000_0000_0000,
    0x4000_0000_0000_0000,
    0x4004_0000_0000_0000,
    0xc008_0000_0000_0000,
    0x4010_0000_0000_0000,
    0x4330_0000_0000_0000,
    0x4330_0000_0000_0001,
    0x432f_ffff_ffff_ffff,
    0x4340_0000_0000_0000,
    0x5fef_ffff_ffff_ffff,
    0x1ff0_0000_0000_0000,
    0x2000_0000_0000_0000,
    0x6000_0000_0000_0000,
    0x3fdf_ffff_ffff_ffff,
];

/// A word: special, near one, a small whole number, or any bits.
pub fn any_word(rng: &mut Rng) -> u64 {
    match rng.below(5) {
        0 | 1 => rng.pick(&SPECIAL),
        2 => ((rng.below(2001) as f64 - 1000.0) / 8.0).to_bits(),
        3 => 0x3f00_0000_0000_0000 | rng.bits() & 0x80ff_ffff_ffff_ffff,
        _ => rng.bits(),
    }
}

/// A NaN of either sign and any mark, quiet or signalling.
pub fn any_nan(rng: &mut Rng) -> u64 {
    let sign_and_51 = rng.bits() & 0x8008_0000_0000_0000;
    let mark = 1 + (rng.bits() >> (13 + rng.below(51)));
    0x7ff0_0000_0000_0000 | sign_and_51 | mark
}

/// A word of which sums, products and quotients stay finite for a while.
pub fn calm_word(rng: &mut Rng) -> u64 {
    0x3fc0_0000_0000_0000 | rng.bits() & 0x807f_ffff_ffff_ffff
}

/// What the instructions of one sheet draw on.
struct Pools {
    mode: u8,
    registers: Vec<u8>,
    indices: Vec<u16>,
    constants: usize,
    roots: bool,
}

fn pools(rng: &mut Rng, mode: u8, constants: usize) -> Pools {
    let mut registers: Vec<u8> = (0..2 + rng.below(4)).map(|_| rng.below(30) as u8).collect();
    if rng.once_in(8) {
        registers.extend(0..30);
    }
    if !rng.once_in(3) {
        registers.push(RET);
    }
    if !rng.once_in(3) {
        registers.push(TEMP);
    }
    let mut indices: Vec<u16> = (0..1 + rng.below(3)).map(|_| rng.below(256) as u16).collect();
    indices.extend([2, 3]);
    Pools { mode, registers, indices, constants, roots: !rng.once_in(3) }
}

fn real_places(rng: &mut Rng, indices: &[u16]) -> [u8; 64] {
    match rng.below(4) {
        0 => [0; 64],
        1 => [255; 64],
        2 => std::array::from_fn(|_| rng.bits() as u8),
        _ => {
            let mut places = Vec::new();
            for index in indices {
                places.extend([(STACK, *index), (PARAM, *index)].into_iter().filter(|_| rng.once_in(2)));
            }
            make::real_places(&places)
        }
    }
}

/// An instruction that is well formed; it may be barred.
fn any_instruction(rng: &mut Rng, p: &Pools) -> Vec<u8> {
    let [a, b, c, d] = std::array::from_fn(|_| rng.pick(&p.registers));
    let index = rng.pick(&p.indices);
    let class = rng.pick(&[STACK, MEM, PARAM]);
    let constant = rng.below(p.constants.max(1)) as u16;
    let op = rng.below(4) as u8;
    match rng.below(20) {
        0 if p.mode == MINDING && !rng.once_in(5) => make::bi(bi::DIVIDE, TEMP, a, b),
        1 if p.mode == MINDING || rng.once_in(2) => make::uni(uni::HALF, a, b),
        0 => make::nop(),
        1..=4 => make::uni(rng.pick(&SHEET_UNI), a, b),
        5..=8 => make::bi(rng.pick(&SHEET_BI), a, b, c),
        9 => make::mov(a, b),
        10 | 11 => make::load(a, class, index),
        12 | 13 => make::save(a, rng.pick(&[STACK, MEM]), index),
        14 | 15 if p.constants > 0 => make::load_const(a, constant),
        16 => make::fused(op, a, b, c, d),
        17 => make::if_else(a, b, c, STACK, index),
        18 => make::load_math(op, a, b, class, index),
        19 if p.constants > 0 => make::load_const_math(op, a, b, constant),
        _ => make::bi(rng.pick(&[bi::TIMES, bi::PLUS, bi::DIVIDE]), a, b, c),
    }
}

/// Whether an instruction may be barred, or is a Root where none is wanted.
fn set_aside(record: &[u8], p: &Pools) -> bool {
    let (kind, f) = (two(record, 2), &record[4..]);
    let special = |r: u8| r == RET || r == TEMP;
    let stable = p.mode != PLAIN;
    match kind {
        1 if f[0] == uni::ROOT || f[0] == uni::REAL_ROOT => !p.roots,
        1 => stable && f[0] == uni::ABS && f[2] == RET,
        2 => stable && f[0] == bi::DIVIDE && (special(f[2]) || special(f[3])),
        7 => f[4] == RET,
        9 => stable && f[0] == 3,
        _ => false,
    }
}

fn instruction(rng: &mut Rng, p: &Pools) -> Vec<u8> {
    loop {
        let record = any_instruction(rng, p);
        if !set_aside(&record, p) || rng.once_in(16) {
            return record;
        }
    }
}

/// A sheet in parts: what stands before the instructions, and those.
#[derive(Clone)]
pub struct Parts {
    pub head: Vec<u8>,
    pub instructions: Vec<Vec<u8>>,
}

impl Parts {
    /// The sheet of the first `count` instructions.
    pub fn prefix(&self, count: usize) -> Vec<u8> {
        [&self.head[..], &self.instructions[..count].concat()].concat()
    }

    pub fn mode(&self) -> u8 {
        self.head[4]
    }

    pub fn sheet(&self) -> Vec<u8> {
        self.prefix(self.instructions.len())
    }

    /// The first `count` instructions, a record that lowering refuses, by 2, or behind 612 by 14, and the labels behind them: the first ones
    /// are lowered as in the whole sheet, whatever they branch to.
    pub fn cut(&self, count: usize) -> Vec<u8> {
        let labels = self.instructions[count..].iter().filter(|r| two(r, 2) == LABEL);
        [self.prefix(count), make::raw(CALL, &[0]), labels.flatten().copied().collect()].concat()
    }
}

/// A sheet of `length` well-formed instructions in any mode; lowering takes at most 612.
pub fn parts(rng: &mut Rng, length: usize) -> Parts {
    let mode = rng.pick(&MODES);
    parts_in(mode, rng, length)
}

/// The same in one mode.
pub fn parts_in(mode: u8, rng: &mut Rng, length: usize) -> Parts {
    let constants = match rng.below(12) {
        0 => 0,
        1 => SHEET_CONSTANTS,
        _ => 1 + rng.below(5),
    };
    let p = pools(rng, mode, constants);
    let mut head = make::header(mode, &real_places(rng, &p.indices));
    for _ in 0..constants {
        head.extend(make::constant(any_word(rng)));
    }
    let instructions = (0..length).map(|_| instruction(rng, &p)).collect();
    Parts { head, instructions }
}

/// A record put before the instruction at an index; of those at one index the lower rank stands first.
struct Woven {
    index: usize,
    rank: usize,
    record: Vec<u8>,
}

fn any_label(rng: &mut Rng) -> u8 {
    if rng.once_in(2) {
        rng.pick(&[3, 4, 5, 254, 255])
    } else {
        OWN_LABEL + rng.below(253) as u8
    }
}

fn any_branch(rng: &mut Rng, label: u8, registers: &[u8]) -> Vec<u8> {
    if rng.once_in(4) {
        make::branch(label)
    } else {
        make::branch_if(rng.pick(registers), label, rng.below(2) as u8)
    }
}

/// A label and branches to it from before: mostly from where the same is recorded.
fn with_branches(rng: &mut Rng, label: u8, points: &[Point], registers: &[u8]) -> Vec<Woven> {
    let (to, rank) = (rng.below(points.len()), rng.below(100));
    let equal: Vec<usize> = (0..=to).filter(|from| points[*from].realness == points[to].realness).collect();
    let mut found = Vec::new();
    for _ in 0..rng.pick(&[0, 1, 1, 1, 1, 2, 2, 3]) {
        let index = if rng.once_in(16) { rng.below(to + 1) } else { rng.pick(&equal) };
        let before = if index == to { rng.below(rank + 1) } else { rng.below(100) };
        found.push(Woven { index, rank: before, record: any_branch(rng, label, registers) });
    }
    found.push(Woven { index: to, rank, record: make::label(label) });
    found
}

/// The registers that a sheet's instructions name, or general 0.
fn named(parts: &Parts) -> Vec<u8> {
    let mut found: Vec<u8> = Vec::new();
    for record in &parts.instructions {
        let (destination, operands) = crate::claim::destination_and_operands(record);
        found.extend(operands.iter().copied().chain(destination));
    }
    if found.is_empty() {
        found.push(0);
    }
    found
}

/// The sheet with a Load from Mem of every register that it names before its instructions; that changes no record.
pub fn filling(rng: &mut Rng, parts: &Parts) -> Parts {
    let mut registers = named(parts);
    registers.sort();
    registers.dedup();
    let load = |register| make::load(register, MEM, rng.below(8) as u16);
    let mut instructions: Vec<Vec<u8>> = registers.into_iter().map(load).collect();
    instructions.extend(parts.instructions.iter().cloned());
    Parts { head: parts.head.clone(), instructions }
}

/// The sheet with labels and branches put between its instructions; they list themselves and change no record.
pub fn woven(rng: &mut Rng, parts: &Parts) -> Parts {
    let (_, points) = lower_with_points(&parts.sheet(), &mut vec![0; LISTING_LIMIT], &mut [0; TABLE]);
    let registers = named(parts);
    let mut labels: Vec<u8> = (0..1 + rng.below(4)).map(|_| any_label(rng)).collect();
    if rng.once_in(100) {
        labels = (OWN_LABEL..255).collect();
    }
    labels.sort();
    labels.dedup();
    let mut more: Vec<Woven> = Vec::new();
    for label in labels {
        more.extend(with_branches(rng, label, &points, &registers));
    }
    more.sort_by_key(|one| (one.index, one.rank));
    let mut rest = more.into_iter().peekable();
    let mut instructions = Vec::new();
    for index in 0..=parts.instructions.len() {
        while let Some(one) = rest.next_if(|one| one.index == index) {
            instructions.push(one.record);
        }
        instructions.extend(parts.instructions.get(index).cloned());
    }
    Parts { head: parts.head.clone(), instructions }
}

/// A fault of labels and branches, or a record that looking ahead passes or stops at.
fn with_fault(rng: &mut Rng, row: &mut Vec<Vec<u8>>) {
    let at = rng.below(row.len() + 1);
    let own: Vec<u8> = row.iter().filter(|r| two(r, 2) == LABEL).map(|r| r[4]).collect();
    let label = if own.is_empty() { any_label(rng) } else { rng.pick(&own) };
    let other = any_label(rng);
    let low = rng.below(3) as u8;
    let third = rng.pick(&[2, 3, 128, 255]);
    let record = match rng.below(14) {
        0 | 1 => make::label(label),
        2 => make::branch(label),
        3 => make::branch_if(low, label, low % 2),
        4 => make::branch(other),
        5 => make::label(low),
        6 => make::branch(low),
        7 => make::branch_if(0, low, 0),
        8 => make::branch_if(0, label, third),
        9 => make::branch_if(32, label, third),
        10 => make::raw(rng.pick(&[11, 12, 13, 16, 18, 32, 33, 255, 270]), &[label]),
        11 => make::raw(rng.pick(&[0, 3, 14, 15, 17]), &[label, 0]),
        12 => make::uni(0, 32, 0),
        _ => {
            row.retain(|r| two(r, 2) != LABEL || r[4] != label);
            return;
        }
    };
    row.insert(at, record);
}

fn any_length(rng: &mut Rng) -> usize {
    match rng.below(200) {
        0 => INSTRUCTIONS - 12 + rng.below(24),
        1..=9 => rng.below(300),
        _ => rng.below(14),
    }
}

/// A copy with a few bytes changed, cut, inserted or dropped.
pub fn damaged(rng: &mut Rng, bytes: &[u8]) -> Vec<u8> {
    let mut copy = bytes.to_vec();
    for _ in 0..1 + rng.below(3) {
        let at = rng.below(copy.len() + 1);
        match rng.below(6) {
            0 => copy.truncate(at),
            1 => copy.insert(at, rng.bits() as u8),
            2 if at < copy.len() => drop(copy.remove(at)),
            3 if at < copy.len() => copy[at] = rng.pick(&[0, 1, 2, 3, 4, 10, 11, 30, 31, 32, 33, 64, 65, 66, 255]),
            4 if at < copy.len() => copy[at] ^= 1 << rng.below(8),
            _ => {
                let more: Vec<u8> = (0..rng.below(6)).map(|_| rng.bits() as u8).collect();
                copy.splice(at..at, more);
            }
        }
    }
    copy
}

/// A sheet to lower: bytes, room of the listing, words of the table.
#[derive(Clone)]
pub struct ToLower {
    pub sheet: Vec<u8>,
    pub room: usize,
    pub table: usize,
}

/// The bytes an accepted sheet needs.
fn needed(sheet: &[u8]) -> usize {
    let mut listing = vec![0; LISTING_LIMIT];
    Reference.lower(sheet, &mut listing, &mut [0; TABLE]).written as usize
}

pub fn to_lower(rng: &mut Rng) -> ToLower {
    let length = any_length(rng);
    let mut sheet = parts(rng, length).sheet();
    if rng.once_in(3) {
        sheet = damaged(rng, &sheet);
    }
    let room = match rng.below(8) {
        0 => needed(&sheet),
        1 => needed(&sheet).saturating_sub(1 + rng.below(12)),
        2 => rng.below(400),
        3 if rng.once_in(20) => LISTING_LIMIT + 1,
        _ => LISTING_LIMIT,
    };
    let table = if rng.once_in(200) { rng.pick(&[0, 255, 257]) } else { TABLE };
    ToLower { sheet, room, table }
}

/// The same of a sheet with labels and branches; some are at fault.
pub fn branching_to_lower(rng: &mut Rng) -> ToLower {
    let length = any_length(rng) % 600;
    let straight = parts(rng, length);
    let mut parts = woven(rng, &straight);
    if rng.once_in(3) {
        with_fault(rng, &mut parts.instructions);
    }
    let mut sheet = parts.sheet();
    if rng.once_in(10) {
        sheet = damaged(rng, &sheet);
    }
    let room = match rng.below(8) {
        0 => needed(&sheet),
        1 => needed(&sheet).saturating_sub(1 + rng.below(12)),
        _ => LISTING_LIMIT,
    };
    ToLower { sheet, room, table: TABLE }
}

/// A play: listing, constants, store, start record.
#[derive(Clone)]
pub struct ToPlay {
    pub listing: Vec<u8>,
    pub constants: Vec<u64>,
    pub store: Vec<u64>,
    pub start: u64,
}

/// A store with one word everywhere but in the registers and the places of these indices; half of the stores are calm.
pub fn any_store(rng: &mut Rng, indices: &[u16]) -> Vec<u64> {
    let some = if rng.once_in(2) { any_word } else { calm_word };
    let mut store = vec![rng.bits(); STORE];
    for word in &mut store[..66] {
        *word = some(rng);
    }
    for class in 0..3 {
        for index in indices {
            let at = crate::player::place_word(class, *index);
            store[at] = if rng.once_in(3) { rng.pick(&[0, u64::MAX]) } else { some(rng) };
            store[at + 1] = some(rng);
        }
    }
    store
}

/// The same with more zeros of both signs among the registers: what conditions tell apart.
pub fn store_of_conditions(rng: &mut Rng, indices: &[u16]) -> Vec<u64> {
    let mut store = any_store(rng, indices);
    for word in &mut store[..66] {
        if rng.once_in(2) {
            *word = rng.pick(&[0, 0, 0, 1 << 63, u64::MAX]);
        }
    }
    store
}

/// The indices of the places in a listing whose records are readable.
pub fn indices_of(listing: &[u8]) -> Vec<u16> {
    let mut found = Vec::new();
    for record in records(listing) {
        let at = match two(record, 2) {
            4 | 5 => 6,
            8 => 8,
            11 | 12 => 7,
            _ => continue,
        };
        if record.len() >= at + 2 && two(record, at) < 256 {
            found.push(two(record, at));
        }
    }
    found.sort();
    found.dedup();
    found
}

/// A record that works on words.
fn working(rng: &mut Rng, registers: &[u8], constants: usize) -> Vec<u8> {
    let r: [u8; 6] = std::array::from_fn(|_| rng.pick(registers));
    let index = rng.pick(&[0, 1, 2, 255]);
    let class = rng.below(3) as u8;
    match rng.below(15) {
        0..=2 => make::uni(rng.pick(&LISTING_UNI), r[0], r[1]),
        3..=6 => make::bi(rng.pick(&LISTING_BI), r[0], r[1], r[2]),
        7 => make::mov(r[0], r[1]),
        8 => make::load(r[0], class, index),
        9 => make::save(r[0], class % 2, index),
        10 if constants > 0 => make::load_const(r[0], rng.below(constants) as u16),
        11 => make::fused(0, r[0], r[1], r[2], r[3]),
        12 => make::if_else(r[0], r[1], r[2], STACK, index),
        13 if rng.once_in(2) => make::load_complex(r[0], r[1], class, index),
        13 => make::save_complex(r[0], r[1], class % 2, index),
        _ => make::complex_bi(rng.below(4) as u8, r),
    }
}

/// Working records, a block among them, calls of it, and a Branch 2 over some of them.
fn any_listing(rng: &mut Rng, constants: usize) -> Vec<u8> {
    let registers: Vec<u8> = (0..2 + rng.below(5)).map(|_| rng.below(66) as u8).collect();
    let length = rng.below(12);
    let mut row: Vec<Vec<u8>> = (0..length).map(|_| working(rng, &registers, constants)).collect();
    if rng.once_in(2) {
        let at = rng.below(row.len() + 1);
        let inner = (0..rng.below(4)).map(|_| working(rng, &registers, constants));
        let block: Vec<Vec<u8>> = std::iter::once(make::label(1)).chain(inner).chain([make::branch(0)]).collect();
        row.splice(at..at, block);
        for _ in 0..rng.below(3) {
            row.insert(rng.below(row.len() + 1), make::call(1));
        }
    }
    if rng.once_in(2) {
        let from = rng.below(row.len() + 1);
        row.insert(from, make::branch(2));
        row.insert(from + 1 + rng.below(row.len() - from), make::label(2));
    }
    if rng.once_in(3) {
        let stray = [make::label(0), make::label(1), make::label(2), make::branch(0), make::branch(1), make::branch(2)];
        let at = rng.below(row.len() + 1);
        row.insert(at, stray[rng.below(6)].clone());
    }
    row.concat()
}

/// A listing with labels from 3 up and branches to them put between its records, mostly outside its block.
fn branching_listing(rng: &mut Rng, constants: usize) -> Vec<u8> {
    let bytes = any_listing(rng, constants);
    let mut row: Vec<Vec<u8>> = records(&bytes).into_iter().map(|r| r.to_vec()).collect();
    let registers: Vec<u8> = (0..3).map(|_| rng.below(66) as u8).collect();
    let mut labels: Vec<u8> = (0..1 + rng.below(3)).map(|_| any_label(rng)).collect();
    labels.sort();
    labels.dedup();
    for label in labels {
        let at = outside(rng, &row);
        row.insert(at, make::label(label));
        for _ in 0..rng.pick(&[0, 1, 1, 2, 3]) {
            let to = row.iter().position(|r| *r == make::label(label)).unwrap_or(0);
            let from = if rng.once_in(16) { rng.below(row.len() + 1) } else { outside(rng, &row[..to]) };
            row.insert(from, any_branch(rng, label, &registers));
        }
    }
    if rng.once_in(6) {
        with_fault(rng, &mut row);
    }
    row.concat()
}

/// Where a record may be put into a row: outside its block, but for one time in 16.
fn outside(rng: &mut Rng, row: &[Vec<u8>]) -> usize {
    let block = row.iter().position(|r| *r == make::label(1));
    let end = block.map(|from| row[from..].iter().position(|r| *r == make::branch(0)).map_or(row.len(), |n| from + n));
    let free: Vec<usize> =
        (0..=row.len()).filter(|at| block.is_none_or(|from| *at <= from) || end.is_some_and(|to| *at > to)).collect();
    if free.is_empty() || rng.once_in(16) {
        rng.below(row.len() + 1)
    } else {
        rng.pick(&free)
    }
}

/// The listing and constants of a sheet, as far as it was accepted.
fn lowered(sheet: &[u8]) -> (Vec<u8>, Vec<u64>) {
    let (mut listing, mut constants) = (vec![0; LISTING_LIMIT], vec![0; TABLE]);
    let answer = Reference.lower(sheet, &mut listing, &mut constants);
    listing.truncate(answer.written as usize);
    constants.truncate(answer.count as usize);
    (listing, constants)
}

fn any_start(rng: &mut Rng, listing: &[u8]) -> u64 {
    let count = records(listing).len();
    match rng.below(6) {
        0 => rng.below(count + 2) as u64,
        1 if rng.once_in(8) => rng.bits(),
        _ => 0,
    }
}

/// The same of a listing with labels from 3 up and branches to them.
pub fn branching_to_play(rng: &mut Rng) -> ToPlay {
    let (mut listing, constants) = if rng.once_in(3) {
        let length = any_length(rng) % 600;
        let straight = parts(rng, length);
        lowered(&woven(rng, &straight).sheet())
    } else {
        let count = rng.pick(&[0, 1, 3, 256]);
        (branching_listing(rng, count), (0..count).map(|_| any_word(rng)).collect())
    };
    if rng.once_in(10) {
        listing = damaged(rng, &listing);
    }
    let start = any_start(rng, &listing);
    let store = store_of_conditions(rng, &indices_of(&listing));
    ToPlay { listing, constants, store, start }
}

pub fn to_play(rng: &mut Rng) -> ToPlay {
    let (mut listing, constants) = if rng.once_in(3) {
        let length = any_length(rng);
        lowered(&parts(rng, length).sheet())
    } else {
        let count = rng.pick(&[0, 1, 3, 256]);
        (any_listing(rng, count), (0..count).map(|_| any_word(rng)).collect())
    };
    if rng.once_in(5) {
        listing = damaged(rng, &listing);
    }
    let start = any_start(rng, &listing);
    let mut store = any_store(rng, &indices_of(&listing));
    if rng.once_in(200) {
        store.truncate(STORE - 1);
    }
    ToPlay { listing, constants, store, start }
}
