//! Document 01's lowering with document 02's branches, its limit of 612 instructions, its mode 2 and its marks: the wrapper written from their
//! rules, around the Rust's own `complexify`; in mode 2 Half and a Divide into Temp are listed by the Rust's methods in the order that document
//! 02 gives; the marks are those of the Rust's listing, and a constant's origin is the instruction by which the Rust made its constants longer.

use std::cell::Cell;
use std::collections::HashSet;
use std::panic::{catch_unwind, AssertUnwindSafe};
use std::sync::Once;

use crate::encode;
use crate::format::*;
use crate::marks::{self, Marks};
use crate::rust::complexify::{divide_by_ret, half_minding, listed_by, realness, Complexifier};
use crate::rust::config::Config;
use crate::rust::mir::{ArithOp, BinOp, Instruction, Mir, UniOp};
use crate::rust::symbol::Loc;
use crate::rust::utils::Reg;

/// Register flags by sheet register number, and the 64 bytes of real places as in a header.
#[derive(Clone, Debug, PartialEq)]
pub struct Realness {
    pub registers: [bool; 32],
    pub places: [u8; 64],
}

impl Realness {
    pub fn all_complex() -> Realness {
        Realness { registers: [false; 32], places: [0; 64] }
    }

    /// Whether a place is recorded as real; Mem never is.
    pub fn real_place(&self, class: u8, index: u16) -> bool {
        let from = match class {
            STACK => 0,
            PARAM => 32,
            _ => return false,
        };
        let i = index as usize;
        self.places[from + i / 8] >> (i % 8) & 1 == 1
    }

    fn real_register(&self, register: Reg) -> bool {
        self.registers[(0..32).find(|n| encode::register(*n) == register).unwrap() as usize]
    }

    /// What the Rust holds now, in document 01's order.
    fn of(complexifier: &Complexifier) -> Realness {
        let (flags, locs) = realness(complexifier);
        let mut found = Realness::all_complex();
        for number in 0..32u8 {
            found.registers[number as usize] = flags[position(number)];
        }
        for loc in locs {
            match *loc {
                Loc::Stack(i) => found.places[i as usize / 8] |= 1 << (i % 8),
                Loc::Param(i) => found.places[32 + i as usize / 8] |= 1 << (i % 8),
                Loc::Mem(_) => panic!("a real place in Mem"),
            }
        }
        found
    }
}

/// Where the Rust keeps the flag of a sheet register: Ret, Temp, then the general ones.
fn position(number: u8) -> usize {
    match number {
        RET => 0,
        TEMP => 1,
        general => general as usize + 2,
    }
}

/// What lowering gives back.
#[derive(Clone, Debug, PartialEq)]
pub struct Answer {
    pub number: u32,
    pub index: u64,
    pub written: u64,
    pub count: u64,
    pub realness: Realness,
    pub marks: Marks,
    /// Of each constant counted the instruction that first appended it, or `FROM_THE_SHEET`.
    pub origins: Vec<u16>,
}

/// The origin of the sheet's own constants.
pub const FROM_THE_SHEET: u16 = 65_535;

impl Answer {
    fn setup() -> Answer {
        let realness = Realness::all_complex();
        Answer { number: SETUP, index: 0, written: 0, count: 0, realness, marks: Marks::none(), origins: Vec::new() }
    }
}

/// A sheet whose setup stands.
struct Sheet<'a> {
    mode: u8,
    places: [u8; 64],
    constants: Vec<u64>,
    instructions: &'a [u8],
}

/// The header and the constants; `None` is refusal 8.
fn open(sheet: &[u8]) -> Option<Sheet<'_>> {
    if sheet.len() < HEADER_LENGTH {
        return None;
    }
    if two(sheet, 0) as usize != HEADER_LENGTH || two(sheet, 2) != HEADER || !MODES.contains(&sheet[4]) {
        return None;
    }
    let mut rest = &sheet[HEADER_LENGTH..];
    let mut constants = Vec::new();
    while rest.len() >= 4 && two(rest, 2) == CONSTANT {
        if constants.len() == SHEET_CONSTANTS
            || two(rest, 0) as usize != CONSTANT_LENGTH
            || rest.len() < CONSTANT_LENGTH
        {
            return None;
        }
        constants.push(word(rest, 4));
        rest = &rest[CONSTANT_LENGTH..];
    }
    Some(Sheet { mode: sheet[4], places: sheet[5..69].try_into().unwrap(), constants, instructions: rest })
}

/// The fields of a record, read one after another.
struct Fields<'a> {
    rest: &'a [u8],
}

impl Fields<'_> {
    fn byte(&mut self) -> u8 {
        let byte = self.rest[0];
        self.rest = &self.rest[1..];
        byte
    }

    fn number(&mut self) -> u16 {
        let number = two(self.rest, 0);
        self.rest = &self.rest[2..];
        number
    }

    fn registers<const N: usize>(&mut self) -> Result<[Reg; N], u32> {
        let mut row = [Reg::Ret; N];
        let mut bad = false;
        for register in &mut row {
            let byte = self.byte();
            bad |= byte > TEMP;
            *register = encode::register(byte);
        }
        if bad {
            return Err(REGISTER);
        }
        Ok(row)
    }

    fn place(&mut self, classes: &[u8]) -> Result<Loc, u32> {
        let class = self.byte();
        let index = self.number();
        if !classes.contains(&class) || index > 255 {
            return Err(PLACE);
        }
        Ok(encode::place(class, index))
    }

    fn constant(&mut self, count: usize) -> Result<u32, u32> {
        let index = self.number();
        if index as usize >= count {
            return Err(MISSING);
        }
        Ok(index as u32)
    }
}

/// The first record of `rest` and its kind, or refusal 1 or 2: readable length, kind, kind's length.
fn framed(rest: &[u8]) -> Result<(&[u8], u16), u32> {
    let record = first(rest).ok_or(TORN)?;
    let kind = two(record, 2);
    if !matches!(kind, 0..=10 | LABEL | BRANCH | BRANCH_IF) {
        return Err(UNKNOWN);
    }
    if record.len() != LENGTHS[kind as usize] {
        return Err(TORN);
    }
    Ok((record, kind))
}

/// The instruction of the first record of `rest` and the record's length, or refusal 1 to 5, or 10 by its own bytes alone. `count`: the
/// sheet's own constants.
pub fn decode(rest: &[u8], count: usize) -> Result<(Instruction, usize), u32> {
    let (record, kind) = framed(rest)?;
    Ok((fields(kind, &record[4..], count)?, record.len()))
}

/// The fields of a record of the kind's length: operation, registers, place, label, constant.
fn fields(kind: u16, bytes: &[u8], count: usize) -> Result<Instruction, u32> {
    let mut f = Fields { rest: bytes };
    match kind {
        4 | 5 | 8 | 9 => with_place(kind, &mut f),
        6 | 10 => with_constant(kind, &mut f, count),
        LABEL | BRANCH | BRANCH_IF => with_label(kind, &mut f),
        _ => of_registers(kind, &mut f),
    }
}

/// Nop, Uni, Bi, Mov and Fused.
fn of_registers(kind: u16, f: &mut Fields) -> Result<Instruction, u32> {
    Ok(match kind {
        0 => Instruction::Nop,
        1 => {
            let op = encode::uni(f.byte()).ok_or(UNKNOWN)?;
            let [dst, s1] = f.registers()?;
            Instruction::Uni { op, dst, s1 }
        }
        2 => {
            let op = encode::bi(f.byte()).ok_or(UNKNOWN)?;
            let [dst, s1, s2] = f.registers()?;
            Instruction::Bi { op, dst, s1, s2 }
        }
        3 => {
            let [dst, s1] = f.registers()?;
            Instruction::Mov { dst, s1 }
        }
        _ => {
            let op = encode::fused(f.byte()).ok_or(UNKNOWN)?;
            let [dst, a, b, c] = f.registers()?;
            Instruction::Fused { op, dst, a, b, c }
        }
    })
}

/// Load, Save, IfElse and LoadMath.
fn with_place(kind: u16, f: &mut Fields) -> Result<Instruction, u32> {
    let every = &[STACK, MEM, PARAM];
    Ok(match kind {
        4 => {
            let [dst] = f.registers()?;
            Instruction::Load { dst, loc: f.place(every)? }
        }
        5 => {
            let [src] = f.registers()?;
            Instruction::Save { src, loc: f.place(&[STACK, MEM])? }
        }
        8 => {
            let [dst, true_val, false_val] = f.registers()?;
            Instruction::IfElse { dst, true_val, false_val, cond: f.place(&[STACK])? }
        }
        _ => {
            let op = encode::arith(f.byte()).ok_or(UNKNOWN)?;
            let [dst, s1] = f.registers()?;
            Instruction::LoadMath { op, dst, s1, loc: f.place(every)? }
        }
    })
}

/// LoadConst and LoadConstMath.
fn with_constant(kind: u16, f: &mut Fields, count: usize) -> Result<Instruction, u32> {
    if kind == 6 {
        let [dst] = f.registers()?;
        return Ok(Instruction::LoadConst { dst, idx: f.constant(count)? });
    }
    let op = encode::arith(f.byte()).ok_or(UNKNOWN)?;
    let [dst, s1] = f.registers()?;
    Ok(Instruction::LoadConstMath { op, dst, s1, idx: f.constant(count)? })
}

/// Label, Branch and BranchIf: 10 "for a label outside 3 to 255, or a third byte above 1".
fn with_label(kind: u16, f: &mut Fields) -> Result<Instruction, u32> {
    let cond = if kind == BRANCH_IF { Some(f.registers::<1>()?[0]) } else { None };
    let number = f.byte();
    let is_else = if kind == BRANCH_IF { f.byte() } else { 0 };
    if number < OWN_LABEL || is_else > 1 {
        return Err(MISPLACED);
    }
    let label = encode::label(number);
    Ok(match cond {
        Some(cond) => Instruction::BranchIf { cond, label, is_else: is_else == 1 },
        None if kind == BRANCH => Instruction::Branch { label },
        None => Instruction::Label { label },
    })
}

/// Where labels stand in a sheet, by instruction: "Looking ahead for a label stops at the first torn record"; a record of a kind that
/// sheets do not take is no torn one.
fn standings(instructions: &[u8]) -> Vec<(usize, String)> {
    let (mut found, mut rest, mut index) = (Vec::new(), instructions, 0);
    loop {
        match framed(rest) {
            Err(TORN) => return found,
            Ok((record, LABEL)) => found.push((index, encode::label(record[4]))),
            _ => {}
        }
        rest = &rest[two(rest, 0) as usize..];
        index += 1;
    }
}

/// Refusal 10 of the instruction at `index` by where labels stand: "at a branch with no such label later or one before it, at a label's
/// second standing".
fn misplaced(instruction: &Instruction, index: usize, standings: &[(usize, String)]) -> bool {
    let at = |label: &String| -> Vec<usize> { standings.iter().filter(|(_, l)| l == label).map(|(i, _)| *i).collect() };
    match instruction {
        Instruction::Label { label } => at(label)[0] != index,
        Instruction::Branch { label } | Instruction::BranchIf { label, .. } => {
            let places = at(label);
            places.iter().all(|i| *i < index) || places.iter().any(|i| *i < index)
        }
        _ => false,
    }
}

/// Refusal 6 as document 01's table says it, for the realness before the instruction. Mode 2 is stable.
fn barred(instruction: &Instruction, stable: bool, realness: &Realness) -> bool {
    let set_aside = |r: Reg| r == Reg::Ret || r == Reg::Temp;
    let complex = |r: Reg| !realness.real_register(r);
    match *instruction {
        Instruction::Fused { c, .. } => c == Reg::Ret,
        Instruction::Bi { op: BinOp::Divide, s1, s2, .. } => stable && complex(s2) && (set_aside(s1) || set_aside(s2)),
        Instruction::LoadMath { op: ArithOp::Divide, loc, .. } => {
            stable
                && !match loc {
                    Loc::Stack(i) => realness.real_place(STACK, i as u16),
                    Loc::Param(i) => realness.real_place(PARAM, i as u16),
                    Loc::Mem(_) => false,
                }
        }
        Instruction::Uni { op: UniOp::Abs, s1, .. } => stable && s1 == Reg::Ret && complex(s1),
        _ => false,
    }
}

/// What the Rust lists for some instructions: each record's bytes, and the constants then.
struct Listed {
    records: Vec<Vec<u8>>,
    constants: Vec<u64>,
}

/// The Rust's own `complexify` of these instructions over these constants.
pub fn complexify(complexifier: &mut Complexifier, stable: bool, constants: &[u64], row: &[Instruction]) -> Mir {
    let mut mir = Mir::new(Config::with_mode(stable));
    mir.consts = constants.iter().map(|bits| f64::from_bits(*bits)).collect();
    for instruction in row {
        mir.code.push(instruction);
    }
    complexifier.complexify(&mir).unwrap()
}

/// What an instruction lists that mode 2 lists otherwise than mode 1, by the Rust's methods: "Half", and "a Divide by a complex register into
/// Temp". `None` for any other.
fn minding(complexifier: &mut Complexifier, constants: &[u64], instruction: &Instruction) -> Option<Mir> {
    let before = Realness::of(complexifier);
    let constants: Vec<f64> = constants.iter().map(|bits| f64::from_bits(*bits)).collect();
    match *instruction {
        Instruction::Uni { op: UniOp::Half, dst, s1 } => {
            Some(listed_by(complexifier, &constants, |c| half_minding(c, dst, s1)))
        }
        Instruction::Bi { op: BinOp::Divide, dst: Reg::Temp, s1, s2 } if !before.real_register(s2) => {
            Some(listed_by(complexifier, &constants, |c| divide_by_ret(c, s1, s2)))
        }
        _ => None,
    }
}

/// Whether mode 2 may list an instruction otherwise, by the instruction alone.
fn may_mind(instruction: &Instruction) -> bool {
    matches!(
        instruction,
        Instruction::Uni { op: UniOp::Half, .. } | Instruction::Bi { op: BinOp::Divide, dst: Reg::Temp, .. }
    )
}

/// One instruction, in any mode.
fn list(complexifier: &mut Complexifier, mode: u8, constants: &[u64], instruction: &Instruction) -> Mir {
    if mode == MINDING {
        if let Some(mir) = minding(complexifier, constants, instruction) {
            return mir;
        }
    }
    complexify(complexifier, mode != PLAIN, constants, std::slice::from_ref(instruction))
}

impl Listed {
    fn of(mir: &Mir) -> Listed {
        Listed {
            records: mir.code.iter().map(|i| encode::listed(&i)).collect(),
            constants: mir.consts.iter().map(|c| c.to_bits()).collect(),
        }
    }
}

thread_local!(static EXPECTED: Cell<bool> = const { Cell::new(false) });

/// Runs what may fail one of the Rust's asserts, without its message; `None` where it did.
fn unless_asserted<T>(work: impl FnOnce() -> T) -> Option<T> {
    static HOOK: Once = Once::new();
    HOOK.call_once(|| {
        let usual = std::panic::take_hook();
        std::panic::set_hook(Box::new(move |info| {
            if !EXPECTED.get() {
                usual(info)
            }
        }));
    });
    EXPECTED.set(true);
    let outcome = catch_unwind(AssertUnwindSafe(work));
    EXPECTED.set(false);
    match outcome {
        Ok(value) => Some(value),
        Err(payload) => {
            let text = payload.downcast_ref::<&str>().copied().unwrap_or("");
            assert!(text.starts_with("assertion failed: s"), "the Rust panicked otherwise: {text}");
            None
        }
    }
}

/// The lowering so far: the state after the instructions that are finished.
struct Work {
    mode: u8,
    places: [u8; 64],
    complexifier: Complexifier,
    finished: Vec<Instruction>,
    constants: Vec<u64>,
    origins: Vec<u16>,
    listing: Vec<u8>,
    records: usize,
    realness: Realness,
    /// The label of each finished branch, and what was recorded there.
    branches: Vec<(String, Realness)>,
}

/// The places of a header as the Rust takes them.
pub fn real_set(places: &[u8; 64]) -> HashSet<Loc> {
    let mut reals = HashSet::new();
    for i in 0..256 {
        let bit = |from: usize| places[from + i as usize / 8] >> (i % 8) & 1 == 1;
        if bit(0) {
            reals.insert(Loc::Stack(i));
        }
        if bit(32) {
            reals.insert(Loc::Param(i));
        }
    }
    reals
}

fn fresh(places: &[u8; 64], mode: u8) -> Complexifier {
    Complexifier::new(&real_set(places), Config::with_mode(mode != PLAIN))
}

impl Work {
    fn new(sheet: &Sheet) -> Work {
        let complexifier = fresh(&sheet.places, sheet.mode);
        Work {
            mode: sheet.mode,
            places: sheet.places,
            realness: Realness::of(&complexifier),
            complexifier,
            finished: Vec::new(),
            constants: sheet.constants.clone(),
            origins: vec![FROM_THE_SHEET; sheet.constants.len()],
            listing: Vec::new(),
            records: 0,
            branches: Vec::new(),
        }
    }

    /// Refusal 11: "At each label, the records of all registers and places must equal those at every branch to it".
    fn unequal(&self, instruction: &Instruction) -> bool {
        match instruction {
            Instruction::Label { label } => self.branches.iter().any(|(l, r)| l == label && *r != self.realness),
            _ => false,
        }
    }

    /// One instruction more, or refusal 6, 11 or 7. After a refusal `complexifier` is not used again.
    fn lower(&mut self, instruction: Instruction, room: usize) -> Result<(), u32> {
        let (mode, constants) = (self.mode, &self.constants);
        let complexifier = &mut self.complexifier;
        let listed = unless_asserted(|| Listed::of(&list(complexifier, mode, constants, &instruction)));
        assert_eq!(listed.is_none(), barred(&instruction, mode != PLAIN, &self.realness), "{instruction:?}");
        let listed = listed.ok_or(BARRED)?;
        if self.unequal(&instruction) {
            return Err(UNEQUAL);
        }
        let bytes = listed.records.concat();
        if bytes.len() > room - self.listing.len() {
            return Err(FULL);
        }
        self.listing.extend(bytes);
        self.records += listed.records.len();
        self.constants = listed.constants;
        self.origins.resize(self.constants.len(), self.finished.len() as u16);
        if let Instruction::Branch { label } | Instruction::BranchIf { label, .. } = &instruction {
            self.branches.push((label.clone(), self.realness.clone()));
        }
        self.realness = Realness::of(&self.complexifier);
        self.finished.push(instruction);
        Ok(())
    }

    /// The finished instructions once more on a fresh `Complexifier`, in one call, in mode 2 in one call between those that may be listed
    /// otherwise there: the same bytes, constants and realness.
    fn check_whole(&self, own: &[u64]) {
        let mut complexifier = fresh(&self.places, self.mode);
        let mut whole = Listed { records: Vec::new(), constants: own.to_vec() };
        let apart = |one: &Instruction| self.mode == MINDING && may_mind(one);
        for row in self.finished.chunk_by(|one, next| !apart(one) && !apart(next)) {
            let constants = &whole.constants;
            let mir = match row {
                [one] if apart(one) => list(&mut complexifier, self.mode, constants, one),
                _ => complexify(&mut complexifier, self.mode != PLAIN, constants, row),
            };
            let listed = Listed::of(&mir);
            whole.records.extend(listed.records);
            whole.constants = listed.constants;
        }
        assert_eq!(whole.records.concat(), self.listing);
        assert_eq!(whole.constants, self.constants);
        assert_eq!(Realness::of(&complexifier), self.realness);
    }
}

/// Where the listing of the first i instructions ends, and what is recorded then.
#[derive(Clone, Debug)]
pub struct Point {
    pub bytes: usize,
    pub records: usize,
    pub realness: Realness,
}

fn point(work: &Work) -> Point {
    Point { bytes: work.listing.len(), records: work.records, realness: work.realness.clone() }
}

/// Document 01's lowering into lent slices, with the points of the finished instructions.
pub fn lower_with_points(sheet: &[u8], listing: &mut [u8], constants: &mut [u64]) -> (Answer, Vec<Point>) {
    if listing.len() > LISTING_LIMIT || constants.len() != TABLE {
        return (Answer::setup(), Vec::new());
    }
    let Some(opened) = open(sheet) else {
        return (Answer::setup(), Vec::new());
    };
    let mut work = Work::new(&opened);
    let mut points = vec![point(&work)];
    let standings = standings(opened.instructions);
    let mut rest = opened.instructions;
    let mut number = 0;
    while !rest.is_empty() {
        if work.finished.len() == INSTRUCTIONS {
            number = LONG;
            break;
        }
        let outcome = decode(rest, opened.constants.len()).and_then(|(instruction, length)| {
            if misplaced(&instruction, work.finished.len(), &standings) {
                return Err(MISPLACED);
            }
            work.lower(instruction, listing.len())?;
            Ok(length)
        });
        match outcome {
            Ok(length) => rest = &rest[length..],
            Err(refusal) => {
                number = refusal;
                break;
            }
        }
        points.push(point(&work));
    }
    work.check_whole(&opened.constants);
    listing[..work.listing.len()].copy_from_slice(&work.listing);
    constants[..work.constants.len()].copy_from_slice(&work.constants);
    let answer = Answer {
        number,
        index: work.finished.len() as u64,
        written: work.listing.len() as u64,
        count: work.constants.len() as u64,
        realness: work.realness,
        marks: marks::of(&work.listing),
        origins: work.origins,
    };
    (answer, points)
}

/// Document 01's lowering into lent slices.
pub fn lower(sheet: &[u8], listing: &mut [u8], constants: &mut [u64]) -> Answer {
    lower_with_points(sheet, listing, constants).0
}
