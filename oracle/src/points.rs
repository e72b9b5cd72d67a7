//! The meaning of a sheet beside the play of its listing: at each point of the play every register and every place is compared, its type
//! with what lowering records, its words with the store's.

use std::collections::HashSet;

use crate::format::{two, LISTING_LIMIT, TABLE};
use crate::meaning::{instruction, pair, place_pair, Instruction, Sheet, State, STACK_2};
use crate::names::uni;
use crate::player::Watched;
use crate::reference::{lower_with_points, Point, Realness};
use crate::tidy;
use crate::value::Value;

/// An accepted sheet with the unchanged Rust's listing of it.
pub struct Lowered {
    sheet: Vec<u8>,
    pub listing: Vec<u8>,
    constants: Vec<u64>,
    points: Vec<Point>,
}

/// `None` where the sheet is refused.
pub fn lowered(sheet: Vec<u8>) -> Option<Lowered> {
    let (mut listing, mut constants) = (vec![0; LISTING_LIMIT], vec![0; TABLE]);
    let (answer, points) = lower_with_points(&sheet, &mut listing, &mut constants);
    listing.truncate(answer.written as usize);
    constants.truncate(answer.count as usize);
    (answer.number == 0).then_some(Lowered { sheet, listing, constants, points })
}

/// What was met: points behind an instruction, jumps, words lost by a Half, points of tidy sheets by their rows alone, and the forms of
/// the instructions done.
#[derive(Default)]
pub struct Met {
    pub points: u64,
    pub jumps: u64,
    pub lost: u64,
    pub tidy: u64,
    pub forms: HashSet<Form>,
}

/// An instruction by mode, kind, operation or a BranchIf's last byte, and the types of what it takes: a bit for each R.
pub type Form = (u8, u16, u8, u8);

fn form(sheet: &Sheet, state: &State, at: usize) -> Form {
    let record = sheet.instructions[at];
    let real = |register: u8| u8::from(state.get(register).is_real());
    let real_place = |place: usize| u8::from(state.places[place].is_real());
    let (op, types) = match instruction(record) {
        Instruction::Uni { op, d, a } if op == uni::HALF => (op, [real(a), real(d), 0]),
        Instruction::Uni { op, a, .. } => (op, [real(a), 0, 0]),
        Instruction::Bi { op, a, b, .. } => (op, [real(a), real(b), 0]),
        Instruction::Mov { a, .. } | Instruction::Save { a, .. } => (0, [real(a), 0, 0]),
        Instruction::Load { place, .. } => (0, [real_place(place), 0, 0]),
        Instruction::Fused { op, a, b, c, .. } => (op, [real(a), real(b), real(c)]),
        Instruction::IfElse { a, b, place, .. } => (0, [real(a), real(b), real_place(place)]),
        Instruction::LoadMath { op, a, place, .. } => (op, [real(a), real_place(place), 0]),
        Instruction::LoadConstMath { op, a, .. } => (op, [real(a), 0, 0]),
        Instruction::BranchIf { a, zero, .. } => (u8::from(zero), [real(a), 0, 0]),
        Instruction::Nothing | Instruction::LoadConst { .. } | Instruction::Branch { .. } => (0, [0; 3]),
    };
    (sheet.mode, two(record, 2), op, types[0] | types[1] << 1 | types[2] << 2)
}

/// The forms of one mode: Nop, Label and Branch, Uni (Half by d too), Bi, Mov, Load, Save, LoadConst, Fused, IfElse, LoadMath (in modes 1
/// and 2 no Divide by a C), LoadConstMath, BranchIf.
const PLAIN_FORMS: usize = 3 + (20 * 2 + 2) + 14 * 4 + 2 + 2 + 2 + 1 + 4 * 8 + 8 + 4 * 4 + 4 * 2 + 2 * 2;
pub const FORMS: usize = PLAIN_FORMS + 2 * (PLAIN_FORMS - 2);

/// What is compared: the first registers, and every place but one.
#[derive(Clone, Copy)]
struct Counted {
    registers: usize,
    but: Option<usize>,
}

/// A value beside its record and its words in the store.
fn agrees(value: Value, real: bool, store: &[u64], (re, im): (usize, usize)) -> bool {
    match value {
        Value::R(x) => real && x == store[re],
        Value::C(x, y) => !real && x == store[re] && y == store[im],
    }
}

/// The first register or place that differs.
fn difference(state: &State, record: &Realness, store: &[u64], counted: Counted) -> Option<String> {
    let text = |what: &str, at: usize, value: Value, real: bool, (re, im): (usize, usize)| {
        format!("{what} {at} is {value:x?}, recorded real: {real}, in the store {:x} {:x}", store[re], store[im])
    };
    for (r, value) in state.registers.iter().enumerate().take(counted.registers) {
        if !agrees(*value, record.registers[r], store, pair(r)) {
            return Some(text("register", r, *value, record.registers[r], pair(r)));
        }
    }
    for (at, value) in state.places.iter().enumerate().filter(|(at, _)| Some(*at) != counted.but) {
        let real = record.real_place((at / 256) as u8, (at % 256) as u16);
        if !agrees(*value, real, store, place_pair(at)) {
            return Some(text("place", at, *value, real, place_pair(at)));
        }
    }
    None
}

/// One of two readings of a sheet: its meaning, or the rows alone.
struct Reading<'a> {
    name: &'a str,
    state: State,
    counted: Counted,
}

impl Reading<'_> {
    fn check(&self, point: &Point, store: &[u64], at: usize) -> Result<(), String> {
        match difference(&self.state, &point.realness, store, self.counted) {
            Some(text) => Err(format!("{}, point {at}: {text}", self.name)),
            None => Ok(()),
        }
    }
}

/// The half that a Half of an R into a C takes in modes 0 and 1, which nobody knows: read from the store behind it.
fn lost(sheet: &Sheet, state: &State, at: usize, store: &[u64]) -> Option<u64> {
    match instruction(sheet.instructions[at]) {
        _ if sheet.minding() => None,
        Instruction::Uni { op: uni::HALF, d, a } if state.get(a).is_real() && !state.get(d).is_real() => {
            Some(store[pair(d as usize).1])
        }
        _ => None,
    }
}

/// Plays the listing from record 0 and goes along by the meaning, and by the rows alone where the sheet is tidy; the first difference.
pub fn compared(lowered: &Lowered, store: &[u64], met: &mut Met) -> Result<(), String> {
    let sheet = Sheet::read(&lowered.sheet);
    let points = &lowered.points;
    let start = State::start(&sheet, store);
    let whole = Counted { registers: 32, but: None };
    let mut meaning = Reading { name: "meaning", state: start.clone(), counted: whole };
    let counting = Counted { registers: 30, but: tidy::roots(&sheet).then_some(STACK_2) };
    let mut rows = tidy::tidy(&sheet, points.iter().map(|p| &p.realness)).then_some(Reading {
        name: "rows alone",
        state: start,
        counted: counting,
    });
    let mut play = Watched::new(&lowered.listing, &lowered.constants, store.to_vec()).ok_or("a listing is refused")?;
    meaning.check(&points[0], &play.store, 0)?;
    let mut at = 0;
    while at < sheet.instructions.len() {
        met.forms.insert(form(&sheet, &meaning.state, at));
        let stands = play.leave(points[at].records..points[at + 1].records);
        let word = lost(&sheet, &meaning.state, at, &play.store);
        let next = meaning.state.step(&sheet, at, word.unwrap_or(0));
        if stands != points[next].records {
            return Err(format!("the meaning goes from {at} to {next}, the play to record {stands}"));
        }
        meaning.check(&points[next], &play.store, next)?;
        if let Some(rows) = &mut rows {
            if tidy::row(&mut rows.state, &sheet, at) != next {
                return Err(format!("the rows alone do not go from {at} to {next}"));
            }
            rows.check(&points[next], &play.store, next)?;
            met.tidy += 1;
        }
        met.points += 1;
        met.jumps += u64::from(next != at + 1);
        met.lost += u64::from(word.is_some());
        at = next;
    }
    Ok(())
}
