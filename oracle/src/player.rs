//! Document 01's player with document 02's operations, marks and branches, over f64 arithmetic of this machine. Written from their rules
//! alone.

use std::ops::Range;

use crate::format::*;
use crate::names::{bi, uni, LISTING_BI, LISTING_UNI};

/// What playing gives back.
#[derive(Clone, Copy, Debug, PartialEq)]
pub struct Played {
    pub number: u32,
    pub index: u64,
    pub played: u64,
}

/// Document 02's "NaN made from operands that are none".
const NAN: u64 = 0x7ff8_0000_0000_0000;
const INFINITY: u64 = 0x7ff0_0000_0000_0000;
const SIGN: u64 = 1 << 63;
/// The bit that is set in a NaN which arithmetic hands on.
const BIT_51: u64 = 1 << 51;

#[derive(Clone, Copy, Debug)]
struct Place {
    class: u8,
    index: u16,
}

#[derive(Clone, Copy, Debug)]
enum Record {
    Uni { op: u8, dst: u8, s1: u8 },
    Bi { op: u8, dst: u8, s1: u8, s2: u8 },
    Mov { dst: u8, s1: u8 },
    Load { dst: u8, place: Place },
    Save { src: u8, place: Place },
    LoadConst { dst: u8, constant: u16 },
    MulAdd { dst: u8, a: u8, b: u8, c: u8 },
    IfElse { dst: u8, true_val: u8, false_val: u8, place: Place },
    LoadComplex { xd: u8, yd: u8, place: Place },
    SaveComplex { xs: u8, ys: u8, place: Place },
    ComplexBi { op: u8, xd: u8, yd: u8, x1: u8, y1: u8, x2: u8, y2: u8 },
    Label(u8),
    Branch(u8),
    Call(u8),
    BranchIf { cond: u8, label: u8, is_else: bool },
}

/// One record, or its refusal 1 to 5.
fn examine(record: Option<&[u8]>, constants: usize) -> Result<Record, u32> {
    let record = record.ok_or(TORN)?;
    let kind = two(record, 2);
    if !matches!(kind, 1..=8 | 11..=17) {
        return Err(UNKNOWN);
    }
    if record.len() != LENGTHS[kind as usize] {
        return Err(TORN);
    }
    let fields = &record[4..];
    check_operation(kind, fields)?;
    check_registers(registers(kind, fields))?;
    check_place(kind, fields)?;
    if kind == 6 && two(fields, 1) as usize >= constants {
        return Err(MISSING);
    }
    Ok(read(kind, fields))
}

/// The operation, or a BranchIf's third byte.
fn check_operation(kind: u16, fields: &[u8]) -> Result<(), u32> {
    let known = match kind {
        1 => LISTING_UNI.contains(&fields[0]),
        2 => LISTING_BI.contains(&fields[0]),
        7 => fields[0] == 0,
        13 => fields[0] <= 3,
        17 => fields[2] <= 1,
        _ => true,
    };
    if known {
        Ok(())
    } else {
        Err(UNKNOWN)
    }
}

/// The bytes of a record that are registers.
fn registers(kind: u16, fields: &[u8]) -> &[u8] {
    match kind {
        1 | 2 | 7 | 13 => &fields[1..],
        3 => fields,
        4..=6 | 17 => &fields[..1],
        8 => &fields[..3],
        11 | 12 => &fields[..2],
        _ => &[],
    }
}

fn check_registers(registers: &[u8]) -> Result<(), u32> {
    if registers.iter().any(|r| *r > LISTING_TEMP) {
        return Err(REGISTER);
    }
    Ok(())
}

/// The place of a record that has one.
fn place(kind: u16, fields: &[u8]) -> Option<Place> {
    let at = match kind {
        4 | 5 => 1,
        8 => 3,
        11 | 12 => 2,
        _ => return None,
    };
    Some(Place { class: fields[at], index: two(fields, at + 1) })
}

fn check_place(kind: u16, fields: &[u8]) -> Result<(), u32> {
    let Some(place) = place(kind, fields) else {
        return Ok(());
    };
    let classes = match kind {
        5 | 12 => STACK..=MEM,
        8 => STACK..=STACK,
        _ => STACK..=PARAM,
    };
    if classes.contains(&place.class) && place.index <= 255 {
        Ok(())
    } else {
        Err(PLACE)
    }
}

/// The record of fields that were examined.
fn read(kind: u16, f: &[u8]) -> Record {
    let place = place(kind, f).unwrap_or(Place { class: 0, index: 0 });
    match kind {
        1 => Record::Uni { op: f[0], dst: f[1], s1: f[2] },
        2 => Record::Bi { op: f[0], dst: f[1], s1: f[2], s2: f[3] },
        3 => Record::Mov { dst: f[0], s1: f[1] },
        4 => Record::Load { dst: f[0], place },
        5 => Record::Save { src: f[0], place },
        6 => Record::LoadConst { dst: f[0], constant: two(f, 1) },
        7 => Record::MulAdd { dst: f[1], a: f[2], b: f[3], c: f[4] },
        8 => Record::IfElse { dst: f[0], true_val: f[1], false_val: f[2], place },
        11 => Record::LoadComplex { xd: f[0], yd: f[1], place },
        12 => Record::SaveComplex { xs: f[0], ys: f[1], place },
        13 => Record::ComplexBi { op: f[0], xd: f[1], yd: f[2], x1: f[3], y1: f[4], x2: f[5], y2: f[6] },
        14 => Record::Label(f[0]),
        15 => Record::Branch(f[0]),
        16 => Record::Call(f[0]),
        _ => Record::BranchIf { cond: f[0], label: f[1], is_else: f[2] == 1 },
    }
}

/// Every record, or the refusal 1 to 5 of the first bad one with its index.
fn examine_all(listing: &[u8], constants: usize) -> Result<Vec<Record>, (u32, u64)> {
    let mut rest = listing;
    let mut found = Vec::new();
    while !rest.is_empty() {
        let record = first(rest);
        found.push(examine(record, constants).map_err(|number| (number, found.len() as u64))?);
        rest = &rest[record.unwrap().len()..];
    }
    Ok(found)
}

/// Where a label first stands.
fn find_label(records: &[Record], label: u8) -> Option<usize> {
    records.iter().position(|r| matches!(r, Record::Label(l) if *l == label))
}

/// The block: from Label 1 to the first Branch 0 after it. `None` without a Label 1 or its Branch 0.
fn block(records: &[Record]) -> Option<(usize, usize)> {
    let from = find_label(records, 1)?;
    let ends = |r: &Record| matches!(r, Record::Branch(0));
    let to = from + records[from..].iter().position(ends)?;
    Some((from, to))
}

/// Whether the record at `index` breaks a jump rule.
fn strays(records: &[Record], index: usize) -> bool {
    let inside = || block(records).is_some_and(|(from, to)| from < index && index < to);
    // of labels 3 to 255: "a branch with no such label later or one before it"
    let astray = |label: u8| {
        label < OWN_LABEL
            || find_label(&records[index..], label).is_none()
            || find_label(&records[..index], label).is_some()
    };
    match records[index] {
        Record::Label(label) => {
            let again = find_label(records, label) != Some(index);
            let without_end = label == 1 && block(records).is_none();
            label == 0 || again || without_end || inside()
        }
        Record::Branch(0) => false,
        Record::Branch(2) => inside() || find_label(&records[index..], 2).is_none(),
        Record::Branch(label) | Record::BranchIf { label, .. } => astray(label) || inside(),
        Record::Call(label) => label != 1 || inside() || find_label(records, 1).is_none(),
        _ => false,
    }
}

pub(crate) fn is_nan(a: u64) -> bool {
    a & !SIGN > INFINITY
}

/// A result of arithmetic, Root, a rounding to a whole number or MulAdd. One that is a NaN has the bits of the first operand that is a
/// NaN, with bit 51 set.
fn result(value: f64, operands: &[u64]) -> u64 {
    if !value.is_nan() {
        return value.to_bits();
    }
    match operands.iter().find(|a| is_nan(**a)) {
        Some(first) => first | BIT_51,
        None => NAN,
    }
}

pub(crate) fn plus(a: u64, b: u64) -> u64 {
    result(f64::from_bits(a) + f64::from_bits(b), &[a, b])
}

pub(crate) fn minus(a: u64, b: u64) -> u64 {
    result(f64::from_bits(a) - f64::from_bits(b), &[a, b])
}

pub(crate) fn times(a: u64, b: u64) -> u64 {
    result(f64::from_bits(a) * f64::from_bits(b), &[a, b])
}

pub(crate) fn divide(a: u64, b: u64) -> u64 {
    result(f64::from_bits(a) / f64::from_bits(b), &[a, b])
}

pub(crate) fn mul_add(a: u64, b: u64, c: u64) -> u64 {
    result(f64::from_bits(a).mul_add(f64::from_bits(b), f64::from_bits(c)), &[a, b, c])
}

pub(crate) fn mask(holds: bool) -> u64 {
    if holds {
        u64::MAX
    } else {
        0
    }
}

pub(crate) fn unary(op: u8, a: u64) -> u64 {
    match op {
        uni::NEG => a ^ SIGN,
        uni::NOT => !a,
        uni::ABS => a & !SIGN,
        uni::ROOT => result(f64::from_bits(a).sqrt(), &[a]),
        uni::RECIP => divide(1.0f64.to_bits(), a),
        uni::ROUND => result(f64::from_bits(a).round_ties_even(), &[a]),
        uni::FLOOR => result(f64::from_bits(a).floor(), &[a]),
        uni::CEILING => result(f64::from_bits(a).ceil(), &[a]),
        uni::TRUNC => result(f64::from_bits(a).trunc(), &[a]),
        uni::HALF => times(a, 0.5f64.to_bits()),
        uni::IS_ZERO => mask(a & !SIGN == 0),
        uni::SIGN => a & SIGN,
        _ => unreachable!("examined"),
    }
}

pub(crate) fn binary(op: u8, a: u64, b: u64) -> u64 {
    let (x, y) = (f64::from_bits(a), f64::from_bits(b));
    match op {
        bi::PLUS => plus(a, b),
        bi::MINUS => minus(a, b),
        bi::TIMES => times(a, b),
        bi::DIVIDE => divide(a, b),
        bi::GREATER_THAN => mask(x > y),
        bi::GREATER_THAN_EQUAL => mask(x >= y),
        bi::LITTLE_THAN => mask(x < y),
        bi::LITTLE_THAN_EQUAL => mask(x <= y),
        bi::EQUAL => mask(x == y),
        bi::NOT_EQUAL => mask(x != y),
        bi::AND => a & b,
        bi::OR => a | b,
        bi::XOR => a ^ b,
        _ => unreachable!("examined"),
    }
}

/// Both halves of a ComplexBi.
fn complex(op: u8, x1: u64, y1: u64, x2: u64, y2: u64) -> (u64, u64) {
    match op {
        0 => (plus(x1, x2), plus(y1, y2)),
        1 => (minus(x1, x2), minus(y1, y2)),
        2 => (minus(times(x1, x2), times(y1, y2)), plus(times(y1, x2), times(x1, y2))),
        _ => {
            let x = plus(times(x1, x2), times(y1, y2));
            let y = minus(times(y1, x2), times(x1, y2));
            let square = plus(times(x2, x2), times(y2, y2));
            (divide(x, square), divide(y, square))
        }
    }
}

/// Where a place's real word stands in the store; the imaginary one follows.
pub fn place_word(class: u8, index: u16) -> usize {
    66 + 512 * class as usize + 2 * index as usize
}

fn word_of(place: Place) -> usize {
    place_word(place.class, place.index)
}

/// The words a record writes, in order.
fn work(record: Record, constants: &[u64], store: &mut [u64]) {
    match record {
        Record::Uni { op, dst, s1 } => store[dst as usize] = unary(op, store[s1 as usize]),
        Record::Bi { op, dst, s1, s2 } => store[dst as usize] = binary(op, store[s1 as usize], store[s2 as usize]),
        Record::Mov { dst, s1 } => store[dst as usize] = store[s1 as usize],
        Record::Load { dst, place } => store[dst as usize] = store[word_of(place)],
        Record::Save { src, place } => store[word_of(place)] = store[src as usize],
        Record::LoadConst { dst, constant } => store[dst as usize] = constants[constant as usize],
        Record::MulAdd { dst, a, b, c } => {
            store[dst as usize] = mul_add(store[a as usize], store[b as usize], store[c as usize])
        }
        Record::IfElse { dst, true_val, false_val, place } => {
            let bits = store[word_of(place)];
            store[dst as usize] = bits & store[true_val as usize] | !bits & store[false_val as usize];
        }
        Record::LoadComplex { xd, yd, place } => {
            store[xd as usize] = store[word_of(place)];
            store[yd as usize] = store[word_of(place) + 1];
        }
        Record::SaveComplex { xs, ys, place } => {
            store[word_of(place)] = store[xs as usize];
            store[word_of(place) + 1] = store[ys as usize];
        }
        Record::ComplexBi { op, xd, yd, x1, y1, x2, y2 } => {
            let (x, y) = complex(op, store[x1 as usize], store[y1 as usize], store[x2 as usize], store[y2 as usize]);
            store[xd as usize] = x;
            store[yd as usize] = y;
        }
        Record::Label(_) | Record::Branch(_) | Record::Call(_) | Record::BranchIf { .. } => {}
    }
}

/// The words that a record writes, as store indices in the order written.
fn destinations(record: Record) -> Vec<usize> {
    match record {
        Record::Uni { dst, .. }
        | Record::Bi { dst, .. }
        | Record::Mov { dst, .. }
        | Record::Load { dst, .. }
        | Record::LoadConst { dst, .. }
        | Record::MulAdd { dst, .. }
        | Record::IfElse { dst, .. } => vec![dst as usize],
        Record::Save { place, .. } => vec![word_of(place)],
        Record::LoadComplex { xd, yd, .. } | Record::ComplexBi { xd, yd, .. } => vec![xd as usize, yd as usize],
        Record::SaveComplex { place, .. } => vec![word_of(place), word_of(place) + 1],
        Record::Label(_) | Record::Branch(_) | Record::Call(_) | Record::BranchIf { .. } => Vec::new(),
    }
}

/// Plays the record at `at`: the next one's index, `None` where a Branch 0 ends the play. `back` is where a Call goes on.
fn step(
    records: &[Record],
    constants: &[u64],
    store: &mut [u64],
    at: usize,
    back: &mut Option<usize>,
) -> Option<usize> {
    work(records[at], constants, store);
    let stands = |label: u8| Some(find_label(records, label).expect("accepted"));
    match records[at] {
        Record::Branch(0) => back.take(),
        Record::Branch(label) => stands(label),
        Record::BranchIf { cond, label, is_else } if (store[cond as usize] == 0) == is_else => stands(label),
        Record::Call(label) => {
            *back = Some(at + 1);
            stands(label)
        }
        _ => Some(at + 1),
    }
}

/// Plays from `start` and counts the records reached.
fn run(records: &[Record], constants: &[u64], store: &mut [u64], start: usize) -> u64 {
    let mut at = start;
    let mut back = None;
    let mut played = 0;
    while at < records.len() {
        played += 1;
        match step(records, constants, store, at, &mut back) {
            Some(next) => at = next,
            None => break,
        }
    }
    played
}

/// The listing's records where a play from `start` is accepted, else its refusal.
fn accept(listing: &[u8], constants: usize, store: usize, start: u64) -> Result<Vec<Record>, (u32, u64)> {
    if store != STORE || constants > TABLE || listing.len() > LISTING_LIMIT {
        return Err((SETUP, 0));
    }
    let records = examine_all(listing, constants)?;
    if start > records.len() as u64 {
        return Err((STRAY, start));
    }
    match (0..records.len()).find(|index| strays(&records, *index)) {
        Some(index) => Err((STRAY, index as u64)),
        None => Ok(records),
    }
}

/// Document 01's play of a listing with its constants on a lent store, from a start record.
pub fn play(listing: &[u8], constants: &[u64], store: &mut [u64], start: u64) -> Played {
    match accept(listing, constants.len(), store.len(), start) {
        Err((number, index)) => Played { number, index, played: 0 },
        Ok(records) => {
            let played = run(&records, constants, store, start as usize);
            Played { number: 0, index: records.len() as u64, played }
        }
    }
}

/// One record, played outside a call on a copy of a store.
pub struct Single {
    /// Records of the listing.
    pub records: usize,
    /// The words that it writes, as store indices in the order written.
    pub written: Vec<usize>,
    /// The copy afterwards.
    pub store: Vec<u64>,
    /// The next record; the count of records where the play ends.
    pub next: usize,
}

/// Plays the record `at` alone; at the end of the listing none. Its refusal where a play from there has one.
pub fn play_one(listing: &[u8], constants: &[u64], store: &[u64], at: u64) -> Result<Single, (u32, u64)> {
    let records = accept(listing, constants.len(), store.len(), at)?;
    let (count, at) = (records.len(), at as usize);
    let mut copy = store.to_vec();
    if at == count {
        return Ok(Single { records: count, written: Vec::new(), store: copy, next: count });
    }
    let next = step(&records, constants, &mut copy, at, &mut None).unwrap_or(count);
    Ok(Single { records: count, written: destinations(records[at]), store: copy, next })
}

/// A play from record 0 that stops where it is told.
pub struct Watched<'a> {
    records: Vec<Record>,
    constants: &'a [u64],
    pub store: Vec<u64>,
    at: usize,
    back: Option<usize>,
}

impl<'a> Watched<'a> {
    /// A play that stands at record 0; `None` where `play` refuses it.
    pub fn new(listing: &[u8], constants: &'a [u64], store: Vec<u64>) -> Option<Watched<'a>> {
        let records = accept(listing, constants.len(), store.len(), 0).ok()?;
        Some(Watched { records, constants, store, at: 0, back: None })
    }

    /// Plays until it stands outside of these records, and not in a block called from them; the index at which it then stands.
    pub fn leave(&mut self, records: Range<usize>) -> usize {
        while self.at < self.records.len() && (records.contains(&self.at) || self.back.is_some()) {
            let next = step(&self.records, self.constants, &mut self.store, self.at, &mut self.back);
            self.at = next.unwrap_or(self.records.len());
        }
        self.at
    }
}
