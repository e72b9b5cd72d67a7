//! Makers of sheets: their records, one by one.

use crate::format::*;

/// A record of any kind and fields, its length written as it is.
pub fn raw(kind: u16, fields: &[u8]) -> Vec<u8> {
    let mut bytes = Vec::new();
    bytes.extend((fields.len() as u16 + 4).to_le_bytes());
    bytes.extend(kind.to_le_bytes());
    bytes.extend(fields);
    bytes
}

/// The header of a sheet in this mode; `false` is plain, `true` stable.
pub fn header(mode: impl Into<u8>, places: &[u8; 64]) -> Vec<u8> {
    let mut fields = vec![mode.into()];
    fields.extend(places);
    raw(HEADER, &fields)
}

pub fn constant(bits: u64) -> Vec<u8> {
    raw(CONSTANT, &bits.to_le_bytes())
}

/// A place's three bytes.
pub fn at(class: u8, index: u16) -> [u8; 3] {
    let [low, high] = index.to_le_bytes();
    [class, low, high]
}

/// The 64 bytes of real places with these set.
pub fn real_places(places: &[(u8, u16)]) -> [u8; 64] {
    let mut bytes = [0; 64];
    for &(class, index) in places {
        let from = if class == STACK { 0 } else { 32 };
        bytes[from + index as usize / 8] |= 1 << (index % 8);
    }
    bytes
}

/// Records of sheets and listings, kind by kind.
pub fn nop() -> Vec<u8> {
    raw(0, &[])
}

pub fn uni(op: u8, dst: u8, s1: u8) -> Vec<u8> {
    raw(1, &[op, dst, s1])
}

pub fn bi(op: u8, dst: u8, s1: u8, s2: u8) -> Vec<u8> {
    raw(2, &[op, dst, s1, s2])
}

pub fn mov(dst: u8, s1: u8) -> Vec<u8> {
    raw(3, &[dst, s1])
}

pub fn load(dst: u8, class: u8, index: u16) -> Vec<u8> {
    raw(4, &[&[dst][..], &at(class, index)].concat())
}

pub fn save(src: u8, class: u8, index: u16) -> Vec<u8> {
    raw(5, &[&[src][..], &at(class, index)].concat())
}

pub fn load_const(dst: u8, index: u16) -> Vec<u8> {
    raw(6, &[&[dst][..], &index.to_le_bytes()].concat())
}

pub fn fused(op: u8, dst: u8, a: u8, b: u8, c: u8) -> Vec<u8> {
    raw(7, &[op, dst, a, b, c])
}

pub fn if_else(dst: u8, true_val: u8, false_val: u8, class: u8, index: u16) -> Vec<u8> {
    raw(8, &[&[dst, true_val, false_val][..], &at(class, index)].concat())
}

pub fn load_math(op: u8, dst: u8, s1: u8, class: u8, index: u16) -> Vec<u8> {
    raw(9, &[&[op, dst, s1][..], &at(class, index)].concat())
}

pub fn load_const_math(op: u8, dst: u8, s1: u8, index: u16) -> Vec<u8> {
    raw(10, &[&[op, dst, s1][..], &index.to_le_bytes()].concat())
}

pub fn load_complex(xd: u8, yd: u8, class: u8, index: u16) -> Vec<u8> {
    raw(11, &[&[xd, yd][..], &at(class, index)].concat())
}

pub fn save_complex(xs: u8, ys: u8, class: u8, index: u16) -> Vec<u8> {
    raw(12, &[&[xs, ys][..], &at(class, index)].concat())
}

pub fn complex_bi(op: u8, registers: [u8; 6]) -> Vec<u8> {
    raw(13, &[&[op][..], &registers].concat())
}

pub fn label(number: u8) -> Vec<u8> {
    raw(14, &[number])
}

pub fn branch(number: u8) -> Vec<u8> {
    raw(15, &[number])
}

pub fn call(number: u8) -> Vec<u8> {
    raw(16, &[number])
}

pub fn branch_if(cond: u8, label: u8, is_else: u8) -> Vec<u8> {
    raw(17, &[cond, label, is_else])
}

/// A sheet of these constants and instruction records.
pub fn sheet(mode: impl Into<u8>, places: &[u8; 64], constants: &[u64], instructions: &[Vec<u8>]) -> Vec<u8> {
    let mut bytes = header(mode, places);
    for bits in constants {
        bytes.extend(constant(*bits));
    }
    bytes.extend(instructions.concat());
    bytes
}
