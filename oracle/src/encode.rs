//! Between document 01's bytes and the instructions of mir.rs.

use crate::format::*;
use crate::rust::mir::{ArithOp, BinOp, FusedOp, Instruction, UniOp};
use crate::rust::symbol::Loc;
use crate::rust::utils::Reg;

/// Operations by position in the enums of mir.rs. The one that sheets do not take, AndNot, is `None`.
const UNI: [UniOp; 20] = [
    UniOp::Neg,
    UniOp::Not,
    UniOp::Abs,
    UniOp::Root,
    UniOp::RealRoot,
    UniOp::Recip,
    UniOp::Round,
    UniOp::Floor,
    UniOp::Ceiling,
    UniOp::Trunc,
    UniOp::Real,
    UniOp::Imaginary,
    UniOp::Conjugate,
    UniOp::Half,
    UniOp::IsZero,
    UniOp::IsNotZero,
    UniOp::Sign,
    UniOp::Abs2,
    UniOp::TimesI,
    UniOp::TimesNegI,
];

const BI: [Option<BinOp>; 15] = [
    Some(BinOp::Plus),
    Some(BinOp::Minus),
    Some(BinOp::Times),
    Some(BinOp::Divide),
    Some(BinOp::GreaterThan),
    Some(BinOp::GreaterThanEqual),
    Some(BinOp::LittleThan),
    Some(BinOp::LittleThanEqual),
    Some(BinOp::Equal),
    Some(BinOp::NotEqual),
    Some(BinOp::And),
    None,
    Some(BinOp::Or),
    Some(BinOp::Xor),
    Some(BinOp::Complex),
];

const ARITH: [ArithOp; 4] = [ArithOp::Plus, ArithOp::Minus, ArithOp::Times, ArithOp::Divide];

const FUSED: [FusedOp; 4] = [FusedOp::MulAdd, FusedOp::MulSub, FusedOp::NegMulAdd, FusedOp::NegMulSub];

/// The operation of a sheet's Uni; its number is its position in the enum.
pub fn uni(op: u8) -> Option<UniOp> {
    let found = UNI.get(op as usize).copied();
    assert!(found.is_none_or(|o| o as u8 == op));
    found
}

/// The operation of a sheet's Bi.
pub fn bi(op: u8) -> Option<BinOp> {
    let found = BI.get(op as usize).copied().flatten();
    assert!(found.is_none_or(|o| o as u8 == op));
    found
}

/// The operation of a LoadMath or LoadConstMath.
pub fn arith(op: u8) -> Option<ArithOp> {
    ARITH.get(op as usize).copied()
}

/// The operation of a sheet's Fused.
pub fn fused(op: u8) -> Option<FusedOp> {
    FUSED.get(op as usize).copied()
}

/// A sheet's register, 0 to 31.
pub fn register(number: u8) -> Reg {
    match number {
        RET => Reg::Ret,
        TEMP => Reg::Temp,
        general => Reg::Gen(general),
    }
}

/// A place with class 0 to 2.
pub fn place(class: u8, index: u16) -> Loc {
    let index = index as u32;
    match class {
        STACK => Loc::Stack(index),
        MEM => Loc::Mem(index),
        _ => Loc::Param(index),
    }
}

/// The listing byte of a register that `complexify` lists.
fn listing_register(register: Reg) -> u8 {
    match register {
        Reg::Gen(number) if number < 64 => number,
        Reg::Ret => LISTING_RET,
        Reg::Temp => LISTING_TEMP,
        other => panic!("listed register {other:?}"),
    }
}

/// The class byte and the two bytes of the index.
fn listing_place(place: Loc) -> [u8; 3] {
    let (class, index) = match place {
        Loc::Stack(index) => (STACK, index),
        Loc::Mem(index) => (MEM, index),
        Loc::Param(index) => (PARAM, index),
    };
    let [low, high] = u16::try_from(index).unwrap().to_le_bytes();
    [class, low, high]
}

/// The string by which the Rust knows a label of a sheet's own.
pub fn label(number: u8) -> String {
    format!("{OWN_LABELS}{number}")
}

const OWN_LABELS: &str = "own ";

fn label_number(label: &str) -> u8 {
    match label {
        ".ret" => 0,
        "@complex_root" => 1,
        "@jump_over_complex_root" => 2,
        own => match own.strip_prefix(OWN_LABELS).map(str::parse) {
            Some(Ok(number)) => number,
            _ => panic!("listed label {own}"),
        },
    }
}

/// A whole record: length, kind, fields.
fn record(kind: u16, fields: &[&[u8]]) -> Vec<u8> {
    let fields = fields.concat();
    let mut bytes = Vec::new();
    bytes.extend((fields.len() as u16 + 4).to_le_bytes());
    bytes.extend(kind.to_le_bytes());
    bytes.extend(fields);
    assert_eq!(bytes.len(), LENGTHS[kind as usize]);
    bytes
}

fn registers<const N: usize>(row: [Reg; N]) -> [u8; N] {
    row.map(listing_register)
}

fn constant(index: u32) -> [u8; 2] {
    u16::try_from(index).unwrap().to_le_bytes()
}

/// The listing record of an instruction that `complexify` gave back.
pub fn listed(instruction: &Instruction) -> Vec<u8> {
    use Instruction::*;
    match instruction {
        Uni { op, dst, s1 } => record(1, &[&[*op as u8], &registers([*dst, *s1])]),
        Bi { op, dst, s1, s2 } => record(2, &[&[*op as u8], &registers([*dst, *s1, *s2])]),
        Mov { dst, s1 } => record(3, &[&registers([*dst, *s1])]),
        Load { dst, loc } => record(4, &[&registers([*dst]), &listing_place(*loc)]),
        Save { src, loc } => record(5, &[&registers([*src]), &listing_place(*loc)]),
        LoadConst { dst, idx } => record(6, &[&registers([*dst]), &constant(*idx)]),
        Fused { op, dst, a, b, c } => record(7, &[&[*op as u8], &registers([*dst, *a, *b, *c])]),
        IfElse { dst, true_val, false_val, cond } => {
            record(8, &[&registers([*dst, *true_val, *false_val]), &listing_place(*cond)])
        }
        LoadComplex { xd, yd, loc } => record(11, &[&registers([*xd, *yd]), &listing_place(*loc)]),
        SaveComplex { xs, ys, loc } => record(12, &[&registers([*xs, *ys]), &listing_place(*loc)]),
        ComplexBi { op, xd, yd, x1, y1, x2, y2 } => {
            record(13, &[&[*op as u8], &registers([*xd, *yd, *x1, *y1, *x2, *y2])])
        }
        Label { label } => record(14, &[&[label_number(label)]]),
        Branch { label } => record(15, &[&[label_number(label)]]),
        Call { label, num_args: 0 } => record(16, &[&[label_number(label)]]),
        BranchIf { cond, label, is_else } => record(17, &[&registers([*cond]), &[label_number(label), *is_else as u8]]),
        other => panic!("listed instruction {other:?}"),
    }
}
