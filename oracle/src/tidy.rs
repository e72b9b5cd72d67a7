//! Tidy sheets: of these the rows of the tables in docs/SHEET.md, 2, alone say what each instruction does; nothing is left behind.

use crate::format::{RET, TEMP};
use crate::meaning::{instruction, Instruction, Sheet, State, STACK_2};
use crate::names::{bi, uni};
use crate::reference::Realness;
use crate::value::{self, Value};

/// The registers that an instruction names.
pub fn registers(one: Instruction) -> Vec<u8> {
    match one {
        Instruction::Nothing | Instruction::Branch { .. } => vec![],
        Instruction::Uni { d, a, .. } | Instruction::Mov { d, a } => vec![d, a],
        Instruction::Bi { d, a, b, .. } | Instruction::IfElse { d, a, b, .. } => vec![d, a, b],
        Instruction::Load { d, .. } | Instruction::LoadConst { d, .. } => vec![d],
        Instruction::Save { a, .. } | Instruction::BranchIf { a, .. } => vec![a],
        Instruction::Fused { d, a, b, c, .. } => vec![d, a, b, c],
        Instruction::LoadMath { d, a, .. } | Instruction::LoadConstMath { d, a, .. } => vec![d, a],
    }
}

/// The place that an instruction names.
pub fn place(one: Instruction) -> Option<usize> {
    match one {
        Instruction::Load { place, .. }
        | Instruction::Save { place, .. }
        | Instruction::IfElse { place, .. }
        | Instruction::LoadMath { place, .. } => Some(place),
        _ => None,
    }
}

/// Whether a sheet has a Root or a RealRoot: then Stack 2 does not count.
pub fn roots(sheet: &Sheet) -> bool {
    let root = |one| matches!(one, Instruction::Uni { op: uni::ROOT | uni::REAL_ROOT, .. });
    sheet.instructions.iter().any(|r| root(instruction(r)))
}

fn is_real(place: usize, record: &Realness) -> bool {
    record.real_place((place / 256) as u8, (place % 256) as u16)
}

/// Whether an instruction keeps a sheet tidy, by the record before it.
fn keeps(one: Instruction, sheet: &Sheet, record: &Realness) -> bool {
    let real = |register: u8| record.registers[register as usize];
    let general = registers(one).iter().all(|r| *r != RET && *r != TEMP);
    general
        && match one {
            Instruction::Uni { op: uni::HALF, d, a } => sheet.minding() || real(d) == real(a),
            Instruction::LoadMath { op: bi::DIVIDE, a, place, .. } => {
                sheet.stable() || !real(a) || is_real(place, record)
            }
            _ => true,
        }
}

/// Whether a sheet is tidy, by the record before each of its instructions.
pub fn tidy<'a>(sheet: &Sheet, records: impl Iterator<Item = &'a Realness>) -> bool {
    let row = || sheet.instructions.iter().map(|r| instruction(r));
    let stack_2 = roots(sheet) && row().any(|one| place(one) == Some(STACK_2));
    !stack_2 && row().zip(records).all(|(one, record)| keeps(one, sheet, record))
}

/// d := the row of the instruction at `at`, with what is made wide before; the next one's index.
pub fn row(state: &mut State, sheet: &Sheet, at: usize) -> usize {
    let stable = sheet.stable();
    let one = instruction(sheet.instructions[at]);
    made_wide(one).into_iter().for_each(|register| state.widen(register));
    let get = |register: u8| state.get(register);
    let (d, value) = match one {
        Instruction::Nothing => return at + 1,
        Instruction::Uni { op, d, a } => (d, value::one(op, stable, get(a))),
        Instruction::Bi { op, d, a, b } => (d, value::two(op, stable, get(a), get(b))),
        Instruction::Mov { d, a } => (d, get(a)),
        Instruction::Load { d, place } => (d, state.places[place]),
        Instruction::LoadConst { d, constant } => (d, Value::R(sheet.constants[constant])),
        Instruction::Fused { op, d, a, b, c } => (d, value::fused(op, value::multiply(get(a), get(b)), get(c))),
        Instruction::IfElse { d, a, b, place } => (d, value::chosen(state.places[place].re(), get(a), get(b))),
        Instruction::LoadMath { op, d, a, place } => (d, value::two(op, stable, get(a), state.places[place])),
        Instruction::LoadConstMath { op, d, a, constant } => {
            (d, value::two(op, stable, get(a), Value::R(sheet.constants[constant])))
        }
        Instruction::Save { a, place } => {
            state.places[place] = state.get(a);
            return at + 1;
        }
        Instruction::Branch { label } => return sheet.standing(label),
        Instruction::BranchIf { a, label, zero } => {
            return if (get(a).re() == 0) == zero { sheet.standing(label) } else { at + 1 };
        }
    };
    state.set(d, value);
    at + 1
}

/// The registers that an instruction makes wide.
fn made_wide(one: Instruction) -> Vec<u8> {
    match one {
        Instruction::Save { a, .. } => vec![a],
        Instruction::Uni { op: uni::ROOT | uni::IS_ZERO | uni::IS_NOT_ZERO, a, .. } => vec![a],
        Instruction::Bi { op: bi::EQUAL | bi::NOT_EQUAL, a, b, .. } | Instruction::IfElse { a, b, .. } => vec![a, b],
        _ => vec![],
    }
}
