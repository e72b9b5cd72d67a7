//! What a sheet means, written from docs/SHEET.md, 2: its state, what each instruction does to it and leaves behind. Nothing of lowering
//! is used.

use crate::format::{self, word, LABEL, RET, TEMP};
use crate::names::{bi, uni};
use crate::value::{self, Value};

/// An accepted sheet, read.
pub struct Sheet<'a> {
    pub mode: u8,
    pub places: &'a [u8],
    pub constants: Vec<u64>,
    pub instructions: Vec<&'a [u8]>,
}

impl Sheet<'_> {
    pub fn read(bytes: &[u8]) -> Sheet<'_> {
        let records = format::records(bytes);
        let (header, rest) = records.split_first().expect("a header");
        let count = rest.iter().take_while(|r| format::two(r, 2) == format::CONSTANT).count();
        let constants = rest[..count].iter().map(|r| word(r, 4)).collect();
        Sheet { mode: header[4], places: &header[5..69], constants, instructions: rest[count..].to_vec() }
    }

    /// Modes 1 and 2.
    pub fn stable(&self) -> bool {
        self.mode != format::PLAIN
    }

    /// Mode 2.
    pub fn minding(&self) -> bool {
        self.mode == format::MINDING
    }

    /// Whether the header has a place as real.
    fn real(&self, class: usize, index: usize) -> bool {
        let byte = match class {
            0 => index / 8,
            2 => 32 + index / 8,
            _ => return false,
        };
        self.places[byte] >> (index % 8) & 1 == 1
    }

    /// The instruction at which a label stands.
    pub fn standing(&self, label: u8) -> usize {
        let stands = |r: &&[u8]| format::two(r, 2) == LABEL && r[4] == label;
        self.instructions.iter().position(stands).expect("an accepted sheet has the label")
    }
}

/// An instruction's fields, by the table of kinds in docs/SHEET.md, 2. A place is its index among the 768.
#[derive(Clone, Copy, Debug)]
pub enum Instruction {
    Nothing,
    Uni { op: u8, d: u8, a: u8 },
    Bi { op: u8, d: u8, a: u8, b: u8 },
    Mov { d: u8, a: u8 },
    Load { d: u8, place: usize },
    Save { a: u8, place: usize },
    LoadConst { d: u8, constant: usize },
    Fused { op: u8, d: u8, a: u8, b: u8, c: u8 },
    IfElse { d: u8, a: u8, b: u8, place: usize },
    LoadMath { op: u8, d: u8, a: u8, place: usize },
    LoadConstMath { op: u8, d: u8, a: u8, constant: usize },
    Branch { label: u8 },
    BranchIf { a: u8, label: u8, zero: bool },
}

/// A place's index among the 768: 256 of Stack, of Mem, of Param.
pub fn place(class: u8, index: u16) -> usize {
    256 * class as usize + index as usize
}

/// Stack 2, in which a Root leaves a word.
pub const STACK_2: usize = 2;

pub fn instruction(record: &[u8]) -> Instruction {
    let f = &record[4..];
    let at = |from: usize| place(f[from], format::two(f, from + 1));
    let constant = |from: usize| format::two(f, from) as usize;
    match format::two(record, 2) {
        1 => Instruction::Uni { op: f[0], d: f[1], a: f[2] },
        2 => Instruction::Bi { op: f[0], d: f[1], a: f[2], b: f[3] },
        3 => Instruction::Mov { d: f[0], a: f[1] },
        4 => Instruction::Load { d: f[0], place: at(1) },
        5 => Instruction::Save { a: f[0], place: at(1) },
        6 => Instruction::LoadConst { d: f[0], constant: constant(1) },
        7 => Instruction::Fused { op: f[0], d: f[1], a: f[2], b: f[3], c: f[4] },
        8 => Instruction::IfElse { d: f[0], a: f[1], b: f[2], place: at(3) },
        9 => Instruction::LoadMath { op: f[0], d: f[1], a: f[2], place: at(3) },
        10 => Instruction::LoadConstMath { op: f[0], d: f[1], a: f[2], constant: constant(3) },
        15 => Instruction::Branch { label: f[0] },
        17 => Instruction::BranchIf { a: f[0], label: f[1], zero: f[2] == 1 },
        _ => Instruction::Nothing,
    }
}

/// The values of 32 registers and 768 places.
#[derive(Clone)]
pub struct State {
    pub registers: [Value; 32],
    pub places: Vec<Value>,
}

/// The words of the listing's registers that a sheet's register has.
pub fn pair(register: usize) -> (usize, usize) {
    match register {
        30 => (64, 65),
        31 => (0, 1),
        general => (4 + 2 * general, 5 + 2 * general),
    }
}

/// The words in the store of one of the 768 places.
pub fn place_pair(place: usize) -> (usize, usize) {
    (66 + 2 * place, 67 + 2 * place)
}

impl State {
    /// At first: a register is C of its two words, a place R of its real word where the header has it real, else C of its two words.
    pub fn start(sheet: &Sheet, store: &[u64]) -> State {
        let both = |(x, y): (usize, usize)| Value::C(store[x], store[y]);
        let first = |at: usize| {
            if sheet.real(at / 256, at % 256) {
                Value::R(store[place_pair(at).0])
            } else {
                both(place_pair(at))
            }
        };
        State { registers: std::array::from_fn(|r| both(pair(r))), places: (0..768).map(first).collect() }
    }

    pub fn get(&self, register: u8) -> Value {
        self.registers[register as usize]
    }

    pub fn set(&mut self, register: u8, value: Value) {
        self.registers[register as usize] = value;
    }

    /// a := wide a.
    pub fn widen(&mut self, register: u8) {
        self.set(register, self.get(register).wide());
    }

    /// Halves of Temp := these.
    fn leave_in_temp(&mut self, (x, y): (u64, u64)) {
        self.set(TEMP, self.get(TEMP).with_halves(x, y));
    }

    /// Does the instruction at `at`; the next one's index. `lost` is the half that a Half of an R into a C takes, but in mode 2.
    pub fn step(&mut self, sheet: &Sheet, at: usize, lost: u64) -> usize {
        let stable = sheet.stable();
        match instruction(sheet.instructions[at]) {
            Instruction::Nothing => {}
            Instruction::Uni { op: uni::HALF, d, a } if sheet.minding() => {
                self.set(d, value::one(uni::HALF, stable, self.get(a)))
            }
            Instruction::Bi { op: bi::DIVIDE, d: TEMP, a, b } if sheet.minding() && !self.get(b).is_real() => {
                self.stable_divide(RET, a, b);
                self.set(TEMP, self.get(RET));
            }
            Instruction::Uni { op, d, a } => self.uni(op, stable, d, a, lost),
            Instruction::Bi { op, d, a, b } => self.bi(op, stable, d, a, b),
            Instruction::Mov { d, a } => self.set(d, self.get(a)),
            Instruction::Load { d, place } => self.set(d, self.places[place]),
            Instruction::Save { a, place } => {
                self.widen(a);
                self.places[place] = self.get(a);
            }
            Instruction::LoadConst { d, constant } => self.set(d, Value::R(sheet.constants[constant])),
            Instruction::Fused { op, d, a, b, c } => {
                self.set(RET, value::multiply(self.get(a), self.get(b)));
                self.set(d, value::fused(op, self.get(RET), self.get(c)));
            }
            Instruction::IfElse { d, a, b, place } => {
                self.widen(a);
                self.widen(b);
                self.set(d, value::chosen(self.places[place].re(), self.get(a), self.get(b)));
            }
            Instruction::LoadMath { op, d, a, place } => {
                self.set(TEMP, self.places[place]);
                self.bi(op, stable, d, a, TEMP);
            }
            Instruction::LoadConstMath { op, d, a, constant } => {
                self.set(TEMP, Value::R(sheet.constants[constant]));
                self.bi(op, stable, d, a, TEMP);
            }
            Instruction::Branch { label } => return sheet.standing(label),
            Instruction::BranchIf { a, label, zero } if (self.get(a).re() == 0) == zero => {
                return sheet.standing(label)
            }
            Instruction::BranchIf { .. } => {}
        }
        at + 1
    }

    fn uni(&mut self, op: u8, stable: bool, d: u8, a: u8, lost: u64) {
        let operand = self.get(a);
        match op {
            _ if value::by_root(op, operand) => self.root(stable, d, a),
            uni::IS_ZERO | uni::IS_NOT_ZERO => {
                self.set(TEMP, Value::C(0, 0));
                self.widen(a);
                self.set(d, value::one(op, stable, self.get(a)));
            }
            uni::HALF => self.half(d, operand, lost),
            uni::RECIP if stable && !operand.is_real() => {
                let (scaled, k) = value::scaled_recip(operand);
                self.leave_in_temp(scaled.halves());
                self.set(d, scaled.scaled(k));
            }
            uni::ABS if stable && !operand.is_real() => {
                let (root, _) = value::scaled_length(operand);
                self.set(RET, self.get(RET).with_re(root));
                self.set(d, value::one(op, stable, operand));
            }
            _ => self.set(d, value::one(op, stable, operand)),
        }
    }

    /// Root, and RealRoot of a C.
    fn root(&mut self, stable: bool, d: u8, a: u8) {
        let value::Rooted { positive, w, root } = value::rooted(stable, self.get(a));
        self.widen(a);
        self.places[STACK_2] = self.places[STACK_2].with_re(positive);
        self.set(TEMP, w);
        self.set(RET, root);
        self.set(d, root);
    }

    /// Half: d stays what it was, R or C.
    fn half(&mut self, d: u8, operand: Value, lost: u64) {
        let halved = value::one(uni::HALF, false, operand);
        let (x, y) = match halved {
            Value::R(x) => (x, lost),
            Value::C(x, y) => (x, y),
        };
        self.set(d, self.get(d).with_halves(x, y));
    }

    fn bi(&mut self, op: u8, stable: bool, d: u8, a: u8, b: u8) {
        match (op, self.get(b)) {
            (bi::EQUAL | bi::NOT_EQUAL, _) => {
                self.widen(a);
                self.widen(b);
                self.set(d, value::two(op, stable, self.get(a), self.get(b)));
            }
            (bi::DIVIDE, Value::C(..)) if stable => self.stable_divide(d, a, b),
            (bi::DIVIDE, Value::C(_, v)) if self.get(a).is_real() => {
                let q = value::divisor_square(self.get(b));
                self.set(TEMP, self.get(TEMP).with_re(q));
                self.set(d, value::real_by_complex(self.get(a).re(), self.get(b).re(), v, q));
            }
            _ => self.set(d, value::two(op, stable, self.get(a), self.get(b))),
        }
    }

    /// A stable Divide by a C.
    fn stable_divide(&mut self, d: u8, a: u8, b: u8) {
        let k = value::quotient_scale(self.get(b));
        let (dividend, divisor) = (self.get(a).scaled(k), self.get(b).scaled(k));
        if d == TEMP {
            return self.set(d, value::quotient_into_temp(dividend.is_real(), divisor));
        }
        self.leave_in_temp(match dividend {
            _ if d == RET => divisor.halves(),
            Value::C(x, y) => (x, y),
            Value::R(x) => value::products(x, divisor),
        });
        self.set(d, value::plain_quotient(dividend, divisor));
    }
}
