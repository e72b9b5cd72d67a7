//! Makes the bytes of sheets. What is wrong in a sheet, `lower` says.

use crate::Class;

/// Sheet registers: general 0 to 29, and these.
pub const RET: u8 = 30;
pub const TEMP: u8 = 31;

/// Operations on one register, of those that sheets take.
#[derive(Clone, Copy, Debug)]
pub enum Uni {
    Neg = 0,
    Not = 1,
    Abs = 2,
    Root = 3,
    RealRoot = 4,
    Recip = 5,
    Round = 6,
    Floor = 7,
    Ceiling = 8,
    Trunc = 9,
    Real = 10,
    Imaginary = 11,
    Conjugate = 12,
    Half = 13,
    IsZero = 14,
    IsNotZero = 15,
    Sign = 16,
    Abs2 = 17,
    TimesI = 18,
    TimesNegI = 19,
}

/// Operations on two registers, of those that sheets take: all of mir.rs but AndNot.
#[derive(Clone, Copy, Debug)]
pub enum Bi {
    Plus = 0,
    Minus = 1,
    Times = 2,
    Divide = 3,
    GreaterThan = 4,
    GreaterThanEqual = 5,
    LittleThan = 6,
    LittleThanEqual = 7,
    Equal = 8,
    NotEqual = 9,
    And = 10,
    Or = 12,
    Xor = 13,
    Complex = 14,
}

/// Operations on three registers: a * b + c and its like, in the order of mir.rs.
#[derive(Clone, Copy, Debug)]
pub enum Fused {
    MulAdd = 0,
    MulSub = 1,
    NegMulAdd = 2,
    NegMulSub = 3,
}

/// Operations of a LoadMath and a LoadConstMath.
#[derive(Clone, Copy, Debug)]
pub enum Arith {
    Plus = 0,
    Minus = 1,
    Times = 2,
    Divide = 3,
}

/// Modes of a sheet.
#[derive(Clone, Copy, Debug, PartialEq, Eq)]
pub enum Mode {
    /// Squares are taken as they are.
    Plain = 0,
    /// Operands are scaled first.
    Stable = 1,
    /// As stable, but Half of a real register gives a real one, and in a Divide by a complex register into Temp the dividend survives.
    Minding = 2,
}

/// A sheet in the making.
#[derive(Clone, Debug)]
pub struct Sheet {
    mode: Mode,
    real_places: [u8; 64],
    constants: Vec<u64>,
    instructions: Vec<u8>,
}

/// A record: its length, its kind, its fields.
fn record(kind: u16, fields: &[u8]) -> Vec<u8> {
    let length = fields.len() as u16 + 4;
    [&length.to_le_bytes(), &kind.to_le_bytes(), fields].concat()
}

impl Sheet {
    pub fn new(mode: Mode) -> Sheet {
        Sheet { mode, real_places: [0; 64], constants: Vec::new(), instructions: Vec::new() }
    }

    /// Records a place as real; Mem is always complex.
    pub fn real(&mut self, class: Class, index: u8) -> &mut Sheet {
        let from = match class {
            Class::Stack => 0,
            Class::Param => 32,
            Class::Mem => panic!("Mem is always complex"),
        };
        self.real_places[from + index as usize / 8] |= 1 << (index % 8);
        self
    }

    /// Adds a constant; its index.
    pub fn constant(&mut self, value: f64) -> u16 {
        self.constants.push(value.to_bits());
        self.constants.len() as u16 - 1
    }

    /// Adds an instruction of any kind.
    pub fn instruction(&mut self, kind: u16, fields: &[u8]) -> &mut Sheet {
        self.instructions.extend(record(kind, fields));
        self
    }

    pub fn uni(&mut self, op: Uni, dst: u8, s1: u8) -> &mut Sheet {
        self.instruction(1, &[op as u8, dst, s1])
    }

    pub fn bi(&mut self, op: Bi, dst: u8, s1: u8, s2: u8) -> &mut Sheet {
        self.instruction(2, &[op as u8, dst, s1, s2])
    }

    pub fn mov(&mut self, dst: u8, s1: u8) -> &mut Sheet {
        self.instruction(3, &[dst, s1])
    }

    pub fn load(&mut self, dst: u8, class: Class, index: u8) -> &mut Sheet {
        self.instruction(4, &[dst, class as u8, index, 0])
    }

    pub fn save(&mut self, src: u8, class: Class, index: u8) -> &mut Sheet {
        self.instruction(5, &[src, class as u8, index, 0])
    }

    pub fn load_const(&mut self, dst: u8, constant: u16) -> &mut Sheet {
        let [low, high] = constant.to_le_bytes();
        self.instruction(6, &[dst, low, high])
    }

    pub fn fused(&mut self, op: Fused, dst: u8, a: u8, b: u8, c: u8) -> &mut Sheet {
        self.instruction(7, &[op as u8, dst, a, b, c])
    }

    /// Chooses bit by bit: the bits of `true_val` where the condition's are ones, else those of `false_val`.
    pub fn if_else(&mut self, dst: u8, true_val: u8, false_val: u8, class: Class, index: u8) -> &mut Sheet {
        self.instruction(8, &[dst, true_val, false_val, class as u8, index, 0])
    }

    /// Works with a place. In plain mode a Divide of a real register by a complex place gives a wrong quotient (lib.rs).
    pub fn load_math(&mut self, op: Arith, dst: u8, s1: u8, class: Class, index: u8) -> &mut Sheet {
        self.instruction(9, &[op as u8, dst, s1, class as u8, index, 0])
    }

    pub fn load_const_math(&mut self, op: Arith, dst: u8, s1: u8, constant: u16) -> &mut Sheet {
        let [low, high] = constant.to_le_bytes();
        self.instruction(10, &[op as u8, dst, s1, low, high])
    }

    /// Marks where branches to a label, 3 to 255, go on. A label stands once, after every branch to it.
    pub fn label(&mut self, label: u8) -> &mut Sheet {
        self.instruction(14, &[label])
    }

    pub fn branch(&mut self, label: u8) -> &mut Sheet {
        self.instruction(15, &[label])
    }

    /// Branches where the word of the condition's real half is not all zero; with `is_else`, where it is. -0 is not all zero.
    pub fn branch_if(&mut self, cond: u8, label: u8, is_else: bool) -> &mut Sheet {
        self.instruction(17, &[cond, label, is_else as u8])
    }

    /// The sheet's bytes: header, constants, instructions.
    pub fn bytes(&self) -> Vec<u8> {
        let mut bytes = record(32, &[&[self.mode as u8][..], &self.real_places].concat());
        for word in &self.constants {
            bytes.extend(record(33, &word.to_le_bytes()));
        }
        bytes.extend(&self.instructions);
        bytes
    }
}
