//! Operations by document 01's numbers, which are positions in the enums of mir.rs, and their names.

pub const UNI: [&str; 20] = [
    "Neg",
    "Not",
    "Abs",
    "Root",
    "RealRoot",
    "Recip",
    "Round",
    "Floor",
    "Ceiling",
    "Trunc",
    "Real",
    "Imaginary",
    "Conjugate",
    "Half",
    "IsZero",
    "IsNotZero",
    "Sign",
    "Abs2",
    "TimesI",
    "TimesNegI",
];
pub const BI: [&str; 15] = [
    "Plus",
    "Minus",
    "Times",
    "Divide",
    "GreaterThan",
    "GreaterThanEqual",
    "LittleThan",
    "LittleThanEqual",
    "Equal",
    "NotEqual",
    "And",
    "AndNot",
    "Or",
    "Xor",
    "Complex",
];
pub const ARITH: [&str; 4] = ["Plus", "Minus", "Times", "Divide"];
pub const FUSED: [&str; 4] = ["MulAdd", "MulSub", "NegMulAdd", "NegMulSub"];
pub const CLASSES: [&str; 3] = ["Stack", "Mem", "Param"];
pub const KINDS: [&str; 18] = [
    "Nop",
    "Uni",
    "Bi",
    "Mov",
    "Load",
    "Save",
    "LoadConst",
    "Fused",
    "IfElse",
    "LoadMath",
    "LoadConstMath",
    "LoadComplex",
    "SaveComplex",
    "ComplexBi",
    "Label",
    "Branch",
    "Call",
    "BranchIf",
];

pub mod uni {
    pub const NEG: u8 = 0;
    pub const NOT: u8 = 1;
    pub const ABS: u8 = 2;
    pub const ROOT: u8 = 3;
    pub const REAL_ROOT: u8 = 4;
    pub const RECIP: u8 = 5;
    pub const ROUND: u8 = 6;
    pub const FLOOR: u8 = 7;
    pub const CEILING: u8 = 8;
    pub const TRUNC: u8 = 9;
    pub const REAL: u8 = 10;
    pub const IMAGINARY: u8 = 11;
    pub const CONJUGATE: u8 = 12;
    pub const HALF: u8 = 13;
    pub const IS_ZERO: u8 = 14;
    pub const IS_NOT_ZERO: u8 = 15;
    pub const SIGN: u8 = 16;
    pub const ABS2: u8 = 17;
    pub const TIMES_I: u8 = 18;
    pub const TIMES_NEG_I: u8 = 19;
}

pub mod bi {
    pub const PLUS: u8 = 0;
    pub const MINUS: u8 = 1;
    pub const TIMES: u8 = 2;
    pub const DIVIDE: u8 = 3;
    pub const GREATER_THAN: u8 = 4;
    pub const GREATER_THAN_EQUAL: u8 = 5;
    pub const LITTLE_THAN: u8 = 6;
    pub const LITTLE_THAN_EQUAL: u8 = 7;
    pub const EQUAL: u8 = 8;
    pub const NOT_EQUAL: u8 = 9;
    pub const AND: u8 = 10;
    pub const AND_NOT: u8 = 11;
    pub const OR: u8 = 12;
    pub const XOR: u8 = 13;
    pub const COMPLEX: u8 = 14;
}

/// Uni and Bi as sheets take them: all but AndNot.
pub const SHEET_UNI: [u8; 20] = [0, 1, 2, 3, 4, 5, 6, 7, 8, 9, 10, 11, 12, 13, 14, 15, 16, 17, 18, 19];
pub const SHEET_BI: [u8; 14] = [0, 1, 2, 3, 4, 5, 6, 7, 8, 9, 10, 12, 13, 14];

/// Uni and Bi as listings take them.
pub const LISTING_UNI: [u8; 12] = [0, 1, 2, 3, 5, 6, 7, 8, 9, 13, 14, 16];
pub const LISTING_BI: [u8; 13] = [0, 1, 2, 3, 4, 5, 6, 7, 8, 9, 10, 12, 13];
