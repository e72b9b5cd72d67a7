//! The operations under their numbers: name, count of operands, the hardware's answer, and how cases are drawn.

use crate::float_cases as cases;
use crate::hardware;
use crate::random::Rng;

/// The operands of a case; those an operation does not have are 0.
pub type Operands = [u64; 4];

#[derive(Clone, Copy)]
pub struct Operation {
    pub name: &'static str,
    pub operands: usize,
    pub hardware: fn(&Operands) -> u64,
    /// A random case of the list.
    pub draw: fn(&mut Rng) -> Operands,
    /// How many cases of it the list holds.
    pub listed: usize,
    /// A random case of a comparison: as in the list, of Round also at whole numbers, of Root also at the edges of its steps.
    pub compared: fn(&mut Rng) -> Operands,
}

/// The rows of the table: a function over one to three words, or one half of a complex operation.
macro_rules! row {
    ($name:literal, $f:ident(a), $draw:ident, $listed:literal, $compared:ident) => {
        Operation { compared: cases::$compared, ..row!($name, $f(a), $draw, $listed) }
    };
    ($name:literal, $f:ident(a), $draw:ident, $listed:literal) => {
        row!(@ $name, 1, |o| hardware::$f(o[0]), $draw, $listed)
    };
    ($name:literal, $f:ident(a, b), $draw:ident, $listed:literal) => {
        row!(@ $name, 2, |o| hardware::$f(o[0], o[1]), $draw, $listed)
    };
    ($name:literal, $f:ident(a, b, c), $draw:ident, $listed:literal) => {
        row!(@ $name, 3, |o| hardware::$f(o[0], o[1], o[2]), $draw, $listed)
    };
    ($name:literal, $f:ident[$half:literal], $draw:ident, $listed:literal) => {
        row!(@ $name, 4, |o| hardware::$f([o[0], o[1]], [o[2], o[3]])[$half], $draw, $listed)
    };
    (@ $name:literal, $count:literal, $hardware:expr, $draw:ident, $listed:literal) => {
        Operation {
            name: $name,
            operands: $count,
            hardware: $hardware,
            draw: cases::$draw,
            listed: $listed,
            compared: cases::$draw,
        }
    };
}

/// An operation's number is its position.
pub const OPERATIONS: [Operation; 35] = [
    row!("Plus", plus(a, b), sum, 1300),
    row!("Minus", minus(a, b), sum, 1300),
    row!("Times", times(a, b), product, 1300),
    row!("Divide", divide(a, b), quotient, 1300),
    row!("Half", half(a), one, 700),
    row!("Recip", recip(a), one, 700),
    row!("GreaterThan", greater_than(a, b), close, 700),
    row!("LittleThan", little_than(a, b), close, 700),
    row!("Equal", equal(a, b), close, 700),
    row!("NotEqual", not_equal(a, b), close, 700),
    row!("Neg", neg(a), one, 250),
    row!("Abs", abs(a), one, 250),
    row!("Not", not(a), one, 250),
    row!("And", and(a, b), bits, 250),
    row!("Or", or(a, b), bits, 250),
    row!("Xor", xor(a, b), bits, 250),
    row!("Sign", sign(a), one, 250),
    row!("IfElse", if_else(a, b, c), bits, 250),
    row!("Round", round(a), halves, 1200, wholes),
    row!("Root", root(a), radicand, 2500, radicand_or_edge),
    row!("MulAdd", mul_add(a, b, c), fused, 5000),
    row!("PlusComplex real", complex_plus[0], pairs, 450),
    row!("PlusComplex imaginary", complex_plus[1], pairs, 450),
    row!("MinusComplex real", complex_minus[0], pairs, 450),
    row!("MinusComplex imaginary", complex_minus[1], pairs, 450),
    row!("TimesComplex real", complex_times[0], pairs, 450),
    row!("TimesComplex imaginary", complex_times[1], pairs, 450),
    row!("DivideComplex real", complex_divide[0], pairs, 450),
    row!("DivideComplex imaginary", complex_divide[1], pairs, 450),
    row!("Floor", floor(a), wholes, 1200),
    row!("Ceiling", ceiling(a), wholes, 1200),
    row!("Trunc", trunc(a), wholes, 1200),
    row!("IsZero", is_zero(a), zeros, 250),
    row!("GreaterThanEqual", greater_than_equal(a, b), close, 700),
    row!("LittleThanEqual", little_than_equal(a, b), close, 700),
];
