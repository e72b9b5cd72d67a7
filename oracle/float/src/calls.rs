//! The C functions of the crate `float_calls`, and a table of them in the order of `OPERATIONS`.

use crate::operations::Operands;

extern "C" {
    pub fn tulipcricket_plus(a: u64, b: u64) -> u64;
    pub fn tulipcricket_minus(a: u64, b: u64) -> u64;
    pub fn tulipcricket_times(a: u64, b: u64) -> u64;
    pub fn tulipcricket_divide(a: u64, b: u64) -> u64;
    pub fn tulipcricket_half(a: u64) -> u64;
    pub fn tulipcricket_recip(a: u64) -> u64;
    pub fn tulipcricket_greater_than(a: u64, b: u64) -> u64;
    pub fn tulipcricket_little_than(a: u64, b: u64) -> u64;
    pub fn tulipcricket_equal(a: u64, b: u64) -> u64;
    pub fn tulipcricket_not_equal(a: u64, b: u64) -> u64;
    pub fn tulipcricket_neg(a: u64) -> u64;
    pub fn tulipcricket_abs(a: u64) -> u64;
    pub fn tulipcricket_not(a: u64) -> u64;
    pub fn tulipcricket_and(a: u64, b: u64) -> u64;
    pub fn tulipcricket_or(a: u64, b: u64) -> u64;
    pub fn tulipcricket_xor(a: u64, b: u64) -> u64;
    pub fn tulipcricket_sign(a: u64) -> u64;
    pub fn tulipcricket_if_else(a: u64, b: u64, c: u64) -> u64;
    pub fn tulipcricket_round(a: u64) -> u64;
    pub fn tulipcricket_root(a: u64) -> u64;
    pub fn tulipcricket_mul_add(a: u64, b: u64, c: u64) -> u64;
    pub fn tulipcricket_complex_plus_re(x1: u64, y1: u64, x2: u64, y2: u64) -> u64;
    pub fn tulipcricket_complex_plus_im(x1: u64, y1: u64, x2: u64, y2: u64) -> u64;
    pub fn tulipcricket_complex_minus_re(x1: u64, y1: u64, x2: u64, y2: u64) -> u64;
    pub fn tulipcricket_complex_minus_im(x1: u64, y1: u64, x2: u64, y2: u64) -> u64;
    pub fn tulipcricket_complex_times_re(x1: u64, y1: u64, x2: u64, y2: u64) -> u64;
    pub fn tulipcricket_complex_times_im(x1: u64, y1: u64, x2: u64, y2: u64) -> u64;
    pub fn tulipcricket_complex_divide_re(x1: u64, y1: u64, x2: u64, y2: u64) -> u64;
    pub fn tulipcricket_complex_divide_im(x1: u64, y1: u64, x2: u64, y2: u64) -> u64;
    pub fn tulipcricket_floor(a: u64) -> u64;
    pub fn tulipcricket_ceiling(a: u64) -> u64;
    pub fn tulipcricket_trunc(a: u64) -> u64;
    pub fn tulipcricket_is_zero(a: u64) -> u64;
    pub fn tulipcricket_greater_than_equal(a: u64, b: u64) -> u64;
    pub fn tulipcricket_little_than_equal(a: u64, b: u64) -> u64;
}

/// A function over a case's first operands.
macro_rules! call {
    ($f:ident, $($at:literal),*) => {
        // SAFETY: the function takes words by value, asks nothing of them and touches no memory of ours.
        |o: &Operands| unsafe { $f($(o[$at]),*) }
    };
}

pub const CALLS: [fn(&Operands) -> u64; 35] = [
    call!(tulipcricket_plus, 0, 1),
    call!(tulipcricket_minus, 0, 1),
    call!(tulipcricket_times, 0, 1),
    call!(tulipcricket_divide, 0, 1),
    call!(tulipcricket_half, 0),
    call!(tulipcricket_recip, 0),
    call!(tulipcricket_greater_than, 0, 1),
    call!(tulipcricket_little_than, 0, 1),
    call!(tulipcricket_equal, 0, 1),
    call!(tulipcricket_not_equal, 0, 1),
    call!(tulipcricket_neg, 0),
    call!(tulipcricket_abs, 0),
    call!(tulipcricket_not, 0),
    call!(tulipcricket_and, 0, 1),
    call!(tulipcricket_or, 0, 1),
    call!(tulipcricket_xor, 0, 1),
    call!(tulipcricket_sign, 0),
    call!(tulipcricket_if_else, 0, 1, 2),
    call!(tulipcricket_round, 0),
    call!(tulipcricket_root, 0),
    call!(tulipcricket_mul_add, 0, 1, 2),
    call!(tulipcricket_complex_plus_re, 0, 1, 2, 3),
    call!(tulipcricket_complex_plus_im, 0, 1, 2, 3),
    call!(tulipcricket_complex_minus_re, 0, 1, 2, 3),
    call!(tulipcricket_complex_minus_im, 0, 1, 2, 3),
    call!(tulipcricket_complex_times_re, 0, 1, 2, 3),
    call!(tulipcricket_complex_times_im, 0, 1, 2, 3),
    call!(tulipcricket_complex_divide_re, 0, 1, 2, 3),
    call!(tulipcricket_complex_divide_im, 0, 1, 2, 3),
    call!(tulipcricket_floor, 0),
    call!(tulipcricket_ceiling, 0),
    call!(tulipcricket_trunc, 0),
    call!(tulipcricket_is_zero, 0),
    call!(tulipcricket_greater_than_equal, 0, 1),
    call!(tulipcricket_little_than_equal, 0, 1),
];
