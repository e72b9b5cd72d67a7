//! Each operation of document 01's player as this machine's hardware gives it, from words to a word; the bits of a NaN that is computed
//! are document 02's, request c.

/// "A NaN made from operands that are none".
pub const NAN: u64 = 0x7ff8_0000_0000_0000;

/// A result of arithmetic as a word: one that is a NaN "has the bits of the first NaN operand in listing order, with bit 51 set".
#[inline(always)]
pub fn marked<const N: usize>(value: f64, operands: [u64; N]) -> u64 {
    if !value.is_nan() {
        return value.to_bits();
    }
    operands.into_iter().find(|a| f64::from_bits(*a).is_nan()).map_or(NAN, |a| a | 1 << 51)
}

#[inline(always)]
fn flag(holds: bool) -> u64 {
    if holds {
        u64::MAX
    } else {
        0
    }
}

#[inline(always)]
fn value(a: u64) -> f64 {
    f64::from_bits(a)
}

#[inline(always)]
pub fn plus(a: u64, b: u64) -> u64 {
    marked(value(a) + value(b), [a, b])
}

#[inline(always)]
pub fn minus(a: u64, b: u64) -> u64 {
    marked(value(a) - value(b), [a, b])
}

#[inline(always)]
pub fn times(a: u64, b: u64) -> u64 {
    marked(value(a) * value(b), [a, b])
}

#[inline(always)]
pub fn divide(a: u64, b: u64) -> u64 {
    marked(value(a) / value(b), [a, b])
}

#[inline(always)]
pub fn half(a: u64) -> u64 {
    marked(value(a) * 0.5, [a])
}

#[inline(always)]
pub fn recip(a: u64) -> u64 {
    marked(1.0 / value(a), [a])
}

#[inline(always)]
pub fn greater_than(a: u64, b: u64) -> u64 {
    flag(value(a) > value(b))
}

#[inline(always)]
pub fn little_than(a: u64, b: u64) -> u64 {
    flag(value(a) < value(b))
}

#[inline(always)]
pub fn greater_than_equal(a: u64, b: u64) -> u64 {
    flag(value(a) >= value(b))
}

#[inline(always)]
pub fn little_than_equal(a: u64, b: u64) -> u64 {
    flag(value(a) <= value(b))
}

#[inline(always)]
pub fn equal(a: u64, b: u64) -> u64 {
    flag(value(a) == value(b))
}

#[inline(always)]
pub fn not_equal(a: u64, b: u64) -> u64 {
    flag(value(a) != value(b))
}

#[inline(always)]
pub fn is_zero(a: u64) -> u64 {
    flag(value(a) == 0.0)
}

#[inline(always)]
pub fn neg(a: u64) -> u64 {
    (-value(a)).to_bits()
}

#[inline(always)]
pub fn abs(a: u64) -> u64 {
    value(a).abs().to_bits()
}

#[inline(always)]
pub fn not(a: u64) -> u64 {
    !a
}

#[inline(always)]
pub fn and(a: u64, b: u64) -> u64 {
    a & b
}

#[inline(always)]
pub fn or(a: u64, b: u64) -> u64 {
    a | b
}

#[inline(always)]
pub fn xor(a: u64, b: u64) -> u64 {
    a ^ b
}

#[inline(always)]
pub fn sign(a: u64) -> u64 {
    if value(a).is_sign_negative() {
        1 << 63
    } else {
        0
    }
}

/// The bits of `true_val` where `cond` has a one, those of `false_val` elsewhere.
#[inline(always)]
pub fn if_else(cond: u64, true_val: u64, false_val: u64) -> u64 {
    false_val ^ (true_val ^ false_val) & cond
}

#[inline(always)]
pub fn root(a: u64) -> u64 {
    marked(value(a).sqrt(), [a])
}

/// Whether the roundings to a whole number and `mul_add` are single instructions of this machine; else they are the C library's.
pub fn has_instructions() -> bool {
    #[cfg(target_arch = "x86_64")]
    return is_x86_feature_detected!("fma") && is_x86_feature_detected!("sse4.1");
    #[cfg(not(target_arch = "x86_64"))]
    false
}

/// An operation on values by the machine's instruction where it has one, else by the C library's function.
macro_rules! by_instruction {
    ($name:ident, $feature:literal, $f:ident, $a:ident $(, $b:ident)*) => {
        #[inline(always)]
        pub fn $name($a: u64, $($b: u64),*) -> u64 {
            #[cfg(target_arch = "x86_64")]
            {
                #[inline]
                #[target_feature(enable = $feature)]
                fn instruction($a: u64, $($b: u64),*) -> u64 {
                    marked(value($a).$f($(value($b)),*), [$a $(, $b)*])
                }
                if has_instructions() {
                    // SAFETY: the machine has the instruction.
                    return unsafe { instruction($a, $($b),*) };
                }
            }
            marked(value($a).$f($(value($b)),*), [$a $(, $b)*])
        }
    };
}

by_instruction!(round, "sse4.1", round_ties_even, a);
by_instruction!(floor, "sse4.1", floor, a);
by_instruction!(ceiling, "sse4.1", ceil, a);
by_instruction!(trunc, "sse4.1", trunc, a);
by_instruction!(mul_add, "fma", mul_add, a, b, c);

/// A complex number: its real and its imaginary word.
pub type Pair = [u64; 2];

#[inline(always)]
pub fn complex_plus(p: Pair, q: Pair) -> Pair {
    [plus(p[0], q[0]), plus(p[1], q[1])]
}

#[inline(always)]
pub fn complex_minus(p: Pair, q: Pair) -> Pair {
    [minus(p[0], q[0]), minus(p[1], q[1])]
}

/// "x1 times x2 minus y1 times y2, and y1 times x2 plus x1 times y2".
#[inline(always)]
pub fn complex_times([x1, y1]: Pair, [x2, y2]: Pair) -> Pair {
    [minus(times(x1, x2), times(y1, y2)), plus(times(y1, x2), times(x1, y2))]
}

/// "x1 times x2 plus y1 times y2, and y1 times x2 minus x1 times y2, each divided by x2 squared plus y2 squared".
#[inline(always)]
pub fn complex_divide([x1, y1]: Pair, [x2, y2]: Pair) -> Pair {
    let square = plus(times(x2, x2), times(y2, y2));
    let re = plus(times(x1, x2), times(y1, y2));
    let im = minus(times(y1, x2), times(x1, y2));
    [divide(re, square), divide(im, square)]
}

#[cfg(test)]
mod tests {
    use super::*;

    /// A result that is a NaN is the first one of the operands with bit 51 set, else the one of operands that are none.
    #[test]
    fn results_have_the_first_mark() {
        let (infinity, one) = (0x7ff0_0000_0000_0000, 0x3ff0_0000_0000_0000);
        assert_eq!(plus(0xfff0_0000_0000_0002, 0x7ff8_0000_0000_0001), 0xfff8_0000_0000_0002);
        assert_eq!(minus(one, 0x7ff0_0000_0000_0001), 0x7ff8_0000_0000_0001);
        assert_eq!(divide(one, 0xffff_ffff_ffff_ffff), 0xffff_ffff_ffff_ffff);
        assert_eq!(mul_add(infinity, 0, 0x7ff0_0000_0000_0003), 0x7ff8_0000_0000_0003);
        assert_eq!(mul_add(one, 0x7ff0_0000_0000_0002, 0x7ff0_0000_0000_0003), 0x7ff8_0000_0000_0002);
        assert_eq!(mul_add(infinity, 0, one), NAN);
        assert_eq!(floor(0xfff4_0000_0000_0000), 0xfffc_0000_0000_0000);
        let (x, y) = (0x7ff0_0000_0000_0001, 0xfff0_0000_0000_0002);
        assert_eq!(complex_times([x, y], [one, one]), [0x7ff8_0000_0000_0001, 0xfff8_0000_0000_0002]);
        assert_eq!(complex_times([infinity, x], [0, one])[0], NAN);
        assert_eq!(complex_divide([one, one], [x, y]), [0x7ff8_0000_0000_0001; 2]);
        assert_eq!(complex_divide([one, y], [one, x]), [0xfff8_0000_0000_0002; 2]);
    }
}
