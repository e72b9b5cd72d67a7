//! Cases: special words in every combination, and random ones where rounding is hard.

use crate::operations::{Operands, Operation};
use crate::random::Rng;

const SIGN: u64 = 1 << 63;
/// The lowest exponent of a binary64 digit.
const LOWEST: i64 = -1074;
/// 2^970: half the distance from the largest number to 2^1024.
const HALF_TOP: i64 = 970;

/// Zeros, subnormals, ones, the largest numbers, infinities and NaNs.
pub const CORE: [u64; 12] = [
    0,
    SIGN,
    1,
    SIGN | 1,
    0x000f_ffff_ffff_ffff,
    0x0010_0000_0000_0000,
    0x3ff0_0000_0000_0000,
    0xbff0_0000_0000_0000,
    0x7fef_ffff_ffff_ffff,
    0x7ff0_0000_0000_0000,
    0xfff0_0000_0000_0000,
    0xfff4_0000_0000_1234,
];

/// Those, and more words at which an operation changes its mind.
pub const SPECIAL: [u64; 46] = [
    0,
    SIGN,
    1,
    SIGN | 1,
    2,
    3,
    5,
    0x0008_0000_0000_0000,
    0x000f_ffff_ffff_ffff,
    0x0010_0000_0000_0000,
    0x8010_0000_0000_0000,
    0x0010_0000_0000_0001,
    0x001f_ffff_ffff_ffff,
    0x0020_0000_0000_0000,
    0x1ff0_0000_0000_0000,
    0x2000_0000_0000_0000,
    0x3c90_0000_0000_0000,
    0x3ca0_0000_0000_0000,
    0x3fdf_ffff_ffff_ffff,
    0x3fe0_0000_0000_0000,
    0xbfe0_0000_0000_0000,
    0x3fe0_0000_0000_0001,
    0x3fef_ffff_ffff_ffff,
    0x3ff0_0000_0000_0000,
    0xbff0_0000_0000_0000,
    0x3ff0_0000_0000_0001,
    0x3ff8_0000_0000_0000,
    0x4000_0000_0000_0000,
    0x4004_0000_0000_0000,
    0xc00c_0000_0000_0000,
    0x432f_ffff_ffff_ffff,
    0x4330_0000_0000_0000,
    0x4330_0000_0000_0001,
    0x4340_0000_0000_0000,
    0x5fef_ffff_ffff_ffff,
    0x7c90_0000_0000_0000,
    0x7fd0_0000_0000_0000,
    0x7fe0_0000_0000_0000,
    0x7fef_ffff_ffff_ffff,
    0xffef_ffff_ffff_ffff,
    0x7ff0_0000_0000_0000,
    0xfff0_0000_0000_0000,
    0x7ff0_0000_0000_0001,
    0x7ff8_0000_0000_0000,
    0xfff8_0000_0000_5678,
    u64::MAX,
];

/// NaNs that tell which operand a result is from: signalling and quiet, of both signs, each with another mark.
pub const MARKS: [u64; 8] = [
    0x7ff0_0000_0000_0002,
    0xfff0_0000_0000_0003,
    0x7ff8_0000_0000_0004,
    0xfff8_0000_0000_0005,
    0x7ff4_0000_0000_0abc,
    0xfff7_ffff_ffff_ffff,
    0x7fff_ffff_ffff_fffe,
    0xfffc_0000_0000_0def,
];

/// The special words that an operation is compared on in every combination; of four operands those of `CORE` and the marks.
pub fn special(operation: &Operation) -> Vec<u64> {
    let words: &[u64] = if operation.operands == 4 { &CORE } else { &SPECIAL };
    [words, &MARKS].concat()
}

/// Every tuple of as many of these words as the operation has operands.
pub fn grid(operation: &Operation, words: &[u64]) -> Vec<Operands> {
    let mut rows = vec![[0; 4]];
    for at in 0..operation.operands {
        let with = |row: &Operands, word: &u64| {
            let mut longer = *row;
            longer[at] = *word;
            longer
        };
        rows = rows.iter().flat_map(|row| words.iter().map(move |word| with(row, word))).collect();
    }
    rows
}

// ---- words

/// The word of sign * significand * 2^exponent, rounded by the hardware where it does not fit.
fn word(negative: bool, significand: u64, exponent: i64) -> u64 {
    let mut x = significand as f64;
    let mut e = exponent;
    while e > 1000 {
        x *= power(1000);
        e -= 1000;
    }
    while e < -1000 {
        x *= power(-1000);
        e += 1000;
    }
    (x * power(e)).to_bits() | u64::from(negative) << 63
}

/// 2^e, for e from -1022 to 1023.
fn power(e: i64) -> f64 {
    f64::from_bits(((e + 1023) as u64) << 52)
}

/// A significand of 53 digits: any, with few digits, with a long run of ones or zeros, or close to a power of two.
fn significand(rng: &mut Rng) -> u64 {
    let top = 1 << 52;
    let any = rng.bits() >> 12;
    match rng.below(6) {
        0 => top | any >> rng.below(52) << rng.below(12) & (top - 1),
        1 => top | any & !0 << rng.below(52) & (top - 1),
        2 => top | (!0 << rng.below(52)) & (top - 1),
        3 => (2 << 52) - 1 - rng.below(8),
        4 => top + rng.below(8),
        _ => top | any,
    }
}

/// A word of the exponent field `field`, which is held to those of finite words.
fn with_field(rng: &mut Rng, field: i64) -> u64 {
    let field = field.clamp(0, 2046) as u64;
    rng.bits() & SIGN | field << 52 | significand(rng) & ((1 << 52) - 1)
}

/// A word: special or next to one, any bits, about 1, or subnormal.
fn any_word(rng: &mut Rng) -> u64 {
    match rng.below(8) {
        0 => rng.pick(&SPECIAL),
        1 => near(rng.pick(&SPECIAL), rng),
        2 | 3 => rng.bits(),
        4 => {
            let field = rng.between(0, 1);
            with_field(rng, field)
        }
        5 => {
            let field = rng.between(0, 2046);
            with_field(rng, field)
        }
        _ => {
            let field = rng.between(1023 - 60, 1023 + 60);
            with_field(rng, field)
        }
    }
}

/// A word a few units away from `a`.
fn near(a: u64, rng: &mut Rng) -> u64 {
    a.wrapping_add(rng.below(7)).wrapping_sub(3)
}

fn field(a: u64) -> i64 {
    (a >> 52 & 2047) as i64
}

// ---- cases by operation

pub fn one(rng: &mut Rng) -> Operands {
    [any_word(rng), 0, 0, 0]
}

pub fn bits(rng: &mut Rng) -> Operands {
    [any_word(rng), rng.bits(), any_word(rng), 0]
}

/// Two words to compare: equal, next to each other, opposite, or apart.
pub fn close(rng: &mut Rng) -> Operands {
    let a = any_word(rng);
    let b = match rng.below(4) {
        0 => near(a, rng),
        1 => a ^ SIGN,
        2 => near(a ^ SIGN, rng),
        _ => any_word(rng),
    };
    [a, b, 0, 0]
}

/// Two words to add: of nearly equal size, or so far apart that the smaller one decides a tie.
pub fn sum(rng: &mut Rng) -> Operands {
    let a = any_word(rng);
    let b = match rng.below(5) {
        0 => near(a, rng) ^ rng.bits() & SIGN,
        1 => {
            let e = field(a) - rng.between(50, 56);
            with_field(rng, e)
        }
        2 | 3 => {
            let e = field(a) - rng.between(-3, 60);
            with_field(rng, e)
        }
        _ => any_word(rng),
    };
    if rng.below(2) == 0 {
        [a, b, 0, 0]
    } else {
        [b, a, 0, 0]
    }
}

/// Two words to multiply: the product about 1, about the largest or about the smallest numbers, or exact.
pub fn product(rng: &mut Rng) -> Operands {
    let a = any_word(rng);
    let place = match rng.below(4) {
        0 => rng.between(LOWEST - 4, -1018),
        1 => rng.between(1020, 1025),
        2 => rng.between(-60, 60),
        _ => return [a, any_word(rng), 0, 0],
    };
    let e = place + 2 * 1023 - field(a);
    [a, with_field(rng, e), 0, 0]
}

/// Two words to divide: the quotient as in `product`, or exact, or the divisor's product with a short number moved a unit.
pub fn quotient(rng: &mut Rng) -> Operands {
    let b = any_word(rng);
    let place = match rng.below(5) {
        0 => rng.between(LOWEST - 4, -1018),
        1 => rng.between(1020, 1025),
        2 => rng.between(-60, 60),
        3 => {
            let q = word(false, rng.bits() >> rng.between(12, 60), rng.between(-40, 0));
            let a = (f64::from_bits(b) * f64::from_bits(q)).to_bits();
            return [near(a, rng), b, 0, 0];
        }
        _ => return [any_word(rng), b, 0, 0],
    };
    let e = place + field(b);
    [with_field(rng, e), b, 0, 0]
}

/// A word to round to a whole number: a half or next to one, about 2^52, or any.
pub fn halves(rng: &mut Rng) -> Operands {
    let negative = rng.below(2) == 0;
    let a = match rng.below(6) {
        0 => word(negative, rng.below(64), -1),
        1 => near(word(negative, rng.below(64), -1), rng),
        2 => near(word(negative, 1 << 53 | rng.bits() >> 11, rng.between(-3, 0)), rng),
        3 => near(word(negative, rng.bits() >> rng.between(11, 62) | 1, -1), rng),
        4 => {
            let field = rng.between(1020, 1077);
            with_field(rng, field)
        }
        _ => any_word(rng),
    };
    [a, 0, 0, 0]
}

/// A word to round in a direction: a whole number of any count of digits or a unit or two beside it, in half of the cases; else as
/// `halves`.
pub fn wholes(rng: &mut Rng) -> Operands {
    if rng.below(2) == 0 {
        return halves(rng);
    }
    let whole = word(rng.below(2) == 0, rng.bits() >> rng.between(11, 63), 0);
    [near(whole, rng), 0, 0, 0]
}

/// A word to compare with zero: a zero or next to one, subnormal, or any.
pub fn zeros(rng: &mut Rng) -> Operands {
    let a = match rng.below(3) {
        0 => near(rng.bits() & SIGN, rng),
        1 => subnormal(rng) | rng.bits() & SIGN,
        _ => any_word(rng),
    };
    [a, 0, 0, 0]
}

/// An odd m of 54 digits with m * m = r modulo 2^55, for r = 1 modulo 8. Found digit by digit; of m and -m one has 54 digits.
fn two_adic_root(r: u64) -> u64 {
    let mut m: u64 = 1;
    for place in 3..55 {
        if m.wrapping_mul(m).wrapping_sub(r) >> place & 1 == 1 {
            m = m.wrapping_add(1 << (place - 1));
        }
    }
    let m = m & ((1 << 54) - 1);
    m.max((1 << 54) - m)
}

/// A word whose root is at most 2^-40 units from the middle between two neighbours: m * m - r, times an even power of two.
fn near_middle(rng: &mut Rng) -> u64 {
    let r = rng.between(-4000, 4000) * 8 + 1;
    let m = two_adic_root(r as u64);
    let square = i128::from(m) * i128::from(m) - i128::from(r);
    word(false, (square >> 55) as u64, 55 + 2 * rng.between(-560, 450))
}

/// A word to take the root of: near a middle, a square or next to one, subnormal, or any.
pub fn radicand(rng: &mut Rng) -> Operands {
    let a = match rng.below(6) {
        0 | 1 => near_middle(rng),
        2 => {
            let q = f64::from_bits(any_word(rng)).abs();
            near((q * q).to_bits(), rng)
        }
        3 => {
            let q = rng.bits() >> rng.between(38, 60);
            near(word(false, q * q, 2 * rng.between(-520, 480)), rng)
        }
        4 => rng.bits() >> rng.between(12, 63),
        _ => any_word(rng) & !(rng.bits() & rng.bits() & SIGN),
    };
    [a, 0, 0, 0]
}

/// A number of 26 or 27 digits, as Root's estimates have, squared: such a square, or a unit or two beside it, at any even
/// exponent. Squares of more than 53 digits are rounded.
fn near_square(rng: &mut Rng) -> u64 {
    let q = (1 << 25 | rng.below(1 << 25)) << rng.below(2) | rng.below(2);
    near(word(false, q * q, 2 * rng.between(-560, 480)), rng)
}

/// A word at the end of an octave, at an even or an odd exponent: the first or the last significands of any field.
fn octave_end(rng: &mut Rng) -> u64 {
    let first = (rng.between(1, 2046) as u64) << 52;
    near(first, rng)
}

/// A subnormal of any count of digits: few, a square or next to one, or at the end of an octave.
fn subnormal(rng: &mut Rng) -> u64 {
    match rng.below(3) {
        0 => rng.bits() >> rng.between(12, 63),
        1 => {
            let q = rng.bits() >> rng.between(38, 63);
            (q * q).wrapping_add(rng.below(5)).saturating_sub(2)
        }
        _ => (1u64 << rng.below(52)) + rng.below(5) - 1,
    }
}

/// A word to take the root of, for comparisons: as `radicand` in half of the cases, which alone are in the list of
/// `float_replay`; else at the edges of Root's steps.
pub fn radicand_or_edge(rng: &mut Rng) -> Operands {
    let a = match rng.below(6) {
        0 => near_square(rng),
        1 => octave_end(rng),
        2 => subnormal(rng),
        _ => return radicand(rng),
    };
    [a, 0, 0, 0]
}

/// A NaN of either sign, quiet or signalling, with a mark of 1 to 52 digits.
fn any_nan(rng: &mut Rng) -> u64 {
    let nan = 0x7ff0_0000_0000_0000 | rng.bits() & (SIGN | 1 << 51) | rng.bits() >> rng.between(12, 63);
    nan | u64::from(nan << 12 == 0)
}

/// A random case of a comparison: in a quarter of the cases an operand is a NaN with a mark (half of them), a special word, or as drawn.
pub fn with_marks(operation: &Operation, rng: &mut Rng) -> Operands {
    let mut row = (operation.compared)(rng);
    if rng.below(4) == 0 {
        for operand in &mut row[..operation.operands] {
            match rng.below(4) {
                0 | 1 => *operand = any_nan(rng),
                2 => *operand = rng.pick(&SPECIAL),
                _ => {}
            }
        }
    }
    row
}

/// The cases with a NaN that close the list: every tuple of two marks, infinity, zero and one that has a NaN; of one operand every mark, of
/// four operands a hundred.
pub fn listed_marks(operation: &Operation, rng: &mut Rng) -> Vec<Operands> {
    let words = [MARKS[0], MARKS[3], f64::INFINITY.to_bits(), 0, 1.0f64.to_bits()];
    let has_nan = |row: &Operands| row.iter().any(|word| f64::from_bits(*word).is_nan());
    match operation.operands {
        1 => grid(operation, &MARKS),
        4 => {
            let drawn = std::iter::repeat_with(|| std::array::from_fn(|_| rng.pick(&words)));
            drawn.filter(has_nan).take(100).collect()
        }
        _ => grid(operation, &words).into_iter().filter(has_nan).collect(),
    }
}

/// Four words of two complex numbers.
pub fn pairs(rng: &mut Rng) -> Operands {
    let x1 = any_word(rng);
    if rng.below(3) == 0 {
        return [x1, any_word(rng), any_word(rng), any_word(rng)];
    }
    let e = if field(x1) == 2047 { 1023 } else { field(x1) };
    let word = |rng: &mut Rng| {
        let field = e + rng.between(-4, 4);
        with_field(rng, field)
    };
    let y1 = word(rng);
    let x2 = if rng.below(4) == 0 { near(x1, rng) } else { word(rng) };
    let y2 = if rng.below(4) == 0 { near(y1, rng) } else { word(rng) };
    [x1, y1, x2, y2]
}

// ---- a * b + c

/// Two finite words whose product is about 2^place.
fn factors(rng: &mut Rng, place: i64) -> (u64, u64) {
    let split = rng.between(-500, 500);
    let a = with_field(rng, 1023 + split);
    let b = with_field(rng, 1023 + place - split);
    (a, b)
}

/// c is the rounded product, taken back: what is left is the rounding error, or a few units.
fn cancelling(rng: &mut Rng) -> Operands {
    let place = rng.between(-1060, 1000);
    let (a, b) = factors(rng, place);
    let product = (f64::from_bits(a) * f64::from_bits(b)).to_bits();
    let c = if rng.below(2) == 0 { product } else { near(product, rng) };
    [a, b, c ^ SIGN, 0]
}

/// The exact product is the middle between two neighbours, and a small c decides.
fn middle_product(rng: &mut Rng) -> Operands {
    let a = 1 << 26 | rng.below(1 << 26) | 1;
    let b = ((1 << 53) / a + 1 + rng.below(1 << 25)) | 1;
    let e = rng.between(-1000, 900);
    let split = rng.between(-60, 60);
    let c_place = e - rng.between(0, 120);
    let c = if rng.below(8) == 0 { rng.below(3) | rng.bits() & SIGN } else { with_field(rng, 1023 + c_place) };
    [word(rng.below(2) == 0, a, split), word(rng.below(2) == 0, b, e - split), c, 0]
}

/// The product is half a unit of c, exactly or nearly.
fn half_unit(rng: &mut Rng) -> Operands {
    let c_field = rng.between(60, 2040);
    let c = with_field(rng, c_field);
    let place = c_field - 1023 - 53;
    let split = rng.between(-20, 20);
    let a = near(word(rng.below(2) == 0, 1, split), rng);
    let b = near(word(rng.below(2) == 0, 1, place - split), rng);
    [a, b, c, 0]
}

/// The exact sum is subnormal or next to it.
fn subnormal_sum(rng: &mut Rng) -> Operands {
    let place = rng.between(LOWEST - 60, -1015);
    let (a, b) = factors(rng, place);
    let c = match rng.below(4) {
        0 => rng.below(3) | rng.bits() & SIGN,
        1 => {
            let product = (f64::from_bits(a) * f64::from_bits(b)).to_bits();
            near(product, rng) ^ SIGN
        }
        _ => {
            let field = rng.between(0, 60);
            with_field(rng, field)
        }
    };
    [a, b, c, 0]
}

/// The sum is about the largest number, or the product is above it and c brings it back.
fn at_the_top(rng: &mut Rng) -> Operands {
    let negative = rng.below(2) == 0;
    let sign = u64::from(negative) << 63;
    match rng.below(3) {
        0 => {
            let a = word(negative, (1 << 53) - 1 - rng.below(2), 500);
            let b = word(false, 1, 471);
            let c = near(word(negative ^ (rng.below(4) == 0), 1, HALF_TOP), rng);
            [a, b, c, 0]
        }
        1 => {
            let a = word(negative, 1, 512);
            let b = near(word(false, 1, 512), rng);
            let c = (f64::MAX.to_bits() - rng.below(3)) | (sign ^ SIGN);
            [a, b, c, 0]
        }
        _ => {
            let place = rng.between(1021, 1024);
            let (a, b) = factors(rng, place);
            let field = 2046 - rng.between(0, 56);
            [a, b, with_field(rng, field), 0]
        }
    }
}

/// The product is any distance above or below c.
fn any_distance(rng: &mut Rng) -> Operands {
    let place = rng.between(-900, 900);
    let (a, b) = factors(rng, place);
    let field = 1023 + place + rng.between(-120, 120);
    [a, b, with_field(rng, field), 0]
}

/// Three words to multiply and add.
pub fn fused(rng: &mut Rng) -> Operands {
    match rng.below(8) {
        0 => cancelling(rng),
        1 => middle_product(rng),
        2 => half_unit(rng),
        3 => subnormal_sum(rng),
        4 => at_the_top(rng),
        5 | 6 => any_distance(rng),
        _ => [any_word(rng), any_word(rng), any_word(rng), 0],
    }
}

#[cfg(test)]
mod tests {
    use super::*;
    use crate::operations::OPERATIONS;

    fn of(draw: fn(&mut Rng) -> Operands, count: usize) -> Vec<[f64; 4]> {
        let mut rng = Rng(1);
        (0..count).map(|_| draw(&mut rng).map(f64::from_bits)).collect()
    }

    #[test]
    fn words_are_exact() {
        assert_eq!(word(false, 1, LOWEST), 1);
        assert_eq!(word(true, 3, -1), (-1.5f64).to_bits());
        assert_eq!(word(false, (1 << 53) - 1, 971), f64::MAX.to_bits());
        assert_eq!(word(false, (1 << 52) - 1, LOWEST), 0x000f_ffff_ffff_ffff);
    }

    #[test]
    fn near_middles_are_near() {
        for j in -4000..4000i64 {
            let r = 8 * j + 1;
            let m = two_adic_root(r as u64);
            assert_eq!(m >> 53, 1);
            let left = i128::from(m) * i128::from(m) - i128::from(r);
            assert_eq!(left % (1 << 55), 0);
            assert!(left >> 55 < 1 << 53);
        }
    }

    /// Each edge of Root is met: squares and their neighbours, both ends of octaves at even and odd exponents, subnormals.
    #[test]
    fn edges_of_root_are_met() {
        fn count(draw: fn(&mut Rng) -> u64, holds: impl Fn(u64) -> bool) -> usize {
            let mut rng = Rng(1);
            (0..10_000).filter(|_| holds(draw(&mut rng))).count()
        }
        let square = |a: u64| {
            let root = f64::from_bits(a).sqrt();
            root.mul_add(root, -f64::from_bits(a)) == 0.0
        };
        assert!(count(near_square, square) > 1000);
        assert!(count(near_square, |a| !square(a)) > 1000);
        assert!(count(octave_end, |a| a << 12 == 0 && a >> 52 & 1 == 0) > 100);
        assert!(count(octave_end, |a| a << 12 == 0 && a >> 52 & 1 == 1) > 100);
        assert!(count(octave_end, |a| !a << 12 == 0 && a >> 52 & 1 == 0) > 100);
        assert!(count(octave_end, |a| !a << 12 == 0 && a >> 52 & 1 == 1) > 100);
        assert_eq!(count(subnormal, |a| a < 1 << 52), 10_000);
        assert!(count(subnormal, |a| a.is_power_of_two()) > 100);
    }

    /// Whole numbers, values a unit beside one, values below 1 of either sign, and zeros are each met.
    #[test]
    fn edges_of_the_directions_are_met() {
        let count = |draw: fn(&mut Rng) -> Operands, holds: fn(f64) -> bool| {
            of(draw, 10_000).into_iter().filter(|row| holds(row[0])).count()
        };
        let beside =
            |x: f64| x.abs() > 1.0 && x != x.trunc() && (x.next_up() == x.ceil() || x.next_down() == x.floor());
        assert!(count(wholes, |x| x == x.trunc() && x.abs() < 2f64.powi(52)) > 500);
        assert!(count(wholes, beside) > 500);
        assert!(count(wholes, |x| x < 0.0 && x > -1.0) > 100);
        assert!(count(wholes, |x| x > 0.0 && x < 1.0) > 100);
        assert!(count(zeros, |x| x == 0.0 && x.is_sign_positive()) > 100);
        assert!(count(zeros, |x| x == 0.0 && x.is_sign_negative()) > 100);
        assert!(count(zeros, |x| x.is_subnormal()) > 1000);
        assert!(count(zeros, |x| x.is_nan()) > 100);
    }

    /// NaNs of both signs, quiet and signalling, are met alone, together with each other operand and without one.
    #[test]
    fn marks_are_met() {
        for operation in &OPERATIONS {
            let mut rng = Rng(1);
            let mut met = [0; 16];
            let mut kinds = [0; 4];
            for _ in 0..20_000 {
                let row = with_marks(operation, &mut rng);
                let nans: Vec<usize> = (0..operation.operands).filter(|at| f64::from_bits(row[*at]).is_nan()).collect();
                met[nans.iter().map(|at| 1 << at).sum::<usize>()] += 1;
                for at in nans {
                    kinds[(row[at] >> 63 << 1 | row[at] >> 51 & 1) as usize] += 1;
                }
            }
            assert!(met[..1 << operation.operands].iter().all(|count| *count > 100), "{} {met:?}", operation.name);
            assert!(kinds.iter().all(|count| *count > 100), "{} {kinds:?}", operation.name);
        }
    }

    #[test]
    fn middle_products_have_54_digits() {
        for [a, b, ..] in of(middle_product, 10_000) {
            let digits = |x: f64| x.to_bits() & ((1 << 52) - 1) | 1 << 52;
            let odd = |d: u64| d >> d.trailing_zeros();
            if a.is_normal() && b.is_normal() {
                assert_eq!((odd(digits(a)) * odd(digits(b))).ilog2(), 53);
            }
        }
    }

    /// Each shape of `fused` reaches what it is for, in at least a tenth of its cases.
    #[test]
    fn fused_shapes_reach_their_ends() {
        let count = |draw: fn(&mut Rng) -> Operands, holds: fn([f64; 4]) -> bool| {
            of(draw, 10_000).into_iter().filter(|row| holds(*row)).count()
        };
        let once = |[a, b, c, _]: [f64; 4]| a.mul_add(b, c);
        let twice = |[a, b, c, _]: [f64; 4]| a * b + c;
        assert!(count(cancelling, |[a, b, c, _]| (a.mul_add(b, c) / c).abs() < 1e-15) > 1000);
        assert!(count(middle_product, |[a, b, c, _]| a.mul_add(b, c) != a * b + c) > 1000);
        assert!(count(subnormal_sum, |[a, b, c, _]| a.mul_add(b, c).is_subnormal()) > 1000);
        assert!(count(at_the_top, |[a, b, c, _]| a.mul_add(b, c) == f64::MAX.copysign(c)) > 100);
        assert!(count(at_the_top, |[a, b, c, _]| a.mul_add(b, c).is_infinite()) > 1000);
        assert!(of(half_unit, 10_000).into_iter().filter(|row| once(*row) != twice(*row)).count() > 100);
    }
}
