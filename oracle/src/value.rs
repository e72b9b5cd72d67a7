//! Values and the operations on them: the tables of docs/SHEET.md, 2. Words are worked on by the player's arithmetic. In the names of its
//! tables, x and y are the halves of the first operand, u and v those of the second.

use crate::names::{bi, uni};
use crate::player::{binary, divide, is_nan, mask, minus, mul_add, plus, times, unary};

/// A real number, one word, or a complex one of two.
#[derive(Clone, Copy, Debug, PartialEq)]
pub enum Value {
    R(u64),
    C(u64, u64),
}

use Value::{C, R};

const INFINITY: u64 = 0x7ff0_0000_0000_0000;
/// Powers of two: 2^1023, 2^-1021, 2^-1022 and 2^-2.
const HIGH: u64 = 0x7fe0_0000_0000_0000;
const LOW: u64 = 0x0020_0000_0000_0000;
const LOWEST: u64 = 0x0010_0000_0000_0000;
const QUARTER: u64 = 0x3fd0_0000_0000_0000;

impl Value {
    /// R x as C x, 0.
    pub fn wide(self) -> Value {
        let (x, y) = self.halves();
        C(x, y)
    }

    /// The halves of the wide value.
    pub fn halves(self) -> (u64, u64) {
        match self {
            R(x) => (x, 0),
            C(x, y) => (x, y),
        }
    }

    pub fn re(self) -> u64 {
        self.halves().0
    }

    pub fn is_real(self) -> bool {
        matches!(self, R(_))
    }

    /// The value with these halves: an R takes the real one alone and stays an R.
    pub fn with_halves(self, x: u64, y: u64) -> Value {
        match self {
            R(_) => R(x),
            C(..) => C(x, y),
        }
    }

    /// The value with this real half.
    pub fn with_re(self, x: u64) -> Value {
        self.with_halves(x, self.halves().1)
    }

    /// Each half by itself.
    pub fn each(self, f: impl Fn(u64) -> u64) -> Value {
        match self {
            R(x) => R(f(x)),
            C(x, y) => C(f(x), f(y)),
        }
    }

    /// Each half times k.
    pub fn scaled(self, k: u64) -> Value {
        self.each(|half| times(half, k))
    }
}

fn neg(x: u64) -> u64 {
    unary(uni::NEG, x)
}

fn half(x: u64) -> u64 {
    unary(uni::HALF, x)
}

fn abs(x: u64) -> u64 {
    unary(uni::ABS, x)
}

fn sqrt(x: u64) -> u64 {
    unary(uni::ROOT, x)
}

/// x*x + y*y, each product rounded.
fn square_sum(x: u64, y: u64) -> u64 {
    plus(times(x, x), times(y, y))
}

/// fma(y, y, x*x).
fn fused_square(x: u64, y: u64) -> u64 {
    mul_add(y, y, times(x, x))
}

pub fn add(a: Value, b: Value) -> Value {
    match (a, b) {
        (R(x), R(u)) => R(plus(x, u)),
        (R(x), C(u, v)) => C(plus(x, u), v),
        (C(x, y), R(u)) => C(plus(x, u), y),
        (C(x, y), C(u, v)) => C(plus(x, u), plus(y, v)),
    }
}

pub fn subtract(a: Value, b: Value) -> Value {
    match (a, b) {
        (R(x), R(u)) => R(minus(x, u)),
        (R(x), C(u, v)) => C(minus(x, u), neg(v)),
        (C(x, y), R(u)) => C(minus(x, u), y),
        (C(x, y), C(u, v)) => C(minus(x, u), minus(y, v)),
    }
}

pub fn multiply(a: Value, b: Value) -> Value {
    match (a, b) {
        (R(x), R(u)) => R(times(x, u)),
        (R(x), C(u, v)) => C(times(x, u), times(x, v)),
        (C(x, y), R(u)) => C(times(x, u), times(y, u)),
        (C(x, y), C(u, v)) => C(minus(times(x, u), times(y, v)), plus(times(y, u), times(x, v))),
    }
}

/// The quotient of plain mode, and of stable mode by an R.
pub fn plain_quotient(a: Value, b: Value) -> Value {
    match (a, b) {
        (R(x), R(u)) => R(divide(x, u)),
        (R(x), C(u, v)) => real_by_complex(x, u, v, fused_square(u, v)),
        (C(x, y), R(u)) => C(divide(x, u), divide(y, u)),
        (C(x, y), C(u, v)) => {
            let n = square_sum(u, v);
            let real = plus(times(x, u), times(y, v));
            let imaginary = minus(times(y, u), times(x, v));
            C(divide(real, n), divide(imaginary, n))
        }
    }
}

/// (x*u)/q and (-(x*v))/q.
pub fn real_by_complex(x: u64, u: u64, v: u64, q: u64) -> Value {
    C(divide(times(x, u), q), divide(neg(times(x, v)), q))
}

/// q of a plain Divide of an R by C u, v.
pub fn divisor_square(b: Value) -> u64 {
    let (u, v) = b.halves();
    fused_square(u, v)
}

/// h(x) + h(y).
fn size(a: Value) -> u64 {
    let (x, y) = a.halves();
    plus(half(abs(x)), half(abs(y)))
}

/// k of a stable Divide by this value, and of a stable Recip.
pub fn quotient_scale(b: Value) -> u64 {
    times((plus(size(b), LOWEST) & INFINITY) ^ INFINITY, QUARTER)
}

/// p of a stable Abs and Root.
fn power(a: Value) -> u64 {
    plus(size(a), LOW) & HIGH
}

pub fn quotient(stable: bool, a: Value, b: Value) -> Value {
    if stable && !b.is_real() {
        let k = quotient_scale(b);
        plain_quotient(a.scaled(k), b.scaled(k))
    } else {
        plain_quotient(a, b)
    }
}

/// What a stable Divide by a C into Temp gives, by whether its dividend is an R. `b` is scaled.
pub fn quotient_into_temp(real: bool, b: Value) -> Value {
    if !real {
        return plain_quotient(b, b);
    }
    let (u, v) = b.halves();
    let (e, g) = (times(u, u), times(u, v));
    let f = mul_add(g, g, e);
    C(divide(e, f), divide(neg(g), f))
}

/// x'*u' and -(x'*v').
pub fn products(x: u64, b: Value) -> (u64, u64) {
    let (u, v) = b.halves();
    (times(x, u), neg(times(x, v)))
}

/// And, Or and Xor.
fn bitwise(op: u8, a: Value, b: Value) -> Value {
    let f = |x: u64, u: u64| binary(op, x, u);
    match (a, b) {
        (R(x), R(u)) => R(f(x, u)),
        (R(x), C(u, v)) => C(f(x, u), f(x, v)),
        (C(x, y), R(u)) => C(f(x, u), f(y, u)),
        (C(x, y), C(u, v)) => C(f(x, u), f(y, v)),
    }
}

/// All ones where both halves are equal, else 0.
fn equal(a: Value, b: Value) -> u64 {
    let ((x, y), (u, v)) = (a.halves(), b.halves());
    binary(bi::EQUAL, x, u) & binary(bi::EQUAL, y, v)
}

/// A Bi of a sheet.
pub fn two(op: u8, stable: bool, a: Value, b: Value) -> Value {
    match op {
        bi::PLUS => add(a, b),
        bi::MINUS => subtract(a, b),
        bi::TIMES => multiply(a, b),
        bi::DIVIDE => quotient(stable, a, b),
        bi::GREATER_THAN..=bi::LITTLE_THAN_EQUAL => R(binary(op, a.re(), b.re())),
        bi::EQUAL => R(equal(a, b)),
        bi::NOT_EQUAL => R(!equal(a, b)),
        bi::COMPLEX => C(a.re(), b.re()),
        _ => bitwise(op, a, b),
    }
}

fn plain_recip(a: Value) -> Value {
    match a {
        R(x) => R(unary(uni::RECIP, x)),
        C(x, y) => {
            let q = fused_square(x, y);
            C(divide(x, q), neg(divide(y, q)))
        }
    }
}

/// Recip of a', and k: their product is the stable Recip of a C.
pub fn scaled_recip(a: Value) -> (Value, u64) {
    let k = quotient_scale(a);
    (plain_recip(a.scaled(k)), k)
}

pub fn recip(stable: bool, a: Value) -> Value {
    if stable && !a.is_real() {
        let (scaled, k) = scaled_recip(a);
        scaled.scaled(k)
    } else {
        plain_recip(a)
    }
}

/// The root of a stable Abs of a C before it is multiplied by p, and p.
pub fn scaled_length(a: Value) -> (u64, u64) {
    let p = power(a);
    let (x, y) = a.scaled(half(p ^ INFINITY)).halves();
    (sqrt(square_sum(x, y)), p)
}

fn length(stable: bool, a: Value) -> Value {
    match a {
        R(x) => R(abs(x)),
        C(x, y) if !stable => C(sqrt(square_sum(x, y)), 0),
        C(..) => {
            let (root, p) = scaled_length(a);
            C(times(root, p), 0)
        }
    }
}

/// What a complex root comes by: whether 0 < x, all ones or 0; w; and the root.
pub struct Rooted {
    pub positive: u64,
    pub w: Value,
    pub root: Value,
}

pub fn rooted(stable: bool, a: Value) -> Rooted {
    let (x, y) = a.halves();
    let t_of = |x: u64, y: u64| sqrt(half(plus(sqrt(fused_square(x, y)), abs(x))));
    let t = if stable {
        let r = sqrt(power(a)) & HIGH;
        let k = half(times(r, r) ^ INFINITY);
        times(t_of(times(x, k), times(y, k)), r)
    } else {
        t_of(x, y)
    };
    let quotient = half(divide(y, t));
    let s = if is_nan(quotient) { 0 } else { quotient };
    let positive = binary(bi::LITTLE_THAN, 0, x);
    let w = if positive == mask(true) { C(t, s) } else { C(s, t) };
    let g = unary(uni::SIGN, w.re());
    Rooted { positive, w, root: w.each(|half| half ^ g) }
}

/// Whether a Uni goes by a complex root.
pub fn by_root(op: u8, a: Value) -> bool {
    op == uni::ROOT || op == uni::REAL_ROOT && !a.is_real()
}

/// A Uni of a sheet.
pub fn one(op: u8, stable: bool, a: Value) -> Value {
    let (x, y) = a.halves();
    match op {
        _ if by_root(op, a) => rooted(stable, a).root,
        uni::REAL_ROOT => R(sqrt(x)),
        uni::CONJUGATE => a.with_halves(x, neg(y)),
        uni::ABS2 if a.is_real() => R(times(x, x)),
        uni::ABS2 => C(square_sum(x, y), 0),
        uni::ABS => length(stable, a),
        uni::RECIP => recip(stable, a),
        uni::TIMES_I if a.is_real() => C(0, x),
        uni::TIMES_I => C(neg(y), x),
        uni::TIMES_NEG_I if a.is_real() => C(0, neg(x)),
        uni::TIMES_NEG_I => C(y, neg(x)),
        uni::REAL => R(x),
        uni::IMAGINARY => R(y),
        uni::NOT => R(unary(uni::NOT, x)),
        uni::IS_ZERO => two(bi::EQUAL, stable, a, C(0, 0)),
        uni::IS_NOT_ZERO => two(bi::NOT_EQUAL, stable, a, C(0, 0)),
        _ => a.each(|half| unary(op, half)),
    }
}

/// A Fused of a sheet, of its product and c.
pub fn fused(op: u8, product: Value, c: Value) -> Value {
    match op {
        0 => add(product, c),
        1 => subtract(product, c),
        2 => subtract(c, product),
        _ => add(product, c).each(neg),
    }
}

/// An IfElse of a sheet: each half bit by bit, from a where `bits` has a one, else from b.
pub fn chosen(bits: u64, a: Value, b: Value) -> Value {
    let ((x, y), (u, v)) = (a.halves(), b.halves());
    let choose = |one: u64, other: u64| bits & one | !bits & other;
    C(choose(x, u), choose(y, v))
}
