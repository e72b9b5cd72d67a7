"""The operations of docs/SHELF.md, 7, on words, with whole numbers only.

Written from the paper, apart from the compiler and from the library: no floating-point number occurs here. The names are those that
drill/paper.py asks of a player, so that section 8 of the paper can be tried on this file too. A finite word's value is m * 2^e.
"""

from __future__ import annotations

import math
from typing import Callable, Tuple

SIGN = 1 << 63
ALL_ONES = (1 << 64) - 1
INFINITY = 0x7FF << 52
Q = 0x7FF8 << 48
QUIET = 1 << 51
ONE = 0x3FF << 52
ONE_HALF = 0x3FE << 52


def is_nan(w: int) -> bool:
    """Whether w stands for no number."""
    return w & ~SIGN > INFINITY


def is_infinite(w: int) -> bool:
    """Whether w is an infinity."""
    return w & ~SIGN == INFINITY


def is_zero(w: int) -> bool:
    """Whether w is +0 or -0."""
    return w & ~SIGN == 0


def parts(w: int) -> Tuple[int, int]:
    """m and e of a finite word, m with its sign."""
    field, m = w >> 52 & 0x7FF, w & (1 << 52) - 1
    if field:
        m |= 1 << 52
        field -= 1
    return (-m if w & SIGN else m), field - 1074


def near(sign: int, m: int, e: int) -> int:
    """The word nearest to m * 2^e, ties to even, for m from 0; `sign` is the highest bit."""
    k = max(m.bit_length() + e - 53, -1074)
    if k <= e:
        m <<= e - k
    else:
        m, rest = divmod(m, 1 << k - e)
        tie = 1 << k - e - 1
        if rest > tie or (rest == tie and m & 1):
            m += 1
    return sign | min(((k + 1074) << 52) + m if m else 0, INFINITY)


def sum_near(m: int, e: int, sign_of_zero: int) -> int:
    """The word nearest to m * 2^e, m with its sign."""
    return near(SIGN if m < 0 else 0, abs(m), e) if m else sign_of_zero


def handed_on(*operands: int) -> int:
    """The first operand that is NaN, with the bit 2^51 set."""
    return next(filter(is_nan, operands)) | QUIET


def plus(a: int, b: int) -> int:
    """a + b."""
    if is_nan(a) or is_nan(b):
        return handed_on(a, b)
    if is_infinite(a):
        return Q if is_infinite(b) and a != b else a
    if is_infinite(b):
        return b
    (m, e), (n, f) = parts(a), parts(b)
    low = min(e, f)
    return sum_near((m << e - low) + (n << f - low), low, a & b & SIGN)


def minus(a: int, b: int) -> int:
    """a - b."""
    if is_nan(a) or is_nan(b):
        return handed_on(a, b)
    return plus(a, b ^ SIGN)


def times(a: int, b: int) -> int:
    """a * b."""
    if is_nan(a) or is_nan(b):
        return handed_on(a, b)
    sign = (a ^ b) & SIGN
    if is_infinite(a) or is_infinite(b):
        return Q if is_zero(a) or is_zero(b) else sign | INFINITY
    (m, e), (n, f) = parts(a), parts(b)
    return near(sign, abs(m * n), e + f)


def divide(a: int, b: int) -> int:
    """a / b."""
    if is_nan(a) or is_nan(b):
        return handed_on(a, b)
    sign = (a ^ b) & SIGN
    if is_infinite(a):
        return Q if is_infinite(b) else sign | INFINITY
    if is_zero(b):
        return Q if is_zero(a) else sign | INFINITY
    if is_infinite(b) or is_zero(a):
        return sign
    (m, e), (n, f) = parts(a), parts(b)
    quotient, rest = divmod(abs(m) << 120, abs(n))
    return near(sign, 2 * quotient + (rest != 0), e - f - 121)


def half(a: int) -> int:
    """a times one half."""
    return times(a, ONE_HALF)


def recip(a: int) -> int:
    """1 / a."""
    return divide(ONE, a)


def mul_add(a: int, b: int, c: int) -> int:
    """a * b + c, rounded once."""
    if is_nan(a) or is_nan(b) or is_nan(c):
        return handed_on(a, b, c)
    sign = (a ^ b) & SIGN
    if is_infinite(a) or is_infinite(b):
        if is_zero(a) or is_zero(b) or (is_infinite(c) and c & SIGN != sign):
            return Q
        return sign | INFINITY
    if is_infinite(c):
        return c
    (m, e), (n, f), (o, g) = parts(a), parts(b), parts(c)
    low = min(e + f, g)
    return sum_near((m * n << e + f - low) + (o << g - low), low, sign & c)


def root(a: int) -> int:
    """The square root of one word."""
    if is_nan(a):
        return handed_on(a)
    if is_zero(a) or a == INFINITY:
        return a
    if a & SIGN:
        return Q
    m, e = parts(a)
    shift = 120 + (e & 1)
    q = math.isqrt(m << shift)
    return near(0, 2 * q + (q * q != m << shift), (e - shift) // 2 - 1)


def to_whole(a: int, adds_one: Callable[[int, int, int], bool]) -> int:
    """Round, Floor, Ceiling and Trunc; adds_one(i, 2 * rest, unit) says where 1 is added to the size i."""
    if is_nan(a):
        return handed_on(a)
    if is_infinite(a):
        return a
    m, e = parts(a)
    if e >= 0:
        return a
    i, rest = divmod(abs(m), 1 << -e)
    return near(a & SIGN, i + adds_one(i, 2 * rest, 1 << -e), 0)


def round_to_whole(a: int) -> int:
    """To the nearest whole number, ties to even."""
    return to_whole(a, lambda i, twice, unit: twice > unit or (twice == unit and i % 2 == 1))


def floor(a: int) -> int:
    """To the whole number below."""
    return to_whole(a, lambda i, twice, unit: twice > 0 and a & SIGN != 0)


def ceiling(a: int) -> int:
    """To the whole number above."""
    return to_whole(a, lambda i, twice, unit: twice > 0 and a & SIGN == 0)


def trunc(a: int) -> int:
    """To the whole number nearer to zero."""
    return to_whole(a, lambda i, twice, unit: False)


def compared(a: int, b: int, holds: Callable[[int, int], bool], with_a_nan: int = 0) -> int:
    """All ones where it holds of the values, else 0. Sizes stand among each other as their words do."""
    if is_nan(a) or is_nan(b):
        return with_a_nan
    x, y = (-(w & ~SIGN) if w & SIGN else w for w in (a, b))
    return ALL_ONES if holds(x, y) else 0


def greater_than(a: int, b: int) -> int:
    """a > b."""
    return compared(a, b, lambda x, y: x > y)


def greater_than_equal(a: int, b: int) -> int:
    """a >= b."""
    return compared(a, b, lambda x, y: x >= y)


def little_than(a: int, b: int) -> int:
    """a < b."""
    return compared(a, b, lambda x, y: x < y)


def little_than_equal(a: int, b: int) -> int:
    """a <= b."""
    return compared(a, b, lambda x, y: x <= y)


def equal(a: int, b: int) -> int:
    """a = b."""
    return compared(a, b, lambda x, y: x == y)


def not_equal(a: int, b: int) -> int:
    """a is not b."""
    return compared(a, b, lambda x, y: x != y, ALL_ONES)


def ones_where_zero(a: int) -> int:
    """All ones where a is +0 or -0."""
    return ALL_ONES if is_zero(a) else 0


def neg(a: int) -> int:
    """The sign turned."""
    return a ^ SIGN


def absolute(a: int) -> int:
    """The sign cleared."""
    return a & ~SIGN


def turn_all(a: int) -> int:
    """All 64 bits turned."""
    return a ^ ALL_ONES


def only_sign(a: int) -> int:
    """The sign alone."""
    return a & SIGN


def both(a: int, b: int) -> int:
    """And, bit by bit."""
    return a & b


def either(a: int, b: int) -> int:
    """Or, bit by bit."""
    return a | b


def one_only(a: int, b: int) -> int:
    """Xor, bit by bit."""
    return a ^ b


def complex_plus(x1: int, y1: int, x2: int, y2: int) -> Tuple[int, int]:
    """The sum, half by half."""
    return plus(x1, x2), plus(y1, y2)


def complex_minus(x1: int, y1: int, x2: int, y2: int) -> Tuple[int, int]:
    """The difference, half by half."""
    return minus(x1, x2), minus(y1, y2)


def complex_times(x1: int, y1: int, x2: int, y2: int) -> Tuple[int, int]:
    """The product: four products, a difference and a sum."""
    return minus(times(x1, x2), times(y1, y2)), plus(times(y1, x2), times(x1, y2))


def complex_divide(x1: int, y1: int, x2: int, y2: int) -> Tuple[int, int]:
    """The quotient by the square of the divisor's size."""
    n = plus(times(x2, x2), times(y2, y2))
    x = divide(plus(times(x1, x2), times(y1, y2)), n)
    return x, divide(minus(times(y1, x2), times(x1, y2)), n)
