"""The operations on words by exact fractions, to check the words of section 8.

Written from the rules that the player of docs/SHELF.md has to keep, not
from the paper's way of calculating: a word's value is a fraction, and the
word nearest to a fraction is found by halving the range of words and by
comparing with the middle between two neighbours.
"""

import math
from fractions import Fraction

SIGN = 1 << 63
INFINITY = 0x7FF << 52
NAN = 0x7FF8 << 48
QUIET = 1 << 51
ONES = (1 << 64) - 1
ONE = 0x3FF << 52
ONE_HALF = 0x3FE << 52


def is_nan(w):
    return w & ~SIGN > INFINITY


def is_infinite(w):
    return w & ~SIGN == INFINITY


def size(w):
    """The value of a word without its sign; of infinity, that of the word if finite words went on."""
    exponent, fraction = w >> 52 & 0x7FF, Fraction(w & (1 << 52) - 1, 1 << 52)
    if exponent == 0:
        return fraction * Fraction(2) ** -1022
    return (1 + fraction) * Fraction(2) ** (exponent - 1023)


def value(w):
    return -size(w) if w & SIGN else size(w)


def nearest(sign, below):
    """The word nearest to a number from 0; below(v) says whether the number is under v, None that it is v."""
    low, high = 0, INFINITY
    while high - low > 1:
        middle = (low + high) // 2
        if below(size(middle)):
            high = middle
        else:
            low = middle
    verdict = below((size(low) + size(high)) / 2)
    if verdict is None:
        return sign | (low if low % 2 == 0 else high)
    return sign | (low if verdict else high)


def under(number):
    return lambda v: None if number == v else number < v


def rounded(number, sign_of_zero):
    if number == 0:
        return sign_of_zero
    return nearest(SIGN if number < 0 else 0, under(abs(number)))


def with_nan(operation):
    """The operation on numbers; of words with NaNs the first NaN, made a quiet one."""
    def amended(*words):
        lost = [w for w in words if is_nan(w)]
        return lost[0] | QUIET if lost else operation(*words)
    return amended


def sum_of(a, b):
    """Two words' signs and values, or an infinity."""
    if is_infinite(a) or is_infinite(b):
        if is_infinite(a) and is_infinite(b) and a != b:
            return NAN
        return a if is_infinite(a) else b
    return rounded(value(a) + value(b), a & b & SIGN)


def difference(a, b):
    return sum_of(a, b ^ SIGN)


def product(a, b):
    sign = (a ^ b) & SIGN
    if is_infinite(a) or is_infinite(b):
        return NAN if 0 in (a & ~SIGN, b & ~SIGN) else sign | INFINITY
    return rounded(value(a) * value(b), sign)


def quotient(a, b):
    sign = (a ^ b) & SIGN
    if is_infinite(a):
        return NAN if is_infinite(b) else sign | INFINITY
    if is_infinite(b):
        return sign
    if value(b) == 0:
        return NAN if value(a) == 0 else sign | INFINITY
    return rounded(value(a) / value(b), sign)


def product_and_sum(a, b, c):
    sign = (a ^ b) & SIGN
    if is_infinite(a) or is_infinite(b):
        whole = product(a, b)
        return NAN if whole == NAN else sum_of(whole, c)
    if is_infinite(c):
        return c
    return rounded(value(a) * value(b) + value(c), sign & c)


def square_root(a):
    if a & ~SIGN == 0 or a == INFINITY:
        return a
    if a & SIGN:
        return NAN
    return nearest(0, lambda v: None if value(a) == v * v else value(a) < v * v)


def whole(rounding):
    """To a whole number by a rounding of fractions; Python's own goes to the nearest, ties to even."""
    return with_nan(lambda a: a if is_infinite(a) else rounded(Fraction(rounding(value(a))), a & SIGN))


def comparison(holds, with_a_nan):
    def compared(a, b):
        if is_nan(a) or is_nan(b):
            return with_a_nan
        return ONES if holds(value(a), value(b)) else 0
    return compared


PLUS, MINUS = with_nan(sum_of), with_nan(difference)
TIMES, DIVIDE = with_nan(product), with_nan(quotient)


def complex_times(x1, y1, x2, y2):
    return MINUS(TIMES(x1, x2), TIMES(y1, y2)), PLUS(TIMES(y1, x2), TIMES(x1, y2))


def complex_divide(x1, y1, x2, y2):
    square = PLUS(TIMES(x2, x2), TIMES(y2, y2))
    return (DIVIDE(PLUS(TIMES(x1, x2), TIMES(y1, y2)), square),
            DIVIDE(MINUS(TIMES(y1, x2), TIMES(x1, y2)), square))


OPERATIONS = {
    "Plus": PLUS, "Minus": MINUS, "Times": TIMES, "Divide": DIVIDE,
    "Half": lambda a: TIMES(a, ONE_HALF), "Recip": lambda a: DIVIDE(ONE, a),
    "MulAdd": with_nan(product_and_sum), "Root": with_nan(square_root),
    "Round": whole(round), "Floor": whole(math.floor),
    "Ceiling": whole(math.ceil), "Trunc": whole(math.trunc),
    "IsZero": lambda a: ONES if not is_nan(a) and value(a) == 0 else 0,
    "GreaterThan": comparison(lambda x, y: x > y, 0),
    "GreaterThanEqual": comparison(lambda x, y: x >= y, 0),
    "LittleThan": comparison(lambda x, y: x < y, 0),
    "LittleThanEqual": comparison(lambda x, y: x <= y, 0),
    "Equal": comparison(lambda x, y: x == y, 0),
    "NotEqual": comparison(lambda x, y: x != y, ONES),
    "Neg": lambda a: a ^ SIGN, "Abs": lambda a: a & ~SIGN,
    "Not": lambda a: a ^ ONES, "Sign": lambda a: a & SIGN,
    "And": lambda a, b: a & b, "Or": lambda a, b: a | b,
    "Xor": lambda a, b: a ^ b,
    "ComplexBi Plus": lambda x1, y1, x2, y2: (PLUS(x1, x2), PLUS(y1, y2)),
    "ComplexBi Minus": lambda x1, y1, x2, y2: (MINUS(x1, x2), MINUS(y1, y2)),
    "ComplexBi Times": complex_times, "ComplexBi Divide": complex_divide,
}
