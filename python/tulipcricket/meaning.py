"""What a formula means: its tree evaluated with exact whole-number arithmetic, each single step on words rounded once.

Written apart from the compiler: it knows the tree and docs/FORMULA.md, and neither registers nor places nor sheets. A value is a tuple of
words: one of a real number, two of a complex number. The play of the compiled sheet must give the same words.
"""

from __future__ import annotations

from fractions import Fraction
from typing import Callable, Dict, Mapping, Tuple

from . import exact as e
from .syntax import Binary, Call, Choice, Inverse, J, Name, Negative, Node, Number, Pi, Power, Program, spine
from .words import double_of

Value = Tuple[int, ...]

QUARTER = 0x3FD << 52
PI = 0x400921FB54442D18
SMALLEST = 1 << 52      # 2^-1022
TWICE_SMALLEST = 2 << 52  # 2^-1021
LARGEST = 0x7FE << 52     # 2^1023


def wide(a: Value) -> Tuple[int, int]:
    """A value as a complex number."""
    return (a[0], 0) if len(a) == 1 else (a[0], a[1])


def plus(a: Value, b: Value) -> Value:
    """a + b: an imaginary half that is not there is not added."""
    if len(a) == len(b):
        return tuple(map(e.plus, a, b))
    return e.plus(a[0], b[0]), b[1] if len(b) == 2 else a[1]


def minus(a: Value, b: Value) -> Value:
    """a - b, likewise."""
    if len(a) == len(b):
        return tuple(map(e.minus, a, b))
    return e.minus(a[0], b[0]), e.neg(b[1]) if len(b) == 2 else a[1]


def times(a: Value, b: Value) -> Value:
    """a * b; of a real and a complex number, half by half."""
    if len(a) == 1:
        return tuple(e.times(a[0], half) for half in b)
    if len(b) == 1:
        return tuple(e.times(half, b[0]) for half in a)
    return e.complex_times(*a, *b)


def square(x: int, y: int) -> int:
    """The size squared, with one rounding less."""
    return e.mul_add(y, y, e.times(x, x))


def scale(x: int, y: int) -> int:
    """The power of two by which stable mode scales a divisor, or 0."""
    halves = e.plus(e.half(e.absolute(x)), e.half(e.absolute(y)))
    return e.times((e.plus(halves, SMALLEST) & e.INFINITY) ^ e.INFINITY, QUARTER)


def size_scale(x: int, y: int) -> int:
    """The power of two of a size, for Abs and Root."""
    halves = e.plus(e.half(e.absolute(x)), e.half(e.absolute(y)))
    return e.plus(halves, TWICE_SMALLEST) & LARGEST


def divide(a: Value, b: Value, stable: bool) -> Value:
    """a / b."""
    if len(b) == 1:
        return tuple(e.divide(half, b[0]) for half in a)
    if stable:
        k = scale(b[0], b[1])
        a, b = times(a, (k,)), times(b, (k,))
    if len(a) == 2:
        return e.complex_divide(*a, *b)
    q = square(b[0], b[1])
    return e.divide(e.times(a[0], b[0]), q), e.divide(e.neg(e.times(a[0], b[1])), q)


def recip(a: Value, stable: bool) -> Value:
    """1 / a."""
    if len(a) == 1:
        return (e.recip(a[0]),)
    if stable:
        k = scale(a[0], a[1])
        return times(recip(times(a, (k,)), False), (k,))
    q = square(a[0], a[1])
    return e.divide(a[0], q), e.neg(e.divide(a[1], q))


def absolute(a: Value, stable: bool) -> Value:
    """The size, a real number."""
    if len(a) == 1:
        return (e.absolute(a[0]),)
    if not stable:
        return (e.root(e.plus(e.times(a[0], a[0]), e.times(a[1], a[1]))),)
    p = size_scale(a[0], a[1])
    x, y = times(a, (e.half(p ^ e.INFINITY),))
    return (e.times(e.root(e.plus(e.times(x, x), e.times(y, y))), p),)


def larger_half(x: int, y: int) -> int:
    """The larger half of the root, without its sign."""
    return e.root(e.half(e.plus(e.root(square(x, y)), e.absolute(x))))


def root(a: Value, stable: bool) -> Value:
    """The square root in the right half plane."""
    x, y = wide(a)
    if stable:
        r = e.root(size_scale(x, y)) & LARGEST
        k = e.half(e.times(r, r) ^ e.INFINITY)
        t = e.times(larger_half(e.times(x, k), e.times(y, k)), r)
    else:
        t = larger_half(x, y)
    s = e.half(e.divide(y, t))
    if e.is_nan(s):
        s = 0
    re, im = (t, s) if e.little_than(0, x) else (s, t)
    return re ^ (re & e.SIGN), im ^ (re & e.SIGN)


def times_i(a: Value) -> Value:
    """j * a."""
    return (0, a[0]) if len(a) == 1 else (e.neg(a[1]), a[0])


def times_minus_i(a: Value) -> Value:
    """-j * a."""
    return (0, e.neg(a[0])) if len(a) == 1 else (a[1], e.neg(a[0]))


def conjugate(a: Value) -> Value:
    """The conjugate."""
    return a if len(a) == 1 else (a[0], e.neg(a[1]))


def each(operation: Callable[[int], int]) -> Callable[[Value], Value]:
    """An operation half by half."""
    return lambda a: tuple(map(operation, a))


CALLS: Dict[str, Callable[[Value], Value]] = {
    "conj": conjugate,
    "re": lambda a: a[:1],
    "im": lambda a: wide(a)[1:],
    "round": each(e.round_to_whole),
    "floor": each(e.floor),
    "ceil": each(e.ceiling),
    "trunc": each(e.trunc),
}
COMPARISONS: Dict[str, Callable[[int, int], int]] = {
    "<": e.little_than, "<=": e.little_than_equal, ">": e.greater_than, ">=": e.greater_than_equal,
}


class Meaning:
    """The values of a program's names for given values."""

    def __init__(self, program: Program, given: Mapping[str, Value]) -> None:
        self.stable = program.stable
        self.values: Dict[str, Value] = dict(given)
        for let in program.lets:
            self.values[let.name] = self.of(let.value)

    def of(self, node: Node) -> Value:
        """The value of a tree."""
        if isinstance(node, Number):
            return (node.word,)
        if isinstance(node, Pi):
            return (PI,)
        if isinstance(node, J):
            return 0, e.ONE
        if isinstance(node, Name):
            return self.values[node.name]
        if isinstance(node, Negative):
            return each(e.neg)(self.of(node.of))
        if isinstance(node, Inverse):
            return (e.turn_all(self.of(node.of)[0]),)
        if isinstance(node, Call):
            return self.call(node)
        if isinstance(node, Power):
            return self.power(node)
        if isinstance(node, Choice):
            return self.choice(node)
        return self.chain(node)

    def call(self, node: Call) -> Value:
        """A function."""
        of = self.of(node.of)
        if node.function == "sqrt":
            return root(of, self.stable)
        if node.function == "abs":
            return absolute(of, self.stable)
        return CALLS[node.function](of)

    def chain(self, node: Binary) -> Value:
        """Operations from the left to the right."""
        first, operations = spine(node)
        left = self.of(first)
        for operation in operations:
            left = self.operation(operation, left, self.of(operation.right))
        return left

    def operation(self, node: Binary, a: Value, b: Value) -> Value:
        """One operation of two values."""
        if node.op == "+":
            return plus(a, b)
        if node.op == "-":
            return minus(a, b)
        if node.op == "*":
            return self.product(node.left, a, b)
        if node.op == "/":
            one = isinstance(node.left, Number) and node.left.word == e.ONE
            return recip(b, self.stable) if one else divide(a, b, self.stable)
        if node.op == "and":
            return (a[0] & b[0],)
        if node.op == "or":
            return (a[0] | b[0],)
        if node.op in COMPARISONS:
            return (COMPARISONS[node.op](a[0], b[0]),)
        same = all(map(e.equal, wide(a), wide(b)))
        return (e.ALL_ONES if same == (node.op == "==") else 0,)

    def product(self, left: Node, a: Value, b: Value) -> Value:
        """a * b, where j and -j to the left turn b."""
        if isinstance(left, J):
            return times_i(b)
        if isinstance(left, Negative) and isinstance(left.of, J):
            return times_minus_i(b)
        return times(a, b)

    def choice(self, node: Choice) -> Value:
        """One of two values: a real number where both are."""
        a, b, ones = self.of(node.then), self.of(node.other), self.of(node.condition)[0]
        taken = a if ones else b
        return taken if len(a) == len(b) == 1 else wide(taken)

    def power(self, node: Power) -> Value:
        """x^n by the binary digits of n."""
        n = Fraction(double_of(self.of(node.exponent)[0]))
        if n == 0:
            return (e.ONE,)
        raised = self.raised(self.of(node.base), abs(n))
        return recip(raised, self.stable) if n < 0 else raised

    def raised(self, x: Value, n: Fraction) -> Value:
        """x^n for n above 0."""
        if n.denominator == 1:
            return self.whole(x, int(n))
        s = root(x, self.stable)
        twice = 2 * (n % 1)
        part = self.below_one(s, twice % 1) if twice % 1 else s
        if twice > 1:
            part = times(s, part)
        return times(self.whole(x, int(n)), part) if n > 1 else part

    def whole(self, x: Value, n: int) -> Value:
        """x^n for a whole n from 1: the square of x^(n div 2), times x where n is odd."""
        power = x
        for place in range(n.bit_length() - 2, -1, -1):
            power = times(power, power)
            if n >> place & 1:
                power = times(power, x)
        return power

    def below_one(self, s: Value, n: Fraction) -> Value:
        """s^n for 0 < n < 1: the root of s^(2n), of which the whole part is a factor s where it is 1."""
        factors = []
        while n:
            factors.append(2 * n >= 1)
            n = 2 * n % 1
        power = root(s, self.stable)
        for factor in factors[-2::-1]:
            power = root(times(s, power) if factor else power, self.stable)
        return power


def evaluate(program: Program, given: Mapping[str, Value]) -> Dict[str, Value]:
    """The words of every name, for words of what is given."""
    return Meaning(program, given).values
