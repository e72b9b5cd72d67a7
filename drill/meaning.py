"""What a sheet computes, by the tables of docs/SHEET.md, 2, with whole numbers only.

evaluate(sheet, store) takes a sheet of a list and a store and gives the
value of each register and place at the end of a play from record 0. The
steps on words are those of player.py (docs/SHELF.md, 7); nothing here
knows a listing. A word that the page does not settle is None, and so is
what is worked out of it.
"""

from collections.abc import Callable
from typing import NamedTuple

import player
from sheets import MEM, MINDING, PARAM, PLAIN, RET, STACK, TEMP, read, setup

Word = int | None


class R(NamedTuple):
    """A real number of one word."""
    x: Word


class C(NamedTuple):
    """A complex number of two."""
    x: Word
    y: Word


Value = R | C
STACK_2 = (STACK, 2)
REGISTERS = 32
CLASSES = (STACK, MEM, PARAM)
POSITIONS = 256

# words of the page
INF = player.INFINITY
SMALL, SMALLER = player.near(0, 1, 2**1021), player.near(0, 1, 2**1022)
LARGE, QUARTER = player.near(0, 2**1023, 1), player.near(0, 1, 4)


class Unsettled(Exception):
    """A BranchIf goes by a word that the page does not settle."""


def on_words(step: Callable[..., int]) -> Callable[..., Word]:
    """The step; of a word that is not settled the result is not."""
    return lambda *words: None if None in words else step(*words)


plus, minus, times, divide, neg, half, fma, root, absolute, both, either, one_only, sign = map(on_words, (
    player.plus, player.minus, player.times, player.divide, player.neg, player.half, player.mul_add, player.root,
    player.absolute, player.both, player.either, player.one_only, player.only_sign))
recip, turned, less = map(on_words, (player.recip, player.turn_all, player.little_than))
equal, not_equal = map(on_words, (player.equal, player.not_equal))
mixed = on_words(player.if_else)


def wide(a: Value) -> C:
    return C(a.x, 0) if isinstance(a, R) else a


def real_half(a: Value, word: Word) -> Value:
    """The value with another real half."""
    return R(word) if isinstance(a, R) else C(word, a.y)


def halves(a: Value, new: C) -> Value:
    """The value with other halves; an R takes the real one alone."""
    return R(new.x) if isinstance(a, R) else new


def each(step: Callable[[Word], Word], a: Value) -> Value:
    return R(step(a.x)) if isinstance(a, R) else C(step(a.x), step(a.y))


# Two operands: the four columns of the page's table


def by_columns(rr, rc, cr, cc) -> Callable[[Value, Value], Value]:
    def operation(a: Value, b: Value) -> Value:
        if isinstance(a, R):
            return R(rr(a.x, b.x)) if isinstance(b, R) else C(*rc(a.x, b.x, b.y))
        return C(*cr(a.x, a.y, b.x)) if isinstance(b, R) else C(*cc(a.x, a.y, b.x, b.y))
    return operation


def real_by_complex(x: Word, u: Word, v: Word, q: Word) -> tuple[Word, Word]:
    return divide(times(x, u), q), divide(neg(times(x, v)), q)


def complex_by_complex(x: Word, y: Word, u: Word, v: Word) -> tuple[Word, Word]:
    n = plus(times(u, u), times(v, v))
    return divide(plus(times(x, u), times(y, v)), n), divide(minus(times(y, u), times(x, v)), n)


def square(u: Word, v: Word) -> Word:
    """The page's q."""
    return fma(v, v, times(u, u))


def bits(step: Callable) -> Callable[[Value, Value], Value]:
    return by_columns(step, lambda x, u, v: (step(x, u), step(x, v)), lambda x, y, u: (step(x, u), step(y, u)),
                      lambda x, y, u, v: (step(x, u), step(y, v)))


add = by_columns(plus, lambda x, u, v: (plus(x, u), v), lambda x, y, u: (plus(x, u), y),
                 lambda x, y, u, v: (plus(x, u), plus(y, v)))
subtract = by_columns(minus, lambda x, u, v: (minus(x, u), neg(v)), lambda x, y, u: (minus(x, u), y),
                      lambda x, y, u, v: (minus(x, u), minus(y, v)))
multiply = by_columns(times, lambda x, u, v: (times(x, u), times(x, v)), lambda x, y, u: (times(x, u), times(y, u)),
                      lambda x, y, u, v: (minus(times(x, u), times(y, v)), plus(times(y, u), times(x, v))))
quotient = by_columns(divide, lambda x, u, v: real_by_complex(x, u, v, square(u, v)),
                      lambda x, y, u: (divide(x, u), divide(y, u)), complex_by_complex)


def compared(step: Callable) -> Callable[[Value, Value], Value]:
    return lambda a, b: R(step(a.x, b.x))


def equals(a: Value, b: Value) -> R:
    a, b = wide(a), wide(b)
    return R(both(equal(a.x, b.x), equal(a.y, b.y)))


def unlike(a: Value, b: Value) -> R:
    return R(turned(equals(a, b).x))


TWO = {
    "Plus": add, "Minus": subtract, "Times": multiply, "Divide": quotient,
    "And": bits(both), "Or": bits(either), "Xor": bits(one_only),
    "GreaterThan": compared(on_words(player.greater_than)),
    "GreaterThanEqual": compared(on_words(player.greater_than_equal)),
    "LittleThan": compared(less), "LittleThanEqual": compared(on_words(player.little_than_equal)),
    "Equal": equals, "NotEqual": unlike, "Complex": lambda a, b: C(a.x, b.x),
}


# One operand


def inverse(a: Value) -> Value:
    if isinstance(a, R):
        return R(recip(a.x))
    q = square(a.x, a.y)
    return C(divide(a.x, q), neg(divide(a.y, q)))


def squares(a: C) -> Word:
    return plus(times(a.x, a.x), times(a.y, a.y))


ONE = {
    "Neg": lambda a: each(neg, a), "Sign": lambda a: each(sign, a),
    "Round": lambda a: each(on_words(player.round_to_whole), a), "Floor": lambda a: each(on_words(player.floor), a),
    "Ceiling": lambda a: each(on_words(player.ceiling), a), "Trunc": lambda a: each(on_words(player.trunc), a),
    "Conjugate": lambda a: a if isinstance(a, R) else C(a.x, neg(a.y)),
    "Abs2": lambda a: R(times(a.x, a.x)) if isinstance(a, R) else C(squares(a), 0),
    "Abs": lambda a: R(absolute(a.x)) if isinstance(a, R) else C(root(squares(a)), 0),
    "Recip": inverse, "Not": lambda a: R(turned(a.x)),
    "TimesI": lambda a: C(0, a.x) if isinstance(a, R) else C(neg(a.y), a.x),
    "TimesNegI": lambda a: C(0, neg(a.x)) if isinstance(a, R) else C(a.y, neg(a.x)),
    "Real": lambda a: R(a.x), "Imaginary": lambda a: R(wide(a).y),
    "RealRoot": lambda a: R(root(a.x)),
}


# Root, and stable mode's scales


def root_size(a: C) -> Word:
    """The page's t, plain."""
    return root(half(plus(root(square(a.x, a.y)), absolute(a.x))))


def size_sum(a: C) -> Word:
    """The page's z."""
    return plus(half(absolute(a.x)), half(absolute(a.y)))


def scaled(a: Value, k: Word) -> Value:
    return each(lambda word: times(word, k), a)


def divide_scale(b: C) -> Word:
    """The k of Divide and Recip."""
    return times(one_only(both(plus(size_sum(b), SMALLER), INF), INF), QUARTER)


def abs_power(a: C) -> Word:
    """The p of Abs and Root."""
    return both(plus(size_sum(a), SMALL), LARGE)


def stable_root_size(a: C) -> Word:
    r = both(root(abs_power(a)), LARGE)
    k = half(one_only(times(r, r), INF))
    return times(root_size(scaled(a, k)), r)


def roots(a: C, stable: bool) -> tuple[C, C]:
    """The page's w, and the root."""
    t = stable_root_size(a) if stable else root_size(a)
    s = half(divide(a.y, t))
    if s is not None and player.is_nan(s):
        s = 0
    positive = less(0, a.x)
    if positive is None:
        return C(None, None), C(None, None)
    w = C(t, s) if positive else C(s, t)
    g = sign(w.x)
    return w, C(one_only(w.x, g), one_only(w.y, g))


class State:
    """The values of 32 registers and 768 places while a sheet is gone through."""

    def __init__(self, mode: int, real_places: bytes, constants: list[int], store: list[int]) -> None:
        self.stable, self.minding, self.constants = mode != PLAIN, mode == MINDING, constants
        self.registers: list[Value] = [C(*store[at:at + 2]) for at in map(first_word, range(REGISTERS))]
        self.store, self.real_places = store, real_places
        self.places: dict[tuple[int, int], Value] = {}

    def place(self, place: tuple[int, int]) -> Value:
        if place in self.places:
            return self.places[place]
        at, (place_class, i) = player.real_index(place), place
        row = 32 if place_class == PARAM else 0
        if place_class != MEM and self.real_places[row + i // 8] >> i % 8 & 1:
            return R(self.store[at])
        return C(*self.store[at:at + 2])

    def widen(self, *names: int) -> None:
        for name in names:
            self.registers[name] = wide(self.registers[name])

    def uni(self, name: str, d: int, a: int) -> None:
        value = self.registers[a]
        if name == "Root" or name == "RealRoot" and isinstance(value, C):
            self.root(d, a)
        elif name in ("IsZero", "IsNotZero"):
            self.registers[TEMP] = C(0, 0)
            self.widen(a)
            self.registers[d] = TWO["Equal" if name == "IsZero" else "NotEqual"](self.registers[a], C(0, 0))
        elif name == "Half":
            self.half(d, value)
        elif self.stable and isinstance(value, C) and name in ("Recip", "Abs"):
            self.stable_one(name, d, value)
        else:
            self.registers[d] = ONE[name](value)

    def root(self, d: int, a: int) -> None:
        self.widen(a)
        w, result = roots(self.registers[a], self.stable)
        self.places[STACK_2] = real_half(self.place(STACK_2), less(0, self.registers[a].x))
        self.registers[TEMP] = w
        self.registers[RET] = result
        self.registers[d] = result

    def half(self, d: int, a: Value) -> None:
        if self.minding:
            self.registers[d] = R(half(a.x)) if isinstance(a, R) else C(half(a.x), half(a.y))
        elif isinstance(self.registers[d], R):
            self.registers[d] = R(half(a.x))
        else:
            self.registers[d] = C(half(a.x), None if isinstance(a, R) else half(a.y))

    def stable_one(self, name: str, d: int, a: C) -> None:
        if name == "Recip":
            k = divide_scale(a)
            inverted = inverse(scaled(a, k))
            self.registers[TEMP] = halves(self.registers[TEMP], inverted)
            self.registers[d] = scaled(inverted, k)
        else:
            p = abs_power(a)
            size = root(squares(scaled(a, half(one_only(p, INF)))))
            self.registers[RET] = real_half(self.registers[RET], size)
            self.registers[d] = C(times(size, p), 0)

    def bi(self, name: str, d: int, a: int, b: int) -> None:
        if name in ("Equal", "NotEqual"):
            self.widen(a, b)
        if name == "Divide" and isinstance(self.registers[b], C):
            self.divide_by_complex(d, a, b)
        else:
            self.registers[d] = TWO[name](self.registers[a], self.registers[b])

    def divide_by_complex(self, d: int, a: int, b: int) -> None:
        if self.minding and d == TEMP:
            self.stable_divide(RET, self.registers[a], self.registers[b])
            self.registers[TEMP] = self.registers[RET]
        elif self.stable:
            self.stable_divide(d, self.registers[a], self.registers[b])
        elif isinstance(self.registers[a], R):
            q, v = square(*self.registers[b]), self.registers[b].y
            self.registers[TEMP] = real_half(self.registers[TEMP], q)
            self.registers[d] = C(*real_by_complex(self.registers[a].x, self.registers[b].x, v, q))
        else:
            self.registers[d] = quotient(self.registers[a], self.registers[b])

    def stable_divide(self, d: int, a: Value, b: C) -> None:
        k = divide_scale(b)
        a, b = scaled(a, k), scaled(b, k)
        if d == TEMP:
            e, g = times(b.x, b.x), times(b.x, b.y)
            f = fma(g, g, e)
            self.registers[d] = quotient(b, b) if isinstance(a, C) else C(divide(e, f), divide(neg(g), f))
            return
        left = b if d == RET else a
        if isinstance(left, R):
            left = C(times(a.x, b.x), neg(times(a.x, b.y)))
        self.registers[TEMP] = halves(self.registers[TEMP], left)
        self.registers[d] = quotient(a, b)

    def fused(self, name: str, d: int, a: int, b: int, c: int) -> None:
        self.registers[RET] = multiply(self.registers[a], self.registers[b])
        product, c = self.registers[RET], self.registers[c]
        if name == "MulSub":
            self.registers[d] = subtract(product, c)
        elif name == "NegMulAdd":
            self.registers[d] = subtract(c, product)
        else:
            total = add(product, c)
            self.registers[d] = ONE["Neg"](total) if name == "NegMulSub" else total

    def if_else(self, d: int, a: int, b: int, place: tuple[int, int]) -> None:
        self.widen(a, b)
        mask, a, b = self.place(place).x, self.registers[a], self.registers[b]
        self.registers[d] = C(mixed(a.x, b.x, mask), mixed(a.y, b.y, mask))

    def take(self, kind: str, one: dict) -> None:
        """One instruction that does not go elsewhere."""
        d, a, b = (one.get(field) for field in "dab")
        if kind == "Uni":
            self.uni(one["name"], d, a)
        elif kind == "Bi":
            self.bi(one["name"], d, a, b)
        elif kind == "Mov":
            self.registers[d] = self.registers[a]
        elif kind == "Load":
            self.registers[d] = self.place(one["place"])
        elif kind == "LoadConst":
            self.registers[d] = R(self.constants[one["constant"]])
        elif kind == "Save":
            self.widen(a)
            self.places[one["place"]] = self.registers[a]
        elif kind == "Fused":
            self.fused(one["name"], d, a, b, one["c"])
        elif kind == "IfElse":
            self.if_else(d, a, b, one["place"])
        elif kind in ("LoadMath", "LoadConstMath"):
            self.registers[TEMP] = self.place(one["place"]) if kind == "LoadMath" else R(self.constants[one["constant"]])
            self.bi(one["name"], d, a, TEMP)

    def branches(self, kind: str, one: dict) -> bool:
        if kind != "BranchIf":
            return kind == "Branch"
        word = self.registers[one["a"]].x
        if word is None:
            raise Unsettled
        return (word == 0) == (one["else"] == 1)


def first_word(register: int) -> int:
    """Where a register's real half stands in the store."""
    return {RET: 64, TEMP: 0}.get(register, 4 + 2 * register)


def instructions(sheet: bytes, at: int) -> list[tuple[str, dict]]:
    """Those of an accepted sheet."""
    found = []
    while at < len(sheet):
        kind, one, length = read(sheet, at)
        found.append((kind, one))
        at += length
    return found


class Sheet:
    """An accepted sheet, read once."""

    def __init__(self, sheet: bytes) -> None:
        self.mode, self.real_places, count, at = setup(sheet, 0, 256)
        self.constants = [int.from_bytes(sheet[i + 4:i + 12], "little") for i in range(69, 69 + 12 * count, 12)]
        self.row = instructions(sheet, at)
        self.labels = {one["label"]: i for i, (kind, one) in enumerate(self.row) if kind == "Label"}


def evaluate(sheet: Sheet, store: list[int]) -> State:
    """The values at the end; Unsettled where the way is not known."""
    state, at = State(sheet.mode, sheet.real_places, sheet.constants, store), 0
    while at < len(sheet.row):
        kind, one = sheet.row[at]
        if state.branches(kind, one):
            at = sheet.labels[one["label"]]
        else:
            state.take(kind, one)
            at += 1
    return state
