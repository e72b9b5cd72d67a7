"""A formula's tree as a sheet: docs/FORMULA.md says which instructions an operation becomes.

Only tidy sheets come out, in which every instruction gives its own value and changes nothing else: no instruction names Ret, Temp or
Stack 2, there is no LoadMath, no Half and no branch. What comes out is compared with exact evaluation (meaning.py) at every run.
"""

from __future__ import annotations

import struct
from fractions import Fraction
from typing import Dict, List, NamedTuple, Tuple

from .errors import FormulaError
from .library import INSTRUCTIONS_LIMIT
from .syntax import At, Binary, Call, Choice, Inverse, J, Name, Negative, Node, Number, Pi, Power, Program, spine
from .words import word_of

REGISTERS = 30
PLACES = 256
CONSTANTS = 251
FIRST_MASK = 3
"""The first place of the Stack for a condition. Root overwrites Stack 2."""
ONE = 0x3FF << 52
PI = word_of(3.141592653589793)
STACK, MEM, PARAM = 0, 1, 2

UNI = {
    "Neg": 0, "Not": 1, "Abs": 2, "Root": 3, "Recip": 5, "Round": 6, "Floor": 7, "Ceiling": 8, "Trunc": 9, "Real": 10,
    "Imaginary": 11, "Conjugate": 12, "TimesI": 18, "TimesNegI": 19,
}
BI = {
    "Plus": 0, "Minus": 1, "Times": 2, "Divide": 3, "GreaterThan": 4, "GreaterThanEqual": 5, "LittleThan": 6, "LittleThanEqual": 7,
    "Equal": 8, "NotEqual": 9, "And": 10, "Or": 12,
}
OPERATIONS = {
    "+": "Plus", "-": "Minus", "*": "Times", "/": "Divide", ">": "GreaterThan", ">=": "GreaterThanEqual", "<": "LittleThan",
    "<=": "LittleThanEqual", "==": "Equal", "!=": "NotEqual", "and": "And", "or": "Or",
}
CALLS = {
    "sqrt": "Root", "abs": "Abs", "conj": "Conjugate", "re": "Real", "im": "Imaginary", "round": "Round", "floor": "Floor",
    "ceil": "Ceiling", "trunc": "Trunc",
}
CLASSES = ("Stack", "Mem", "Param")


class Instruction(NamedTuple):
    """An instruction as text, its record, and where its operation stands in the formula."""

    text: str
    record: bytes
    at: At


class Compiled(NamedTuple):
    """A formula's sheet, and where everything stands."""

    sheet: bytes
    constants: Tuple[int, ...]
    instructions: Tuple[Instruction, ...]
    params: Dict[str, int]
    mems: Dict[str, int]
    reals: Dict[str, bool]


def record(kind: int, *fields: int) -> bytes:
    """A record whose fields are one byte each."""
    return struct.pack(f"<HH{len(fields)}B", 4 + len(fields), kind, *fields)


class Compiler:
    """Instructions, one after the other. A value is put into a register; `real` says whether it is a real number."""

    def __init__(self, program: Program) -> None:
        self.program = program
        self.instructions: List[Instruction] = []
        self.constants: List[int] = []
        self.masks = FIRST_MASK
        self.params = {given.name: i for i, given in enumerate(program.givens)}
        self.mems: Dict[str, int] = {}
        self.reals = {given.name: not given.is_complex for given in program.givens}

    def fail(self, at: At, why: str) -> FormulaError:
        """The refusal of what stands there."""
        return self.program.error(at, why)

    # records

    def add(self, at: At, text: str, data: bytes) -> None:
        """One more instruction."""
        if len(self.instructions) == INSTRUCTIONS_LIMIT:
            raise self.fail(at, f"too many instructions: a sheet has at most {INSTRUCTIONS_LIMIT}, and here is one more")
        self.instructions.append(Instruction(text, data, at))

    def register(self, at: At, r: int) -> int:
        """Refuses a register past the last."""
        if r >= REGISTERS:
            raise self.fail(at, f"more than {REGISTERS} values wait for each other; give a part of it a name")
        return r

    def uni(self, at: At, name: str, d: int, a: int) -> None:
        """d := an operation of a."""
        self.add(at, f"{name} G{d} G{a}", record(1, UNI[name], d, a))

    def bi(self, at: At, name: str, d: int, a: int, b: int) -> None:
        """d := an operation of a and b."""
        self.add(at, f"{name} G{d} G{a} G{b}", record(2, BI[name], d, a, b))

    def load(self, at: At, d: int, kind: int, position: int) -> None:
        """d := a place."""
        self.add(at, f"Load G{d} {CLASSES[kind]} {position}", record(4, d, kind, position, 0))

    def save(self, at: At, a: int, kind: int, position: int) -> None:
        """A place := a, which becomes complex."""
        self.add(at, f"Save G{a} {CLASSES[kind]} {position}", record(5, a, kind, position, 0))

    def load_constant(self, at: At, d: int, word: int) -> bool:
        """d := a constant; equal words stand once."""
        if word not in self.constants:
            if len(self.constants) == CONSTANTS:
                raise self.fail(at, f"more than {CONSTANTS} different constants")
            self.constants.append(word)
        index = self.constants.index(word)
        self.add(at, f"LoadConst G{d} {index}", record(6, d, index, 0))
        return True

    # values

    def value(self, node: Node, r: int) -> bool:
        """Puts a value into register r, by registers from r on; says whether it is real."""
        self.register(node.at, r)
        if isinstance(node, Binary):
            return self.chain(node, r)
        if isinstance(node, Number):
            return self.load_constant(node.at, r, node.word)
        if isinstance(node, Pi):
            return self.load_constant(node.at, r, PI)
        if isinstance(node, J):
            self.load_constant(node.at, r, ONE)
            self.uni(node.at, "TimesI", r, r)
            return False
        if isinstance(node, Name):
            return self.name(node, r)
        if isinstance(node, Power):
            return self.power(node, r)
        if isinstance(node, Choice):
            return self.choice(node, r)
        return self.unary(node, r)

    def name(self, node: Name, r: int) -> bool:
        """A given stands in Param, a name in Mem, which has complex numbers alone: a real one is made real again."""
        real = self.reals[node.name]
        if node.name in self.params:
            self.load(node.at, r, PARAM, self.params[node.name])
        else:
            self.load(node.at, r, MEM, self.mems[node.name])
            if real:
                self.uni(node.at, "Real", r, r)
        return real

    def unary(self, node: "Negative | Inverse | Call", r: int) -> bool:
        """Operations of one value."""
        real = self.value(node.of, r)
        if isinstance(node, Negative):
            self.uni(node.at, "Neg", r, r)
            return real
        if isinstance(node, Inverse):
            self.uni(node.at, "Not", r, r)
            return True
        self.uni(node.at, CALLS[node.function], r, r)
        if node.function == "sqrt":
            return False
        if node.function == "abs" and not real:
            self.uni(node.at, "Real", r, r)
        return real or node.function in ("abs", "re", "im")

    def chain(self, node: Binary, r: int) -> bool:
        """Operations of two values, from the first that is written on."""
        first, operations = spine(node)
        special = self.special(operations[0])
        if special:
            real = self.times_i_or_recip(operations[0], special, r)
        else:
            real = self.operation(operations[0], self.value(first, r), r)
        for operation in operations[1:]:
            real = self.operation(operation, real, r)
        return real

    def special(self, node: Binary) -> str:
        """The operation of one value that 1/x, j*x and -j*x are; else nothing."""
        left = node.left
        if node.op == "/" and isinstance(left, Number) and left.word == ONE:
            return "Recip"
        if node.op == "*" and isinstance(left, J):
            return "TimesI"
        if node.op == "*" and isinstance(left, Negative) and isinstance(left.of, J):
            return "TimesNegI"
        return ""

    def times_i_or_recip(self, node: Binary, name: str, r: int) -> bool:
        """1/x, j*x, -j*x."""
        real = self.value(node.right, r)
        self.uni(node.at, name, r, r)
        return real and name == "Recip"

    def operation(self, node: Binary, left_real: bool, r: int) -> bool:
        """The operation of what is in r and of the right side."""
        right_real = self.value(node.right, r + 1)
        if node.op in ("<", "<=", ">", ">=") and not (left_real and right_real):
            raise self.fail(node.at, f"{node.op} compares real numbers; take re, im or abs of a complex one")
        self.bi(node.at, OPERATIONS[node.op], r, r, r + 1)
        return (left_real and right_real) or node.op in ("==", "!=")

    def choice(self, node: Choice, r: int) -> bool:
        """a if condition else b: an IfElse over a place of the Stack."""
        then_real = self.value(node.then, r)
        mask = self.masks
        if mask >= PLACES:
            raise self.fail(node.at, "too many conditions inside each other")
        self.value(node.condition, r + 1)
        self.save(node.at, r + 1, STACK, mask)
        self.masks += 1
        real = self.value(node.other, r + 1) and then_real
        self.masks -= 1
        self.add(node.at, f"IfElse G{r} G{r} G{r + 1} Stack {mask}", record(8, r, r, r + 1, STACK, mask, 0))
        if real:
            self.uni(node.at, "Real", r, r)
        return real

    # powers

    def power(self, node: Power, r: int) -> bool:
        """x^n: products for a whole n, square roots by n's binary digits for the rest, Recip where n is below zero."""
        size = abs(Fraction(node.value))
        whole, rest = divmod(size, 1)
        if size == 0:
            return self.load_constant(node.at, r, ONE)
        real = self.value(node.base, r)
        if rest == 0:
            self.whole_power(node.at, int(whole), r)
        else:
            real = False
            self.broken_power(node.at, int(whole), rest, r)
        if node.value < 0:
            self.uni(node.at, "Recip", r, r)
        return real

    def move(self, at: At, d: int, a: int) -> None:
        """d := a."""
        self.register(at, d)
        self.add(at, f"Mov G{d} G{a}", record(3, d, a))

    def products(self, at: At, n: int, r: int, x: int) -> None:
        """r := x^n, where r and x hold x: from the second binary digit of n on a square, and times x where the digit is 1."""
        for digit in bin(n)[3:]:
            self.bi(at, "Times", r, r, r)
            if digit == "1":
                self.bi(at, "Times", r, r, x)

    def whole_power(self, at: At, n: int, r: int) -> None:
        """r := r^n, n from 1."""
        if n > 1:
            self.move(at, r + 1, r)
            self.products(at, n, r, r + 1)

    def broken_power(self, at: At, whole: int, rest: Fraction, r: int) -> None:
        """r := r^(whole + rest), 0 < rest < 1: the power of the root of x by twice the rest, so that no root is of the left half plane."""
        if whole == 0:
            self.uni(at, "Root", r, r)
            self.root_power(at, 2 * rest, r)
            return
        self.move(at, r + 1, r)
        self.products(at, whole, r, r + 1)
        self.uni(at, "Root", r + 1, r + 1)
        self.root_power(at, 2 * rest, r + 1)
        self.bi(at, "Times", r, r, r + 1)

    def root_power(self, at: At, n: Fraction, s: int) -> None:
        """s := s^n for 0 < n < 2: the roots from the last binary digit of n inwards."""
        first, rest = divmod(n, 1)
        if rest == 0:
            return
        digits = bin(rest.numerator)[2:].zfill(rest.denominator.bit_length() - 1)
        p = s + 1
        self.move(at, p, s)
        self.uni(at, "Root", p, p)
        for digit in reversed(digits[:-1]):
            if digit == "1":
                self.bi(at, "Times", p, s, p)
            self.uni(at, "Root", p, p)
        if first:
            self.bi(at, "Times", s, s, p)
        else:
            self.add(at, f"Mov G{s} G{p}", record(3, s, p))

    # the sheet

    def statements(self) -> None:
        """What is shown stands in Mem first, in the order shown; then the other names in the order written."""
        program = self.program
        for given in program.givens[PLACES:]:
            raise self.fail(given.at, f"more than {PLACES} given columns")
        for let in program.lets[PLACES:]:
            raise self.fail(let.at, f"more than {PLACES} names")
        names = [show.name for show in program.shows]
        names += [let.name for let in program.lets if let.name not in names]
        self.mems = {name: i for i, name in enumerate(names)}
        for let in program.lets:
            self.reals[let.name] = self.value(let.value, 0)
            self.save(let.at, 0, MEM, self.mems[let.name])

    def header(self) -> bytes:
        """The setup: the mode, and which places of Param are real."""
        bits = sum(1 << i for name, i in self.params.items() if self.reals[name])
        return struct.pack("<HHB", 69, 32, int(self.program.stable)) + bytes(32) + bits.to_bytes(32, "little")

    def compiled(self) -> Compiled:
        """The sheet."""
        self.statements()
        constants = b"".join(struct.pack("<HHQ", 12, 33, word) for word in self.constants)
        sheet = self.header() + constants + b"".join(one.record for one in self.instructions)
        return Compiled(sheet, tuple(self.constants), tuple(self.instructions), self.params, self.mems, self.reals)


def compile_program(program: Program) -> Compiled:
    """The sheet of a formula's tree. Raises FormulaError."""
    return Compiler(program).compiled()
