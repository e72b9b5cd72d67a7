"""Formulas: the tree against Python's own, the play against exact evaluation, planted faults, errors against higher precision."""

import ast
import random
import unittest
from decimal import Decimal, localcontext
from fractions import Fraction
from typing import Any, Callable, Dict, List, Tuple

from tulipcricket import Formula, ValidationError, circuit, double_of, lost, word_of
from tulipcricket import compiler as compilers
from tulipcricket.compiler import Compiled, Compiler
from tulipcricket.syntax import Binary, Call, Choice, Inverse, J, Name, Negative, Node, Number, Pi, Power, Program, parse

CELL = """# coated steel 7
given f                      # Hz; a column of the CSV
w = 2*pi*f
Rs = 20 ; Rct = 250 ; Q = 4e-5 ; n = 0.85 ; sigma = 150
Y = Q*(j*w)^n
Z = Rs + 1/(1/(Rct + sigma*(1 - j)/sqrt(w)) + Y)
show Z
"""


def frequencies() -> List[float]:
    """Sixty-one from 0.1 Hz to 100 kHz."""
    return [float(f"{10 ** (k / 10 - 1):.4e}") for k in range(61)]


# trees


def as_python(node: Node) -> Any:
    """A tree in a form that Python's tree can be compared with."""
    if isinstance(node, Number):
        return float(node.text)
    if isinstance(node, (J, Pi, Name)):
        return {J: "j", Pi: "pi"}.get(type(node)) or node.name  # type: ignore[union-attr]
    if isinstance(node, Negative):
        return "-", as_python(node.of)
    if isinstance(node, Inverse):
        return "not", as_python(node.of)
    if isinstance(node, Call):
        return node.function, as_python(node.of)
    if isinstance(node, Power):
        return "^", as_python(node.base), as_python(node.exponent)
    if isinstance(node, Choice):
        return "if", as_python(node.then), as_python(node.condition), as_python(node.other)
    return node.op, as_python(node.left), as_python(node.right)


SIGNS = {ast.Add: "+", ast.Sub: "-", ast.Mult: "*", ast.Div: "/", ast.Pow: "^", ast.Lt: "<", ast.LtE: "<=", ast.Gt: ">", ast.GtE: ">=",
         ast.Eq: "==", ast.NotEq: "!=", ast.And: "and", ast.Or: "or", ast.USub: "-", ast.Not: "not"}


def pythons(node: ast.expr) -> Any:
    """Python's tree in the same form."""
    if isinstance(node, ast.Constant):
        return float(node.value)  # type: ignore[arg-type]
    if isinstance(node, ast.Name):
        return node.id
    if isinstance(node, ast.UnaryOp):
        return SIGNS[type(node.op)], pythons(node.operand)
    if isinstance(node, ast.BinOp):
        return SIGNS[type(node.op)], pythons(node.left), pythons(node.right)
    if isinstance(node, ast.Compare):
        return SIGNS[type(node.ops[0])], pythons(node.left), pythons(node.comparators[0])
    if isinstance(node, ast.Call):
        return node.func.id, pythons(node.args[0])  # type: ignore[attr-defined]
    if isinstance(node, ast.IfExp):
        return "if", pythons(node.body), pythons(node.test), pythons(node.orelse)
    assert isinstance(node, ast.BoolOp)
    tree = pythons(node.values[0])
    for value in node.values[1:]:
        tree = (SIGNS[type(node.op)], tree, pythons(value))
    return tree


class Texts:
    """Random expressions as text, with no more parentheses than chance puts there."""

    def __init__(self, seed: int) -> None:
        self.chance = random.Random(seed)

    def number(self, depth: int) -> str:
        """A value."""
        kind = self.chance.randrange(12) if depth > 0 else self.chance.randrange(3)
        if kind == 0:
            return self.chance.choice(["1", "2", "0.5", "3e2", "1e-3", ".25", "7."])
        if kind < 3:
            return self.chance.choice(["f", "g", "w", "j", "pi", "f", "g"])
        if kind < 7:
            sign = self.chance.choice(["+", "-", "*", "/", " - ", " / "])
            return self.number(depth - 1) + sign + self.number(depth - 1)
        if kind == 7:
            return "-" + self.number(depth - 1)
        if kind == 8:
            return f"({self.number(depth - 1)})"
        if kind == 9:
            function = self.chance.choice(["sqrt", "abs", "conj", "re", "im", "round", "floor", "ceil", "trunc"])
            return f"{function}({self.number(depth - 1)})"
        if kind == 10:
            exponent = self.chance.choice(["2", "3", "-1", "0.5", "-2.5", "5", "0.75", "1.25", "0", "0.3"])
            return f"({self.number(depth - 1)})^{exponent}"
        return f"({self.number(depth - 1)} if {self.condition(depth - 1)} else {self.number(depth - 1)})"

    def condition(self, depth: int) -> str:
        """A comparison, or several."""
        kind = self.chance.randrange(6) if depth > 0 else 0
        if kind == 3:
            return f"not {self.condition(depth - 1)}"
        if kind > 3:
            return f"{self.condition(depth - 1)} {self.chance.choice(['and', 'or'])} {self.condition(depth - 1)}"
        sign = self.chance.choice(["<", "<=", ">", ">="])
        if kind == 2:
            return f"{self.number(depth - 1)} {self.chance.choice(['==', '!='])} {self.number(depth - 1)}"
        return f"re({self.number(depth - 1)}) {sign} abs({self.number(depth - 1)})"


class Trees(unittest.TestCase):
    """Precedence and order."""

    def test_against_python(self) -> None:
        """A random text has the tree that Python gives it, ^ for **."""
        texts = Texts(1)
        for _ in range(1500):
            text = texts.number(5)
            ours = parse(f"given f, w\ngiven g complex\nZ = {text}\nshow Z").lets[0].value
            theirs = ast.parse(text.replace("^", "**"), mode="eval").body
            self.assertEqual(as_python(ours), pythons(theirs), text)

    def test_order(self) -> None:
        """Left to right, ^ before -, - before *."""
        for text, tree in (
            ("f - w - 1", ("-", ("-", "f", "w"), 1.0)),
            ("f/w*2", ("*", ("/", "f", "w"), 2.0)),
            ("-f^2", ("-", ("^", "f", 2.0))),
            ("-f*w", ("*", ("-", "f"), "w")),
            ("f^-2", ("^", "f", ("-", 2.0))),
            ("j*w*f", ("*", ("*", "j", "w"), "f")),
        ):
            self.assertEqual(as_python(parse(f"given f, w\nZ = {text}\nshow Z").lets[0].value), tree)

    def test_files(self) -> None:
        """BOM, CRLF, comments, blank lines, semicolons and Greek letters are taken."""
        data = b"\xef\xbb\xbf" + "# x\r\n\r\ngiven f ; ;\r\nω = 2*pi*f ; μ = ω + 1 # µ\r\nZ = µ\r\nshow Z , ω\r\n".encode()
        formula = Formula.read(data, "x")
        self.assertEqual(formula.shows, ("Z", "ω"))
        self.assertEqual(formula(f=0.0), {"Z": 1.0, "ω": 0.0})


# plays

STARTS = [0.0, -0.0, 1.0, -1.5, 1e308, -1e308, 5e-324, 1e-200, 1e200, float("inf"), float("-inf"), float("nan"), 0.1, 1000.0]


def points(chance: random.Random, count: int) -> Dict[str, List[Tuple[int, ...]]]:
    """Words for f, w (real) and g (complex), special ones and lost readings among them."""
    def word() -> int:
        kind = chance.randrange(5)
        if kind == 0:
            return word_of(chance.choice(STARTS))
        if kind == 1:
            return lost(chance.randrange(9)) | chance.getrandbits(1) << 63
        return word_of(chance.uniform(-3, 3) * 10.0 ** chance.randint(-6, 6))
    return {"f": [(word(),) for _ in range(count)], "w": [(word(),) for _ in range(count)], "g": [(word(), word()) for _ in range(count)]}


class Plays(unittest.TestCase):
    """Every name's words by the library are those of exact evaluation: the validation itself, on random trees."""

    def test_random_trees(self) -> None:
        """Both modes, three statements each, at words of every kind."""
        texts, chance = Texts(2), random.Random(3)
        for i in range(400):
            mode = ("mode plain\n", "mode stable\n", "")[i % 3]
            lets = f"a = {texts.number(4)}\nb = {texts.number(3)} - a\nZ = a*b + {texts.number(4)}\n"
            formula = Formula(f"{mode}given f, w\ngiven g complex\n{lets}show Z, a")
            run = formula.play(points(chance, 4), every=True)
            self.assertEqual((run.validated, len(run.words["Z"])), (4, 4))

    def test_tidy(self) -> None:
        """No instruction names Ret, Temp or Stack 2; there is no LoadMath, no Half, no Fused and no branch."""
        texts = Texts(4)
        kinds = set()
        for _ in range(200):
            formula = Formula(f"given f, w\ngiven g complex\nZ = {texts.number(5)}\nshow Z")
            for one in formula.compiled.instructions:
                kinds.add(one.record[2])
                self.assertNotIn("Half", one.text)
                self.assertNotRegex(one.text, r"Ret|Temp|Stack [012]$|G3\d")
        self.assertLessEqual(kinds, {1, 2, 3, 4, 5, 6, 8})
        self.assertGreaterEqual(kinds, {1, 2, 3, 4, 5, 6, 8})

    def test_lost(self) -> None:
        """A mark goes through to the answer."""
        run = Formula(CELL).play({"f": [(lost(3),), (word_of(1.0),)]})
        self.assertEqual([word & (1 << 51) - 1 for word in run.words["Z"][0]], [3, 3])

    def test_calls(self) -> None:
        """Numbers give numbers, lists lists; one name's answers, or a dict; what is missing is said."""
        formula = Formula("given a, b\nZ = a + b\nshow Z")
        self.assertEqual(formula(a=1, b=2.5), 3.5)
        self.assertEqual(formula(a=[1, 2], b=[3, 4]), [4.0, 6.0])
        self.assertEqual(formula(a=[1, 2], b=10), [11.0, 12.0])
        self.assertEqual(formula(a=[], b=[]), [])
        self.assertEqual(Formula("Z = j\nshow Z")(), 1j)
        for wrong, error in (({"a": 1}, TypeError), ({"a": 1, "b": 2, "c": 3}, TypeError), ({"a": [1], "b": [1, 2]}, ValueError),
                             ({"a": "1", "b": 2}, TypeError)):
            with self.assertRaises(error):
                formula(**wrong)

    def test_numpy(self) -> None:
        """Arrays give arrays, where numpy is there."""
        try:
            import numpy
        except ImportError:
            self.skipTest("no numpy")
        answers = Formula("given a\nZ = j*a\nshow Z")(a=numpy.array([1.0, 2.0]))
        self.assertEqual(answers.dtype, numpy.complex128)
        self.assertEqual(list(answers), [1j, 2j])

    def test_choice(self) -> None:
        """A corner by if: bits of one side alone, and a real number where both sides are."""
        formula = Formula("given w\nZ = 1/(w - 1000) if w < 1000 and not w == 3 else j*w\nR = 1 if w <= 1 else sqrt(w)*0 if w > 5 else 7\n"
                          "K = 1 if w < 2 else 3\nshow Z, R, K")
        answers = formula(w=[0.0, 1000.0, 3.0], validate="every")
        self.assertEqual(answers["Z"], [-0.001, 1000j, 3j])
        self.assertEqual(answers["R"], [1, 0, 7])
        self.assertEqual(answers["K"], [1.0, 3.0, 3.0])
        self.assertTrue(formula.is_real("K"))

    def test_places(self) -> None:
        """What is given stands in Param, what is shown first in Mem."""
        formula = Formula(CELL)
        self.assertEqual([formula.place(name) for name in ("f", "Z", "w", "Rs")], ["Param 0", "Mem 0", "Mem 1", "Mem 2"])


# planted faults


class Exchanged(Compiler):
    """Operands exchanged."""

    def bi(self, at: Any, name: str, d: int, a: int, b: int) -> None:
        """Of a Minus alone."""
        super().bi(at, name, d, *((b, a) if name == "Minus" else (a, b)))


class ExchangedDivide(Compiler):
    """Operands exchanged."""

    def bi(self, at: Any, name: str, d: int, a: int, b: int) -> None:
        """Of a Divide alone."""
        super().bi(at, name, d, *((b, a) if name == "Divide" else (a, b)))


class WrongConstant(Compiler):
    """The constant before it."""

    def load_constant(self, at: Any, d: int, word: int) -> bool:
        """From the second one on."""
        super().load_constant(at, d, word)
        index = self.constants.index(word)
        wrong = compilers.record(6, d, max(index - 1, 0), 0)
        self.instructions[-1] = self.instructions[-1]._replace(record=wrong)
        return True


class LastBit(Compiler):
    """A constant whose last bit is another."""

    def load_constant(self, at: Any, d: int, word: int) -> bool:
        """pi alone."""
        return super().load_constant(at, d, word ^ 1 if word == compilers.PI else word)


class Reused(Compiler):
    """A register reused: the right side goes where the left side waits."""

    def operation(self, node: Binary, left_real: bool, r: int) -> bool:
        """Where the right side is a product."""
        if isinstance(node.right, Binary):
            self.value(node.right, r)
            self.bi(node.at, compilers.OPERATIONS[node.op], r, r, r)
            return left_real
        return super().operation(node, left_real, r)


class OtherPlace(Compiler):
    """A name saved at its neighbour's place."""

    def save(self, at: Any, a: int, kind: int, position: int) -> None:
        """Mem 2 alone."""
        super().save(at, a, kind, 3 if (kind, position) == (1, 2) else position)


class OtherMode(Compiler):
    """Plain mode for stable."""

    def header(self) -> bytes:
        """The mode's byte."""
        header = super().header()
        return header[:4] + b"\0" + header[5:]


class NotReal(Compiler):
    """A real name left complex."""

    def name(self, node: Name, r: int) -> bool:
        """Without its Real."""
        real = super().name(node, r)
        if self.instructions[-1].text.startswith("Real"):
            self.instructions.pop()
        return real


class DigitLost(Compiler):
    """The last binary digit of an exponent left out."""

    def root_power(self, at: Any, n: Fraction, s: int) -> None:
        """It stands for 2^-53."""
        super().root_power(at, n - Fraction(n.numerator % 8, n.denominator), s)


class Turned(Compiler):
    """The other side of an if."""

    def add(self, at: Any, text: str, data: bytes) -> None:
        """Operands of IfElse exchanged."""
        if text.startswith("IfElse"):
            data = data[:5] + data[6:7] + data[5:6] + data[7:]
        super().add(at, text, data)


class NegLost(Compiler):
    """A sign lost."""

    def uni(self, at: Any, name: str, d: int, a: int) -> None:
        """TimesNegI becomes TimesI."""
        super().uni(at, "TimesI" if name == "TimesNegI" else name, d, a)


FAULTS: List[Tuple[Callable[[Program], Compiler], str]] = [
    (Exchanged, CELL), (ExchangedDivide, CELL), (WrongConstant, CELL), (LastBit, CELL), (OtherPlace, CELL), (DigitLost, CELL),
    (Reused, "given f\nZ = f + 2*f\nshow Z"),
    (OtherMode, "given f\nZ = 1/(f*f*(1 + j))\nshow Z"),
    (NotReal, "given f\na = -f\nb = f*0\nZ = j*b + 1/a\nZ2 = (b - 1)*(j*a*b)\nshow Z, Z2"),
    (Turned, "given f\nZ = f if f < 10 else 7\nshow Z"),
    (NegLost, "given f\nZ = -j*f\nshow Z"),
]


class Faults(unittest.TestCase):
    """A planted fault of the compiler is noticed at a run with its three points."""

    def test_each(self) -> None:
        """Each fault, with the frequencies of a scan."""
        scan = {"f": [(word_of(f),) for f in [1e-90, *frequencies()]]}
        for fault, text in FAULTS:
            with self.subTest(fault=fault.__name__):
                Formula(text).play(scan)

                def planted(program: Program, kind: Callable[[Program], Compiler] = fault) -> Compiled:
                    return kind(program).compiled()
                with self.assertRaises(ValidationError):
                    Formula(text, compiler=planted).play(scan)


# how near

Pair = Tuple[Fraction, Fraction]


def ulps(answer: float, exact: Fraction) -> Fraction:
    """The distance in units of the last place of the exact value."""
    spacing = Fraction(2) ** (max(exact.numerator.bit_length() - exact.denominator.bit_length() - 1, -1022) - 52)
    if abs(exact) >= 2 * Fraction(2) ** 52 * spacing:
        spacing *= 2
    return abs(Fraction(answer) - exact) / spacing


def over(a: Pair) -> Pair:
    """1/a in fractions."""
    size = a[0] * a[0] + a[1] * a[1]
    return a[0] / size, -a[1] / size


def root(x: Decimal, y: Decimal) -> Tuple[Decimal, Decimal]:
    """The root in the right half plane, to the digits of the context."""
    size = (x * x + y * y).sqrt()
    t = ((size + abs(x)) / 2).sqrt()
    if t == 0:
        return t, t
    s = abs(y) / t / 2
    re, im = (t, s) if x > 0 else (s, t)
    return re, im if y >= 0 else -im


def power(x: Decimal, y: Decimal, n: Fraction) -> Tuple[Decimal, Decimal]:
    """x^n: the product of the roots x^(1/2), x^(1/4), .. for the binary digits of n, which is exact but for the digits of the context."""
    result = (Decimal(1), Decimal(0))
    base, rest = (x, y), n % 1
    for _ in range(int(n)):
        result = (result[0] * x - result[1] * y, result[0] * y + result[1] * x)
    while rest:
        base = root(*base)
        rest *= 2
        if rest >= 1:
            result = (result[0] * base[0] - result[1] * base[1], result[0] * base[1] + result[1] * base[0])
            rest -= 1
    return result


class Near(unittest.TestCase):
    """Against exact arithmetic."""

    def test_rational_circuit(self) -> None:
        """R0-p(R1,C1), where only + - * / occur: within 2 units of the last place, w being given."""
        formula = Formula("given w\nR0 = 20 ; R1 = 250 ; C1 = 1e-5\nZ = R0 + 1/(1/R1 + j*w*C1)\nshow Z")
        worst = Fraction(0)
        for f in frequencies():
            w = 6.283185307179586 * f
            z = formula(w=w)
            inner = over((Fraction(1, 250), Fraction(w) * Fraction(1e-5)))
            for answer, exact in ((z.real, 20 + inner[0]), (z.imag, inner[1])):
                worst = max(worst, ulps(answer, exact))
        self.assertLess(worst, 2)

    def test_corner(self) -> None:
        """A corner by if, where only + - * / occur: within 2 units of the last place on both sides."""
        formula = Formula("given w\nR0 = 20 ; R1 = 250 ; C1 = 1e-5 ; C2 = 3e-6\n"
                          "Z = R0 + 1/(1/R1 + j*w*C1) if w < 1000 else R0 + 1/(1/R1 + j*w*C2)\nshow Z")
        sides = set()
        for f in frequencies():
            w = 6.283185307179586 * f
            z = formula(w=w)
            sides.add(w < 1000)
            inner = over((Fraction(1, 250), Fraction(w) * Fraction(1e-5 if w < 1000 else 3e-6)))
            for answer, exact in ((z.real, 20 + inner[0]), (z.imag, inner[1])):
                self.assertLess(ulps(answer, exact), 2)
        self.assertEqual(sides, {True, False})

    def test_roots_in_a_circuit(self) -> None:
        """R0-p(R1-W1,CPE1): within 4 units of 2^-53 of Z's size, 3 units of the last place in Re and 6 in Im (docs/FORMULA.md)."""
        formula = Formula(circuit("R0-p(R1-W1,CPE1)", [20, 250, 150, 4e-5, 0.85]).text.replace("given f\nw = 2*pi*f", "given w"))
        for f in frequencies():
            w = 6.283185307179586 * f
            z = formula(w=w)
            with localcontext() as context:
                context.prec = 60
                cpe = [Fraction(half) * Fraction(4e-5) for half in power(Decimal(0), Decimal(w), Fraction(0.85))]
                warburg = 150 / Fraction(Decimal(w).sqrt())
            branch = over((250 + warburg, -warburg))
            inner = over((branch[0] + cpe[0], branch[1] + cpe[1]))
            exact = (20 + inner[0], inner[1])
            away = (Fraction(z.real) - exact[0]) ** 2 + (Fraction(z.imag) - exact[1]) ** 2
            self.assertLess(away, (exact[0] ** 2 + exact[1] ** 2) * (4 * Fraction(2) ** -53) ** 2)
            self.assertLess(ulps(z.real, exact[0]), 3)
            self.assertLess(ulps(z.imag, exact[1]), 6)

    def test_powers(self) -> None:
        """x^n in every quadrant: within 6 units of 2^-53 of its size (docs/FORMULA.md says what was seen)."""
        chance, worst = random.Random(5), Decimal(0)
        for n in (0.85, 0.5, 0.1, 0.25, 0.9999, 1.5, 0.3, 2.7):
            formula = Formula(f"given x complex\nZ = x^{n}\nshow Z")
            for _ in range(40):
                x = complex(chance.uniform(-1, 1), chance.uniform(-1, 1)) * 10.0 ** chance.randint(-6, 6)
                z = formula(x=x)
                with localcontext() as context:
                    context.prec = 60
                    re, im = power(Decimal(x.real), Decimal(x.imag), Fraction(n))
                    away = ((Decimal(z.real) - re) ** 2 + (Decimal(z.imag) - im) ** 2).sqrt()
                    worst = max(worst, away / (re * re + im * im).sqrt() * 2 ** 53)
        self.assertLess(worst, 6)

    def test_circuits(self) -> None:
        """impedance.py's circuits against Python's complex numbers: near, which its own rounding allows."""
        import cmath
        import math
        for text, values, z in (
            ("R0-p(R1,C1)", [20, 250, 1e-5], lambda w: 20 + 1 / (1 / 250 + 1j * w * 1e-5)),
            ("R0-p(R1-W1,CPE1)", [20, 250, 150, 4e-5, 0.85],
             lambda w: 20 + 1 / (1 / (250 + 150 * (1 - 1j) / math.sqrt(w)) + 4e-5 * (1j * w) ** 0.85)),
            ("L1-R0-C1", [1e-6, 20, 1e-5], lambda w: 1j * w * 1e-6 + 20 + 1 / (1j * w * 1e-5)),
            ("p(R1,L1)-G1-CPE2", [50, 1e-3, 30, 0.1, 1e-4, 0.7],
             lambda w: 1 / (1 / 50 + 1 / (1j * w * 1e-3)) + 30 / cmath.sqrt(1 + 1j * w * 0.1) + 1 / (1e-4 * (1j * w) ** 0.7)),
            ("p(p(R1,C1)-R2,C2,W3)", [10, 1e-6, 20, 1e-5, 40],
             lambda w: 1 / (1 / (1 / (1 / 10 + 1j * w * 1e-6) + 20) + 1j * w * 1e-5 + 1 / (40 * (1 - 1j) / math.sqrt(w)))),
        ):
            answers = circuit(text, values)(f=frequencies())
            for f, answer in zip(frequencies(), answers):
                exact = z(2 * math.pi * f)
                self.assertLess(abs(answer - exact) / abs(exact), 1e-14, (text, f))

    def test_readme(self) -> None:
        """Z of the sheet that README.md writes by hand, at w = 1000: the same words in plain mode."""
        formula = Formula("given w\nRs = 20 ; Rct = 250 ; C = 1e-5\nmode plain\nZ = Rs + 1/(1/Rct + j*w*C)\nshow Z")
        run = formula.play({"w": [(word_of(1000.0),)]})
        self.assertEqual(run.bits("Z"), [("404b3dcb08d3dcb1", "c0558d3dcb08d3dd")])
        self.assertEqual(double_of(run.words["Z"][0][0]), 54.48275862068966)


if __name__ == "__main__":
    unittest.main()
