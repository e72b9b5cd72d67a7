"""Malformed formulas: each is refused at the line and column that its case marks."""

import random
import unittest
from pathlib import Path
from typing import List, Tuple

from tulipcricket import Formula, FormulaError, Refused

HERE = Path(__file__).parent
HEAD = "given f\nw = 2*pi*f\n"
CONTEXTS = [
    "{}",
    "1 + {}",
    "a*({}) - 3",
    "sqrt(abs({}))",
    "1 if w < a else ({})",
    "({}) if f > 2 else 7",
    "2 if ({}) < a else 7",
    "conj(1/(a + j*({})))",
]


def cases(name: str) -> List[Tuple[str, str]]:
    """The lines of a file of cases: a piece with its mark, and words of the message."""
    lines = (HERE / name).read_text(encoding="utf-8").splitlines()
    pairs = [line.split(" :: ") for line in lines if not line.startswith("#")]
    return [(piece, why) for piece, why in pairs]


def marked(text: str) -> Tuple[str, int, int]:
    """A text without its mark, and the mark's line and column."""
    before = text[: text.index("|")]
    return text.replace("|", ""), before.count("\n") + 1, len(before) - (before.rfind("\n") + 1) + 1


class Malformed(unittest.TestCase):
    """Positions and messages."""

    def refused(self, text: str, why: str) -> None:
        """The text with a mark is refused there, for that reason, and the caret stands below it."""
        plain, line, column = marked(text)
        with self.assertRaises(FormulaError, msg=text) as caught:
            Formula(plain, "cell.formula")
        error = caught.exception
        self.assertEqual((error.line, error.column), (line, column), f"{text}: {error}")
        self.assertIn(why, error.why, text)
        shown = error.shown().split("\n")
        self.assertEqual(shown[0], f"cell.formula:{line}:{column}: {error.why}")
        self.assertEqual(shown[1], plain.replace("\r\n", "\n").split("\n")[line - 1])
        self.assertEqual(shown[2], " " * (column - 1) + "^")

    def test_pieces(self) -> None:
        """Every faulty piece in every place where a value may stand."""
        pieces = cases("malformed.txt")
        self.assertGreaterEqual(len(pieces) * len(CONTEXTS), 200)
        for piece, why in pieces:
            for context in CONTEXTS:
                with self.subTest(piece=piece, context=context):
                    self.refused(f"{HEAD}a = 3 ; Z = {context.format(piece)}\nshow Z\n", why)

    def test_statements(self) -> None:
        """Every faulty statement, with both ends of a line."""
        for piece, why in cases("statements.txt"):
            for end in ("\n", "\r\n"):
                with self.subTest(piece=piece, end=end):
                    self.refused(f"{HEAD}{piece}  # why\nshow w\n".replace("\n", end) if not piece.endswith("|")
                                 else self.at_the_end(piece, end), why)

    @staticmethod
    def at_the_end(piece: str, end: str) -> str:
        """The end of a line is blamed where it stands."""
        return f"{HEAD}{piece}\nshow w\n".replace("\n", end).replace("|\r\n", "|\n")

    def test_any_text(self) -> None:
        """Tokens in any order, and any bytes, are taken or refused within the text, and nothing else happens."""
        chance = random.Random(11)
        tokens = ("given show mode plain complex if else and or not j pi f w Z sqrt abs ( ) + - * / ^ < <= == = , ; 1 2.5 1e3 0.3 # ² . $ é"
                  " _ 1e999 f w ( ) 1").split(" ") + ["\n", "\r\n", "\t", "\0"]
        for i in range(4000):
            text = "".join(chance.choice(tokens) + chance.choice(["", " "]) for _ in range(chance.randint(1, 25)))
            text = f"{HEAD}Z = {text}\nshow Z" if i % 2 else text
            data = text.encode() if i % 4 else bytes(chance.getrandbits(8) for _ in range(30))
            try:
                Formula.read(data, "x")
            except FormulaError as error:
                lines = error.text.split("\n")
                self.assertLessEqual(error.line, len(lines))
                self.assertLessEqual(error.column, len(lines[error.line - 1]) + 1)
                self.assertGreaterEqual(min(error.line, error.column), 1)
                error.shown()

    def test_nothing_shown(self) -> None:
        """The end of the file is blamed."""
        self.refused(HEAD + "|", "nothing is shown")
        self.refused("|", "nothing is shown")
        self.refused("# only a comment|", "nothing is shown")

    def test_not_utf8(self) -> None:
        """The first byte that is wrong is named."""
        with self.assertRaises(FormulaError) as caught:
            Formula.read("given f\nΩ = 2".encode() + b"\xff\n", "x")
        self.assertEqual((caught.exception.line, caught.exception.column, caught.exception.why), (2, 6, "this is not UTF-8"))


class Limits(unittest.TestCase):
    """Too much of something."""

    def why(self, text: str) -> Tuple[int, int, str]:
        """Where and why a text is refused."""
        with self.assertRaises(FormulaError) as caught:
            Formula(text)
        return caught.exception.line, caught.exception.column, caught.exception.why

    def test_registers(self) -> None:
        """Thirty values may wait, the thirty-first may not."""
        deep = "f + (" * 29 + "f" + ")" * 29
        self.assertEqual(len(Formula(f"given f\nZ = {deep}\nshow Z").compiled.instructions), 60)
        line, column, why = self.why(f"given f\nZ = f + ({deep})\nshow Z")
        self.assertEqual((line, column), (2, len("Z = ") + 5 * 30 + 1))
        self.assertIn("more than 30 values", why)

    def test_constants(self) -> None:
        """251 constants fit."""
        self.assertEqual(len(Formula(f"Z = {' + '.join(str(i) for i in range(251))}\nshow Z").compiled.constants), 251)
        line, _, why = self.why(f"Z = {' + '.join(str(i) for i in range(252))}\nshow Z")
        self.assertEqual((line, why), (1, "more than 251 different constants"))

    def test_names(self) -> None:
        """256 names and 256 columns fit."""
        names = "\n".join(f"a{i} = 1" for i in range(257))
        self.assertEqual(self.why(f"{names}\nshow a0")[::2], (257, "more than 256 names"))
        givens = "\n".join(f"given a{i}" for i in range(257))
        self.assertEqual(self.why(f"{givens}\nb = 1\nshow b")[::2], (257, "more than 256 given columns"))

    def test_instructions(self) -> None:
        """A sheet has 612 instructions, here a load, 305 loads with sums, and a save; the operation that does not fit is named."""
        self.assertEqual(len(Formula(f"Z = 1{' + 1' * 305}\nshow Z").compiled.instructions), 612)
        line, column, why = self.why(f"Z = 1{' + 1' * 1100}\nshow Z")
        self.assertEqual((line, column), (1, len("Z = 1") + 4 * 305 + 2))
        self.assertIn("too many instructions", why)

    def test_depth(self) -> None:
        """Fifty levels."""
        for piece in ("(" * 200 + "1" + ")" * 200, "-" * 200 + "1"):
            self.assertIn("nested more than 50 deep", self.why(f"Z = {piece}\nshow Z")[2])

    def test_listing_full(self) -> None:
        """A refusal of lowering names the formula's line and column: here 7 (listing full), by Recips, which list the most."""
        lines = [f"c{i} = {'1/(' * 20}a{')' * 20}" for i in range(21)]
        text = "\n".join(["given f", "a = j*f", *lines, "show a"])
        formula = Formula(text, "cell.formula")
        with self.assertRaises(Refused) as caught:
            formula.listing
        refused = caught.exception
        self.assertEqual((refused.number, refused.word), (7, "listing full"))
        at = formula.compiled.instructions[refused.index].at
        self.assertEqual(refused.line, at.line)
        self.assertEqual(text.split("\n")[at.line - 1][at.column - 1], "/")
        self.assertTrue(str(refused).startswith(f"cell.formula:{at.line}:{at.column}: refused 7 {refused.index}"))


if __name__ == "__main__":
    unittest.main()
