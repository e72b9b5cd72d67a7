"""README.md's commands from an empty folder, and the Randles circuit of examples/."""

import cmath
import math
import os
import subprocess
import tempfile
import unittest
from pathlib import Path
from typing import List, Tuple

from tulipcricket import Formula, double_of, exact, word_of
from tulipcricket.table import Table

ROOT = Path(__file__).resolve().parent.parent.parent
EXAMPLES = ROOT / "examples"
Pair = Tuple[float, float]


def section(title: str) -> List[str]:
    """The indented lines of a section of README.md."""
    text = (ROOT / "README.md").read_text(encoding="utf-8")
    text = text[text.index(f"## {title}\n"):]
    text = text[: text.index("\n##", 1)]
    return [line[4:] for line in text.splitlines() if line.startswith("    ")]


def commands(lines: List[str]) -> List[Tuple[str, str]]:
    """Commands, with their text up to END, and what they print."""
    found: List[Tuple[str, str]] = []
    inside = False
    for line in lines:
        if line.startswith("$ "):
            found.append((line[2:] + "\n", ""))
            inside = "<<'END'" in line
        elif found and inside:
            found[-1] = (found[-1][0] + line + "\n", "")
            inside = line != "END"
        elif found:
            found[-1] = (found[-1][0], found[-1][1] + line + "\n")
    return found


@unittest.skipUnless((ROOT / "README.md").exists() and EXAMPLES.exists(), "not in the repository")
class Readme(unittest.TestCase):
    """As a reader types it."""

    def test_section(self) -> None:
        """Each command ends with 0 and prints what README.md prints; the answers are near to Python's complex numbers."""
        lines = section("From a formula to impedance")
        lines = lines[: lines.index("import tulipcricket as tc")]
        said = commands(lines)
        self.assertEqual(len(said), 4)
        with tempfile.TemporaryDirectory() as folder:
            for command, printed in said:
                command = command.replace("bin/tulipcricket", str(ROOT / "bin" / "tulipcricket"))
                done = subprocess.run(["bash", "-c", command], cwd=folder, capture_output=True, text=True, check=False)
                self.assertEqual((done.returncode, done.stderr, done.stdout), (0, "", printed), command)
            self.assertEqual(sorted(os.listdir(folder)), ["cell.formula", "freq.csv", "z.csv"])
        for line in said[-1][1].splitlines()[1:]:
            if not line.startswith("lost"):
                f, re, im = map(float, line.split(","))
                w = 2 * math.pi * f
                z = 20 + 1 / (1 / (250 + 150 * (1 - 1j) / cmath.sqrt(w)) + 4e-5 * (1j * w) ** 0.85)
                self.assertLess(abs(complex(re, im) - z), 1e-15 * abs(z))


def over(a: Pair, fused: bool) -> Pair:
    """1/a in plain doubles, the size squared with two roundings or, fused, with one less."""
    square = a[0] * a[0] + a[1] * a[1]
    if fused:
        square = double_of(exact.mul_add(word_of(a[1]), word_of(a[1]), word_of(a[0] * a[0])))
    return a[0] / square, -a[1] / square


def impedance(w: float, fused: bool) -> Pair:
    """The Randles circuit in plain double-precision complex arithmetic, the root of w taken as a complex number."""
    root = math.sqrt(w)
    warburg = 150 * root / (root * root)
    branch = over((250 + warburg, -warburg), fused)
    inner = over((branch[0], branch[1] + w * 40e-6), fused)
    return 20 + inner[0], inner[1]


def apart(a: float, b: float) -> int:
    """How many doubles two of the same sign are apart."""
    return abs(word_of(a) - word_of(b))


@unittest.skipUnless(EXAMPLES.exists(), "not in the repository")
class Randles(unittest.TestCase):
    """examples/README.md."""

    def test_beside_plain_arithmetic(self) -> None:
        """50 of 60 points are equal, the others 1 and 2 units off at most; with the fused step all are equal. Both modes alike."""
        text = (EXAMPLES / "randles.formula").read_text(encoding="utf-8")
        frequencies = [double_of(word) for word in Table((EXAMPLES / "frequencies.csv").read_text(), "f").words("f")]
        answers = Formula(text)(f=frequencies, validate="every")
        self.assertEqual(answers, Formula("mode plain\n" + text)(f=frequencies, validate="every"))
        plain = [impedance(2 * math.pi * f, False) for f in frequencies]
        fused = [impedance(2 * math.pi * f, True) for f in frequencies]
        self.assertEqual(len(answers), 60)
        self.assertEqual(sum((z.real, z.imag) == pair for z, pair in zip(answers, plain)), 50)
        self.assertEqual(max(apart(z.real, pair[0]) for z, pair in zip(answers, plain)), 1)
        self.assertEqual(max(apart(z.imag, pair[1]) for z, pair in zip(answers, plain)), 2)
        self.assertEqual([(z.real, z.imag) for z in answers], fused)


if __name__ == "__main__":
    unittest.main()
