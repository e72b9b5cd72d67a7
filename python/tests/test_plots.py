"""Plots and reports. Where matplotlib is not there, that this is said and all else works."""

import cmath
import contextlib
import io
import math
import re
import tempfile
import unittest
from pathlib import Path
from unittest import mock

from tulipcricket import Formula, plots, report
from tulipcricket.command import main
from tulipcricket.syntax import parse

from .test_formula import CELL, frequencies

try:
    import matplotlib  # noqa: F401
    HERE = True
except ImportError:
    HERE = False


def drawn() -> list:  # type: ignore[type-arg]
    """The curve of the cell."""
    formula = Formula(CELL)
    run = formula.play({"f": [(plots_word(f),) for f in frequencies()]})
    return plots.curves(formula, {"f": frequencies()}, run)


def plots_word(value: float) -> int:
    """A word."""
    from tulipcricket import word_of
    return word_of(value)


class Commanded(unittest.TestCase):
    """By the command."""

    def setUp(self) -> None:
        """A folder with a formula and a table."""
        folder = tempfile.TemporaryDirectory()
        self.addCleanup(folder.cleanup)
        self.folder = Path(folder.name)
        (self.folder / "cell.formula").write_text(CELL.replace("steel", "<script>alert(1)</script> & steel"))
        (self.folder / "f.csv").write_text("f\n" + "".join(f"{f!r}\n" for f in frequencies()))

    def call(self, *words: str) -> "tuple[int, str]":
        """Status and standard error of a run in the folder."""
        said = io.StringIO()
        with contextlib.redirect_stderr(said):
            status = main(["run", str(self.folder / "cell.formula"), str(self.folder / "f.csv"), "-o", str(self.folder / "z.csv"), *words])
        return status, said.getvalue()

    def test_without(self) -> None:
        """Without matplotlib the answers and the report are written, and a line says what is missing."""
        with mock.patch.dict("sys.modules", {"matplotlib": None}):
            status, said = self.call("--plot", str(self.folder / "z.svg"), "--report", str(self.folder / "z.html"))
        self.assertEqual(status, 2)
        self.assertIn("plots need matplotlib", said)
        self.assertEqual(len((self.folder / "z.csv").read_text().splitlines()), 62)
        self.assertFalse((self.folder / "z.svg").exists())
        self.assertIn("plots need matplotlib", (self.folder / "z.html").read_text())

    @unittest.skipUnless(HERE, "no matplotlib")
    def test_report(self) -> None:
        """One file: no script, no link to the outside; the formula as it was written."""
        self.assertEqual(self.call("--report", str(self.folder / "z.html"), "--plot", str(self.folder / "z.svg")), (0, ""))
        page = (self.folder / "z.html").read_text()
        self.assertNotRegex(page, r"(?i)<script|<link|<img|@import|url\((?!#)|href=\"(?!#)|src=")
        self.assertIn("# coated &lt;script&gt;alert(1)&lt;/script&gt; &amp; steel 7", page)
        self.assertIn("Z = (Rs + (1/((1/(Rct + ((sigma*(1 - j))/sqrt(w)))) + Y)))", page)
        self.assertEqual(page.count("<figure>"), 2)
        names = re.findall(r'\bid="([^"]+)"', page)
        self.assertEqual(len(names), len(set(names)))
        for cell in (self.folder / "z.csv").read_text().splitlines()[7].split(","):
            self.assertIn(f'<td class="n">{cell}</td>', page)
        self.assertIn("Validated at 3 of 61 points", page)
        self.assertIn("3feb333333333333", page)

    @unittest.skipUnless(HERE, "no matplotlib")
    def test_nothing_to_draw(self) -> None:
        """A real answer has no Nyquist plot; the answers are written."""
        (self.folder / "cell.formula").write_text("given f\nw = 2*pi*f\nshow w")
        status, said = self.call("--plot", str(self.folder / "z.svg"))
        self.assertEqual((status, (self.folder / "z.csv").exists()), (2, True))
        self.assertIn("a plot needs a complex answer", said)


@unittest.skipUnless(HERE, "no matplotlib")
class Pictures(unittest.TestCase):
    """By the functions."""

    def test_forms(self) -> None:
        """The ending says the form; the same answers give the same bytes."""
        for name, start in (("z.svg", b"<?xml"), ("z.PNG", b"\x89PNG"), ("z.pdf", b"%PDF")):
            self.assertTrue(plots.picture(drawn(), name).startswith(start))
        self.assertEqual(plots.picture(drawn(), "z.svg"), plots.picture(drawn(), "z.svg"))

    def test_equal_axes(self) -> None:
        """An ohm to the right is as long as an ohm upwards."""
        for text in (CELL, "given f\nZ = 20 - j*f\nshow Z", "given f\nZ = f - j\nshow Z"):
            formula = Formula(text)
            run = formula.play({"f": [(plots_word(f),) for f in frequencies()]})
            made = plots.figure(plots.curves(formula, {"f": frequencies()}, run), "nyquist")
            made.draw_without_rendering()
            place = made.axes[0].transData.transform([(0, 0), (1, 0), (0, 1)])
            self.assertAlmostEqual((place[1][0] - place[0][0]) / (place[2][1] - place[0][1]), 1, places=6)

    def test_curves(self) -> None:
        """What is drawn is what was answered; lost points are left out."""
        curve = drawn()[0]
        made = plots.figure([curve])
        line = made.axes[0].lines[0] if made.axes[0].get_title().startswith("Nyquist") else made.axes[-1].lines[0]
        self.assertEqual(list(line.get_xdata()), [z.real for z in curve.z])
        self.assertEqual(list(line.get_ydata()), [-z.imag for z in curve.z])
        lost = plots.Curve("Z", "f", [1.0, math.nan, 3.0], [1j, 2j, complex(math.nan, 1)])
        self.assertEqual(plots.finite(lost), [(1.0, 1j)])
        plots.figure([lost])


class Marks(unittest.TestCase):
    """Decades."""

    def test_decades(self) -> None:
        """The point nearest to each power of ten, none where no point is near."""
        points = [(x, complex(x)) for x in (0.09, 0.11, 1.0, 30.0, 95.0, 1200.0)]
        self.assertEqual(plots.decades(points), [(-1, 1), (0, 2), (2, 4), (3, 5)])
        self.assertEqual(plots.decades([(-1.0, 1j)]), [])

    def test_falls(self) -> None:
        """An arc rises on its left side and falls on its right one, whichever way it is gone."""
        arc = [(float(i), 1 + cmath.exp(-1j * math.pi * i / 10)) for i in range(11)]
        self.assertEqual([plots.falls(arc, i) for i in (1, 2, 8, 9)], [True, True, False, False])
        self.assertEqual([plots.falls(arc[::-1], i) for i in (1, 2, 8, 9)], [False, False, True, True])

    def test_parenthesised(self) -> None:
        """Every operation in parentheses."""
        for text, shown in (("1 - 2 - -3^2", "((1 - 2) - (-(3^2)))"), ("1 if not 2 < 3 and 1 == 1 else j*pi", None)):
            tree = parse(f"Z = {text}\nshow Z").lets[0].value
            again = report.parenthesised(tree)
            if shown:
                self.assertEqual(again, shown)
            self.assertEqual(report.parenthesised(parse(f"Z = {again}\nshow Z").lets[0].value), again)


if __name__ == "__main__":
    unittest.main()
