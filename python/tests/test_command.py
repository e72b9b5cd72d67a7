"""The command run: tables in and out, separators, marks, files, exit statuses."""

import contextlib
import io
import os
import subprocess
import sys
import tempfile
import unittest
from pathlib import Path
from typing import Tuple

from tulipcricket import Formula, TableError
from tulipcricket.command import main
from tulipcricket.table import Table
from tulipcricket.words import double_of, hexadecimal, lost, read, word_of, written

HERE = Path(__file__).resolve().parent
DOUBLE = "given x\ny = x + x\nz = j*x\nshow y, z\n"


class Decimals(unittest.TestCase):
    """Readings as text."""

    def test_there_and_back(self) -> None:
        """The shortest decimal gives the same word."""
        for value in (0.1, 1e-5, 20.0, -0.0, 1e22, 5e-324, 1.7976931348623157e308, 54.48275862068966, float("inf"), float("-inf")):
            self.assertEqual(read(written(word_of(value))), word_of(value))
        self.assertEqual([written(word_of(value)) for value in (20.0, -0.0, 0.5)], ["20", "-0", "0.5"])

    def test_marks(self) -> None:
        """lost N in and out; a NaN without a mark is nan."""
        self.assertEqual(hexadecimal(read(" Lost 3 ")), "7ff8000000000003")
        self.assertEqual((written(lost(3)), written(lost(3) | 1 << 63), written(lost(0))), ("lost 3", "lost 3", "nan"))
        self.assertEqual(read("nan"), 0x7FF8 << 48)

    def test_refused(self) -> None:
        """What is no reading."""
        for text in ("", "1,5", "0x10", "1_0", "lost", "lost -1", "lost 2251799813685248", "1e999", "one", "1 2", "--1", "٣"):
            with self.assertRaises(ValueError, msg=text):
                read(text)
        with self.assertRaises(ValueError):
            read("1.5", ",")
        self.assertEqual(double_of(read("-1,5e3", ",")), -1500.0)


class Tables(unittest.TestCase):
    """Columns by name."""

    def test_separators(self) -> None:
        """Seen from the first line."""
        for separator in (",", ";", "\t"):
            table = Table(f"a{separator} f \n\n# note\n1{separator}2\n", "t")
            self.assertEqual((table.separator, table.words("f")), (separator, [word_of(2.0)]))
        self.assertEqual(Table("f;g\n1,5;2\n", "t", decimal=",").words("f"), [word_of(1.5)])
        self.assertEqual(Table('"f",g\n"1",2\n', "t").words("f"), [word_of(1.0)])
        self.assertEqual(Table("f\n1,5\n", "t", decimal=",").words("f"), [word_of(1.5)])

    def test_refused(self) -> None:
        """Where and why."""
        for text, name, why in (
            ("", "f", "t:1: the table is empty"),
            ("g,h\n1,2\n", "f", "t: no column f; there are: g, h"),
            ("f,f\n1,2\n", "f", "t: column f stands 2 times"),
            ("f,g\n1,2\n3\n", "f", "t:3: 1 columns, and the first line has 2"),
            ("f,g\n\n1,2\nx,2\n", "f", "t:4: column f: x is no number"),
        ):
            with self.assertRaises(TableError) as caught:
                Table(text, "t").words(name)
            self.assertIn(why, str(caught.exception))


class Commands(unittest.TestCase):
    """python -m tulipcricket run."""

    def setUp(self) -> None:
        """A folder of its own."""
        folder = tempfile.TemporaryDirectory()
        self.addCleanup(folder.cleanup)
        self.folder = Path(folder.name)
        (self.folder / "d.formula").write_text(DOUBLE)
        (self.folder / "x.csv").write_text("x,note\n1,a\n0.1,b\nlost 7,c\n")

    def run_it(self, *words: str, said: str = "") -> Tuple[int, str, str]:
        """Status, standard output and standard error."""
        environment = dict(os.environ, PYTHONPATH=str(HERE.parent))
        done = subprocess.run([sys.executable, "-m", "tulipcricket", "run", *words], cwd=self.folder, input=said.encode(),
                              capture_output=True, env=environment, check=False)
        return done.returncode, done.stdout.decode(), done.stderr.decode()

    def test_answers(self) -> None:
        """The columns that are used, then the answers."""
        expected = "x,y,z_re,z_im\n1,2,0,1\n0.1,0.2,0,0.1\nlost 7,lost 7,0,lost 7\n"
        self.assertEqual(self.run_it("d.formula", "x.csv"), (0, expected, ""))
        self.assertEqual(self.run_it("d.formula", "-", said="x,note\n1,a\n0.1,b\nlost 7,c\n"), (0, expected, ""))
        self.assertEqual(self.run_it("-", "x.csv", "-o", "out.csv", said=DOUBLE), (0, "", ""))
        self.assertEqual((self.folder / "out.csv").read_text(), expected)

    def test_bits(self) -> None:
        """The words of the answers."""
        status, out, _ = self.run_it("d.formula", "x.csv", "--bits", "--validate", "every")
        self.assertEqual(status, 0)
        self.assertEqual(out.splitlines()[0], "x,y,y_bits,z_re,z_im,z_re_bits,z_im_bits")
        self.assertEqual(out.splitlines()[2], "0.1,0.2,3fc999999999999a,0,0.1,0000000000000000,3fb999999999999a")
        self.assertEqual(out.splitlines()[3], "lost 7,lost 7,7ff8000000000007,0,lost 7,0000000000000000,7ff8000000000007")

    def test_commas(self) -> None:
        """Decimal commas in and out, a column of another name."""
        out = self.run_it("d.formula", "-", "--decimal", ",", "--column", "x=X/Hz", said="X/Hz;n\r\n1,5;2\r\n")
        self.assertEqual(out, (0, "x;y;z_re;z_im\n1,5;3;0;1,5\n", ""))
        out = self.run_it("d.formula", "-", "--separator", "tab", said="\ufeffx\tn\n1.5\t2\n")
        self.assertEqual(out, (0, "x\ty\tz_re\tz_im\n1.5\t3\t0\t1.5\n", ""))

    def test_complex_and_none(self) -> None:
        """Complex columns, and a formula that takes nothing."""
        out = self.run_it("-", "x.csv", said="given a complex\nb = conj(a)\nshow b")
        self.assertEqual((out[0], out[2]), (1, "x.csv: no column a_re; there are: x, note\n"))
        (self.folder / "c.formula").write_text("given a complex\nb = conj(a)\nshow b")
        self.assertEqual(self.run_it("c.formula", "-", said="a_im,a_re\n1,2\n"), (0, "a_re,a_im,b_re,b_im\n2,1,2,-1\n", ""))
        self.assertEqual(self.run_it("-", said="b = 2^-1\nshow b"), (0, "b\n0.5\n", ""))

    def test_circuit(self) -> None:
        """A circuit's formula, and its answers."""
        status, out, _ = self.run_it("--circuit", "R0-p(R1,C1)", "--values", "20,250,1e-5", "--formula")
        self.assertEqual((status, out), (0, "# R0-p(R1,C1)\ngiven f\nw = 2*pi*f\nR0 = 20\nR1 = 250\nC1 = 1e-5\n"
                                            "Z = R0 + 1/(1/R1 + j*w*C1)\nshow Z\n"))
        (self.folder / "c.formula").write_text(out)
        table = "f\n0.1\n1000\n"
        self.assertEqual(self.run_it("c.formula", "-", said=table),
                         self.run_it("-", "--circuit", "R0-p(R1,C1)", "--values", "20,250,1e-5", said=table))
        for circuit, values, why in (("R0-X1", "1,2", "circuit:1:4: X is no element that is known"),
                                     ("R0-", "1", "circuit:1:4: expected an element"),
                                     ("R0-R0", "1,2", "circuit:1:4: R0 stands twice"),
                                     ("p(R0,R1", "1,2", "circuit:1:8: expected , or )"),
                                     ("p(R0)", "1", "circuit:1:1: p() needs two parts"),
                                     ("R0)", "1", "circuit:1:3: expected - or the end"),
                                     ("CPE1", "1", "circuit:1:1: there are 1 values, and the circuit has 2: CPE1_0, CPE1_1"),
                                     ("Wo1", "1,2", "circuit:1:1: Wo is no element that is known")):
            status, _, error = self.run_it("x.csv", "--circuit", circuit, "--values", values)
            self.assertEqual(status, 1)
            self.assertIn(why, error)

    def test_statuses(self) -> None:
        """1 where it is refused, 2 where a file or the usage is wrong; nothing is made."""
        (self.folder / "bad.formula").write_text("given x\ny = q\nshow y")
        status, out, error = self.run_it("bad.formula", "x.csv", "-o", "new.csv")
        self.assertEqual((status, out), (1, ""))
        self.assertEqual(error, "bad.formula:2:5: q is not given; known: x\ny = q\n    ^\n")
        for words in (["none.formula", "x.csv"], ["d.formula", "none.csv"], ["d.formula"], [], ["d.formula", "x.csv", "x.csv"],
                      ["d.formula", "x.csv", "-o", "x.csv"], ["d.formula", "x.csv", "-o", "no/z.csv"], ["-", "-"],
                      ["d.formula", "x.csv", "--plot", "z.gif"], ["d.formula", "x.csv", "--values", "1"], ["--formula"],
                      ["d.formula", "x.csv", "--circuit", "R0"], ["d.formula", "x.csv", "--wrong"],
                      ["d.formula", "x.csv", "-o", "a.svg", "--plot", "a.svg"]):
            status, out, error = self.run_it(*words)
            self.assertEqual((status, out), (2, ""), words)
            self.assertNotIn("Traceback", error)
        self.assertEqual(sorted(path.name for path in self.folder.iterdir()), ["bad.formula", "d.formula", "x.csv"])
        self.assertEqual(self.run_it("d.formula", "x.csv", "-o", "x.csv", "--force")[0], 0)

    def test_sheet(self) -> None:
        """The sheet that is written is the formula's."""
        self.assertEqual(self.run_it("d.formula", "x.csv", "-o", "z.csv", "--sheet", "d.sheet"), (0, "", ""))
        self.assertEqual((self.folder / "d.sheet").read_bytes(), Formula(DOUBLE).sheet.data)

    def test_version(self) -> None:
        """The commit."""
        said = io.StringIO()
        with contextlib.redirect_stdout(said), self.assertRaises(SystemExit) as caught:
            main(["--version"])
        self.assertEqual(caught.exception.code, 0)
        self.assertRegex(said.getvalue(), r"\Atulipcricket [0-9.]+, commit ([0-9a-f]{40}(-dirty)?|unknown)\n\Z")

    def test_missing_library(self) -> None:
        """Said with status 2."""
        environment = dict(os.environ, PYTHONPATH=str(HERE.parent), TULIPCRICKET_LIBRARY=str(self.folder / "none.so"))
        done = subprocess.run([sys.executable, "-m", "tulipcricket", "run", "d.formula", "x.csv"], cwd=self.folder, env=environment,
                              capture_output=True, check=False)
        self.assertEqual(done.returncode, 2)
        self.assertIn(b"c/library makes it", done.stderr)


class Bars(unittest.TestCase):
    """The bar of progress."""

    def test_terminal(self) -> None:
        """On a terminal after a second, and nowhere else."""
        from tulipcricket.command import Bar

        class Terminal(io.StringIO):
            """Says that it is one."""

            def isatty(self) -> bool:
                """Yes."""
                return True
        before = sys.stderr
        try:
            sys.stderr = quick = Terminal()
            bar = Bar()
            bar(10, 10)
            sys.stderr = slow = Terminal()
            bar.began -= 2
            bar(5, 10)
            bar(10, 10)
            bar.terminal = False
            bar(10, 10)
        finally:
            sys.stderr = before
        self.assertEqual(quick.getvalue(), "")
        self.assertTrue(slow.getvalue().endswith("[" + "#" * 40 + "] 10 of 10\n"))
        self.assertEqual(slow.getvalue().count("10 of 10"), 1)


if __name__ == "__main__":
    unittest.main()
