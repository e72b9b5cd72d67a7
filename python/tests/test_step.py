"""The command step: records as text, single records there and back, and the same store as a play."""

import contextlib
import io
import os
import pty
import subprocess
import sys
import tempfile
import unittest
from pathlib import Path
from typing import List, Tuple
from unittest import mock

from tulipcricket import Formula, Listing, Refused, Store, lost, word_of
from tulipcricket.command import main
from tulipcricket.listing import records
from tulipcricket.stepping import HELP, Bench
from tulipcricket.texts import name_of

HERE = Path(__file__).resolve().parent

# docs/SHEET.md, 4: LoadConst G4 0; LoadComplex G6 G7 Mem 3; Times G5 G4 G7; Times G4 G4 G6; SaveComplex G4 G5 Mem 4
LISTING = bytes.fromhex("07000600040000" "09000b000607010300" "0800020002050407" "0800020002040406" "09000c000405010400")
TWO = bytes.fromhex("0000000000000040")

# Branch 2; Label 1; Neg G0 G0; Branch 0; Label 2; Call 1; Call 1; BranchIf G0 3 1; Mov G1 G0; Label 3; Branch 0; Mov G2 G0
BLOCK = bytes.fromhex("05000f0002" "05000e0001" "07000100000000" "05000f0000" "05000e0002" "0500100001" "0500100001" "07001100000301"
                      "060003000100" "05000e0003" "05000f0000" "060003000200")


class Texts(unittest.TestCase):
    """Bytes of docs/SHELF.md, 3, as `listing` prints them."""

    def test_each_kind(self) -> None:
        """One record of each kind, and the operations that stand far apart in their tables."""
        row = {
            "0700010000400b": "Neg Ret G11", "07000100103f41": "Sign G63 Temp", "070001000e0001": "IsZero G0 G1",
            "080002000d010203": "Xor G1 G2 G3", "0800020005404104": "GreaterThanEqual Ret Temp G4", "060003000504": "Mov G5 G4",
            "0800040007020300": "Load G7 Param 3", "080005000700ff00": "Save G7 Stack 255",
            "07000600040001": "LoadConst G4 256", "090007000001020304": "MulAdd G1 G2 G3 G4",
            "0a000800010203000200": "IfElse G1 G2 G3 Stack 2", "09000b000607010300": "LoadComplex G6 G7 Mem 3",
            "09000c000405010400": "SaveComplex G4 G5 Mem 4", "0b000d0003040506070809": "DivideComplex G4 G5 G6 G7 G8 G9",
            "05000e00ff": "Label 255", "05000f0000": "Branch 0", "0500100001": "Call 1", "07001100050301": "BranchIf G5 3 1",
        }
        for digits, text in row.items():
            self.assertEqual([record.text for record in records(bytes.fromhex(digits))], [text])

    def test_words(self) -> None:
        """docs/SHELF.md, 2: registers, then pairs of places."""
        names = {0: "G0", 63: "G63", 64: "Ret", 65: "Temp", 66: "Stack 0 re", 577: "Stack 255 im", 578: "Mem 0 re", 587: "Mem 4 im",
                 1090: "Param 0 re", 1601: "Param 255 im"}
        self.assertEqual({index: name_of(index) for index in names}, names)


def through(bench: Bench) -> List[int]:
    """The records that single steps play, to the end."""
    found = []
    while not bench.ended:
        found.append(bench.stand.record)
        bench.step()
    return found


class Steps(unittest.TestCase):
    """Single records against the play."""

    def both(self, listing: Listing, store: Store, start: int = 0) -> List[int]:
        """The way of the single steps, which ends as the play does; then back again, store by store."""
        after, bench = listing.play(store, start), Bench(listing, store, start)
        before = store.data
        way = through(bench)
        self.assertEqual((bench.store.data, bench.stand.played), (after.data, after.played))
        for record in reversed(way):
            self.assertTrue(bench.back())
            self.assertEqual(bench.stand.record, record)
        self.assertEqual((bench.store.data, bench.stand.played, bench.back()), (before, 0, False))
        for count in range(len(way) + 1):
            bench = Bench(listing, store, start)
            for _ in range(count):
                bench.step()
            here, stand = bench.store.data, bench.stand
            bench.finish()
            self.assertEqual((bench.store.data, bench.stand.played, bench.ended), (after.data, after.played, True))
            bench.back()
            self.assertEqual((bench.store.data, bench.stand), (here, stand))
        self.assertEqual(store.data, before)
        return way

    def test_straight(self) -> None:
        """The C example."""
        self.assertEqual(self.both(Listing(LISTING, TWO), Store({"Mem 3": 3 + 4j})), [0, 1, 2, 3, 4])
        self.assertEqual(self.both(Listing(LISTING, TWO), Store(), 3), [3, 4])
        self.assertEqual(self.both(Listing(LISTING, TWO), Store(), 5), [])

    def test_calls_and_branches(self) -> None:
        """A call goes through the block and returns behind it; a Branch 0 outside ends; a BranchIf goes by the store as it then is."""
        once = [1, 2, 3]
        listing = Listing(BLOCK, b"")
        self.assertEqual(self.both(listing, Store({"G0": 1.0})), [0, 4, 5, *once, 6, *once, 7, 8, 9, 10])
        self.assertEqual(self.both(listing, Store(), 5), [5, *once, 6, *once, 7, 9, 10])
        self.assertEqual(self.both(listing, Store(), 2), [2, 3])
        self.assertEqual(self.both(listing, Store(), 11), [11])

    def test_formula(self) -> None:
        """Roots, a branch and lost readings, lowered from a formula."""
        formula = Formula("given f\nw = 2*pi*f\nz = sqrt(1 + j*w) if f < 10 else 1/sqrt(j*w)\nshow z\n")
        listing = formula.sheet.lower()
        for word in (word_of(1.0), word_of(100.0), lost(3)):
            store = Store()
            store.set_words("Param 0", word, 0)
            self.assertGreater(len(self.both(listing, store)), 20)

    def test_refused(self) -> None:
        """As a play from there."""
        with self.assertRaises(Refused) as caught:
            Bench(Listing(LISTING, TWO), Store(), 6)
        self.assertEqual((caught.exception.number, caught.exception.index), (9, 6))


SESSION = ("\n\nb\n\nx\ns G6\nc\ns\nb\nq\n\n", """\
0 LoadConst G4 0
  G4 4000000000000000 2
1 LoadComplex G6 G7 Mem 3
  G6 4008000000000000 3
  G7 7ff8000000000007 lost 7
2 Times G5 G4 G7
  G5 7ff8000000000007 lost 7
1 LoadComplex G6 G7 Mem 3
  G6 4008000000000000 3
  G7 7ff8000000000007 lost 7
2 Times G5 G4 G7
  G5 7ff8000000000007 lost 7
""" + HELP + """
  G6 4008000000000000 3
end, 5 records played
  G4 4018000000000000 6
  G5 7ff8000000000007 lost 7
  G6 4008000000000000 3
  G7 7ff8000000000007 lost 7
  Mem 4 re 4018000000000000 6
  Mem 4 im 7ff8000000000007 lost 7
2 Times G5 G4 G7
  G5 7ff8000000000007 lost 7
""")


class Commands(unittest.TestCase):
    """python -m tulipcricket step."""

    def setUp(self) -> None:
        """The three files in a folder of their own."""
        folder = tempfile.TemporaryDirectory()
        self.addCleanup(folder.cleanup)
        self.folder = Path(folder.name)
        store = Store()
        store.set_words("Mem 3", word_of(3.0), lost(7))
        self.files = {"listing": LISTING, "constants": TWO, "store": store.data}
        for name, data in self.files.items():
            (self.folder / name).write_bytes(data)

    def call(self, *words: str, typed: str = "") -> Tuple[int, str, str]:
        """Status, standard output and standard error; every file is as it was."""
        out, err = io.StringIO(), io.StringIO()
        with contextlib.redirect_stdout(out), contextlib.redirect_stderr(err), mock.patch("sys.stdin", io.StringIO(typed)):
            status = main(["step", *(str(self.folder / word) if word in self.files else word for word in words)])
        self.assertEqual({path.name: path.read_bytes() for path in self.folder.iterdir()}, self.files)
        return status, out.getvalue(), err.getvalue()

    def test_lines(self) -> None:
        """A session from a pipe; the end of standard input quits."""
        self.assertEqual(self.call("listing", "constants", "store", typed=SESSION[0]), (0, SESSION[1], ""))
        begun = "5 records played"
        self.assertEqual(self.call("listing", "constants", "store", typed="c\n")[1].split(", ")[-1], begun + "\n")
        self.assertEqual(self.call("listing", "constants", "store", "5"), (0, "end, 0 records played\n", ""))
        said = self.call("listing", "constants", "store", "4", typed="b\ns Mem 300\n\n\n")[1]
        self.assertEqual(said.split("\n")[3:], ["this is where it began", "nothing of that name, or nothing has changed",
                                                "end, 1 records played", "end, 1 records played", ""])

    def test_refused(self) -> None:
        """A refusal has status 1, wrong usage and files have 2."""
        self.assertEqual(self.call("listing", "constants", "store", "6"), (1, "", "refused 9 6 stray jump\n"))
        self.assertEqual(self.call("listing", "constants", "listing"), (1, "", "refused 8 0 wrong setup\n"))
        self.assertEqual(self.call("listing", "listing", "store"), (1, "", "refused 8 0 wrong setup\n"))
        self.assertEqual(self.call("store", "constants", "store")[0], 1)
        for words in (("listing", "constants", "none"), ("listing", "constants", "-"), ("listing", "constants", "store", "-1"),
                      ("listing", "constants", "store", "1.5"), ("listing", "constants", "store", str(1 << 64))):
            self.assertEqual(self.call(*words)[0], 2, words)

    def test_terminal(self) -> None:
        """On a terminal each line comes after a prompt, and what is typed is echoed."""
        ours, theirs = pty.openpty()
        environment = dict(os.environ, PYTHONPATH=str(HERE.parent))
        words = [sys.executable, "-m", "tulipcricket", "step", "listing", "constants", "store", "3"]
        with subprocess.Popen(words, cwd=self.folder, stdin=theirs, stdout=theirs, stderr=theirs, env=environment) as child:
            os.close(theirs)
            seen = self.until(ours)
            for line in (b"\n", b"c\n"):
                os.write(ours, line)
                seen += self.until(ours)
            os.write(ours, b"q\n")
            self.assertEqual(child.wait(60), 0)
        os.close(ours)
        self.assertEqual(seen.decode().split("\r\n"), [
            "3 Times G4 G4 G6", "  G4 0000000000000000 0", "> ", "4 SaveComplex G4 G5 Mem 4", "  Mem 4 re 0000000000000000 0",
            "  Mem 4 im 0000000000000000 0", "> c", "end, 2 records played", "> "])

    @staticmethod
    def until(terminal: int) -> bytes:
        """What the terminal shows up to the next prompt."""
        seen = b""
        while not seen.endswith(b"> "):
            seen += os.read(terminal, 1024)
        return seen


if __name__ == "__main__":
    unittest.main()
