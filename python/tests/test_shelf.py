"""The commands shelve and check: what a folder has, what is refused, what is noticed, and what is mended."""

import contextlib
import hashlib
import io
import os
import subprocess
import sys
import tempfile
import unittest
import zlib
from pathlib import Path
from typing import Dict, List, Tuple
from unittest import mock

from tulipcricket import kept, library, manifest, paper, points, shelve, texts
from tulipcricket.command import main
from tulipcricket.errors import WORDS
from tulipcricket.folder import Folder, Unreadable, shown

HERE = Path(__file__).resolve().parent
FORMULA = "given x\ngiven c complex\ny = x + x\nz = c*x\nshow y, z\n"
TABLE = "x,c_re,c_im,note\n1,2,3,a\n0.1,-1,0,b\nlost 7,1e300,inf,c\n"


class Shelves(unittest.TestCase):
    """A folder of its own, and a small scan in it."""

    def setUp(self) -> None:
        """The scan."""
        room = tempfile.TemporaryDirectory()
        self.addCleanup(room.cleanup)
        self.room = Path(room.name)
        (self.room / "d.formula").write_text(FORMULA)
        (self.room / "x.csv").write_text(TABLE)

    def called(self, *words: str) -> Tuple[int, str, str]:
        """Status, standard output and standard error; names are taken in the room."""
        out, err = io.StringIO(), io.StringIO()
        before = os.getcwd()
        os.chdir(self.room)
        try:
            with contextlib.redirect_stdout(out), contextlib.redirect_stderr(err):
                try:
                    status = main(list(words))
                except SystemExit as ended:
                    status = int(ended.code or 0)
        finally:
            os.chdir(before)
        return status, out.getvalue(), err.getvalue()

    def shelved(self, name: str = "f", *words: str) -> Path:
        """A folder with the scan."""
        self.assertEqual(self.called("shelve", "d.formula", "x.csv", name, *words), (0, "", ""))
        return self.room / name

    def check(self, *words: str) -> Tuple[int, List[str]]:
        """Status and lines of check."""
        status, out, err = self.called("check", *words)
        self.assertEqual(err, "")
        return status, out.splitlines()


class Folders(Shelves):
    """What shelve makes."""

    def test_files(self) -> None:
        """The files, and that the same scan gives the same bytes."""
        one, other = self.shelved("one"), self.shelved("other")
        names = {"formula", "given.csv", "sheet", "listing", "constants", "origins", "before", "points", "z.csv", "LEGEND", "VERSION",
                 "SHELF.txt", "SHEET.txt", "player.py", "CHECK.txt", "MANIFEST"}
        self.assertLessEqual(names, set(os.listdir(one)))
        self.assertEqual([name for name in os.listdir(self.room) if name.startswith(".")], [])
        for name in sorted(names - {"MANIFEST", "LEGEND", "CHECK.txt"}):
            self.assertEqual((one / name).read_bytes(), (other / name).read_bytes())
        self.assertEqual((one / "formula").read_text(), FORMULA)
        self.assertEqual((one / "given.csv").read_text(), TABLE)
        self.assertEqual((one / "before").read_bytes(), bytes(12816))
        self.assertEqual((one / "origins").read_bytes(), library.lower((one / "sheet").read_bytes()).origins)
        self.assertEqual((one / "player.py").read_bytes(), (HERE.parent.parent / "drill" / "player.py").read_bytes())

    def test_points(self) -> None:
        """Words put in, words of the answer, what came back; the words were worked out by hand."""
        lines = (self.shelved() / "points").read_text().splitlines()
        self.assertEqual(lines[:10], [
            "tulipcricket points 1", "start 0", "table comma point decimals", "put 1090 x=x", "put 1092 c_re=c_re", "put 1093 c_im=c_im",
            "answer 578 y", "answer 580 z_re", "answer 581 z_im", "points"])
        words = "3ff0000000000000 4000000000000000 4008000000000000 = 4000000000000000 4000000000000000 4008000000000000 = 0 "
        self.assertTrue(lines[10].startswith(words), lines[10])
        self.assertEqual(len(lines), 13)

    def test_answers(self) -> None:
        """z.csv is what run writes."""
        folder = self.shelved()
        self.assertEqual(self.called("run", "d.formula", "x.csv", "-o", "z.csv")[0], 0)
        self.assertEqual((folder / "z.csv").read_text(), (self.room / "z.csv").read_text())

    def test_pages(self) -> None:
        """CHECK.txt is one page, and both texts fit the paper."""
        folder = self.shelved("f", "--stores")
        for name, most in (("CHECK.txt", 60), ("LEGEND", 60)):
            lines = (folder / name).read_text().splitlines()
            self.assertLessEqual(len(lines), most)
            self.assertLessEqual(max(map(len, lines)), 72)
        legend = (folder / "LEGEND").read_text()
        self.assertIn("  1090  Param 0    real  x  ", legend)
        self.assertIn("  7ff8000000000007  lost 7, first at point 3, cause: ____", legend)
        self.assertIn("The listing draws on no register before it fills it: what stood in the\nregisters of the file before does", legend)
        whole = texts.check("f", [name for name, _ in texts.FILES], []).splitlines()
        self.assertLessEqual(len(whole), 60)

    def test_drawn_on(self) -> None:
        """LEGEND names the registers that a sheet draws on, and check repeats it; of a listing alone it is not told."""
        save = bytes.fromhex("4500200000" + "00" * 64 + "0800050000010400" "080005001e010500")
        (self.room / "save.sheet").write_bytes(save)
        self.assertEqual(self.called("shelve", "--sheet", "save.sheet", "f"), (0, "", ""))
        told = "The listing draws on these registers before it fills them, so keep their\nwords of the file before: G4, G5, Ret, Temp.\n"
        self.assertTrue((self.room / "f" / "LEGEND").read_text().endswith(told))
        self.assertIn("LEGEND: the sheet, lowered again, draws on G4, G5, Ret, Temp", self.check("f")[1])
        legend = (self.room / "f" / "LEGEND").read_text()
        (self.room / "f" / "LEGEND").write_text(legend.replace(", Ret, Temp", ""))
        status, lines = self.check("f")
        self.assertEqual(status, 1)
        self.assertIn("differs: LEGEND: it says otherwise; the sheet, lowered again, draws on G4, G5, Ret, Temp", lines)
        (self.room / "f" / "LEGEND").write_text(texts.NOT_TOLD)
        self.assertIn("LEGEND: it does not tell which registers are drawn on; the sheet, lowered again, draws on G4, G5, Ret, Temp",
                      self.check("f")[1])
        lowered = library.lower(save)
        (self.room / "l").write_bytes(lowered.listing)
        (self.room / "c").write_bytes(lowered.constants)
        self.assertEqual(self.called("shelve", "--listing", "l", "--constants", "c", "g"), (0, "", ""))
        self.assertIn("is not told of\na listing without its sheet", (self.room / "g" / "LEGEND").read_text())
        self.assertFalse([line for line in self.check("g")[1] if line.startswith("LEGEND")])

    def test_whole_or_not(self) -> None:
        """A folder that exists, a table that is none, a name that no manifest carries: nothing is left."""
        self.shelved()
        before = sorted(os.listdir(self.room))
        (self.room / "bad.csv").write_text("x,c_re,c_im\n1,2,3\n1,2,three\n")
        for words, status, why in (
            (["d.formula", "x.csv", "f"], 2, "File exists"),
            (["d.formula", "x.csv", "no/f"], 2, "No such file or directory"),
            (["d.formula", "x.csv", ".f"], 2, "no name for a folder on the shelf"),
            (["d.formula", "x.csv", "a\nb"], 2, "no name for a folder on the shelf"),
            (["d.formula", "bad.csv", "g"], 1, "bad.csv:3: column c_im: three is no number"),
            (["d.formula", "none.csv", "g"], 2, "none.csv: No such file or directory"),
            (["d.formula", "g"], 1, "no table is said, and the formula is given x, c"),
            (["d.formula", "-", "g"], 2, "each a file's name"),
            (["d.formula", "x.csv", "g", "--answer", "Mem 0"], 2, "need --sheet or --listing"),
            (["--listing", "d.formula", "x.csv", "g"], 2, "--listing needs --constants"),
        ):
            got, out, err = self.called("shelve", *words)
            self.assertEqual((got, out), (status, ""), words)
            self.assertIn(why, err)
        (self.room / "bad.csv").unlink()
        self.assertEqual(sorted(os.listdir(self.room)), before)

    def test_sheet_and_listing(self) -> None:
        """A sheet, or a listing, with a table of words of the store."""
        self.assertEqual(self.called("run", "d.formula", "x.csv", "--sheet", "d.sheet", "-o", "z.csv")[0], 0)
        lowered = library.lower((self.room / "d.sheet").read_bytes())
        (self.room / "l").write_bytes(lowered.listing)
        (self.room / "c").write_bytes(lowered.constants)
        (self.room / "store").write_bytes(bytes(12816))
        (self.room / "w.csv").write_text("Param 0 re;Param 1 re;Param 1 im\n3ff0000000000000;4000000000000000;4008000000000000\n")
        (self.room / "n.csv").write_text("x,Param 1 re,Param 1 im\n1,2,3\n")
        for name, words in (("s", ["--sheet", "d.sheet", "w.csv", "--words"]),
                            ("l1", ["--listing", "l", "--constants", "c", "w.csv", "--words"]),
                            ("n", ["--sheet", "d.sheet", "n.csv", "--column", "Param 0 re=x", "--before", "store", "--answer", "Mem 0 re",
                                   "--answer", "Mem 1", "--stores"])):
            self.assertEqual(self.called("shelve", *words, name), (0, "", ""))
            status, lines = self.check(name)
            self.assertEqual((status, lines[-1]), (0, f"{name}: as it was shelved"))
            line = (self.room / name / "points").read_text().splitlines()[-1]
            self.assertTrue(line.startswith("3ff0000000000000 4000000000000000 4008000000000000 = 4000000000000000 "), line)
        self.assertEqual((self.room / "n" / "z.csv").read_text(),
                         "Param 0 re,Param 1 re,Param 1 im,Mem 0 re,Mem 1 re,Mem 1 im\n1,2,3,2,2,3\n")
        (self.room / "w.csv").write_text("Parm 0\n3ff0000000000000\n")
        self.assertEqual(self.called("shelve", "--sheet", "d.sheet", "w.csv", "no"),
                         (1, "", "Parm 0: no word of a store (Param 0 re, Mem 3 im, G5)\n"))

    def test_no_table(self) -> None:
        """A formula that is given nothing has one point."""
        (self.room / "n.formula").write_text("b = 2^-1\nshow b\n")
        self.assertEqual(self.called("shelve", "n.formula", "n"), (0, "", ""))
        self.assertEqual(self.check("n")[0], 0)
        self.assertEqual((self.room / "n" / "z.csv").read_text(), "b\n0.5\n")
        self.assertEqual(standing(self.room / "n"), (0, "n: as it was shelved"))

    def test_checked_before_it_is_named(self) -> None:
        """A fault of shelve itself: what it wrote does not come out again, and no folder is made."""
        with mock.patch("tulipcricket.shelve.csv_line", lambda cells, separator: b"1\n"):
            status, _, err = self.called("shelve", "d.formula", "x.csv", "g")
        self.assertEqual(status, 2)
        self.assertIn("g: checked, it differs, and no folder was made: differs: z.csv: ", err)
        self.assertEqual(sorted(os.listdir(self.room)), ["d.formula", "x.csv"])

    def test_full(self) -> None:
        """Where the disk is full at any write, no folder is left, and that is told."""
        real, left = os.fsync, [0]

        def full(file: int) -> None:
            left[0] -= 1
            if left[0] < 0:
                raise OSError(28, "No space left on device")
            real(file)

        for writes in range(0, 18, 3):
            left[0] = writes
            with mock.patch("os.fsync", full):
                status, _, err = self.called("shelve", "d.formula", "x.csv", "g")
            if status == 0:
                break
            self.assertEqual(status, 2)
            self.assertIn("No space left on device; no folder was made", err)
            self.assertEqual(sorted(os.listdir(self.room)), ["d.formula", "x.csv"])
        self.assertGreater(writes, 12)


def standing(folder: Path) -> Tuple[int, str]:
    """What the folder's own player says: status and last line."""
    done = subprocess.run([sys.executable, "-I", "-B", str(folder / "player.py")], capture_output=True, text=True, check=False)
    return done.returncode, done.stdout.splitlines()[-1]


class Checks(Shelves):
    """What check says."""

    def test_as_shelved(self) -> None:
        """Every part is made again, a line for each."""
        self.shelved("f", "--stores")
        status, lines = self.check("f")
        self.assertEqual(status, 0)
        for line in ("sheet: the formula, compiled again, gives it", "listing: the sheet, lowered again, gives it",
                     "constants: the sheet, lowered again, gives them", "given.csv: 3 lines with the words put in",
                     "points: 3 played again by the proved player, every word and checksum the same",
                     "points: 3 played again by player.py, every word and checksum the same",
                     "z.csv: 3 lines with the answers of points", "after: 3 stores, every byte as played again"):
            self.assertIn(line, lines)
        self.assertEqual(lines[-1].split(";")[0], "f: as it was shelved")
        self.assertEqual(standing(self.room / "f"), (0, "f: as it was shelved"))

    def test_moved(self) -> None:
        """A folder may be renamed and moved; its manifest keeps its name."""
        self.shelved().rename(self.room / "elsewhere")
        self.assertEqual(self.check("elsewhere")[1][-1].split(";")[0], "f: as it was shelved")

    def refit(self, folder: Path) -> None:
        """A manifest that agrees with the folder as it is: someone changed a file, and that."""
        with Folder(str(folder)) as opened:
            data = manifest.made(opened, "f", [name for name, _ in texts.FILES if (folder / name).exists()]).written()
        (folder / "MANIFEST").write_bytes(data)

    def changed(self, name: str, old: str, new: str) -> List[str]:
        """What check says where a text is changed and the manifest with it."""
        folder = self.room / "f"
        if not folder.exists():
            self.shelved("f", "--stores")
        text = (folder / name).read_text()
        self.assertEqual(text.count(old), 1, (name, old))
        (folder / name).write_text(text.replace(old, new))
        self.refit(folder)
        status, lines = self.check("f")
        self.assertEqual(status, 1)
        self.assertEqual(standing(folder)[0], 1 if name in ("points", "z.csv", "given.csv") else 0)
        (folder / name).write_text(text)
        self.refit(folder)
        return [line for line in lines if line.startswith("differs: ")]

    def test_changed_with_the_manifest(self) -> None:
        """A changed word, number, table or formula is noticed by making it again: the file, the point and the word are named."""
        for name, old, new, told in (
            ("points", "= 4000000000000000 4000000000000000 4008000000000000 =", "= 4000000000000001 4000000000000000 4008000000000000 =",
             "differs: points: point 1, line 11: Mem 0 re is 4000000000000001 there, and 4000000000000000 played again by "),
            ("points", "put 1090 x=x", "put 1094 x=x", "differs: points: its head has other words than the formula is given and shows"),
            ("points", "start 0", "start 1", "differs: points: point 1, line 11: "),
            ("given.csv", "0.1,", "0.2,", "differs: given.csv: point 2: 0.2 in column x is not the word 3fb999999999999a of points"),
            ("given.csv", "lost 7", "lost 8", "differs: given.csv: point 3: lost 8 in column x"),
            ("given.csv", "0.1,-1,0,b\n", "", "differs: given.csv: no whole line for point 3, line 13 of points"),
            ("given.csv", "0.1,-1,0,b\n", "0.1,-1,0,b\n" * 2, "differs: given.csv: "),
            ("z.csv", "1,2,3,2,2,3", "1,2,3,2,2,4", "differs: z.csv: point 1: the line is 1,2,3,2,2,4, and points give 1,2,3,2,2,3"),
            ("formula", "y = x + x", "y = x - x", "differs: sheet: made again it has "),
            ("formula", "show y, z", "show y, q", "differs: formula: it is refused: "),
        ):
            lines = self.changed(name, old, new)
            self.assertTrue(any(line.startswith(told) for line in lines), (told, lines))

    def test_store_changed(self) -> None:
        """A changed word of a kept store, or of the store before."""
        folder = self.shelved("f", "--stores")
        data = bytearray((folder / "after").read_bytes())
        data[12816 + 8 * 700] ^= 1
        (folder / "after").write_bytes(data)
        self.refit(folder)
        self.assertIn("differs: after: point 2: the first word that differs is Mem 61 re", self.check("f")[1])

    def test_without_the_library(self) -> None:
        """player.py alone plays, and what is not repeated is said."""
        self.shelved()
        environment = dict(os.environ, PYTHONPATH=str(HERE.parent), TULIPCRICKET_LIBRARY=str(self.room / "none.so"))
        done = subprocess.run([sys.executable, "-m", "tulipcricket", "check", str(self.room / "f")], capture_output=True, text=True,
                              env=environment, check=False)
        lines = done.stdout.splitlines()
        self.assertEqual((done.returncode, done.stderr), (0, ""))
        self.assertIn("not repeated: listing, constants: the proved library is not here to lower the sheet", lines)
        self.assertIn("not repeated: points by the proved player: the library is not here", lines)
        self.assertIn("points: 3 played again by player.py, every word and checksum the same", lines)
        self.assertRegex(lines[-1], r"\Af: as it was shelved; [23] not repeated\Z")

    def test_another_commit(self) -> None:
        """A folder of another commit is told as such; that alone is no difference."""
        with mock.patch("tulipcricket.provenance.commit", lambda: "0" * 40):
            self.shelved()
        status, lines = self.check("f")
        self.assertEqual(status, 0)
        self.assertTrue(any("commit " + "0" * 40 + ", changed no: another program than this" in line for line in lines), lines)

    def test_no_folder(self) -> None:
        """What is no folder, and wrong usage."""
        for words in (["none"], ["x.csv"], ["f", "--write"], []):
            self.assertEqual(self.called("check", *words)[:2], (2, ""))


class Hostile(Shelves):
    """A folder from elsewhere."""

    def test_links_and_pipes(self) -> None:
        """Links are not followed, pipes not waited for, names not taken for paths."""
        folder = self.shelved()
        (self.room / "secret").write_text("x")
        (folder / "given.csv").unlink()
        (folder / "given.csv").symlink_to(self.room / "x.csv")
        (folder / "z.csv").unlink()
        os.mkfifo(folder / "z.csv")
        (folder / "sub").mkdir()
        (folder / "a\x1b[2Jb").write_text("")
        status, lines = self.check("f")
        self.assertEqual(status, 1)
        self.assertIn("differs: given.csv: Too many levels of symbolic links", lines)
        self.assertIn("differs: z.csv: no plain file", lines)
        self.assertIn("differs: sub: added: a folder, which is left alone", lines)
        self.assertNotIn("\x1b", "".join(lines))

    def test_names(self) -> None:
        """A manifest that names what is no file on the shelf is damaged, whatever its sums."""
        folder = self.shelved()
        (self.room / "secret").write_text("x")
        good = (folder / "MANIFEST").read_bytes()
        sums = manifest.sums_of(io.BytesIO(b"x"))
        for name in ("../secret", "/etc/passwd", ".hidden", "a/b", "MANIFEST", "formula", "", "a b", "x" * 65, "\u00e9"):
            listed = manifest.parse(good)
            (folder / "MANIFEST").write_bytes(manifest.Manifest("f", (*listed.files, (name, sums))).written())
            status, lines = self.check("f", "--files")
            self.assertEqual(status, 1)
            self.assertTrue(lines[0].startswith("differs: MANIFEST: "), (name, lines))
        with Folder(str(folder)) as opened:
            for name in ("../secret", "/etc/passwd", "."):
                with self.assertRaises(Unreadable):
                    opened.open(name)

    def test_nothing_is_run(self) -> None:
        """Neither player.py of the folder nor a module beside it is run, even where check is called in the folder."""
        folder = self.shelved()
        for name in ("player.py", "struct.py", "csv.py", "tulipcricket.py", "sitecustomize.py"):
            (folder / name).write_text("import pathlib\npathlib.Path('was-run').write_text('')\n")
        front = HERE.parent / "tulipcricket" / "__main__.py"
        done = subprocess.run([sys.executable, "-B", str(front), "check", "."], cwd=folder, capture_output=True, text=True, check=False)
        self.assertEqual(done.returncode, 1)
        self.assertIn("differs: player.py: ", done.stdout)
        self.assertIn("played again by player.py, every word and checksum the same", done.stdout)
        self.assertFalse((folder / "was-run").exists())

    def test_shown(self) -> None:
        """Names for a terminal."""
        self.assertEqual([shown(name) for name in ("a", "a b", " a", "\x1b[2J", "")], ["a", "a b", "' a'", r"'\x1b[2J'", "''"])


class Manifests(unittest.TestCase):
    """The manifest by itself."""

    FILES = (("listing", manifest.Sums(7, 0x00620012, hashlib.sha256(bytes([7, 0, 6, 0, 4, 0, 0])).hexdigest())),)

    def test_there_and_back(self) -> None:
        """The paper's own checksum of seven bytes; every change of one byte is noticed."""
        made = manifest.Manifest("steel 7", self.FILES)
        data = made.written()
        self.assertEqual(manifest.sums_of(io.BytesIO(bytes([7, 0, 6, 0, 4, 0, 0]))), self.FILES[0][1])
        self.assertEqual(manifest.parse(data), made)
        for at in range(len(data)):
            for bit in range(8):
                changed = bytearray(data)
                changed[at] ^= 1 << bit
                with self.assertRaises(manifest.Damaged):
                    manifest.parse(bytes(changed))
        for other in (b"", data[:-1], data + b"\n", data[1:], data * 2):
            with self.assertRaises(manifest.Damaged):
                manifest.parse(other)

    def test_adler(self) -> None:
        """Adler-32 notices every change of one byte: its sum A is another."""
        data = bytes(range(256)) * 3
        for at in (0, 1, 255, 767):
            for value in range(256):
                changed = data[:at] + bytes([value]) + data[at + 1:]
                self.assertEqual(zlib.adler32(changed) % 65536 == zlib.adler32(data) % 65536, changed == data)


class Repairs(Shelves):
    """Damaged files, and copies."""

    def test_repair(self) -> None:
        """A copy that agrees is named; with --write it is put in place; nothing else is changed."""
        self.shelved()
        folder, copy, worse = self.room / "f", self.room / "copy", self.room / "worse"
        for other in (copy, worse):
            subprocess.run(["cp", "-r", str(folder), str(other)], check=True)
        (worse / "listing").write_bytes(b"x")
        (copy / "points").write_bytes(b"x")
        (folder / "listing").write_bytes(b"y")
        (folder / "points").unlink()
        (folder / "extra").write_bytes(b"z")
        status, lines = self.check("f", "--repair", "worse", "copy")
        self.assertEqual(status, 1)
        self.assertEqual([line for line in lines if line.startswith("repair")],
                         [f"repair: {one} agrees with the manifest" for one in ("listing: copy/listing", "points: worse/points")])
        self.assertFalse((folder / "points").exists())
        status, lines = self.check("f", "--repair", "worse", "copy", "--write")
        self.assertEqual((status, lines[:2]), (1, ["repaired: listing, from copy", "repaired: points, from worse"]))
        self.assertIn("differs: extra: added: the manifest does not name it", lines)
        (folder / "extra").unlink()
        self.assertEqual(self.check("f")[0], 0)

    def test_manifest(self) -> None:
        """A damaged manifest is mended from a copy of this folder, not from another one."""
        folder, copy = self.shelved(), self.room / "copy"
        subprocess.run(["cp", "-r", str(folder), str(copy)], check=True)
        (self.room / "d.formula").write_text(FORMULA.replace("x + x", "x*x"))
        self.shelved("other", "--stores")
        data = (folder / "MANIFEST").read_bytes()
        (folder / "MANIFEST").write_bytes(data[:-3] + b"?" + data[-2:])
        good: Dict[str, bytes] = {name: (folder / name).read_bytes() for name in os.listdir(copy)}
        status, lines = self.check("f", "--repair", "copy")
        self.assertEqual((status, lines[-1]), (1, "repair: MANIFEST: copy/MANIFEST is whole and agrees with most files here"))
        for name in ("formula", "given.csv", "sheet", "listing", "constants", "points", "z.csv", "LEGEND", "CHECK.txt"):
            (folder / name).write_bytes(b"")
        status, lines = self.check("f", "--repair", "other", "--write")
        self.assertEqual(lines[0], "repair: MANIFEST: no copy has a whole one that agrees with most files here")
        for name, bytes_there in good.items():
            (folder / name).write_bytes(bytes_there)
        self.assertEqual(self.check("f", "--repair", "copy", "--write")[0], 0)

    def test_link_is_replaced(self) -> None:
        """A link in a file's place is replaced, and what it leads to is left alone."""
        folder, copy = self.shelved(), self.room / "copy"
        subprocess.run(["cp", "-r", str(folder), str(copy)], check=True)
        (self.room / "victim").write_text("kept")
        (folder / "sheet").unlink()
        (folder / "sheet").symlink_to(self.room / "victim")
        self.assertEqual(self.check("f", "--repair", "copy", "--write")[0], 0)
        self.assertEqual((self.room / "victim").read_text(), "kept")
        self.assertFalse((folder / "sheet").is_symlink())


class Points(unittest.TestCase):
    """The file of points."""

    def test_heads(self) -> None:
        """A head there and back; what is none is refused."""
        for head in (points.Head((), (), 0, False),
                     points.Head((points.Column(3, "a", "b=c d"),), (points.Answer(4, "e f"),), 7, True, "|", ",", True),
                     points.Head((), (points.Answer(1601, "x"),), 0, True, "\t", ".")):
            lines = head.written().splitlines()
            self.assertEqual(points.parse_head(lines), head)
        good = points.Head((points.Column(3, "a", "b"),), (points.Answer(4, "e"),)).written().splitlines()
        for at, line in ((0, "tulipcricket points 2"), (1, "start x"), (1, "start 00"), (1, "start -1"), (1, f"start {1 << 64}"),
                         (2, "table comma"), (2, "table comma point bytes"),
                         (3, "put 1602 a=b"), (3, "put 3 a"), (3, "put -1 a=b"), (4, "answer x e"), (4, "other 4 e")):
            with self.assertRaises(points.NoPoints, msg=line):
                points.parse_head([*good[:at], line, *good[at + 1:]])

    def test_lines(self) -> None:
        """A line that is not whole, or too long, ends the reading."""
        head = points.Head((points.Column(3, "a", "b"),), ()).written().encode()
        for text in (b"3ff0000000000000 = = 0 1 1 00000000", b"x" * (points.MOST_LINE + 5) + b"\n"):
            with self.assertRaises(points.NoPoints):
                list(points.Reader(io.BufferedReader(io.BytesIO(head + text))))  # type: ignore[arg-type]
        reader = points.Reader(io.BufferedReader(io.BytesIO(head)))  # type: ignore[arg-type]
        for text in (b"3ff000000000000 = = 0 1 1 00000000\n", b"zff0000000000000 = = 0 1 1 00000000\n"):
            with self.assertRaises(points.NoPoints):
                reader.put(text)


def page_line(index: int, text: str) -> str:
    """A line of a page, by document 02's columns, of a line as the program `listing` prints it."""
    name, _, operands = text.partition(" ")
    return f"{index:>5} {name:<16} {operands:<49}\n"


def page_of(constants: List[int], records: List[str]) -> str:
    """Constants and records on pages."""
    lines = [page_line(i, f"Constant {word:016x}") for i, word in enumerate(constants)]
    lines += [page_line(i, text) for i, text in enumerate(records)]
    return "".join(lines) + (" " * 72 + "\n") * (-len(lines) % 60)


class Pages(Shelves):
    """Printed pages, read back."""

    # docs/SHELF.md, 8: its three listings, typed as text
    LISTINGS = (
        ("07 00 06 00 40 00 00 09 00 0b 00 06 07 01 03 00 05 00 10 00 01 05 00 10 00 01 05 00 0f 00 02 05 00 0e 00 01 0b 00"
         " 0d 00 02 06 07 06 07 06 07 08 00 02 00 0d 40 40 06 05 00 0f 00 00 07 00 01 00 00 40 40 05 00 0e 00 02 09 00 07 00"
         " 00 41 40 06 07 0a 00 08 00 09 06 07 00 ff 00 09 00 0c 00 09 41 01 ff 00 09 00 0b 00 08 08 01 ff 00 08 00 05 00 40"
         " 00 02 00",
         ["LoadConst Ret 0", "LoadComplex G6 G7 Mem 3", "Call 1", "Call 1", "Branch 2", "Label 1", "TimesComplex G6 G7 G6 G7 G6 G7",
          "Xor Ret Ret G6", "Branch 0", "Neg Ret Ret", "Label 2", "MulAdd Temp Ret G6 G7", "IfElse G9 G6 G7 Stack 255",
          "SaveComplex G9 Temp Mem 255", "LoadComplex G8 G8 Mem 255", "Save Ret Stack 2"]),
        ("07 00 11 00 04 03 00 08 00 02 00 00 06 06 06 05 00 0e 00 03 07 00 11 00 05 ff 01 05 00 10 00 01 05 00 0f 00 ff 05"
         " 00 0e 00 01 08 00 02 00 00 07 07 06 05 00 0f 00 00 05 00 0e 00 ff",
         ["BranchIf G4 3 0", "Plus G6 G6 G6", "Label 3", "BranchIf G5 255 1", "Call 1", "Branch 255", "Label 1", "Plus G7 G7 G6",
          "Branch 0", "Label 255"]),
        ("07 00 01 00 00 0a 14 08 00 02 00 00 0b 15 16 0b 00 0d 00 00 0c 0d 17 18 19 1a 06 00 03 00 0e 1b 08 00 04 00 0f 02"
         " c8 00 08 00 05 00 1c 01 ff 00 09 00 07 00 00 10 1d 1e 1f",
         ["Neg G10 G20", "Plus G11 G21 G22", "PlusComplex G12 G13 G23 G24 G25 G26", "Mov G14 G27", "Load G15 Param 200", "Save G28 Mem 255",
          "MulAdd G16 G29 G30 G31"]))

    def test_read_back(self) -> None:
        """The listings of docs/SHELF.md, 8; and many records, over two pages."""
        for data, records in self.LISTINGS:
            found = paper.read_back(page_of([1 << 62], records).encode())
            self.assertEqual(found, (bytes.fromhex(data), (1 << 62).to_bytes(8, "little")))
        self.assertEqual(paper.read_back(page_of([], ["Half G0 Temp"] * 61).encode())[0], bytes.fromhex("07000100 0d0041") * 61)
        self.assertEqual(paper.read_back(b""), (b"", b""))

    def test_no_pages(self) -> None:
        """A line that is none, out of its order, cut or between blank ones."""
        good = page_of([7], ["Mov G0 G1", "Load G2 Mem 3"])
        lines = good.splitlines(True)
        for bad in (good[:-1], good + "\n", good.replace("Mov ", "Mow "), good.replace("G1", "G64"), good.replace("G1", "G01"),
                    good.replace("Mem 3", "Mem  "), good.replace("    1 Load", "    2 Load"), "".join([lines[1], lines[0], *lines[2:]]),
                    "".join([lines[-1], *lines[:-1]]), good.replace("0007", "000g"), good.replace("Mov ", "Mov\t")):
            with self.assertRaises(paper.NoPages, msg=bad[:300]):
                paper.read_back(bad.encode())

    def test_in_a_folder(self) -> None:
        """A folder has the pages, and check makes them again and reads them back."""
        (self.room / "one.formula").write_text("given x\ny = -x\nshow y\n")
        (self.room / "one.csv").write_text("x\n1\n")
        self.assertEqual(self.called("shelve", "one.formula", "one.csv", "with"), (0, "", ""))
        folder = self.room / "with"
        self.assertIn("    1 Neg              G", (folder / "pages.txt").read_text())
        status, lines = self.check("with")
        self.assertEqual(status, 0)
        self.assertIn("pages.txt: read back it gives listing and constants", lines)
        self.assertIn("pages.txt: listing and constants give it again", lines)
        (folder / "pages.txt").write_text((folder / "pages.txt").read_text().replace("Neg", "Not"))
        self.assertIn("differs: pages.txt: read back it gives another listing, or other constants", self.check("with")[1])


class Words(unittest.TestCase):
    """What the library says of itself."""

    def test_words(self) -> None:
        """The library's words are the package's, and its version the package's."""
        self.assertEqual({number: library.word(number) for number in WORDS}, WORDS)
        self.assertEqual((library.word(15), library.word(2**32 - 1)), ("unknown number", "unknown number"))
        self.assertEqual(library.version(), kept.provenance.release())

    def test_places(self) -> None:
        """Names of words."""
        self.assertEqual([texts.name_of(word) for word in (0, 63, 64, 65, 66, 67, 578, 1601)],
                         ["G0", "G63", "Ret", "Temp", "Stack 0 re", "Stack 0 im", "Mem 0 re", "Param 255 im"])
        self.assertEqual([shelve.word_of_name(texts.name_of(word)) for word in range(1602)], list(range(1602)))
