"""Every function of c/tulipcricket.h, against the answers of the C example, of docs/SHEET.md and of the header's own words."""

import re
import unittest
from pathlib import Path

from tulipcricket import Listing, Refused, Sheet, Store, double_of, library, lost, nearest, peak, word_of

ROOT = Path(__file__).resolve().parent.parent.parent
HEADER = ROOT / "c" / "tulipcricket.h"

# docs/SHEET.md, 4, and c/example.c: Mem 4 becomes twice Mem 3.
SHEET = bytes.fromhex("4500200000" + "00" * 64 + "0c0021000000000000000040" "07000600000000" "0800040001010300" "0800020002000001"
                      "0800050000010400")
LISTING = bytes.fromhex("07000600040000" "09000b000607010300" "0800020002050407" "0800020002040406" "09000c000405010400")


class Header(unittest.TestCase):
    """The package has what the header has."""

    @unittest.skipUnless(HEADER.exists(), "not in the repository")
    def test_all_functions(self) -> None:
        """Header, version script and package name the same functions."""
        functions = set(re.findall(r"^(?:uint32_t |const char \*)(tulipcricket_\w+)\(", HEADER.read_text(), re.M))
        script = set(re.findall(r"^\s+(tulipcricket_\w+);", (ROOT / "c" / "tulipcricket.map").read_text(), re.M))
        bound = {"tulipcricket_" + name for name in [*library._ARGUMENTS, *library._TEXTS]}
        self.assertEqual(functions, script)
        self.assertEqual(functions, bound)
        self.assertGreaterEqual(len(functions), 5)

    @unittest.skipUnless(HEADER.exists(), "not in the repository")
    def test_sizes(self) -> None:
        """Every size of the header has its value here."""
        sizes = re.findall(r"TULIPCRICKET_(\w+) = (\d+)", HEADER.read_text())
        self.assertGreaterEqual(len(sizes), 9)
        for name, value in sizes:
            self.assertEqual(getattr(library, name), int(value), name)


class Functions(unittest.TestCase):
    """Each function, accepted and refused."""

    def test_example(self) -> None:
        """The C example: Mem 4 = 6 + 8i after 5 records."""
        listing = Sheet(SHEET).lower()
        self.assertEqual(listing.data, LISTING)
        self.assertEqual(listing.constants, bytes.fromhex("0000000000000040"))
        before = Store({"Mem 3": 3 + 4j})
        after = listing.play(before)
        self.assertEqual((after["Mem 4"], after.played), (6 + 8j, 5))
        self.assertEqual(after.bits("Mem 4"), ("4018000000000000", "4020000000000000"))
        self.assertEqual(before["Mem 4"], 0)
        self.assertEqual(listing.play(before, 5).data, before.data)

    def test_lower_answer(self) -> None:
        """Registers 0 is complex after Save; 1 was loaded from a complex place; the others start complex."""
        answer = library.lower(SHEET)
        self.assertEqual((answer.number, answer.index), (0, 4))
        self.assertEqual(answer.real_registers, (False,) * 32)
        self.assertEqual(answer.real_places, bytes(64))
        self.assertEqual((answer.filled, answer.drawn), ((4, 5, 6, 7), ()))
        answer = library.lower(SHEET[:88])
        self.assertEqual((answer.number, answer.index, answer.real_registers[0], answer.listing), (0, 1, True, LISTING[:7]))

    def test_origins(self) -> None:
        """The sheet's own constant; and of a stable Abs the two that it appends, where infinity stands already."""
        self.assertEqual((library.lower(SHEET).origins, Sheet(SHEET).origins()), (b"\xff\xff", (None,)))
        head = bytes([69, 0, 32, 0, 1]) + bytes(64) + bytes.fromhex("0c002100000000000000f07f")
        sheet = head + bytes.fromhex("04000000" "07000100020100" "07000100020200")
        self.assertEqual(library.lower(sheet).constants.hex(), "000000000000f07f" "0000000000002000" "000000000000e07f")
        self.assertEqual(Sheet(sheet).origins(), (None, 1, 1))
        refused = library.lower(head + bytes.fromhex("04000000" "07000100020100" "00"))
        self.assertEqual((refused.number, refused.index, refused.origins.hex()), (1, 2, "ffff" "0100" "0100"))
        self.assertEqual(library.lower(b"").origins, b"")

    def test_drawn_on(self) -> None:
        """Save 0, Mem 4 alone draws on G4 and G5, and so does what stands before a refusal; Save 30 on Ret and Temp; 8 draws on nothing."""
        head, save = SHEET[:69], SHEET[-8:]
        self.assertEqual(Sheet(SHEET).drawn_on(), ())
        self.assertEqual(Sheet(head + save).drawn_on(), ("G4", "G5"))
        self.assertEqual(Sheet(head + save[:4] + b"\x1e" + save[5:]).drawn_on(), ("Ret", "Temp"))
        refused = library.lower(head + save + b"\0")
        self.assertEqual((refused.number, refused.drawn, refused.filled), (1, (4, 5), ()))
        self.assertEqual(library.lower(b"").drawn, ())
        with self.assertRaises(Refused) as caught:
            Sheet(head + save + b"\0").drawn_on()
        self.assertEqual((caught.exception.number, caught.exception.index), (1, 1))

    def test_lower_refused(self) -> None:
        """8 of no sheet, 2 of an unknown kind at its index and line, 7 of no room."""
        with self.assertRaises(Refused) as caught:
            Sheet(b"").lower()
        self.assertEqual((caught.exception.number, caught.exception.word, caught.exception.index), (8, "wrong setup", 0))
        with self.assertRaises(Refused) as caught:
            Sheet(SHEET + bytes.fromhex("0400ff00"), [1, 2, 3, 4, 9]).lower()
        self.assertEqual((caught.exception.number, caught.exception.index, caught.exception.line), (2, 4, 9))
        with self.assertRaises(Refused) as caught:
            Sheet(SHEET).lower(room=40)
        self.assertEqual((caught.exception.number, caught.exception.index), (7, 3))

    def test_play_refused(self) -> None:
        """9 of a start past the end, with the store as it was."""
        with self.assertRaises(Refused) as caught:
            Listing(LISTING, bytes(8)).play(Store(), 6)
        self.assertEqual((caught.exception.number, caught.exception.index, caught.exception.line), (9, 6, None))
        with self.assertRaises(Refused) as caught:
            Listing(LISTING, b"").play(Store())
        self.assertEqual((caught.exception.number, caught.exception.index), (5, 0))

    def test_look(self) -> None:
        """Each record of the C example, the end, and 9 past it."""
        listing, store = Listing(LISTING, bytes.fromhex("0000000000000040")), Store({"Mem 3": 3 + 4j, "G4": 2.0, "G6": 3.0})
        before = store.data
        self.assertEqual(listing.look(store, 0), (5, 1, ((4, word_of(2.0)),)))
        self.assertEqual(listing.look(store, 1), (5, 2, ((6, word_of(3.0)), (7, word_of(4.0)))))
        self.assertEqual(listing.look(store, 3), (5, 4, ((4, word_of(6.0)),)))
        self.assertEqual(listing.look(store, 4), (5, 5, ((586, word_of(2.0)), (587, 0))))
        self.assertEqual(listing.look(store, 5), (5, 5, ()))
        with self.assertRaises(Refused) as caught:
            listing.look(store, 6)
        self.assertEqual((caught.exception.number, caught.exception.index), (9, 6))
        self.assertEqual(store.data, before)

    def test_pages(self) -> None:
        """One page of the C example; no page of nothing; the most that a listing can have; refused as playing is."""
        page = Sheet(SHEET).lower().pages()
        lines = page.split("\n")
        self.assertEqual((len(page), len(lines), lines[60]), (library.PAGE, 61, ""))
        self.assertEqual([line.rstrip() for line in lines[:6]], [
            "    0 Constant         4000000000000000", "    0 LoadConst        G4 0", "    1 LoadComplex      G6 G7 Mem 3",
            "    2 Times            G5 G4 G7", "    3 Times            G4 G4 G6", "    4 SaveComplex      G4 G5 Mem 4"])
        self.assertTrue(all(len(line) == 72 for line in lines[:60]))
        self.assertTrue(all(line == 72 * " " for line in lines[6:60]))
        self.assertEqual(Listing(b"", b"").pages(), "")
        longest = Listing(13107 * bytes.fromhex("05000f0000"), bytes(2048)).pages()
        self.assertEqual((len(longest), longest[13362 * 73:][:24]), (library.PAGES_LIMIT, "13106 Branch           0"))
        with self.assertRaises(Refused) as caught:
            Listing(LISTING, b"").pages()
        self.assertEqual((caught.exception.number, caught.exception.index), (5, 0))

    def test_shelf(self) -> None:
        """What lowering and playing report."""
        self.assertEqual(Sheet(SHEET).shelf(), (4, 41, 1, 5))
        with self.assertRaises(Refused) as caught:
            Sheet(SHEET + b"\0", [1, 2, 3, 4, 7]).shelf()
        self.assertEqual((caught.exception.number, caught.exception.index, caught.exception.line), (1, 4, 7))

    def test_peak(self) -> None:
        """Windows that end at each position; the earliest of equal words; a NaN is passed over."""
        run = [word_of(x) for x in (1.0, 3.0, 2.0, 0.0, -1.0)] + [lost(3), word_of(-0.0), word_of(0.0)]
        answers = [word_of(x) for x in (1.0, 3.0, 3.0, 2.0, 0.0, -1.0, -0.0, -0.0)]
        self.assertEqual(peak(run, 2), answers)
        self.assertEqual(peak([lost(3)], 1), [0x7FF8 << 48])
        self.assertEqual(peak([], 1), [])
        for window in (0, 65):
            with self.assertRaises(Refused) as caught:
                peak(run, window)
            self.assertEqual(caught.exception.number, 12)

    def test_nearest(self) -> None:
        """The latest of equal distances; none where all are lost; 13 of too many."""
        points = [(word_of(x), word_of(y)) for x, y in ((5.0, 0.0), (1.5, 0.0), (0.5, 0.0))]
        self.assertEqual(nearest(word_of(1.0), 0, points), 2)
        self.assertIsNone(nearest(lost(1), 0, points))
        self.assertIsNone(nearest(0, 0, []))
        with self.assertRaises(Refused) as caught:
            nearest(0, 0, points * 171)
        self.assertEqual(caught.exception.number, 13)


class Stores(unittest.TestCase):
    """Names of words."""

    def test_places(self) -> None:
        """docs/SHELF.md, 2."""
        store = Store({"G0": 1.0, "Ret": 2.0, "Temp": 3.0, "Stack 0": 4, "Mem 1": 5 + 6j, "Param 255": 7j})
        words = [0, 64, 65, 66, 66 + 512 + 2, 66 + 512 + 3, 66 + 1024 + 511]
        self.assertEqual([double_of(int.from_bytes(store.data[8 * i: 8 * i + 8], "little")) for i in words], [1, 2, 3, 4, 5, 6, 7])
        self.assertEqual(sum(byte != 0 for byte in store.data), sum(byte != 0 for i in words for byte in store.data[8 * i: 8 * i + 8]))
        self.assertEqual((store["G0"], store["Mem 1"]), (1.0, 5 + 6j))
        self.assertEqual(len(list(store)), len(store))

    def test_names_refused(self) -> None:
        """No such word."""
        for name in ("Mem 256", "G64", "Mem", "mem 0", "Mem 0 re", ""):
            with self.assertRaises(KeyError):
                Store()[name]
        with self.assertRaises(TypeError):
            Store({"G0": 1j})

    def test_marks(self) -> None:
        """A lost reading keeps its mark through a store and through a play."""
        before = Store()
        before.set_words("Mem 3", lost(3), lost(5))
        after = Sheet(SHEET).lower().play(before)
        self.assertEqual(after.words("Mem 4"), (lost(3), lost(5)))


if __name__ == "__main__":
    unittest.main()
