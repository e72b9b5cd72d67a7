"""The texts that a shelf folder has for people: LEGEND, which word is what, and CHECK.txt, what to do in thirty years."""

from __future__ import annotations

import textwrap
from typing import Iterable, List, Mapping, NamedTuple, Optional, Sequence, Tuple

from .words import MARK, hexadecimal

WIDTH = 72
_CLASSES = ("Stack", "Mem", "Param")
NOT_TOLD = "Which registers the listing draws on before it fills them is not told"
"""In a LEGEND of a listing without its sheet, and in each that was made before lowering told it."""


class Named(NamedTuple):
    """A word that has a name: its index, `re`, `im` or `real`, the name, and what the formula says beside it."""

    word: int
    half: str
    name: str
    note: str = ""


def place_of(word: int) -> str:
    """The register or the place of a word of the store."""
    if word < 66:
        return f"G{word}" if word < 64 else ("Ret", "Temp")[word - 64]
    return f"{_CLASSES[(word - 66) // 512]} {(word - 66) % 512 // 2}"


def name_of(word: int) -> str:
    """The word's own name, as the commands print it."""
    return place_of(word) if word < 66 else f"{place_of(word)} {('re', 'im')[word % 2]}"


def names_of(registers: Sequence[int]) -> str:
    """The names of registers, or nothing."""
    return ", ".join(map(place_of, registers)) or "nothing"


def _rows(words: Iterable[Named]) -> List[str]:
    """The legend's rows, with blanks for unit and calibration."""
    rows: List[str] = []
    note = ""
    for one in words:
        rows.append(f"  {one.word:>4}  {place_of(one.word):<9}  {one.half:<4}  {one.name:<16}  __________  {'_' * 16}".rstrip())
        if one.note not in ("", note):
            note = one.note
            rows.append(f"        {note}"[:WIDTH].rstrip())
    return rows


def _marks(marks: Mapping[int, int]) -> List[str]:
    """The marks of lost readings among the words put in, with the first line of the points that has each."""
    if not marks:
        return ["Marks of lost readings: none among the readings."]
    rows = [f"  {hexadecimal(word)}  lost {word & MARK}, first at point {first}, cause: {'_' * 14}" for word, first in marks.items()]
    return ["Marks of lost readings (SHELF, 1), and the cause that each names:", *rows]


def outside(registers: Optional[Sequence[int]]) -> List[str]:
    """What the listing draws on from outside; None of a listing without its sheet."""
    if registers is None:
        words = f"{NOT_TOLD} of a listing without its sheet: keep the registers of the file before."
    elif not registers:
        words = "The listing draws on no register before it fills it: what stood in the registers of the file before does not matter."
    else:
        words = f"The listing draws on these registers before it fills them, so keep their words of the file before: {names_of(registers)}."
    return textwrap.wrap(words, WIDTH)


def legend(folder: str, version: str, start: int, put: Sequence[Named], answer: Sequence[Named], others: Sequence[Named],
           marks: Mapping[int, int], count: int, registers: Optional[Sequence[int]]) -> str:
    """The file LEGEND."""
    head = "  word  place      half  name              unit        calibration"
    lines = [f"LEGEND of {folder}", "Blanks are for ink, on a printed page: a changed file is a damaged one.", "",
             f"Sample: {'_' * 30}   Scan: {'_' * 22}", f"Date and time: {'_' * 23}   Hand: {'_' * 22}",
             *version.splitlines()[:3], f"Start: {start}   Points: {count}", "", "Words put in, of each point:", head, *_rows(put), "",
             "Words of the answer:", head, *_rows(answer), ""]
    if others:
        lines += ["Other names, as each play leaves them:", head, *_rows(others), ""]
    lines += [*_marks(marks), "", *outside(registers)]
    return "".join(f"{line}\n" for line in lines)


FILES = (
    ("formula", "the formula as text"),
    ("given.csv", "the readings, as they came"),
    ("sheet", "the formula as a sheet (SHEET.txt)"),
    ("sheet.txt", "the sheet as text"),
    ("listing", "the sheet lowered: single steps (SHELF.txt, 3)"),
    ("constants", "the listing's words"),
    ("origins", "the instruction that added each constant (SHEET.txt, 3)"),
    ("pages.txt", "listing and constants as printed pages"),
    ("before", "the store before each play (SHELF.txt, 2)"),
    ("points", "for each play: words put in = the answer's words"),
    ("z.csv", "the answers as decimals"),
    ("after", "the stores after, 12816 bytes each, in the points' order"),
    ("LEGEND", "which word is what; a form to print and fill in"),
    ("VERSION", "which program made this"),
    ("SHELF.txt", "the paper on listings, the player and every operation"),
    ("SHEET.txt", "the paper on sheets"),
    ("player.py", "the player of SHELF.txt, in Python 3"),
    ("CHECK.txt", "this page"),
)
"""The files of a folder, in the manifest's order."""


def check(folder: str, files: Sequence[str], why_not: Sequence[Tuple[str, str]]) -> str:
    """The file CHECK.txt: one page."""
    rows = [f"  {name:<10} {what}" for name, what in FILES if name in files]
    absent = [f"Not here: {name} ({why})." for name, why in why_not]
    lines = f"""CHECK of {folder}: what to do with this folder in thirty years

It has a formula's steps, the readings, and the answers of that day,
each bit of which can be worked out again without the program that made
it. To see that nothing changed, and that the answers come out again:

1. With Python 3 and no more, in this folder:
       python3 -I player.py
   It compares every file with MANIFEST, reads the readings and plays
   every point again, with whole numbers only. It writes nothing. Its
   last line says "as it was shelved", or how many things differ; lines
   above begin with "differs:". First look at player.py: its SHA-256
   must be the one that MANIFEST has, and MANIFEST's last line the one
   on the card in the archive.
2. With Tulipcricket installed:
       tulipcricket check FOLDER
   does the same by its own player and by the proved one, and makes
   sheet and listing again. With copies of the folder at hand,
       tulipcricket check FOLDER --repair COPY ..
   names for each damaged file a copy that agrees with the manifest.
3. With neither: SHELF.txt says how a listing is played, by pencil or by
   any machine that you build; its section 8 tries a new player.

MANIFEST has for each file its length in bytes, its Adler-32 (SHELF.txt,
page 1), its SHA-256 and its name; in its last line its own, of the
lines above. On a line of points stand the words put in, "=", the words
of the answer, "=", then number, index, records played, and the checksum
of the store after, each word in 16 hexadecimal digits. Its first lines
say which word of the store each is: to play a point, put its words into
a copy of the file before, and play listing with constants from start.

The files:
""".split("\n")[:-1]
    return "".join(f"{line}\n" for line in [*lines, *rows, *absent])
