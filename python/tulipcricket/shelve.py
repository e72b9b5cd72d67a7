"""The command `shelve`: a formula, a sheet or a listing, with its points, as one folder for the shelf, made whole or not at all."""

from __future__ import annotations

import contextlib
import csv
import io
import os
import shutil
import struct
import tempfile
from argparse import Namespace
from dataclasses import dataclass, field
from pathlib import Path
from typing import BinaryIO, Callable, Dict, Iterator, List, Optional, Sequence, Tuple

from . import kept, library, manifest, texts
from . import table as tables
from .errors import Refused, TableError
from .files import Unusable
from .folder import Folder
from .formula import Formula
from .points import Answer, Column, Head, Proved, line_of
from .sheet import indices
from .texts import Named, name_of
from .words import is_nan, read, written

Row = Tuple[List[str], Tuple[int, ...]]
"""A line of the table: its cells as they stand, and their words."""

MOST_MARKS = 40
_PARAM, _MEM = 66 + 1024, 66 + 512


class NotMade(Unusable):
    """A folder that could not be made, or exists."""


@dataclass
class Scan:
    """What goes into a folder."""

    head: Head
    files: Dict[str, bytes]
    listing: bytes
    constants: bytes
    before: bytes
    rows: Callable[[], Iterator[Row]]
    formula: Optional[Formula] = None
    named: List[Named] = field(default_factory=list)
    marks: Dict[int, int] = field(default_factory=dict)
    count: int = 0


# what is shelved


def halves(name: str, is_real: bool) -> List[str]:
    """The columns of a name: one of a real number, two of a complex one."""
    return [name] if is_real else [f"{name}_re", f"{name}_im"]


def cell_word(text: str, head: Head) -> int:
    """The word of a cell. Raises ValueError."""
    if not head.as_words:
        return read(text, head.decimal)
    text = text.strip()
    if len(text) != 16 or not all(sign in "0123456789abcdef" for sign in text):
        raise ValueError(f"{text} is no word of 16 hexadecimal digits")
    return int(text, 16)


def rows_of(table: Optional[tables.Table], head: Head) -> Iterator[Row]:
    """The lines of the table; one without cells where there is none."""
    if table is None:
        yield [], ()
        return
    at = [table.column(one.name) for one in head.put]
    for line, row in table.rows:
        cells = [row[i].strip() for i in at]
        words = []
        for one, cell in zip(head.put, cells):
            try:
                words.append(cell_word(cell, head))
            except ValueError as wrong:
                raise TableError(f"{table.name}:{line}: column {one.name}", str(wrong)) from None
        yield cells, tuple(words)


def head_of(words: Namespace, table: Optional[tables.Table], put: Sequence[Column], answer: Sequence[Answer]) -> Head:
    """The head of the points."""
    if table is None:
        return Head(tuple(put), tuple(answer), words.start, False)
    return Head(tuple(put), tuple(answer), words.start, True, table.separator, table.decimal, words.words)


def formula_head(formula: Formula) -> Tuple[List[Tuple[int, str]], List[Answer]]:
    """The words that a formula is given, with their columns' names, and those that it shows."""
    put = []
    for one in formula.program.givens:
        first = _PARAM + 2 * formula.compiled.params[one.name]
        put += [(first + i, half) for i, half in enumerate(halves(one.name, not one.is_complex))]
    answer = []
    for name in formula.shows:
        first = _MEM + 2 * formula.compiled.mems[name]
        answer += [Answer(first + i, half) for i, half in enumerate(halves(name, formula.is_real(name)))]
    return put, answer


def formula_scan(words: Namespace, data: bytes, name: str, table: Optional[tables.Table], given: bytes, headers: Dict[str, str]) -> Scan:
    """A formula and its table."""
    formula = Formula.read(data, name)
    if table is None and formula.givens:
        raise TableError(name, f"no table is said, and the formula is given {', '.join(formula.givens)}")
    put, answer = formula_head(formula)
    head = head_of(words, table, [Column(word, half, headers.get(half, half)) for word, half in put], answer)
    files = {"formula": data, **({"given.csv": given} if table is not None else {}), "sheet": formula.sheet.data}
    listing = formula.listing
    lines = formula.text.split("\n")
    stands = [(one.name, one.at.line) for one in formula.program.givens] + [(one.name, one.at.line) for one in formula.program.lets]
    notes = {one: lines[line - 1].strip() for one, line in stands}
    named = [Named(_PARAM + 2 * formula.compiled.params[one.name] + i, half, one.name, notes[one.name] if i == 0 else "")
             for one in formula.program.givens for i, half in enumerate(["re", "im"] if one.is_complex else ["real"])]
    named += [Named(_MEM + 2 * at + i, half, one, notes.get(one, "") if i == 0 else "")
              for one, at in formula.compiled.mems.items() for i, half in enumerate(["real"] if formula.is_real(one) else ["re", "im"])]
    return Scan(head, files, listing.data, listing.constants, bytes(library.STORE), lambda: rows_of(table, head), formula, named)


def word_of_name(name: str) -> int:
    """The index of a word by its own name: Param 0 re, Mem 3 im, G5. Raises TableError."""
    place, _, half = name.rpartition(" ")
    try:
        return indices(place)[1 if half == "im" else 0] if half in ("re", "im") else indices(name)[0]
    except (KeyError, IndexError):
        raise TableError(name, "no word of a store (Param 0 re, Mem 3 im, G5)") from None


def saved(listing: bytes, constants: bytes) -> List[int]:
    """The words of Mem that a listing saves to, which are its answer where none is named. Raises Refused."""
    player = kept.second_player()
    if player is None:
        raise NotMade("player.py is not here; name the words of the answer by --answer")
    answer = player.play(listing, [0] * (len(constants) // 8), [0] * (library.STORE // 8), 0)
    if answer[0] != 0:
        raise Refused(answer[0], answer[1])
    found = set()
    for record in player.examine_records(listing, len(constants) // 8):
        if record["kind"] in ("Save", "SaveComplex") and record["place"][0] == 1:
            first = player.real_index(record["place"])
            found |= {first, first + 1} if record["kind"] == "SaveComplex" else {first}
    return sorted(found)


def words_scan(words: Namespace, files: Dict[str, bytes], listing: bytes, constants: bytes, before: bytes,
               table: Optional[tables.Table], headers: Dict[str, str]) -> Scan:
    """A sheet or a listing, and a table whose columns are words of the store."""
    put = [Column(word_of_name(name), name, headers.get(name, name)) for name in (table.names if table is not None else [])]
    asked = [index for name in words.answer for index in (indices_of(name))]
    answer = [Answer(index, name_of(index)) for index in (asked or saved(listing, constants))]
    head = head_of(words, table, put, answer)
    named = [Named(index, "word", name_of(index)) for index in [one.word for one in put] + [one.word for one in answer]]
    return Scan(head, files, listing, constants, before, lambda: rows_of(table, head), None, named)


def indices_of(name: str) -> Tuple[int, ...]:
    """The words of a place, or one word of it."""
    if name.endswith((" re", " im")):
        return (word_of_name(name),)
    try:
        return indices(name)
    except KeyError:
        raise TableError(name, "no register and no place (Mem 0, Mem 0 im, G5)") from None


# the folder


@contextlib.contextmanager
def made_beside(target: Path) -> Iterator[Path]:
    """A folder beside the one to be made, renamed to it at the end; where anything fails, neither is left."""
    beside = Path(tempfile.mkdtemp(prefix=f".{target.name[:200]}.", suffix=".part", dir=target.parent))
    try:
        mask = os.umask(0)
        os.umask(mask)
        os.chmod(beside, 0o777 & ~mask)
        yield beside
        synced(beside)
        if os.path.lexists(target):
            raise NotMade(f"{target}: File exists")
        os.rename(beside, target)
    except BaseException:
        shutil.rmtree(beside, ignore_errors=True)
        raise
    synced(target.parent)


def synced(folder: Path) -> None:
    """What stands in a folder is on the disk, by name."""
    handle = os.open(folder, os.O_RDONLY | os.O_DIRECTORY)
    try:
        os.fsync(handle)
    finally:
        os.close(handle)


@contextlib.contextmanager
def new_file(path: Path) -> Iterator[BinaryIO]:
    """A new file, on the disk at the end."""
    with open(path, "xb") as file:
        yield file
        file.flush()
        os.fsync(file.fileno())


def csv_line(cells: Sequence[str], separator: str) -> bytes:
    """A line of a table."""
    out = io.StringIO()
    csv.writer(out, delimiter=separator, lineterminator="\n").writerow(cells)
    return out.getvalue().encode()


def note_marks(scan: Scan, put: Sequence[int]) -> None:
    """Remembers the marks of lost readings, for the legend."""
    for word in put:
        if is_nan(word) and len(scan.marks) < MOST_MARKS:
            scan.marks.setdefault(word, scan.count)


def validate(scan: Scan, put: Sequence[int], store: bytes) -> None:
    """Compares every name's words with exact evaluation of the formula. Raises ValidationError."""
    formula = scan.formula
    if formula is None:
        return
    given, rest = {}, list(put)
    for one in formula.program.givens:
        count = 2 if one.is_complex else 1
        given[one.name], rest = tuple(rest[:count]), rest[count:]
    formula.validate(given, struct.unpack_from(f"<{2 * len(formula.compiled.mems)}Q", store, 8 * _MEM))


def write_plays(scan: Scan, folder: Path, stores: bool, progress: Callable[[int], None]) -> None:
    """Plays every point: points, z.csv, and after where the stores are kept."""
    head, player = scan.head, Proved(scan.head, scan.listing, scan.constants, scan.before)
    with contextlib.ExitStack() as open_files:
        points = open_files.enter_context(new_file(folder / "points"))
        answers = open_files.enter_context(new_file(folder / "z.csv"))
        after = open_files.enter_context(new_file(folder / "after")) if stores else None
        points.write(head.written().encode())
        answers.write(csv_line(head.names, head.separator))
        for cells, put in scan.rows():
            played = player.play(put)
            if played.number != 0:
                raise Refused(played.number, played.where)
            validate(scan, put, player.store.raw)
            points.write(f"{line_of(put, played)}\n".encode())
            answers.write(csv_line([*cells, *(written(word, head.decimal) for word in played.words)], head.separator))
            if after is not None:
                after.write(player.store.raw)
            scan.count += 1
            note_marks(scan, put)
            progress(scan.count)


def made_texts(scan: Scan) -> Tuple[Dict[str, bytes], List[Tuple[str, str]]]:
    """What is made of sheet and listing for people, and what is not here, with the reason."""
    made: Dict[str, bytes] = {"pages.txt": kept.pages(scan.listing, scan.constants)}
    not_here: List[Tuple[str, str]] = []
    sheet = scan.files.get("sheet")
    if sheet is not None:
        made["origins"] = kept.origins(sheet)
        text = kept.sheet_text(sheet)
        if text is not None:
            made["sheet.txt"] = text
        else:
            not_here.append(("sheet.txt", "the program sheet_text was not at hand"))
    return made, not_here


def put_files(scan: Scan, folder: Path, name: str, stores: bool, progress: Callable[[int], None]) -> None:
    """All files of the folder, the manifest last."""
    files = {**scan.files, "listing": scan.listing, "constants": scan.constants, "before": scan.before}
    made, not_here = made_texts(scan)
    files.update(made)
    for one in kept.PLACES:
        path = kept.path_of(one)
        if path is None:
            raise NotMade(f"{one} of this program is not here, and a folder needs it")
        files[one] = path.read_bytes()
    files["VERSION"] = kept.version()
    write_plays(scan, folder, stores, progress)
    there = {*files, "points", "z.csv", "LEGEND", "CHECK.txt", *(["after"] if stores else [])}
    files["LEGEND"] = legend(scan, name, files["VERSION"].decode()).encode()
    files["CHECK.txt"] = texts.check(name, sorted(there), not_here).encode()
    for one, data in files.items():
        with new_file(folder / one) as file:
            file.write(data)
    with Folder(str(folder)) as opened:
        data = manifest.made(opened, name, [one for one, _ in texts.FILES if one in there]).written()
    with new_file(folder / manifest.FILE) as file:
        file.write(data)


def legend(scan: Scan, name: str, version: str) -> str:
    """The file LEGEND."""
    put, answer = [one.word for one in scan.head.put], [one.word for one in scan.head.answer]
    by_word = {one.word: one for one in scan.named}
    others = [one for one in scan.named if one.word not in {*put, *answer}]
    sheet = scan.files.get("sheet")
    return texts.legend(name, version, scan.head.start, [by_word[word] for word in put], [by_word[word] for word in answer],
                        others, scan.marks, scan.count, kept.drawn_on(sheet) if sheet is not None else None)


def target_of(folder: str) -> Path:
    """The folder to be made; refused where it exists, or has a name that no manifest can carry."""
    target = Path(os.path.abspath(folder.rstrip("/") or "/"))
    if os.path.lexists(target):
        raise NotMade(f"{target}: File exists")
    if not target.parent.is_dir():
        raise NotMade(f"{target}: No such file or directory")
    if not manifest.folder_name_fits(target.name) or target.name.startswith("."):
        raise NotMade(f"{target.name!a}: no name for a folder on the shelf (printed signs, no point first)")
    return target


def shelve(scan: Scan, target: Path, stores: bool, progress: Callable[[int], None], checked: Callable[[str], List[str]]) -> None:
    """Makes the folder; it gets its name only where `checked`, which makes it all again, tells no difference."""
    try:
        with made_beside(target) as beside:
            put_files(scan, beside, target.name, stores, progress)
            differing = checked(str(beside))
            if differing:
                raise NotMade(f"{target}: checked, it differs, and no folder was made: {differing[0]}")
    except OSError as wrong:
        raise NotMade(f"{target}: {wrong.strerror}; no folder was made") from None
