"""The command `check`: a shelf folder compared with its manifest, everything in it made again and compared, and mended from copies.

Nothing outside the folder is read but the program's own files and the copies that are named, no link is followed, and nothing that stands
in the folder is run. Points are read line by line.
"""

from __future__ import annotations

import contextlib
import csv
import io
from typing import Any, BinaryIO, Callable, Iterator, List, Optional, Sequence, Tuple

from . import kept, library, manifest, paper
from .errors import LibraryMissing, TulipcricketError
from .folder import Folder, Unreadable, shown
from .formula import Formula, validated_points
from .points import Head, NoPoints, Played, Proved, Reader, Second, answer_words, line_of
from .shelve import cell_word, csv_line, formula_head
from .texts import NOT_TOLD, name_of, names_of, outside
from .words import written

MOST_FORMULA = 1 << 20
MOST_TEXT = 1 << 22
MOST_LINE = 1 << 20
MOST_TOLD = 5
"""Differences of one kind that are told; of more, how many."""

Progress = Callable[[int, int], None]


class Report:
    """What is said, line by line, and how much differs."""

    def __init__(self, say: Callable[[str], None]) -> None:
        self.say = say
        self.differing = 0
        self.left = 0

    def differs(self, what: str) -> None:
        """Something is not as it was."""
        self.differing += 1
        self.say(f"differs: {what}")

    def not_repeated(self, what: str) -> None:
        """Something could not be tried here."""
        self.left += 1
        self.say(f"not repeated: {what}")

    def compare(self, made: bytes, found: bytes, name: str, words: str) -> None:
        """One file, made again."""
        if made == found:
            self.say(f"{name}: {words}")
        else:
            at = next((i for i, (a, b) in enumerate(zip(made, found)) if a != b), min(len(made), len(found)))
            self.differs(f"{name}: made again it has {len(made)} bytes, here are {len(found)}; the first that differs is byte {at}")


# files and versions


def check_files(report: Report, folder: Folder) -> Optional[manifest.Manifest]:
    """Every file is as in the manifest, which is whole."""
    try:
        listed = manifest.read(folder)
    except (manifest.Damaged, Unreadable) as wrong:
        report.differs(str(wrong))
        return None
    found = manifest.differences(folder, listed)
    for difference in found[:100]:
        report.differs(str(difference))
    if len(found) > 100:
        report.differs(f"{len(found) - 100} names more")
    if not found:
        report.say(f"files: {len(listed.files)} as in the manifest, which is whole")
    return listed


def check_version(report: Report, folder: Folder) -> None:
    """Which program made the folder, and whether it is this one; another is no difference."""
    found = folder.read("VERSION", 4096).decode(errors="replace").splitlines()
    own = kept.version().decode().splitlines()
    words = ", ".join(shown(line) for line in found[:3])
    report.say(f"VERSION: {words}: {'this program' if found[:3] == own[:3] else 'another program than this, ' + ', '.join(own[:3])}")


# formula, sheet, listing


def check_formula(report: Report, folder: Folder, head: Optional[Head]) -> None:
    """The formula, compiled again, gives the sheet and the places."""
    try:
        formula = Formula.read(folder.read("formula", MOST_FORMULA), "formula")
        sheet = formula.compiled.sheet
    except Unreadable:
        raise
    except (TulipcricketError, RecursionError) as wrong:
        report.differs(f"formula: it is refused: {shown(str(wrong))}")
        return
    report.compare(sheet, folder.read("sheet", library.LONGEST_SHEET), "sheet", "the formula, compiled again, gives it")
    put, answer = formula_head(formula)
    if head is not None and ([(one.word, one.name) for one in head.put], list(head.answer)) != (put, answer):
        report.differs("points: its head has other words than the formula is given and shows")


def check_sheet(report: Report, folder: Folder) -> None:
    """The sheet, lowered again, gives listing and constants; and its text."""
    sheet = folder.read("sheet", library.LONGEST_SHEET)
    if folder.has("sheet.txt"):
        text = kept.sheet_text(sheet)
        if text is None:
            report.not_repeated("sheet.txt: the program sheet_text is not here")
        else:
            report.compare(text, folder.read("sheet.txt", MOST_TEXT), "sheet.txt", "the sheet gives it again")
    try:
        lowered = library.lower(sheet)
    except LibraryMissing:
        report.not_repeated("listing, constants: the proved library is not here to lower the sheet")
        return
    if lowered.number != 0:
        report.differs(f"sheet: lowering refuses it: {lowered.number} {lowered.index} {library.word(lowered.number)}")
        return
    report.compare(lowered.listing, folder.read("listing", library.LISTING_LIMIT), "listing", "the sheet, lowered again, gives it")
    report.compare(lowered.constants, folder.read("constants", library.CONSTANTS), "constants", "the sheet, lowered again, gives them")
    if folder.has("LEGEND"):
        check_drawn(report, folder.read("LEGEND", MOST_TEXT).decode(errors="replace"), lowered.drawn)
    if folder.has("origins"):
        report.compare(lowered.origins, folder.read("origins", library.ORIGINS), "origins", "the sheet, lowered again, gives them")


def check_drawn(report: Report, legend: str, drawn: Sequence[int]) -> None:
    """LEGEND says which registers the listing draws on before it fills them."""
    words = f"the sheet, lowered again, draws on {names_of(drawn)}"
    if "\n".join(outside(drawn)) in legend:
        report.say(f"LEGEND: {words}")
    elif NOT_TOLD in legend:
        report.say(f"LEGEND: it does not tell which registers are drawn on; {words}")
    else:
        report.differs(f"LEGEND: it says otherwise; {words}")


def check_pages(report: Report, folder: Folder) -> None:
    """The printed pages are those of listing and constants, and read back they give both."""
    listing, constants = folder.read("listing", library.LISTING_LIMIT), folder.read("constants", library.CONSTANTS)
    pages = folder.read("pages.txt", paper.MOST)
    if paper.read_back(pages) == (listing, constants):
        report.say("pages.txt: read back it gives listing and constants")
    else:
        report.differs("pages.txt: read back it gives another listing, or other constants")
    try:
        report.compare(kept.pages(listing, constants), pages, "pages.txt", "listing and constants give it again")
    except LibraryMissing:
        report.not_repeated("pages.txt: the proved library is not here to print the listing")


# points


class Tally:
    """One thing that is compared point by point."""

    def __init__(self, name: str, words: str) -> None:
        self.name, self.words = name, words
        self.tried = 0
        self.told: List[str] = []
        self.differing = 0

    def differs(self, what: str) -> None:
        """Remembers the first differences, and counts them."""
        self.differing += 1
        if len(self.told) < MOST_TOLD:
            self.told.append(f"{self.name}: {what}")

    def tell(self, report: Report) -> None:
        """What came out."""
        for line in self.told:
            report.differs(line)
        if self.differing > len(self.told):
            report.differs(f"{self.name}: {self.differing - len(self.told)} points more")
        if not self.differing:
            report.say(f"{self.name}: {self.words.format(self.tried, 's' if self.tried != 1 else '')}")


class Plays(Tally):
    """Each point, played again."""

    def __init__(self, who: str, player: Any, only: Optional[Sequence[int]] = None) -> None:
        super().__init__("points", f"{{}} played again by {who}, every word and checksum the same")
        self.who, self.player, self.only = who, player, None if only is None else set(only)

    def take(self, reader: Reader, point: int, line: bytes, put: Tuple[int, ...]) -> None:
        """Plays one point; its line must come out again, byte for byte."""
        if self.only is not None and point not in self.only:
            return
        self.tried += 1
        play: Played = self.player.play(put)
        again = line_of(put, play)
        if f"{again}\n".encode() != line:
            self.differs(f"point {point + 1}, line {reader.line}: {difference(reader.head, line, again)} by {self.who}")


def difference(head: Head, line: bytes, again: str) -> str:
    """The first part of a line of points that differs from the line played again, by its name."""
    names = [f"word put in at {name_of(one.word)}" for one in head.put] + ["="] + [name_of(one.word) for one in head.answer]
    names += ["=", "number", "index", "records played", "checksum of the store after"]
    there, played = line.decode(errors="replace").rstrip("\n").split(" "), again.split(" ")
    for name, one, other in zip(names, there, played):
        if one != other:
            return f"{name} is {shown(one[:40])} there, and {other} played again"
    return "it is written otherwise than a line of points"


def rows(file: BinaryIO, head: Head) -> Iterator[List[str]]:
    """The rows of a table, read line by line: the cells of each line that is no comment; the first are the names."""
    with io.TextIOWrapper(file, "utf-8-sig", newline="\n") as text:
        for line in iter(lambda: text.readline(MOST_LINE), ""):
            for part in line.splitlines():
                if part.strip() and not part.lstrip().startswith("#"):
                    yield next(csv.reader([part], delimiter=head.separator, strict=True))


class Given(Tally):
    """given.csv: each line has the words put in; `cells` are those of the line that was compared last."""

    def __init__(self, file: BinaryIO, head: Head) -> None:
        super().__init__("given.csv", "{} line{} with the words put in")
        self._head, self._rows = head, rows(file, head)
        names = [cell.strip() for cell in next(self._rows, [])]
        for one in head.put:
            if names.count(one.header) != 1:
                raise NoPoints(f"given.csv: no column {shown(one.header)}, or more than one")
        self._at = [names.index(one.header) for one in head.put]
        self.cells: List[str] = []

    def take(self, reader: Reader, point: int, put: Tuple[int, ...]) -> None:
        """The next line of the table is this point's."""
        self.tried += 1
        row = next(self._rows, None)
        if row is None or len(row) <= max(self._at, default=0):
            raise NoPoints(f"given.csv: no whole line for point {point + 1}, line {reader.line} of points")
        self.cells = [row[i].strip() for i in self._at]
        for one, cell, word in zip(self._head.put, self.cells, put):
            if cell_word(cell, self._head) != word:
                self.differs(f"point {point + 1}: {shown(cell)} in column {shown(one.header)} is not the word {word:016x} of points")

    def end(self) -> None:
        """No line is left."""
        if next(self._rows, None) is not None:
            self.differs("it has more lines than points")


class Shown(Tally):
    """z.csv: each line has the cells put in and the answer's decimals."""

    def __init__(self, file: BinaryIO, head: Head) -> None:
        super().__init__("z.csv", "{} line{} with the answers of points")
        self._head, self._file = head, file
        if self._file.readline(MOST_LINE) != csv_line(head.names, head.separator):
            self.differs("its first line has not the names of points")

    def take(self, point: int, cells: Sequence[str], line: bytes) -> None:
        """The next line is this point's."""
        self.tried += 1
        wanted = csv_line([*cells, *(written(word, self._head.decimal) for word in answer_words(line))], self._head.separator)
        found = self._file.readline(MOST_LINE)
        if found != wanted:
            told = shown(found.decode(errors="replace").strip()[:200])
            self.differs(f"point {point + 1}: the line is {told}, and points give {wanted.decode().strip()}")

    def end(self) -> None:
        """No line is left."""
        if self._file.read(1):
            self.differs("it has more lines than points")


class After(Tally):
    """after: the store of each play, byte for byte."""

    def __init__(self, file: BinaryIO, player: Any) -> None:
        super().__init__("after", "{} store{}, every byte as played again")
        self._file, self._player = file, player

    def take(self, point: int) -> None:
        """The next store is that of the play before."""
        self.tried += 1
        found, played = self._file.read(library.STORE), bytes(self._player.store)
        if found != played:
            word = next((i // 8 for i, (a, b) in enumerate(zip(found, played)) if a != b), len(found) // 8)
            self.differs(f"point {point + 1}: the first word that differs is {name_of(min(word, library.STORE // 8 - 1))}")

    def end(self) -> None:
        """No store is left."""
        if self._file.read(1):
            self.differs("it has more stores than points")


def players(report: Report, head: Head, folder: Folder, only: Optional[Sequence[int]]) -> List[Plays]:
    """The players that are here: the proved one and player.py of this program."""
    listing, constants = folder.read("listing", library.LISTING_LIMIT), folder.read("constants", library.CONSTANTS)
    before = folder.read("before", library.STORE)
    if len(before) != library.STORE or len(constants) % 8:
        raise NoPoints("before, constants: no whole store, or no whole words")
    found = []
    try:
        found.append(Plays("the proved player", Proved(head, listing, constants, before)))
    except LibraryMissing:
        report.not_repeated("points by the proved player: the library is not here")
    if kept.second_player() is None:
        report.not_repeated("points by player.py: this program has none of its own here (CHECK.txt says how to run the folder's)")
    else:
        found.append(Plays("player.py", Second(kept.second_player(), head, listing, constants, before), only))
    return found


def count_points(folder: Folder, reader: Reader) -> int:
    """How many lines stand after the head."""
    with folder.open("points") as file:
        return sum(block.count(b"\n") for block in iter(lambda: file.read(1 << 20), b"")) - reader.line


class Beside:
    """All that is compared with the points: the players, the tables, the stores."""

    def __init__(self, folder: Folder, head: Head, plays: List[Plays], files: contextlib.ExitStack) -> None:
        def opened(name: str) -> BinaryIO:
            return files.enter_context(folder.open(name))

        self.plays = plays
        self.given = Given(opened("given.csv"), head) if head.table else None
        self.shown = Shown(opened("z.csv"), head)
        stores = folder.has("after") and plays and plays[0].only is None
        self.after = After(opened("after"), plays[0].player) if stores else None

    def tallies(self) -> List[Tally]:
        """In the order in which they are told."""
        return [one for one in (*self.plays, self.given, self.shown, self.after) if one is not None]

    def take(self, reader: Reader, point: int, line: bytes) -> None:
        """One point."""
        put = reader.put(line)
        for one in self.plays:
            one.take(reader, point, line, put)
        if self.given is not None:
            self.given.take(reader, point, put)
        self.shown.take(point, self.given.cells if self.given is not None else [], line)
        if self.after is not None:
            self.after.take(point)

    def end(self) -> None:
        """Nothing is left beside the points."""
        for table in (self.given, self.shown, self.after):
            if table is not None:
                table.end()


def check_points(report: Report, folder: Folder, three: bool, progress: Progress) -> None:
    """Every point played again, and the tables beside it."""
    with contextlib.ExitStack() as files:
        reader = Reader(files.enter_context(folder.open("points")))
        count = count_points(folder, reader)
        plays = players(report, reader.head, folder, validated_points(count, False) if three else None)
        beside = Beside(folder, reader.head, plays, files)
        try:
            for point, line in enumerate(reader):
                beside.take(reader, point, line)
                progress(point + 1, count)
            beside.end()
        finally:
            for tally in beside.tallies():
                tally.tell(report)


# the whole


def head_of(folder: Folder) -> Optional[Head]:
    """The head of the points; None where it is damaged, which is told where they are played."""
    try:
        with folder.open("points") as file:
            return Reader(file).head
    except (NoPoints, Unreadable):
        return None


def parts(report: Report, folder: Folder, three: bool, progress: Progress) -> Iterator[Callable[[], None]]:
    """What is made again, as far as the folder has it."""
    if folder.has("VERSION"):
        yield lambda: check_version(report, folder)
    if folder.has("formula"):
        yield lambda: check_formula(report, folder, head_of(folder))
    if folder.has("sheet"):
        yield lambda: check_sheet(report, folder)
    if folder.has("pages.txt"):
        yield lambda: check_pages(report, folder)
    yield lambda: check_points(report, folder, three, progress)


def check(path: str, say: Callable[[str], None], three: bool, files_only: bool, progress: Progress) -> int:
    """Checks a folder; how much differs."""
    report = Report(say)
    with Folder(path) as folder:
        listed = check_files(report, folder)
        for part in () if files_only else parts(report, folder, three, progress):
            try:
                part()
            except (TulipcricketError, UnicodeDecodeError, ValueError, csv.Error) as wrong:
                report.differs(shown(str(wrong)))
    name = shown(listed.folder) if listed is not None else shown(path)
    end = f"{report.differing} differ" if report.differing else "its files are as they were shelved" if files_only else "as it was shelved"
    report.say(f"{name}: {end}" + (f"; {report.left} not repeated" if report.left else ""))
    return report.differing


# repair


def agreeing(folder: Folder, listed: manifest.Manifest) -> int:
    """How many files of a folder are as a manifest says."""
    return sum(1 for name, wanted in listed.files if not manifest.compared(folder, name, wanted))


def trusted(folder: Folder, others: Sequence[Folder], say: Callable[[str], None]) -> Tuple[Optional[manifest.Manifest], Optional[Folder]]:
    """The folder's manifest, or one of a copy that agrees with more than half of the files here; and the copy."""
    try:
        return manifest.read(folder), None
    except (manifest.Damaged, Unreadable):
        pass
    for other in others:
        try:
            listed = manifest.read(other)
        except (manifest.Damaged, Unreadable):
            continue
        if 2 * agreeing(folder, listed) > len(listed.files):
            say(f"repair: {manifest.FILE}: {shown(other.path)}/{manifest.FILE} is whole and agrees with most files here")
            return listed, other
    say(f"repair: {manifest.FILE}: no copy has a whole one that agrees with most files here")
    return None, None


def source_of(name: str, wanted: manifest.Sums, places: Sequence[Folder]) -> Optional[Folder]:
    """A copy that has a file as the manifest says."""
    return next((place for place in places if not manifest.compared(place, name, wanted)), None)


def repair(path: str, copies: Sequence[str], write: bool, say: Callable[[str], None]) -> None:
    """Names for each damaged file a copy that agrees with the manifest, and puts it in place where that is asked for."""
    others = [Folder(copy) for copy in copies]
    with Folder(path) as folder:
        listed, source = trusted(folder, others, say)
        if listed is None:
            return
        if source is not None and write:
            put_in_place(folder, manifest.FILE, source, say)
        for name, wanted in listed.files:
            if not manifest.compared(folder, name, wanted):
                continue
            found = source_of(name, wanted, others)
            if found is None:
                say(f"repair: {name}: no copy agrees with the manifest")
            elif write:
                put_in_place(folder, name, found, say)
            else:
                say(f"repair: {name}: {shown(found.path)}/{name} agrees with the manifest")
    for other in others:
        other.close()


def put_in_place(folder: Folder, name: str, source: Folder, say: Callable[[str], None]) -> None:
    """Copies one file from a copy."""
    with source.open(name) as file:
        folder.replace(name, file)
    say(f"repaired: {name}, from {shown(source.path)}")
