"""The file `points` of a shelf folder: a head that says which words are put in and which are the answer, then a line for each play.

    tulipcricket points 1
    start 0
    table comma point decimals
    put 1090 f=f
    answer 578 Z_re
    answer 579 Z_im
    points
    3fb999999999999a = 407c5e6aa5bf6a9b c068074b33d1bff3 = 0 2034 2034 1a2b3c4d

A word is named by its index in the store (docs/SHELF.md, 2). `put` has the name and the header of its column in given.csv, `answer` that in
z.csv; `table` has what parts columns there, the decimal sign, and whether cells are decimals or words; it is `none` where there are no
tables' cells to put in. A line has the words put in, those of the answer, then number, index, records played, and the checksum (Adler-32)
of the whole store after.
"""

from __future__ import annotations

import ctypes
import struct
import zlib
from dataclasses import dataclass
from typing import Any, BinaryIO, Dict, Iterator, List, NamedTuple, Sequence, Tuple

from . import library
from .errors import TulipcricketError
from .words import hexadecimal

FIRST = "tulipcricket points 1"
LAST = "points"
SIGNS = {",": "comma", ";": "semicolon", "\t": "tab"}
DECIMALS = {".": "point", ",": "comma"}
MOST_LINE = 1 << 17
"""Bytes of the longest line: 1,602 words put in and as many in the answer are less."""
MOST_HEAD = 4096
"""Lines of the longest head."""


class NoPoints(TulipcricketError):
    """A file of points that is none; why."""


class Column(NamedTuple):
    """A word that is put in: its index, the name that the formula has for it, the header of its column."""

    word: int
    name: str
    header: str


class Answer(NamedTuple):
    """A word of the answer: its index, and its column in z.csv."""

    word: int
    name: str


@dataclass(frozen=True)
class Head:
    """What stands above the plays."""

    put: Tuple[Column, ...]
    answer: Tuple[Answer, ...]
    start: int = 0
    table: bool = True
    separator: str = ","
    decimal: str = "."
    as_words: bool = False

    @property
    def names(self) -> List[str]:
        """The columns of z.csv."""
        return [one.name for one in self.put] + [one.name for one in self.answer]

    def written(self) -> str:
        """The head's lines."""
        kind = "words" if self.as_words else "decimals"
        sign = SIGNS.get(self.separator, f"U+{ord(self.separator):04X}")
        lines = [FIRST, f"start {self.start}", f"table {sign} {DECIMALS[self.decimal]} {kind}" if self.table else "table none"]
        lines += [f"put {one.word} {one.name}={one.header}" for one in self.put]
        lines += [f"answer {one.word} {one.name}" for one in self.answer]
        return "".join(f"{line}\n" for line in [*lines, LAST])


def _index(text: str) -> int:
    """The index of a word of the store."""
    index = int(text)
    if not 0 <= index < library.STORE // 8:
        raise ValueError
    return index


def _table(words: Sequence[str]) -> Dict[str, Any]:
    """What the line `table` says."""
    if words == ["none"]:
        return {"table": False}
    sign, decimal, kind = words
    signs, decimals = {name: one for one, name in SIGNS.items()}, {name: one for one, name in DECIMALS.items()}
    separator = signs[sign] if sign in signs else chr(int(sign[2:], 16))
    return {"separator": separator, "decimal": decimals[decimal], "as_words": kind == "words"}


def parse_head(lines: Sequence[str]) -> Head:
    """The head of these lines, which are exactly what it would be written as. Raises NoPoints."""
    put: List[Column] = []
    answer: List[Answer] = []
    rest: Dict[str, Any] = {}
    try:
        for line in lines[1:-1]:
            word, _, text = line.partition(" ")
            index, _, named = text.partition(" ")
            if word == "start":
                rest["start"] = int(text)
                if not 0 <= rest["start"] < 1 << 64:
                    raise ValueError
            elif word == "table":
                rest.update(_table(text.split(" ")))
            elif word == "put":
                put.append(Column(_index(index), *named.split("=", 1)))
            else:
                answer.append(Answer(_index(index), named))
        head = Head(tuple(put), tuple(answer), **rest)
        if head.written() != "".join(f"{line}\n" for line in lines):
            raise ValueError
    except (ValueError, KeyError, TypeError, OverflowError):
        raise NoPoints("points: its head is damaged, or of another program's version") from None
    return head


class Reader:
    """A file of points, read line by line."""

    def __init__(self, file: BinaryIO) -> None:
        self._file = file
        self.line = 0
        lines: List[str] = []
        while not lines or lines[-1] != LAST:
            if len(lines) > MOST_HEAD:
                raise NoPoints("points: its head does not end")
            lines.append(self._next().decode(errors="replace")[:-1])
        self.head = parse_head(lines)

    def _next(self) -> bytes:
        """The next line; it is whole."""
        self.line += 1
        line = self._file.readline(MOST_LINE)
        if not line.endswith(b"\n"):
            raise NoPoints(f"points: line {self.line} is not whole")
        return line

    def __iter__(self) -> Iterator[bytes]:
        """The lines of the plays; `line` is the number of the one that was given last."""
        while self._file.peek(1)[:1]:  # type: ignore[attr-defined]
            yield self._next()

    def put(self, line: bytes) -> Tuple[int, ...]:
        """The words put in, of a line. Raises NoPoints."""
        count = len(self.head.put)
        words = line[: 17 * count].split()
        if len(words) != count or any(len(word) != 16 for word in words):
            raise NoPoints(f"points: line {self.line} is damaged")
        try:
            return tuple(int(word, 16) for word in words)
        except ValueError:
            raise NoPoints(f"points: line {self.line} is damaged") from None


def answer_words(line: bytes) -> List[int]:
    """The words of the answer, of a line. Raises ValueError."""
    parts = line.split()
    first = parts.index(b"=")
    return [int(word, 16) for word in parts[first + 1: parts.index(b"=", first + 1)]]


class Played(NamedTuple):
    """What a play gave."""

    words: Tuple[int, ...]
    number: int
    where: int
    played: int
    checksum: int


def line_of(put: Sequence[int], play: Played) -> str:
    """The line of a play, without its line feed."""
    words = [*map(hexadecimal, put), "=", *map(hexadecimal, play.words), "="]
    return " ".join([*words, f"{play.number} {play.where} {play.played} {play.checksum:08x}"])


class Proved:
    """Plays by the proved library, each on a copy of one store."""

    def __init__(self, head: Head, listing: bytes, constants: bytes, before: bytes) -> None:
        self.store = ctypes.create_string_buffer(library.STORE)
        self._player = library.Player(listing, constants)
        self._before = before
        self._start = head.start
        self._puts = [8 * one.word for one in head.put]
        self._answers = [8 * one.word for one in head.answer]

    def play(self, put: Sequence[int]) -> Played:
        """One play; the store after it stays in `store`."""
        ctypes.memmove(self.store, self._before, library.STORE)
        for at, word in zip(self._puts, put):
            struct.pack_into("<Q", self.store, at, word)
        answer = self._player.play(self.store, self._start)
        words = tuple(struct.unpack_from("<Q", self.store, at)[0] for at in self._answers)
        return Played(words, answer.number, answer.index, answer.played, zlib.adler32(self.store))


class Second:
    """Plays by player.py, with whole numbers; it shares nothing with the library."""

    def __init__(self, player: Any, head: Head, listing: bytes, constants: bytes, before: bytes) -> None:
        self._player, self._head, self._listing = player, head, listing
        self._constants = list(struct.unpack(f"<{len(constants) // 8}Q", constants))
        self._before = list(struct.unpack(f"<{library.STORE // 8}Q", before))
        self.store = before

    def play(self, put: Sequence[int]) -> Played:
        """One play."""
        store = list(self._before)
        for one, word in zip(self._head.put, put):
            store[one.word] = word
        number, index, played = self._player.play(self._listing, self._constants, store, self._head.start)
        self.store = self._player.file_of(store)
        checksum = self._player.checksum(self.store)
        return Played(tuple(store[one.word] for one in self._head.answer), number, index, played, checksum)
