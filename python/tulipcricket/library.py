"""The functions of c/tulipcricket.h, by ctypes over the shared library. Every bit of an answer comes from here."""

from __future__ import annotations

import ctypes
import os
import struct
from dataclasses import dataclass
from functools import lru_cache
from pathlib import Path
from typing import List, NamedTuple, Optional, Sequence, Tuple

from .errors import LibraryMissing, Refused

INSTRUCTIONS_LIMIT = 612
LONGEST_SHEET = 9201
"""Bytes of the longest sheet that is accepted."""
LISTING_LIMIT = 65536
CONSTANTS = 2048
ORIGINS = 512
STORE = 12816
LOWER_ANSWER = 260
PLAY_ANSWER = 24
POINTS_LIMIT = 8192
NEAREST_ANSWER = 24
SHELF_ANSWER = 40
LOOK_ANSWER = 64
PAGE = 4380
PAGES_LIMIT = 976740
PAGES_ANSWER = 24

NAME = "libtulipcricket.so"
VARIABLE = "TULIPCRICKET_LIBRARY"

_TEXTS = {
    "version": [],
    "word": [ctypes.c_uint32],
}
"""The functions that give text."""

_SLICE = [ctypes.c_char_p, ctypes.c_size_t]
_WORD = [ctypes.c_uint64]
_ARGUMENTS = {
    "lower": _SLICE * 5,
    "play": _SLICE * 3 + _WORD + _SLICE,
    "peak": _SLICE + _WORD + _SLICE,
    "nearest": _WORD * 2 + _SLICE * 2,
    "shelf": _SLICE * 2,
    "look": _SLICE * 3 + _WORD + _SLICE,
    "pages": _SLICE * 4,
}


def places() -> List[Path]:
    """Where the library is looked for: the variable's file alone if it is set, else beside this file, then where c/library makes it."""
    named = os.environ.get(VARIABLE)
    if named:
        return [Path(named)]
    here = Path(__file__).resolve().parent
    return [here / NAME, here.parent.parent / "target" / "staticlib" / NAME]


def found() -> Optional[Path]:
    """The library's file; None where it is not there."""
    return next((path for path in places() if path.is_file()), None)


@lru_cache(maxsize=None)
def library() -> ctypes.CDLL:
    """The shared library, loaded once."""
    path = found()
    if path is not None:
        loaded = ctypes.CDLL(str(path))
        for name, arguments in _ARGUMENTS.items():
            function = getattr(loaded, "tulipcricket_" + name)
            function.argtypes = arguments
            function.restype = ctypes.c_uint32
        for name, numbers in _TEXTS.items():
            function = getattr(loaded, "tulipcricket_" + name)
            function.argtypes = numbers
            function.restype = ctypes.c_char_p
        return loaded
    tried = ", ".join(str(path) for path in places())
    raise LibraryMissing(f"{NAME} is not there; c/library makes it (looked for: {tried}; {VARIABLE} names another file)")


def version() -> str:
    """tulipcricket_version."""
    return str(library().tulipcricket_version().decode())


def word(number: int) -> str:
    """tulipcricket_word: the words of a number that a function returned."""
    return str(library().tulipcricket_word(number).decode())


@dataclass(frozen=True)
class Lowered:
    """What lowering gives back; `filled` and `drawn` are registers of the listing by number, filled at its end and drawn on before being
    filled; `origins` has two bytes for each constant, the instruction that first appended it, or 65535 of one from the sheet."""

    number: int
    index: int
    listing: bytes
    constants: bytes
    real_registers: Tuple[bool, ...]
    real_places: bytes
    filled: Tuple[int, ...]
    drawn: Tuple[int, ...]
    origins: bytes


def marked(marks: bytes) -> Tuple[int, ...]:
    """The registers whose mark is set."""
    return tuple(register for register, mark in enumerate(marks) if mark)


def lower(sheet: bytes, room: int = LISTING_LIMIT) -> Lowered:
    """tulipcricket_lower with room for a listing of so many bytes; a refusal is an answer here, not an exception."""
    listing = ctypes.create_string_buffer(max(room, 1))
    constants = ctypes.create_string_buffer(CONSTANTS)
    origins = ctypes.create_string_buffer(ORIGINS)
    answer = ctypes.create_string_buffer(LOWER_ANSWER)
    library().tulipcricket_lower(sheet, len(sheet), listing, room, constants, CONSTANTS, origins, ORIGINS, answer, LOWER_ANSWER)
    number, index, length, count = struct.unpack_from("<4Q", answer.raw)
    flags, places, filled, drawn = struct.unpack_from("<32s64s66s66s", answer.raw, 32)
    return Lowered(number, index, listing.raw[:length], constants.raw[: 8 * count], tuple(map(bool, flags)), places,
                   marked(filled), marked(drawn), origins.raw[: 2 * count])


@dataclass(frozen=True)
class Played:
    """What playing gives back; the store is changed in place."""

    number: int
    index: int
    played: int


class Player:
    """tulipcricket_play of one listing, again and again, on a store that is lent."""

    def __init__(self, listing: bytes, constants: bytes) -> None:
        self._play = library().tulipcricket_play
        self._listing = (listing, len(listing), constants, len(constants))
        self._answer = ctypes.create_string_buffer(PLAY_ANSWER)

    def play(self, store: "ctypes.Array[ctypes.c_char]", start: int = 0) -> Played:
        """Plays from the record `start` on; the answer's numbers."""
        self._play(*self._listing, store, len(store), start, self._answer, PLAY_ANSWER)
        return Played(*struct.unpack("<3Q", self._answer.raw))


def peak(run: Sequence[int], window: int) -> List[int]:
    """tulipcricket_peak over words: for each position the largest word of the window that ends there. Raises Refused (12)."""
    lent = struct.pack(f"<{len(run)}Q", *run)
    out = ctypes.create_string_buffer(max(len(lent), 1))
    number = library().tulipcricket_peak(lent, len(lent), window, out, len(lent))
    if number != 0:
        raise Refused(number)
    return list(struct.unpack(f"<{len(run)}Q", out.raw[: len(lent)]))


def nearest(re: int, im: int, points: Sequence[Tuple[int, int]]) -> Optional[int]:
    """tulipcricket_nearest over words: the index of the nearest point, the latest of equal ones; None where there is none. Raises
    Refused (13)."""
    flat = [word for point in points for word in point]
    lent = struct.pack(f"<{len(flat)}Q", *flat)
    answer = ctypes.create_string_buffer(NEAREST_ANSWER)
    number = library().tulipcricket_nearest(re, im, lent, len(lent), answer, NEAREST_ANSWER)
    if number != 0:
        raise Refused(number)
    _, found, index = struct.unpack("<3Q", answer.raw)
    return index if found else None


class Shelf(NamedTuple):
    """How much shelf a sheet takes: instructions, bytes of the listing, constants, records that a play runs at most."""

    instructions: int
    listing: int
    constants: int
    records: int


def shelf(sheet: bytes) -> Shelf:
    """tulipcricket_shelf. Raises Refused with lowering's number and index."""
    answer = ctypes.create_string_buffer(SHELF_ANSWER)
    number = library().tulipcricket_shelf(sheet, len(sheet), answer, SHELF_ANSWER)
    _, index, listing, constants, records = struct.unpack("<5Q", answer.raw)
    if number != 0:
        raise Refused(number, index)
    return Shelf(index, listing, constants, records)


class Looked(NamedTuple):
    """What one record would do: the count of records, the record that follows, and each word written, its store index and its bits."""

    records: int
    follows: int
    words: Tuple[Tuple[int, int], ...]


def look(listing: bytes, constants: bytes, store: bytes, record: int) -> Looked:
    """tulipcricket_look. Raises Refused with playing's number and index."""
    answer = ctypes.create_string_buffer(LOOK_ANSWER)
    number = library().tulipcricket_look(listing, len(listing), constants, len(constants), store, len(store), record, answer, LOOK_ANSWER)
    _, index, follows, count, *words = struct.unpack("<8Q", answer.raw)
    if number != 0:
        raise Refused(number, index)
    return Looked(index, follows, tuple(zip(words[::2], words[1::2]))[:count])


def pages(listing: bytes, constants: bytes) -> str:
    """tulipcricket_pages: the pages of a listing with its constants, PAGE characters each. Raises Refused with playing's number, index."""
    text = ctypes.create_string_buffer(PAGES_LIMIT)
    answer = ctypes.create_string_buffer(PAGES_ANSWER)
    number = library().tulipcricket_pages(listing, len(listing), constants, len(constants), text, PAGES_LIMIT, answer, PAGES_ANSWER)
    _, index, count = struct.unpack("<3Q", answer.raw)
    if number != 0:
        raise Refused(number, index)
    return text.raw[: PAGE * count].decode("ascii")
