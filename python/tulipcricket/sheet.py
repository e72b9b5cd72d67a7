"""Sheets, listings and stores as values: what the library takes and gives back, with names."""

from __future__ import annotations

import ctypes
import re
import struct
from typing import Iterator, Mapping, Optional, Sequence, Tuple, Union

from . import library
from .errors import Refused
from .texts import name_of
from .words import double_of, hexadecimal, word_of

Number = Union[int, float, complex]

WORDS = library.STORE // 8
FROM_THE_SHEET = 65535
"""The origin of a constant from the sheet."""
_NAME = re.compile(r"(Stack|Mem|Param) (\d+)\Z|G(\d+)\Z|(Ret|Temp)\Z", re.ASCII)
_CLASSES = ("Stack", "Mem", "Param")


def indices(name: str) -> Tuple[int, ...]:
    """The words of the store that a name stands for: two of `Mem 3`, one of the registers `G0` to `G63`, `Ret` and `Temp`."""
    match = _NAME.match(name)
    if match:
        kind, position, register, own = match.groups()
        if kind and int(position) < 256:
            first = 66 + 512 * _CLASSES.index(kind) + 2 * int(position)
            return first, first + 1
        if register and int(register) < 64:
            return (int(register),)
        if own:
            return (64 if own == "Ret" else 65,)
    raise KeyError(f"{name}: a name is Stack, Mem or Param with 0 to 255, G0 to G63, Ret or Temp")


class Store(Mapping[str, Number]):
    """The 1,602 words of a store, zeros but for what is given. A place is read and set as a complex number, a register as a float."""

    def __init__(self, values: Optional[Mapping[str, Number]] = None, *, data: Optional[bytes] = None) -> None:
        if data is not None and len(data) != library.STORE:
            raise ValueError(f"a store has {library.STORE} bytes")
        self.buffer = ctypes.create_string_buffer(data if data is not None else bytes(library.STORE), library.STORE)
        self.played: Optional[int] = None
        for name, value in (values or {}).items():
            self[name] = value

    def __setitem__(self, name: str, value: Number) -> None:
        at = indices(name)
        if len(at) == 1:
            if isinstance(value, complex):
                raise TypeError(f"{name} holds one word, not a complex number")
            self.set_words(name, word_of(float(value)))
        else:
            self.set_words(name, word_of(complex(value).real), word_of(complex(value).imag))

    def __getitem__(self, name: str) -> Number:
        halves = [double_of(word) for word in self.words(name)]
        return complex(*halves) if len(halves) == 2 else halves[0]

    def __len__(self) -> int:
        return 66 + 768

    def __iter__(self) -> Iterator[str]:
        yield from (f"G{i}" for i in range(64))
        yield from ("Ret", "Temp")
        yield from (f"{kind} {i}" for kind in _CLASSES for i in range(256))

    def words(self, name: str) -> Tuple[int, ...]:
        """The words of a place (real, imaginary) or of a register, as whole numbers."""
        return tuple(int(struct.unpack_from("<Q", self.buffer, 8 * i)[0]) for i in indices(name))

    def set_words(self, name: str, *words: int) -> None:
        """Sets the words of a place or a register, bit by bit: a NaN keeps its mark."""
        at = indices(name)
        if len(at) != len(words):
            raise ValueError(f"{name} has {len(at)} words")
        for i, word in zip(at, words):
            struct.pack_into("<Q", self.buffer, 8 * i, word)

    def bits(self, name: str) -> Tuple[str, ...]:
        """The words of a place or a register, each as 16 hexadecimal digits."""
        return tuple(map(hexadecimal, self.words(name)))

    @property
    def data(self) -> bytes:
        """The 12,816 bytes, as a file keeps them."""
        return self.buffer.raw

    def copy(self) -> "Store":
        """Another store of the same words."""
        return Store(data=self.data)


class Listing:
    """A listing and its constants."""

    def __init__(self, data: bytes, constants: bytes) -> None:
        self.data = bytes(data)
        self.constants = bytes(constants)

    def play(self, store: Store, start: int = 0) -> Store:
        """The store after the play from the record `start` on; `played` is the count of records. Raises Refused."""
        after = store.copy()
        answer = library.Player(self.data, self.constants).play(after.buffer, start)
        if answer.number != 0:
            raise Refused(answer.number, answer.index)
        after.played = answer.played
        return after

    def look(self, store: Store, record: int) -> library.Looked:
        """What the record would do, played outside a call on this store, which stays as it is. Raises Refused."""
        return library.look(self.data, self.constants, store.data, record)

    def pages(self) -> str:
        """The listing and its constants as pages of 60 lines, 72 characters and a line feed each. Raises Refused."""
        return library.pages(self.data, self.constants)


class Sheet:
    """A sheet's bytes; where a formula made it, the line of each instruction, so that a refusal names it."""

    def __init__(self, data: bytes, lines: Sequence[int] = ()) -> None:
        self.data = bytes(data)
        self.lines = tuple(lines)

    def _line(self, index: int) -> Optional[int]:
        return self.lines[index] if index < len(self.lines) else None

    def _lowered(self, room: int) -> library.Lowered:
        """The answer of lowering. Raises Refused."""
        answer = library.lower(self.data, room)
        if answer.number != 0:
            raise Refused(answer.number, answer.index, self._line(answer.index))
        return answer

    def lower(self, room: int = library.LISTING_LIMIT) -> Listing:
        """The listing. Raises Refused."""
        answer = self._lowered(room)
        return Listing(answer.listing, answer.constants)

    def drawn_on(self) -> Tuple[str, ...]:
        """The registers that the listing draws on before it fills them, by name. Where there is none, plays from record 0 on stores with
        equal places end with equal places; else where these registers are equal too. Raises Refused."""
        return tuple(map(name_of, self._lowered(library.LISTING_LIMIT).drawn))

    def origins(self) -> Tuple[Optional[int], ...]:
        """Of each constant of the listing the instruction that first appended it; None of one from the sheet. Raises Refused."""
        answer = self._lowered(library.LISTING_LIMIT)
        numbers = struct.unpack(f"<{len(answer.origins) // 2}H", answer.origins)
        return tuple(None if number == FROM_THE_SHEET else number for number in numbers)

    def shelf(self) -> library.Shelf:
        """How much shelf the sheet takes, with no listing made. Raises Refused."""
        try:
            return library.shelf(self.data)
        except Refused as refused:
            raise Refused(refused.number, refused.index, self._line(refused.index)) from None
