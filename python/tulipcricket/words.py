"""A double and its word, the 64 bits as a whole number; decimals and marks of lost readings as text."""

from __future__ import annotations

import re
import struct

SIGN = 1 << 63
INFINITY = 0x7FF << 52
NAN = 0x7FF8 << 48
MARK = (1 << 51) - 1
"""The bits of a NaN that name the cause of a lost reading."""

_DECIMAL = re.compile(r"[+-]?(\d+\.?\d*|\.\d+)([eE][+-]?\d+)?\Z", re.ASCII)
_LOST = re.compile(r"lost\s+(\d+)\Z", re.ASCII | re.IGNORECASE)
_NAMED = {"inf": INFINITY, "+inf": INFINITY, "-inf": SIGN | INFINITY, "nan": NAN}


def word_of(value: float) -> int:
    """The bits of a double."""
    return int(struct.unpack("<Q", struct.pack("<d", value))[0])


def double_of(word: int) -> float:
    """The double of these bits."""
    return float(struct.unpack("<d", struct.pack("<Q", word))[0])


def hexadecimal(word: int) -> str:
    """Sixteen digits."""
    return f"{word:016x}"


def is_nan(word: int) -> bool:
    """Whether the word stands for no number."""
    return word & ~SIGN > INFINITY


def lost(mark: int) -> int:
    """The word of a lost reading with this mark."""
    if not 0 <= mark <= MARK:
        raise ValueError(f"a mark is 0 to {MARK}")
    return NAN | mark


def read(text: str, decimal: str = ".") -> int:
    """The word of a reading as text: the double nearest to a decimal, `inf`, `-inf`, `nan`, or `lost N`.

    Raises ValueError, which says what is wrong.
    """
    text = text.strip()
    if not text:
        raise ValueError("nothing stands here; a lost reading is written lost and a number")
    if text.lower() in _NAMED:
        return _NAMED[text.lower()]
    mark = _LOST.match(text)
    if mark:
        return lost(int(mark.group(1)))
    if decimal != ".":
        if "." in text:
            raise ValueError(f"{text} has a point, and {decimal} is the decimal sign")
        text = text.replace(decimal, ".")
    if not _DECIMAL.match(text):
        raise ValueError(f"{text} is no number")
    word = word_of(float(text))
    if word & ~SIGN == INFINITY:
        raise ValueError(f"{text} is too large for a double")
    return word


def written(word: int, decimal: str = ".") -> str:
    """The shortest decimal that gives the same double, `inf`, `-inf`, `nan`, or `lost N` for a NaN with a mark."""
    if is_nan(word):
        return f"lost {word & MARK}" if word & MARK else "nan"
    text = repr(double_of(word))
    if text.endswith(".0"):
        text = text[:-2]
    return text.replace(".", decimal)
