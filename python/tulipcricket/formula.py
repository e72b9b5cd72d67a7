"""A formula: read, compiled, lowered, played at every point, and validated."""

from __future__ import annotations

import ctypes
import struct
from functools import cached_property
from pathlib import Path
from typing import Any, Callable, Dict, Iterable, List, Mapping, Optional, Sequence, Tuple, Union

from . import library
from .compiler import Compiled, compile_program
from .errors import Refused, ValidationError
from .meaning import Value, evaluate
from .sheet import Listing, Sheet
from .syntax import Program, decoded, parse
from .words import double_of, hexadecimal, word_of

Progress = Callable[[int, int], None]
_MEM = 8 * (66 + 512)
_PARAM = 8 * (66 + 1024)


def validated_points(count: int, every: bool) -> List[int]:
    """The points at which the play is compared with exact evaluation: every one, or the first, the middle one and the last."""
    return list(range(count)) if every or count <= 3 else [0, count // 2, count - 1]


class Run:
    """The answers of a run: for each name shown, the words at each point."""

    def __init__(self, words: Dict[str, List[Value]], validated: int) -> None:
        self.words = words
        self.validated = validated

    def values(self, name: str) -> List[Union[float, complex]]:
        """A name's answers as floats, or as complex numbers."""
        return [number_of(value) for value in self.words[name]]

    def bits(self, name: str) -> List[Tuple[str, ...]]:
        """A name's answers, each word as 16 hexadecimal digits."""
        return [tuple(map(hexadecimal, value)) for value in self.words[name]]


def number_of(value: Value) -> Union[float, complex]:
    """The number that one word or two stand for."""
    return double_of(value[0]) if len(value) == 1 else complex(double_of(value[0]), double_of(value[1]))


def value_of(number: Any, is_complex: bool) -> Value:
    """The words of a number."""
    if is_complex:
        number = complex(number)
        return word_of(number.real), word_of(number.imag)
    return (word_of(float(number)),)


class Formula:
    """A formula file's text, compiled. Raises FormulaError, and Refused where its listing is too long."""

    def __init__(self, text: str, name: str = "formula", *, compiler: Callable[[Program], Compiled] = compile_program) -> None:
        self.program: Program = parse(text, name)
        self.compiled: Compiled = compiler(self.program)

    @classmethod
    def open(cls, path: Union[str, Path]) -> "Formula":
        """The formula in a file."""
        return cls.read(Path(path).read_bytes(), str(path))

    @classmethod
    def read(cls, data: bytes, name: str) -> "Formula":
        """The formula in a file's bytes."""
        return cls(decoded(data, name), name)

    @property
    def text(self) -> str:
        """The formula as written."""
        return self.program.text

    @property
    def givens(self) -> Tuple[str, ...]:
        """The names of what is given."""
        return tuple(given.name for given in self.program.givens)

    @property
    def shows(self) -> Tuple[str, ...]:
        """The names that are shown."""
        return tuple(show.name for show in self.program.shows)

    def is_real(self, name: str) -> bool:
        """Whether a name's value is a real number."""
        return self.compiled.reals[name]

    def place(self, name: str) -> str:
        """The place of a name in the store."""
        if name in self.compiled.params:
            return f"Param {self.compiled.params[name]}"
        return f"Mem {self.compiled.mems[name]}"

    @cached_property
    def sheet(self) -> Sheet:
        """The formula as a sheet."""
        return Sheet(self.compiled.sheet, [one.at.line for one in self.compiled.instructions])

    @cached_property
    def listing(self) -> Listing:
        """The sheet, lowered. Raises Refused with the formula's line and column."""
        try:
            return self.sheet.lower()
        except Refused as refused:
            at = self.compiled.instructions[refused.index].at
            where = f"{self.program.name}:{at.line}:{at.column}"
            raise Refused(refused.number, refused.index, at.line, where=where) from None

    # playing

    def _points(self, given: Mapping[str, Sequence[Value]]) -> List[Tuple[Value, ...]]:
        """The values of what is given, point by point."""
        missing = [name for name in self.givens if name not in given]
        if missing:
            raise TypeError(f"{', '.join(missing)} must be given")
        unknown = [name for name in given if name not in self.givens]
        if unknown:
            raise TypeError(f"{', '.join(unknown)} is not given in the formula; it takes {', '.join(self.givens) or 'nothing'}")
        columns = [given[name] for name in self.givens]
        if len({len(column) for column in columns}) > 1:
            raise ValueError("columns of different lengths")
        return list(zip(*columns)) if columns else [()]

    def play(self, given: Mapping[str, Sequence[Value]], *, every: bool = False, progress: Optional[Progress] = None) -> Run:
        """Plays the listing at each point, on a fresh store of zeros, and validates it: at every point, or at three."""
        points = self._points(given)
        checked = set(validated_points(len(points), every))
        listing, compiled = self.listing, self.compiled
        player = library.Player(listing.data, listing.constants)
        store = ctypes.create_string_buffer(library.STORE)
        unpack = struct.Struct(f"<{2 * len(compiled.mems)}Q").unpack_from
        columns: Dict[str, List[Value]] = {name: [] for name in self.shows}
        shown = [(columns[name], 2 * compiled.mems[name], 1 if compiled.reals[name] else 2) for name in self.shows]
        for i, point in enumerate(points):
            ctypes.memset(store, 0, library.STORE)
            for position, value in enumerate(point):
                struct.pack_into(f"<{len(value)}Q", store, _PARAM + 16 * position, *value)
            answer = player.play(store)
            if answer.number != 0:
                raise Refused(answer.number, answer.index)
            words = unpack(store, _MEM)
            for column, at, count in shown:
                column.append(words[at: at + count])
            if i in checked:
                self.validate(dict(zip(self.givens, point)), words)
            if progress:
                progress(i + 1, len(points))
        return Run(columns, len(checked))

    def validate(self, given: Mapping[str, Value], words: Sequence[int]) -> None:
        """Compares the words of every name in Mem with exact evaluation of the tree. Raises ValidationError."""
        meant = evaluate(self.program, given)
        for let in self.program.lets:
            at, value = 2 * self.compiled.mems[let.name], meant[let.name]
            real = self.compiled.reals[let.name]
            if len(value) != (1 if real else 2) or tuple(words[at: at + len(value)]) != value:
                played = " ".join(map(hexadecimal, words[at: at + 2]))
                told = " ".join(map(hexadecimal, value))
                raise ValidationError(
                    f"{self.program.name}:{let.at.line}: {let.name} plays as {played}, and exact evaluation gives {told}; "
                    "this is a fault of this program, and no answer is given")

    def __call__(self, /, *, validate: str = "three", **given: Any) -> Any:
        """The answers for numbers, lists or numpy arrays by name; of several names shown, a dict.

        Numbers give numbers, lists give lists, and where one of them is an array, so are the answers. `validate` is `three` or `every`.
        """
        if validate not in ("three", "every"):
            raise ValueError("validate is three or every")
        arrays = any(hasattr(value, "__array__") and getattr(value, "ndim", 0) > 0 for value in given.values())
        lists = {name: _listed(value) for name, value in given.items()}
        single = all(one is None for one in lists.values())
        count = max((len(one) for one in lists.values() if one is not None), default=1)
        complexes = {one.name: one.is_complex for one in self.program.givens}
        words = {
            name: [value_of(number, complexes.get(name, False)) for number in (lists[name] or _repeated(value, lists[name], count))]
            for name, value in given.items()
        }
        run = self.play(words, every=validate == "every")
        answers = {name: _as_asked(run.values(name), single, arrays) for name in self.shows}
        return answers[self.shows[0]] if len(answers) == 1 else answers


def _listed(value: Any) -> Optional[List[Any]]:
    """The numbers of a list or an array of one dimension, None of a single number."""
    if getattr(value, "ndim", 1) == 0 or isinstance(value, (int, float, complex)):
        return None
    if getattr(value, "ndim", 1) > 1:
        raise ValueError("an array has one dimension")
    if not isinstance(value, Iterable) or isinstance(value, (str, bytes)):
        raise TypeError(f"{value!r} is no number and no list of numbers")
    return list(value)


def _repeated(value: Any, listed: Optional[List[Any]], count: int) -> List[Any]:
    """A single number at every point; an empty list stays one."""
    return [value] * count if listed is None else listed


def _as_asked(values: List[Any], single: bool, arrays: bool) -> Any:
    """A number, a list or an array."""
    if single:
        return values[0]
    if arrays:
        import numpy

        return numpy.array(values)
    return values
