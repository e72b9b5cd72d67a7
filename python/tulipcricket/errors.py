"""What goes wrong: a formula that is none, a refusal of the library, a file, a validation that failed."""

from __future__ import annotations

from typing import Optional

WORDS = {
    0: "accepted",
    1: "torn record",
    2: "unknown work",
    3: "bad register",
    4: "bad place",
    5: "missing constant",
    6: "barred operand",
    7: "listing full",
    8: "wrong setup",
    9: "stray jump",
    10: "misplaced label",
    11: "unequal records",
    12: "wrong window",
    13: "wrong points",
    14: "sheet too long",
}


class TulipcricketError(Exception):
    """The base of this package's exceptions."""


class LibraryMissing(TulipcricketError):
    """The shared library is not where it is looked for."""


class FormulaError(TulipcricketError):
    """A formula that is refused: where, counted from 1, and why."""

    def __init__(self, line: int, column: int, why: str, *, name: str = "formula", text: str = "") -> None:
        super().__init__(line, column, why)
        self.line = line
        self.column = column
        self.why = why
        self.name = name
        self.text = text

    def __str__(self) -> str:
        return f"{self.name}:{self.line}:{self.column}: {self.why}"

    def shown(self) -> str:
        """The message, the line as it stands, and a caret below the column."""
        lines = self.text.split("\n")
        if not 1 <= self.line <= len(lines):
            return str(self)
        line = lines[self.line - 1].rstrip("\r")
        before = "".join("\t" if c == "\t" else " " for c in line[: self.column - 1])
        return f"{self}\n{line}\n{before}^"


class Refused(TulipcricketError):
    """A refusal of the library: its number and word, the index of what is refused, the formula's line where there is one."""

    def __init__(self, number: int, index: int = 0, line: Optional[int] = None, *, where: str = "") -> None:
        self.number = number
        self.word = WORDS.get(number, "unknown number")
        self.index = index
        self.line = line
        self.where = where
        super().__init__(number, self.word, index, line)

    def __str__(self) -> str:
        place = self.where or (f"line {self.line}" if self.line is not None else "")
        return f"{place}{': ' if place else ''}refused {self.number} {self.index} {self.word}"


class TableError(TulipcricketError):
    """A table of readings that cannot be used; `where` is file, line and column."""

    def __init__(self, where: str, why: str) -> None:
        super().__init__(where, why)
        self.where = where
        self.why = why

    def __str__(self) -> str:
        return f"{self.where}: {self.why}"


class ValidationError(TulipcricketError):
    """The play and the exact evaluation of the formula differ: a fault of this program, never of the formula."""
