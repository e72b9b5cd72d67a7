"""Tables of readings as text: read by the names of their columns, and written again with the answers."""

from __future__ import annotations

import csv
import io
from typing import Dict, List, Mapping, Optional, Sequence, TextIO, Tuple

from .errors import TableError
from .meaning import Value
from .words import hexadecimal, read, written

SEPARATORS = (";", "\t", ",")


class Table:
    """A table: its separator, its columns' names, and its rows with their line numbers."""

    def __init__(self, text: str, name: str, separator: Optional[str] = None, decimal: str = ".") -> None:
        self.name, self.decimal = name, decimal
        lines = [(i, line) for i, line in enumerate(text.splitlines(), 1) if line.strip() and not line.lstrip().startswith("#")]
        if not lines:
            raise TableError(f"{name}:1", "the table is empty; its first line names its columns")
        self.separator = separator or self._separator(lines[0][1])
        if self.separator == decimal:
            raise TableError(f"{name}:{lines[0][0]}", f"{decimal} parts the columns and cannot be the decimal sign")
        cells = [(i, self._cells(i, line)) for i, line in lines]
        self.names = [cell.strip() for cell in cells[0][1]]
        self.rows = cells[1:]
        for i, row in self.rows:
            if len(row) != len(self.names):
                raise TableError(f"{name}:{i}", f"{len(row)} columns, and the first line has {len(self.names)}")

    def _separator(self, header: str) -> str:
        found = [sign for sign in SEPARATORS if sign in header and sign != self.decimal]
        return found[0] if found else (";" if self.decimal == "," else ",")

    def _cells(self, line: int, text: str) -> List[str]:
        try:
            return next(csv.reader([text], delimiter=self.separator, strict=True))
        except csv.Error as wrong:
            raise TableError(f"{self.name}:{line}", str(wrong)) from None

    def column(self, name: str) -> int:
        """The position of a column."""
        count = self.names.count(name)
        if count == 1:
            return self.names.index(name)
        there = ", ".join(self.names)
        raise TableError(self.name, f"no column {name}; there are: {there}" if count == 0 else f"column {name} stands {count} times")

    def texts(self, name: str) -> List[str]:
        """The cells of a column as they stand."""
        at = self.column(name)
        return [row[at].strip() for _, row in self.rows]

    def words(self, name: str) -> List[int]:
        """The words of a column's readings."""
        at, words = self.column(name), []
        for line, row in self.rows:
            try:
                words.append(read(row[at], self.decimal))
            except ValueError as wrong:
                raise TableError(f"{self.name}:{line}: column {name}", str(wrong)) from None
        return words

    def values(self, name: str, is_complex: bool) -> List[Value]:
        """The values of what is given: of a complex one the columns NAME_re and NAME_im."""
        if not is_complex:
            return [(word,) for word in self.words(name)]
        return list(zip(self.words(f"{name}_re"), self.words(f"{name}_im")))


def columns_of(name: str, values: Sequence[Value], real: bool, bits: bool, decimal: str) -> List[Tuple[str, List[str]]]:
    """The columns in which a name's answers are written."""
    halves = [name] if real else [f"{name}_re", f"{name}_im"]
    columns = [(half, [written(value[i], decimal) for value in values]) for i, half in enumerate(halves)]
    if bits:
        columns += [(f"{half}_bits", [hexadecimal(value[i]) for value in values]) for i, half in enumerate(halves)]
    return columns


def write(columns: Sequence[Tuple[str, List[str]]], separator: str) -> str:
    """Columns as text, the first line their names."""
    out = io.StringIO()
    rows: TextIO = out
    writer = csv.writer(rows, delimiter=separator, lineterminator="\n")
    writer.writerow([name for name, _ in columns])
    writer.writerows(zip(*[cells for _, cells in columns]))
    return out.getvalue()


def renamed(pairs: Sequence[str]) -> Dict[str, str]:
    """NAME=HEADER, each: which column stands for which name."""
    found: Dict[str, str] = {}
    for pair in pairs:
        name, sign, header = pair.partition("=")
        if not sign or not name or not header:
            raise TableError("--column", f"{pair} is not NAME=HEADER")
        found[name] = header
    return found


def use_names(table: Table, names: Mapping[str, str]) -> None:
    """Gives columns the formula's names."""
    for name, header in names.items():
        table.names[table.column(header)] = name
