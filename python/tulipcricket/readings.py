"""The commands `peak` and `nearest`: the library's functions over columns of tables. No bit is worked out here."""

from __future__ import annotations

import argparse
from typing import List, Optional, Tuple

from . import library
from . import table as tables
from .files import Commands, Unusable, add_bits, add_output, add_table, may_be_made, table_from, write_file


def add(commands: Commands) -> None:
    """The words of both commands."""
    peak = commands.add_parser("peak", help="the running peak of a column", description=peak_text())
    peak.add_argument("table", metavar="TABLE", help="a table with the column; - is standard input")
    peak.add_argument("column", metavar="COLUMN", help="the column of real answers, at most 4096 of them")
    peak.add_argument("window", metavar="W", type=int, help="how many scans a window has, 1 to 64")
    add_bits(peak)
    peak.set_defaults(call=peak_command)
    nearest = commands.add_parser("nearest", help="the nearest reference point of each answer", description=nearest_text())
    nearest.add_argument("answers", metavar="ANSWERS", help="a table with the columns NAME_re and NAME_im; - is standard input")
    nearest.add_argument("references", metavar="REFERENCES", help="a table with the same columns, at most 512 points")
    nearest.add_argument("name", metavar="NAME", help="the complex name, as Z")
    nearest.set_defaults(call=nearest_command)
    for command in (peak, nearest):
        add_output(command)
        add_table(command)


def peak_text() -> str:
    """What peak does, for --help."""
    return (
        "For each line the largest of the last W readings of a column, early windows being shorter. A lost reading is passed over; "
        "zeros are equal, and of equal readings the earliest is given. Exit status: 0 answered, 1 refused, 2 wrong usage or a file."
    )


def nearest_text() -> str:
    """What nearest does, for --help."""
    return (
        "For each line of ANSWERS the nearest point of REFERENCES, its lines counted from 0: the least sum of the squared differences, of "
        "equal ones the latest. A point whose distance is no number is passed over. Exit status: 0 answered, 1 refused, 2 wrong usage or "
        "a file."
    )


def peak_command(words: argparse.Namespace) -> None:
    """tulipcricket peak."""
    may_be_made(words.output, words.force)
    if not 0 <= words.window < 1 << 64:
        raise Unusable(f"{words.window} is no count of scans")
    table = table_from(words, words.table)
    run = table.words(words.column)
    peaks = [(word,) for word in library.peak(run, words.window)]
    columns = [(words.column, table.texts(words.column))]
    columns += tables.columns_of(f"{words.column}_peak", peaks, True, words.bits, table.decimal)
    write_file(words.output, tables.write(columns, table.separator).encode())


def nearest_command(words: argparse.Namespace) -> None:
    """tulipcricket nearest."""
    may_be_made(words.output, words.force)
    if words.answers == words.references == "-":
        raise Unusable("answers and references cannot both be standard input")
    table, other = table_from(words, words.answers), table_from(words, words.references)
    halves = [f"{words.name}_re", f"{words.name}_im"]
    points = pairs(other, halves)
    found = [library.nearest(re, im, points) for re, im in pairs(table, halves)]
    columns = [(half, table.texts(half)) for half in halves] + told(found, [other.texts(half) for half in halves])
    write_file(words.output, tables.write(columns, table.separator).encode())


def pairs(table: tables.Table, halves: List[str]) -> List[Tuple[int, int]]:
    """The words of two columns, line by line."""
    return list(zip(table.words(halves[0]), table.words(halves[1])))


def told(found: List[Optional[int]], halves: List[List[str]]) -> List[Tuple[str, List[str]]]:
    """The columns of the points found: their index, and their two halves as they stand in the table of references."""
    columns = [("nearest", ["none" if i is None else str(i) for i in found])]
    for name, texts in zip(("nearest_re", "nearest_im"), halves):
        columns.append((name, ["none" if i is None else texts[i] for i in found]))
    return columns
