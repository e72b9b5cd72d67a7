"""Files and tables as the commands name them, and the words of the command line that several commands take."""

from __future__ import annotations

import argparse
import sys
from pathlib import Path
from typing import TYPE_CHECKING

from .errors import TableError
from .table import Table

if TYPE_CHECKING:
    Commands = argparse._SubParsersAction[argparse.ArgumentParser]
else:
    Commands = object


class Unusable(Exception):
    """Wrong usage, or a file that cannot be read or made."""


def read_file(name: str) -> bytes:
    """The bytes of a file, or of standard input."""
    try:
        return sys.stdin.buffer.read() if name == "-" else Path(name).read_bytes()
    except OSError as wrong:
        raise Unusable(f"{name}: {wrong.strerror}") from None


def may_be_made(name: str, force: bool) -> None:
    """Refuses a file that exists, and a folder that does not, before any work is done."""
    path = Path(name)
    if name != "-" and path.exists() and not force:
        raise Unusable(f"{name} exists; --force replaces it")
    if name != "-" and not path.parent.is_dir():
        raise Unusable(f"{name}: no folder {path.parent}")


def write_file(name: str, data: bytes) -> None:
    """Writes a file, or standard output."""
    try:
        if name == "-":
            sys.stdout.buffer.write(data)
            sys.stdout.buffer.flush()
        else:
            Path(name).write_bytes(data)
    except OSError as wrong:
        raise Unusable(f"{name}: {wrong.strerror}") from None


def add_output(command: argparse.ArgumentParser) -> None:
    """Where the answers go."""
    command.add_argument("-o", "--output", default="-", metavar="FILE", help="where the answers go (standard output)")
    command.add_argument("--force", action="store_true", help="replace files that exist")


def add_bits(command: argparse.ArgumentParser) -> None:
    """Whether words are written too."""
    command.add_argument("--bits", action="store_true", help="each answer's word too, as 16 hexadecimal digits")


def add_table(command: argparse.ArgumentParser) -> None:
    """How tables are written."""
    command.add_argument("--separator", metavar="SIGN", help="what parts columns: , ; or tab (seen from the first line)")
    command.add_argument("--decimal", default=".", choices=[".", ","], help="the decimal sign of the table and of the answers")


def table_from(words: argparse.Namespace, name: str) -> Table:
    """The table of a file, or of standard input."""
    shown = name if name != "-" else "standard input"
    try:
        text = read_file(name).decode("utf-8-sig")
    except UnicodeDecodeError:
        raise TableError(shown, "this is not UTF-8") from None
    separator = {None: None, "tab": "\t", "\\t": "\t"}.get(words.separator, words.separator)
    if separator is not None and len(separator) != 1:
        raise Unusable("a separator is one sign")
    return Table(text, shown, separator, words.decimal)
