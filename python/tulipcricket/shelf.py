"""The commands `shelve` and `check`: their words, and what they are called with."""

from __future__ import annotations

import argparse
import os
import signal
import sys
from typing import Dict, List, NoReturn, Optional, Tuple

from . import check, shelve
from . import table as tables
from .files import Commands, Unusable, add_table, read_file, table_from
from .library import STORE
from .progress import Bar
from .sheet import Sheet

SHELVE = ("Puts a formula, its table and its answers into one new folder, with all that is needed to repeat them in thirty years. "
          "Exit status: 0 made, 1 refused, 2 wrong usage, a file, or a folder that exists or cannot be made; then none is left.")
CHECK = ("Compares a folder that shelve made with its manifest, makes everything in it again and compares that, by the proved player and "
         "by player.py. Exit status: 0 nothing differs, 1 something does, 2 wrong usage or no such folder.")


def add(commands: Commands) -> None:
    """The words of both commands."""
    shelve_words(commands)
    check_words(commands)


def shelve_words(commands: Commands) -> None:
    """The words of shelve."""
    shelf = commands.add_parser("shelve", help="put a scan on the shelf, as one folder", description=SHELVE)
    shelf.set_defaults(call=shelve_command)
    shelf.add_argument("files", nargs="+", metavar="FILE", help="FORMULA [TABLE] FOLDER; with --sheet or --listing [TABLE] FOLDER")
    shelf.add_argument("--sheet", metavar="FILE", help="a sheet in place of a formula")
    shelf.add_argument("--listing", metavar="FILE", help="a listing in place of a formula")
    shelf.add_argument("--constants", metavar="FILE", help="the listing's constants")
    shelf.add_argument("--before", metavar="STORE", help="of a sheet or a listing: the store before each play (zeros)")
    shelf.add_argument("--start", type=int, default=0, metavar="N", help="of a listing: the record that each play begins with (0)")
    shelf.add_argument("--answer", action="append", default=[], metavar="PLACE",
                       help="of a sheet or a listing: Mem 0, Mem 1 im, G5 .. (all words of Mem that it saves to)")
    shelf.add_argument("--words", action="store_true", help="the table's cells are words of 16 hexadecimal digits, not decimals")
    shelf.add_argument("--stores", action="store_true", help="keep the store after each play too")
    add_table(shelf)
    shelf.add_argument("--column", action="append", default=[], metavar="NAME=HEADER", help="the table's column for a given name or word")


def check_words(commands: Commands) -> None:
    """The words of check."""
    checks = commands.add_parser("check", help="check a folder that shelve made", description=CHECK)
    checks.set_defaults(call=check_command)
    checks.add_argument("folder", metavar="FOLDER")
    checks.add_argument("--files", action="store_true", help="compare the files with the manifest, and no more")
    checks.add_argument("--second", default="every", choices=["three", "every"], help="points that player.py plays too (every)")
    checks.add_argument("--repair", nargs="+", default=[], metavar="COPY", help="name for each damaged file a copy that agrees")
    checks.add_argument("--write", action="store_true", help="with --repair: put these copies in place")


def table_at(words: argparse.Namespace, name: Optional[str]) -> Tuple[Optional[tables.Table], bytes, Dict[str, str]]:
    """A table, its bytes, and the header of each column that has another name."""
    if name is None:
        return None, b"", {}
    table, headers = table_from(words, name), tables.renamed(words.column)
    tables.use_names(table, headers)
    return table, read_file(name), headers


def scan_of(words: argparse.Namespace, files: List[str]) -> shelve.Scan:
    """What is to be shelved."""
    if words.sheet is None and words.listing is None:
        if words.before is not None or words.start or words.answer or not files:
            raise Unusable("--before, --start and --answer need --sheet or --listing" if files else "no formula file is said")
        table, given, headers = table_at(words, files[1] if len(files) > 1 else None)
        return shelve.formula_scan(words, read_file(files[0]), files[0], table, given, headers)
    table, given, headers = table_at(words, files[0] if files else None)
    kept = {"given.csv": given} if table is not None else {}
    if words.listing is not None:
        if words.constants is None or words.sheet is not None:
            raise Unusable("--listing needs --constants, and no --sheet")
        listing, constants = read_file(words.listing), read_file(words.constants)
    else:
        if words.start:
            raise Unusable("--start needs --listing")
        kept["sheet"] = read_file(words.sheet)
        lowered = Sheet(kept["sheet"]).lower()
        listing, constants = lowered.data, lowered.constants
    if not 0 <= words.start < 1 << 64:
        raise Unusable(f"{words.start}: no record's index, which is 0 to {(1 << 64) - 1}")
    before = read_file(words.before) if words.before is not None else bytes(STORE)
    if len(before) != STORE:
        raise Unusable(f"{words.before}: {len(before)} bytes, and a store has {STORE}")
    return shelve.words_scan(words, kept, listing, constants, before, table, headers)


def stopped(*_: object) -> NoReturn:
    """A signal ends the command as a person at the keyboard does."""
    raise KeyboardInterrupt


def shelve_command(words: argparse.Namespace) -> None:
    """tulipcricket shelve."""
    *files, folder = words.files
    most = 2 if words.sheet is None and words.listing is None else 1
    if len(files) > most or "-" in words.files:
        raise Unusable("shelve takes FORMULA [TABLE] FOLDER, each a file's name, or with --sheet or --listing [TABLE] FOLDER")
    for number in (signal.SIGTERM, signal.SIGHUP):
        signal.signal(number, stopped)
    target = shelve.target_of(folder)
    scan = scan_of(words, files)
    bar, count = Bar(), sum(1 for _ in scan.rows())
    shelve.shelve(scan, target, words.stores, lambda done: bar(done, count), differing)


def differing(folder: str) -> List[str]:
    """What check tells as different, player.py playing three points."""
    lines: List[str] = []
    check.check(folder, lines.append, True, False, lambda done, count: None)
    return [line for line in lines if line.startswith("differs: ")]


def say(line: str) -> None:
    """A line on standard output; what cannot be written is told, and nothing more is tried to be written there."""
    try:
        print(line, flush=True)
    except OSError as wrong:
        os.dup2(os.open(os.devnull, os.O_WRONLY), sys.stdout.fileno())
        if isinstance(wrong, BrokenPipeError):
            raise
        raise Unusable(f"standard output: {wrong.strerror}") from None


def check_command(words: argparse.Namespace) -> int:
    """tulipcricket check."""
    if words.write and not words.repair:
        raise Unusable("--write needs --repair and a copy")
    try:
        if words.write:
            check.repair(words.folder, words.repair, True, say)
        count = check.check(words.folder, say, words.second == "three", words.files, Bar())
        if words.repair and not words.write:
            check.repair(words.folder, words.repair, False, say)
    except BrokenPipeError:
        raise
    except OSError as wrong:
        raise Unusable(f"{wrong.filename or words.folder}: {wrong.strerror}") from None
    return 1 if count else 0
