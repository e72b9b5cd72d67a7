"""The command `step`: a listing at the bench, one record at a time. Every bit comes from the library; no file is written."""

from __future__ import annotations

import argparse
import struct
import sys
from typing import Callable, Dict, Iterator, List, NamedTuple, Optional, Tuple

from . import library
from .errors import Refused
from .files import Commands, Unusable, read_file
from .listing import CALL, records
from .sheet import WORDS, Listing, Store
from .texts import name_of
from .words import hexadecimal, written

HELP = """\
Enter   plays the record that is shown, and shows the next one
b       back to the record before
c       on to the end
s NAME  shows a word or a place as it is now: G5, Ret, Mem 0; without a name every word that has changed
q       quits
h       says this"""


class Stand(NamedTuple):
    """Where a play stands: the record, where the call goes on in which it is, and how many records were played."""

    record: int
    returns: Optional[int]
    played: int


class Bench:
    """A play that goes on by single records and back again, on a copy of a store."""

    def __init__(self, listing: Listing, store: Store, start: int) -> None:
        """Raises Refused where a play from `start` is refused."""
        self.listing = listing
        self.first = store
        self.store = store.copy()
        self.count = listing.look(store, start).records
        self.records = records(listing.data)
        self.stand = Stand(start, None, 0)
        self.before: List[Tuple[Stand, Dict[int, int]]] = []

    @property
    def ended(self) -> bool:
        """Whether no record is left to play."""
        return self.stand.record == self.count

    def look(self) -> library.Looked:
        """What the record at which the play stands would do."""
        return self.listing.look(self.store, self.stand.record)

    def follows(self, looked: library.Looked) -> Tuple[int, Optional[int]]:
        """The record that follows, and where the call goes on then: a Call keeps the record behind it, and a Branch 0 returns to it."""
        record, returns = self.records[self.stand.record], self.stand.returns
        if record.kind == CALL:
            return looked.follows, self.stand.record + 1
        if record.returns and returns is not None:
            return returns, None
        return looked.follows, returns

    def step(self) -> None:
        """Plays one record; at the end nothing."""
        if self.ended:
            return
        looked = self.look()
        record, returns = self.follows(looked)
        self._go(Stand(record, returns, self.stand.played + 1), dict(looked.words))

    def finish(self) -> None:
        """Plays on to the end: out of a call by single records, then by one play. `back` undoes it at once."""
        stand, first, kept = self.stand, words(self.store), len(self.before)
        while not self.ended and self.stand.returns is not None:
            self.step()
        after = self.listing.play(self.store, self.stand.record)
        played = self.stand.played + (after.played or 0)
        del self.before[kept:]
        self.before.append((stand, differing(words(after), first)))
        self.stand, self.store = Stand(self.count, None, played), after

    def back(self) -> bool:
        """Takes the last step back; whether there was one."""
        if not self.before:
            return False
        self.stand, changed = self.before.pop()
        self._put(changed)
        return True

    def changed(self) -> Dict[int, int]:
        """The words that are other than at first, as they are now."""
        return differing(words(self.first), words(self.store))

    def _go(self, stand: Stand, changes: Dict[int, int]) -> None:
        old = words(self.store)
        self.before.append((self.stand, {i: old[i] for i in changes}))
        self._put(changes)
        self.stand = stand

    def _put(self, changes: Dict[int, int]) -> None:
        for index, word in changes.items():
            struct.pack_into("<Q", self.store.buffer, 8 * index, word)


def words(store: Store) -> Tuple[int, ...]:
    """The store's 1,602 words."""
    return struct.unpack(f"<{WORDS}Q", store.data)


def differing(some: Tuple[int, ...], others: Tuple[int, ...]) -> Dict[int, int]:
    """Where words differ, with those of the others."""
    return {index: other for index, (one, other) in enumerate(zip(some, others)) if one != other}


def line_of(index: int, word: int) -> str:
    """A word by name, bits and decimal."""
    return f"  {name_of(index)} {hexadecimal(word)} {written(word)}"


def shown(bench: Bench) -> Iterator[str]:
    """The record at which a play stands, and the words that it would write."""
    record = bench.stand.record
    if bench.ended:
        yield f"end, {bench.stand.played} records played"
        return
    yield f"{record} {bench.records[record].text}"
    for index, word in bench.look().words:
        yield line_of(index, word)


def told(bench: Bench, name: str) -> Iterator[str]:
    """The words of a register or place, or without a name those that have changed."""
    if not name:
        for index, word in bench.changed().items():
            yield line_of(index, word)
        return
    for index, word in enumerate(words(bench.store)):
        if name in (name_of(index), name_of(index).rpartition(" ")[0]):
            yield line_of(index, word)


def answer(bench: Bench, line: str) -> List[str]:
    """What one line of a person does, and what is said to it."""
    word, _, rest = line.strip().partition(" ")
    if word in ("", "n"):
        bench.step()
    elif word == "b":
        if not bench.back():
            return ["this is where it began"]
    elif word == "c":
        bench.finish()
    elif word == "s":
        return list(told(bench, rest.strip())) or ["nothing of that name, or nothing has changed"]
    else:
        return HELP.split("\n")
    return list(shown(bench))


def talk(bench: Bench, ask: Callable[[], Optional[str]], say: Callable[[str], None]) -> None:
    """Lines of a person, each answered, until one is q or there is none."""
    for text in shown(bench):
        say(text)
    while True:
        line = ask()
        if line is None or line.strip() == "q":
            return
        for text in answer(bench, line):
            say(text)


def asked() -> Optional[str]:
    """A line of standard input, on a terminal after a prompt; None at its end."""
    if sys.stdin.isatty():
        print("> ", end="", flush=True)
    line = sys.stdin.readline()
    return line if line else None


def add(commands: Commands) -> None:
    """The words of the command."""
    step = commands.add_parser("step", help="step through a listing, record by record", description=step_text(), epilog=HELP,
                               formatter_class=argparse.RawDescriptionHelpFormatter)
    step.add_argument("listing", metavar="LISTING")
    step.add_argument("constants", metavar="CONSTANTS")
    step.add_argument("store", metavar="STORE")
    step.add_argument("start", metavar="START", nargs="?", default="0", help="the record at which the play begins (0)")
    step.set_defaults(call=step_command)


def step_text() -> str:
    """What step does, for --help."""
    return ("Shows a record of a listing and the words that it would write: name, bits, decimal. A line of input plays it or goes\n"
            "back. No file is written. Exit status: 0 stepped through, 1 refused, 2 wrong usage or a file.")


def step_command(words_given: argparse.Namespace) -> None:
    """tulipcricket step."""
    names = [words_given.listing, words_given.constants, words_given.store]
    if "-" in names:
        raise Unusable("standard input has the lines of a person, so step reads no file there")
    if not words_given.start.isdecimal() or int(words_given.start) >= 1 << 64:
        raise Unusable(f"{words_given.start} is no record")
    listing, constants, store = map(read_file, names)
    if len(store) != library.STORE:
        raise Refused(8)
    try:
        talk(Bench(Listing(listing, constants), Store(data=store), int(words_given.start)), asked, print)
    except KeyboardInterrupt:
        print()
