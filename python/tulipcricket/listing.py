"""A listing's records as text, in the form that `listing` prints: the way back of paper.py, by the same tables."""

from __future__ import annotations

from typing import Dict, Iterator, List, NamedTuple, Tuple

from .paper import CLASSES, OTHERS, WITH_OPERATIONS
from .texts import name_of

BRANCH, CALL = 15, 16
SIZES = {"r": 1, "c": 2, "p": 3, "n": 1}

FORMS: Dict[Tuple[int, int], Tuple[str, str]] = {
    (kind, number): (name, fields) for kind, (operations, fields) in WITH_OPERATIONS.items() for name, number in operations.items()
}
"""Kind and operation: the operation's name, and the fields behind it."""

OTHER_FORMS: Dict[int, Tuple[str, str]] = {kind: (name, fields) for name, (kind, fields) in OTHERS.items()}
"""The kinds without an operation."""


class Record(NamedTuple):
    """A record of a listing: its kind and its fields' bytes."""

    kind: int
    fields: bytes

    @property
    def text(self) -> str:
        """The record as `listing` prints it: name or operation, then its fields."""
        if self.kind in OTHER_FORMS:
            name, fields = OTHER_FORMS[self.kind]
            return " ".join([name, *operands(fields, self.fields)])
        name, fields = FORMS[self.kind, self.fields[0]]
        return " ".join([name, *operands(fields, self.fields[1:])])

    @property
    def returns(self) -> bool:
        """Whether it is a Branch 0, which returns from a call or ends the play."""
        return self.kind == BRANCH and self.fields[0] == 0


def operands(fields: str, data: bytes) -> Iterator[str]:
    """Each field as text: a register, a place, a number."""
    for field in fields:
        size = SIZES[field]
        yield shown(field, data[:size])
        data = data[size:]


def shown(field: str, data: bytes) -> str:
    """One field."""
    if field == "r":
        return name_of(data[0])
    if field == "p":
        return f"{CLASSES[data[0]]} {int.from_bytes(data[1:], 'little')}"
    return str(int.from_bytes(data, "little"))


def records(listing: bytes) -> List[Record]:
    """The records of a listing that the player accepts."""
    found, at = [], 0
    while at < len(listing):
        length, kind = int.from_bytes(listing[at: at + 2], "little"), int.from_bytes(listing[at + 2: at + 4], "little")
        found.append(Record(kind, listing[at + 4: at + length]))
        at += length
    return found
