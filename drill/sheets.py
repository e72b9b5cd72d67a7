"""python3 drill/sheets.py LIST: reads every sheet of a list by docs/SHEET.md.

A reader written from that paper: setup, refusals 1 to 6, 10 and 11 and
what is recorded as real. It makes no listing, so 7 is taken from the list: up to
that instruction nothing else may refuse; and what is filled and marked (7) is
found by going through the listing of the list. Compares number, index, the
record of realness and the marks; prints a line for each difference (at most 20), then
how many sheets there were and how many differ. Exit status 1 if any does.

The list is the one called `sheets` that oracle/'s make-lists writes; its
format stands in oracle/src/lists.rs.
"""

import sys
from typing import NamedTuple

sys.dont_write_bytecode = True

from marks import marks
from run import MOST_LINES, Reader

RET, TEMP = 30, 31
STACK, MEM, PARAM = 0, 1, 2
PLAIN, STABLE, MINDING = MODES = 0, 1, 2
LISTING_FULL = 7
MOST_INSTRUCTIONS, SHEET_TOO_LONG = 612, 14

# 2. INSTRUCTIONS: kind: name, fields, length
KINDS = {
    0: ("Nop", "", 4),
    1: ("Uni", "op d a", 7),
    2: ("Bi", "op d a b", 8),
    3: ("Mov", "d a", 6),
    4: ("Load", "d place", 8),
    5: ("Save", "a place", 8),
    6: ("LoadConst", "d constant", 7),
    7: ("Fused", "op d a b c", 9),
    8: ("IfElse", "d a b place", 10),
    9: ("LoadMath", "op d a place", 10),
    10: ("LoadConstMath", "op d a constant", 9),
    14: ("Label", "label", 5),
    15: ("Branch", "label", 5),
    17: ("BranchIf", "a label else", 7),
}
LABEL = 14
BRANCHES = ("Branch", "BranchIf")
ARITHMETIC = {0: "Plus", 1: "Minus", 2: "Times", 3: "Divide"}
OPERATIONS = {
    "Uni": {0: "Neg", 1: "Not", 2: "Abs", 3: "Root", 4: "RealRoot", 5: "Recip",
            6: "Round", 7: "Floor", 8: "Ceiling", 9: "Trunc", 10: "Real",
            11: "Imaginary", 12: "Conjugate", 13: "Half", 14: "IsZero",
            15: "IsNotZero", 16: "Sign", 17: "Abs2", 18: "TimesI",
            19: "TimesNegI"},
    "Bi": {0: "Plus", 1: "Minus", 2: "Times", 3: "Divide", 4: "GreaterThan",
           5: "GreaterThanEqual", 6: "LittleThan", 7: "LittleThanEqual",
           8: "Equal", 9: "NotEqual", 10: "And", 12: "Or", 13: "Xor",
           14: "Complex"},
    "Fused": {0: "MulAdd", 1: "MulSub", 2: "NegMulAdd", 3: "NegMulSub"},
    "LoadMath": ARITHMETIC,
    "LoadConstMath": ARITHMETIC,
}

# 5. WHAT IS RECORDED AS REAL
REAL = {"LoadConst", "Not", "Real", "Imaginary", "GreaterThan",
        "GreaterThanEqual", "LittleThan", "LittleThanEqual", "Equal",
        "NotEqual"}
AS_A = {"Mov", "Neg", "Round", "Floor", "Ceiling", "Trunc", "Sign",
        "Conjugate", "Abs", "Abs2", "RealRoot", "Recip"}
WHERE_BOTH = {"Plus", "Minus", "Times", "Divide", "And", "Or", "Xor"}
COMPLEX = {"Root", "TimesI", "TimesNegI", "Complex", "IfElse"}


def two(data, at):
    return int.from_bytes(data[at:at + 2], "little")


class Record:
    """Which registers and places are recorded as real."""

    def __init__(self, mode, places):
        self.mode = mode
        self.registers = [False] * 32
        self.places = bytearray(places)

    def place_is_real(self, place):
        place_class, i = place
        if place_class == MEM:
            return False
        first = 32 if place_class == PARAM else 0
        return self.places[first + i // 8] >> i % 8 & 1 == 1

    def do(self, name, d, a, b=None):
        """One operation into d."""
        real = self.registers
        if name in ("Root", "IfElse", "Equal", "NotEqual"):
            for operand in (a, b):
                if operand is not None:
                    real[operand] = False
        if name == "Root" or (name == "RealRoot" and not real[a]):
            real[TEMP] = real[RET] = False
        if self.mode == MINDING and name == "Divide" and d == TEMP and not real[b]:
            real[RET] = False
        if name in REAL:
            real[d] = True
        elif name in AS_A:
            real[d] = real[a]
        elif name in WHERE_BOTH:
            real[d] = real[a] and real[b]
        elif name in COMPLEX:
            real[d] = False
        elif name != "Half":
            raise ValueError(name)
        elif self.mode == MINDING:
            real[d] = real[a]

    def take(self, kind, one):
        """One instruction."""
        d, a, b, c = (one.get(field) for field in "dabc")
        name = one.get("name", kind)
        if kind == "Load":
            self.registers[d] = self.place_is_real(one["place"])
        elif kind == "Save":
            self.registers[a] = False
            place_class, i = one["place"]
            if place_class == STACK:
                self.places[i // 8] &= ~(1 << i % 8)
        elif kind == "Fused":
            self.do("Times", RET, a, b)
            self.do("Plus", d, RET, c)
        elif kind == "LoadMath":
            self.registers[TEMP] = self.place_is_real(one["place"])
            self.do(name, d, a, TEMP)
        elif kind == "LoadConstMath":
            self.registers[TEMP] = True
            self.do(name, d, a, TEMP)
        elif name in ("IsZero", "IsNotZero"):
            self.do("Equal" if name == "IsZero" else "NotEqual", d, a, TEMP)
        elif kind not in ("Nop", "Label") + BRANCHES:
            self.do(name, d, a, b)

    def copy(self):
        """All that it holds now."""
        return list(self.registers), bytes(self.places)


def setup(sheet, room, table):
    """1, and 8 of 3: mode, places, count of constants, where instructions begin; or None."""
    if len(sheet) < 69 or room > 65536 or table != 256:
        return None
    if two(sheet, 0) != 69 or two(sheet, 2) != 32 or sheet[4] not in MODES:
        return None
    at = 69
    while len(sheet) - at >= 4 and two(sheet, at + 2) == 33:
        if two(sheet, at) != 12 or len(sheet) - at < 12 or at == 69 + 12 * 251:
            return None
        at += 12
    return sheet[4], sheet[5:69], (at - 69) // 12, at


def frame(sheet, at):
    """The first tests of an instruction: 1 or 2, or 0."""
    left = len(sheet) - at
    if left < 4 or two(sheet, at) < 4 or two(sheet, at) > left:
        return 1
    if two(sheet, at + 2) not in KINDS:
        return 2
    return 0 if two(sheet, at) == KINDS[two(sheet, at + 2)][2] else 1


def labels(sheet, at):
    """Where labels stand: pairs of a byte and a label, as far as a record that earns 1."""
    found = []
    while frame(sheet, at) != 1:
        if two(sheet, at + 2) == LABEL:
            found.append((at, sheet[at + 4]))
        at += two(sheet, at)
    return found


def is_misplaced(kind, one, at, standing):
    """Whether 10 refuses the instruction that begins at that byte."""
    if "label" not in one:
        return False
    if one["label"] < 3 or one.get("else", 0) > 1:
        return True
    places = [place for place, label in standing if label == one["label"]]
    if kind == "Label":
        return any(place < at for place in places)
    return not any(place > at for place in places) or any(place < at for place in places)


def read(sheet, at):
    """The kind, the fields by name and the length, or the number 1 or 2."""
    number = frame(sheet, at)
    if number != 0:
        return number
    kind, fields, length = KINDS[two(sheet, at + 2)]
    one, at = {}, at + 4
    for field in fields.split():
        if field == "place":
            one[field] = (sheet[at], two(sheet, at + 1))
            at += 3
        elif field == "constant":
            one[field] = two(sheet, at)
            at += 2
        else:
            one[field] = sheet[at]
            at += 1
    if "op" in one:
        if one["op"] not in OPERATIONS[kind]:
            return 2
        one["name"] = OPERATIONS[kind][one["op"]]
    return kind, one, length


def refusal(kind, one, constants, stable, record, misplaced):
    """3 to 6 and 10, or 0."""
    if any(one.get(field, 0) > 31 for field in "dabc"):
        return 3
    if "place" in one:
        place_class, position = one["place"]
        if place_class > 2 or position > 255:
            return 4
        if (kind == "Save" and place_class == PARAM) or (kind == "IfElse" and place_class != STACK):
            return 4
    if misplaced:
        return 10
    if one.get("constant", -1) >= constants:
        return 5
    return 6 if is_barred(kind, one, stable, record) else 0


def is_barred(kind, one, stable, record):
    if kind == "Fused":
        return one["c"] == RET
    if not stable:
        return False
    if kind == "Bi" and one["name"] == "Divide":
        return not record.registers[one["b"]] and (one["a"] >= RET or one["b"] >= RET)
    if kind == "LoadMath" and one["name"] == "Divide":
        return not record.place_is_real(one["place"])
    return kind == "Uni" and one["name"] == "Abs" and one["a"] == RET and not record.registers[RET]


def lower(sheet, room, table, full_at):
    """Number, index and record; full_at is the instruction that 7 refuses, or None."""
    found = setup(sheet, room, table)
    if found is None:
        return 8, 0, Record(PLAIN, bytes(64))
    mode, places, constants, at = found
    record, index = Record(mode, places), 0
    standing, at_branches = labels(sheet, at), []
    while at < len(sheet):
        if index == MOST_INSTRUCTIONS:
            return SHEET_TOO_LONG, index, record
        got = read(sheet, at)
        if isinstance(got, int):
            return got, index, record
        kind, one, length = got
        number = refusal(kind, one, constants, mode != PLAIN, record, is_misplaced(kind, one, at, standing))
        if number != 0:
            return number, index, record
        if kind == "Label" and any(label == one["label"] and held != record.copy() for label, held in at_branches):
            return 11, index, record
        if index == full_at:
            return LISTING_FULL, index, record
        if kind in BRANCHES:
            at_branches.append((one["label"], record.copy()))
        record.take(kind, one)
        at, index = at + length, index + 1
    return 0, index, record


class Case(NamedTuple):
    """A sheet of a list, the room lent, and what lowering gives."""
    sheet: bytes
    room: int
    table: int
    number: int
    index: int
    flags: bytes
    places: bytes
    marks: tuple[bytes, bytes]
    listing: bytes
    constants: list[int]


def read_case(reader):
    length, room, table, number, index, written, constants = (reader.u32() for _ in range(7))
    flags, places, filled, drawn = (reader.take(count) for count in (32, 64, 66, 66))
    sheet, listing = reader.take(length), reader.take(written)
    return Case(sheet, room, table, number, index, flags, places, (filled, drawn), listing, reader.words(constants))


def cases(path):
    """The cases of a list."""
    with open(path, "rb") as file:
        reader = Reader(file.read())
    found = [read_case(reader) for _ in range(reader.u32())]
    if reader.at != len(reader.data):
        raise SystemExit("bytes are left behind the last case")
    return found


def main():
    if len(sys.argv) != 2:
        raise SystemExit("usage: python3 drill/sheets.py LIST")
    count = differ = 0
    for case in cases(sys.argv[1]):
        full_at = case.index if case.number == LISTING_FULL else None
        number, index, record = lower(case.sheet, case.room, case.table, full_at)
        same_record = bytes(record.registers) == case.flags and record.places == case.places
        if (number, index) != case[3:5] or not same_record or marks(case.listing) != case.marks:
            differ += 1
            if differ <= MOST_LINES:
                print("sheet %d: %d at %d, the list has %d at %d" % (count, number, index, case.number, case.index))
        count += 1
    print("%d sheets, %d differ" % (count, differ))
    return 1 if differ else 0


if __name__ == "__main__":
    sys.exit(main())
