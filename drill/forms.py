"""Sheets with every form of instruction that the tables of docs/SHEET.md, 2, tell apart.

A form is an instruction over chosen registers, each holding an R or a C,
in one of the modes. It is set up by loading the registers that are used
and followed by saving each of them, so that the store at the end shows
what it did; some thirty forms make a sheet. cases() lowers the sheets by
bin/tulipcricket; what is recorded as real is by docs/SHEET.md, 5.
"""

import subprocess
from collections.abc import Iterator
from itertools import product
from pathlib import Path
from tempfile import TemporaryDirectory

from marks import marks
from sheets import KINDS, MEM, MODES, OPERATIONS, PARAM, RET, STACK, TEMP, Case, lower, read

FRONT = Path(__file__).resolve().parent.parent / "bin" / "tulipcricket"
NUMBERS = {name: (number, length) for number, (name, _, length) in KINDS.items()}
USED = (0, 1, 2, RET, TEMP)
SOURCES, SAVED = 100, 150  # places of Mem and Param to load from; places of Mem to save to, after them
CONSTANT = 0x400921FB54442D18
ALL_THREE = tuple(product((0, RET, TEMP), (0, 1, RET, TEMP), (0, 1, 2, RET, TEMP)))
SOME_THREE = ((0, 1, 2), (0, 0, 1), (0, 1, 0), (0, 1, 1), (TEMP, RET, 1), (RET, TEMP, 1), (0, TEMP, RET), (RET, RET, TEMP))
TWO = tuple(product((0, RET, TEMP), (0, 1, RET, TEMP)))
BY_PLACES = ("Divide", "Times", "Equal", "NotEqual")  # operations tried over every choice of registers


def record(kind: str, *fields: int) -> bytes:
    number, length = NUMBERS[kind]
    return length.to_bytes(2, "little") + number.to_bytes(2, "little") + bytes(fields)


def place(place_class: int, position: int) -> tuple[int, int, int]:
    return place_class, position, 0


def instructions() -> Iterator[bytes]:
    """Every instruction, over the registers chosen for it."""
    for op, registers in product(OPERATIONS["Uni"], TWO):
        yield record("Uni", op, *registers)
    for op, name in OPERATIONS["Bi"].items():
        for registers in ALL_THREE if name in BY_PLACES else SOME_THREE:
            yield record("Bi", op, *registers)
    for op, registers, c in product(OPERATIONS["Fused"], SOME_THREE, (0, 2, TEMP)):
        yield record("Fused", op, *registers, c)
    for op, registers, source in product(OPERATIONS["LoadMath"], TWO, (PARAM, MEM)):
        yield record("LoadMath", op, *registers, *place(source, SOURCES - 1))
    for op, registers in product(OPERATIONS["LoadConstMath"], TWO):
        yield record("LoadConstMath", op, *registers, 0, 0)
    for registers in SOME_THREE:
        yield record("IfElse", *registers, *place(STACK, 2))
    for registers in TWO:
        yield record("Mov", *registers)


def header(mode: int) -> bytes:
    """With one constant; every Param is real."""
    return bytes([69, 0, 32, 0, mode]) + bytes(32) + b"\xff" * 32 + bytes([12, 0, 33, 0]) + CONSTANT.to_bytes(8, "little")


def loads(reals: tuple[bool, ...], at: int) -> bytes:
    """Each register that is used gets an R or a C."""
    return b"".join(record("Load", register, *place(PARAM if real else MEM, (at + i) % SOURCES))
                    for i, (register, real) in enumerate(zip(USED, reals)))


def saves(at: int) -> bytes:
    return b"".join(record("Save", register, *place(MEM, SOURCES + at + i)) for i, register in enumerate(USED))


def holdings(instruction: bytes) -> Iterator[tuple[bool, ...]]:
    """Every choice of R and C for the registers that the instruction names; the others hold a C."""
    _, one, _ = read(instruction, 0)
    named = {one[field] for field in "dabc" if field in one}
    yield from product(*((True, False) if register in named else (False,) for register in USED))


def is_accepted(sheet: bytes) -> bool:
    return lower(sheet, 65536, 256, None)[0] == 0


def sheets() -> Iterator[bytes]:
    """The forms that are not refused, some thirty a sheet."""
    for mode in MODES:
        sheet, at, count = header(mode), 0, 0
        for instruction in instructions():
            for reals in holdings(instruction):
                count += 1
                if not is_accepted(header(mode) + loads(reals, count) + instruction):
                    continue
                sheet += loads(reals, 7 * count) + instruction + saves(at)
                at += len(USED)
                if at == SAVED:
                    yield sheet
                    sheet, at = header(mode), 0
        yield sheet


def drawn_line(marked: bytes) -> str:
    """What the program prints of the registers that are marked."""
    names = [f"G{i}" for i in range(64)] + ["Ret", "Temp"]
    return " ".join(["draws on", *([name for name, mark in zip(names, marked) if mark] or ["nothing"])])


def lowered(sheet: bytes, folder: Path) -> Case:
    """The sheet with the listing and constants that the program gives, which prints the marks of docs/SHEET.md, 7."""
    paths = [folder / name for name in ("sheet", "listing", "constants")]
    paths[0].write_bytes(sheet)
    said = subprocess.run([str(FRONT), "lower", *map(str, paths)], check=True, stdout=subprocess.PIPE, text=True).stdout
    number, index, kept = lower(sheet, 65536, 256, None)
    listing = paths[1].read_bytes()
    marked = marks(listing)
    if said.splitlines()[1] != drawn_line(marked[1]):
        raise SystemExit(f"{said.splitlines()[1]}, and the paper's is {drawn_line(marked[1])}: {sheet.hex()}")
    words = paths[2].read_bytes()
    constants = [int.from_bytes(words[i:i + 8], "little") for i in range(0, len(words), 8)]
    return Case(sheet, 65536, 256, number, index, bytes(kept.registers), bytes(kept.places), marked, listing, constants)


def cases() -> list[Case]:
    found = []
    for sheet in sheets():
        with TemporaryDirectory() as folder:
            found.append(lowered(sheet, Path(folder)))
    return found
