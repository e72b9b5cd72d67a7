"""The file MANIFEST of a shelf folder: length, Adler-32, SHA-256 and name of each other file, and its own sums in its last line.

    tulipcricket manifest 1
    folder steel7
    7 00620012 12ab..ef listing
    ..
    1042 8f6a44d1 98cd..01 MANIFEST of steel7

The last line has the sums of all bytes above it. A manifest is taken only where it is, byte for byte, what would be written for what it
says.
"""

from __future__ import annotations

import hashlib
import io
import zlib
from dataclasses import dataclass
from typing import BinaryIO, Dict, List, NamedTuple, Sequence, Tuple

from .errors import TulipcricketError
from .folder import NAME, Folder, Unreadable, shown

FILE = "MANIFEST"
FIRST = "tulipcricket manifest 1"
MOST = 1 << 20
"""Bytes of the longest manifest that is read."""


class Damaged(TulipcricketError):
    """A manifest that is not as it was written; why."""


class Sums(NamedTuple):
    """A file's length, Adler-32 and SHA-256."""

    length: int
    adler: int
    sha256: str

    def __str__(self) -> str:
        return f"{self.length} {self.adler:08x} {self.sha256}"


def sums_of(file: BinaryIO) -> Sums:
    """The sums of what is left of a file, read in blocks."""
    length, adler, sha = 0, 1, hashlib.sha256()
    for block in iter(lambda: file.read(1 << 20), b""):
        length, adler = length + len(block), zlib.adler32(block, adler)
        sha.update(block)
    return Sums(length, adler, sha.hexdigest())


def folder_name_fits(name: str) -> bool:
    """Whether a manifest can carry a folder's name: printed signs in one line."""
    return 0 < len(name) <= 255 and name.isprintable() and name == name.strip()


@dataclass(frozen=True)
class Manifest:
    """The folder's name, and the sums of its files in their order."""

    folder: str
    files: Tuple[Tuple[str, Sums], ...]

    def written(self) -> bytes:
        """The file's bytes."""
        lines = [FIRST, f"folder {self.folder}", *(f"{sums} {name}" for name, sums in self.files)]
        above = "".join(f"{line}\n" for line in lines).encode()
        return above + f"{sums_of(io.BytesIO(above))} {FILE} of {self.folder}\n".encode()

    @property
    def sums(self) -> Dict[str, Sums]:
        """The sums by name."""
        return dict(self.files)


def _entry(line: str) -> Tuple[str, Sums]:
    """The name and sums of a line. Raises ValueError."""
    length, adler, sha256, name = line.split(" ")
    if not NAME.match(name) or name == FILE:
        raise ValueError
    return name, Sums(int(length), int(adler, 16), sha256)


def parse(data: bytes) -> Manifest:
    """The manifest of these bytes. Raises Damaged."""
    try:
        lines = data.decode().split("\n")
    except UnicodeDecodeError:
        raise Damaged(f"{FILE}: not UTF-8") from None
    if lines[0] != FIRST:
        raise Damaged(f"{FILE}: its first line is not: {FIRST}")
    folder = lines[1][len("folder "):] if len(lines) > 1 else ""
    files: List[Tuple[str, Sums]] = []
    for number, line in enumerate(lines[2:-2], 3):
        try:
            files.append(_entry(line))
        except ValueError:
            raise Damaged(f"{FILE}: line {number} is damaged, or names what is no file on the shelf") from None
    if len({name for name, _ in files}) != len(files):
        raise Damaged(f"{FILE}: a name stands twice")
    manifest = Manifest(folder, tuple(files))
    if not folder_name_fits(folder) or manifest.written() != data:
        raise Damaged(f"{FILE}: its last line does not fit the others")
    return manifest


def read(folder: Folder) -> Manifest:
    """The folder's manifest. Raises Damaged and Unreadable."""
    return parse(folder.read(FILE, MOST))


def made(folder: Folder, name: str, order: Sequence[str]) -> Manifest:
    """The manifest of a folder as it stands."""
    files = []
    for one in order:
        with folder.open(one) as file:
            files.append((one, sums_of(file)))
    return Manifest(name, tuple(files))


class Difference(NamedTuple):
    """A file that is not as in the manifest, and why."""

    name: str
    why: str

    def __str__(self) -> str:
        return f"{shown(self.name)}: {self.why}"


def compared(folder: Folder, name: str, wanted: Sums) -> str:
    """Why a file is not the one of these sums; nothing where it is. A file of another length is not read."""
    try:
        with folder.open(name) as file:
            length = file.seek(0, io.SEEK_END)
            if length != wanted.length:
                return f"{length} bytes, and the manifest has {wanted.length}"
            file.seek(0)
            found = sums_of(file)
    except Unreadable as wrong:
        return wrong.why
    which = [name for name, same in (("Adler-32", found.adler == wanted.adler), ("SHA-256", found.sha256 == wanted.sha256)) if not same]
    return f"its {' and '.join(which)} {'is' if len(which) == 1 else 'are'} not the manifest's" if which or found != wanted else ""


def differences(folder: Folder, manifest: Manifest) -> List[Difference]:
    """What is not as in the manifest: damaged, missing, added, no plain file; of an added file, whether it has a listed one's bytes."""
    kinds, sums, found = folder.kinds(), manifest.sums, []
    for name, wanted in manifest.files:
        why = "missing" if name not in kinds else compared(folder, name, wanted)
        if why:
            found.append(Difference(name, why))
    for name in sorted(set(kinds) - set(sums) - {FILE}):
        found.append(Difference(name, added(folder, name, kinds[name], sums)))
    return found


def added(folder: Folder, name: str, kind: str, sums: Dict[str, Sums]) -> str:
    """What is said of a name that the manifest has not."""
    if kind != "file":
        return f"added: a {kind}, which is left alone"
    if not NAME.match(name):
        return "added: its name is none of a file on the shelf, and it is left alone"
    same = [one for one, wanted in sums.items() if not compared(folder, name, wanted)]
    return f"added: it has the bytes of {same[0]}" if same else "added: the manifest does not name it"
