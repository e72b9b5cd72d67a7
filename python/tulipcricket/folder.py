"""A folder from elsewhere, read without trust: its files by their plain names, no link followed, nothing outside it opened."""

from __future__ import annotations

import os
import re
import stat
from typing import BinaryIO, Dict

from .errors import TulipcricketError

NAME = re.compile(r"[A-Za-z0-9][A-Za-z0-9._-]{0,63}\Z", re.ASCII)
"""A name that a shelf folder's file may have: no path, nothing hidden."""

_READ = os.O_RDONLY | os.O_NOFOLLOW | os.O_NONBLOCK | os.O_CLOEXEC


class Unreadable(TulipcricketError):
    """A file of the folder that cannot be read, or is no plain file."""

    def __init__(self, name: str, why: str) -> None:
        super().__init__(name, why)
        self.name = name
        self.why = why

    def __str__(self) -> str:
        return f"{shown(self.name)}: {self.why}"


def shown(name: str) -> str:
    """A name for a terminal: one with other signs than printed ones, or with a blank at an end, is quoted and escaped."""
    return name if name.isprintable() and name == name.strip() and name else ascii(name)


def kind_of(mode: int) -> str:
    """What stands under a name."""
    kinds = ((stat.S_ISREG, "file"), (stat.S_ISLNK, "symbolic link"), (stat.S_ISDIR, "folder"))
    return next((kind for test, kind in kinds if test(mode)), "device or pipe")


class Folder:
    """An open folder; everything is looked up from it, so that a folder that is moved meanwhile stays the same one."""

    def __init__(self, path: str) -> None:
        self.path = path
        self._folder = os.open(path, os.O_RDONLY | os.O_DIRECTORY | os.O_CLOEXEC)

    def close(self) -> None:
        """Lets it go."""
        os.close(self._folder)

    def __enter__(self) -> "Folder":
        return self

    def __exit__(self, *_: object) -> None:
        self.close()

    def kinds(self) -> Dict[str, str]:
        """What stands there: the kind of each name."""
        with os.scandir(self._folder) as entries:
            return {entry.name: kind_of(entry.stat(follow_symlinks=False).st_mode) for entry in entries}

    def open(self, name: str) -> BinaryIO:
        """A plain file, to be read. Raises Unreadable."""
        if not NAME.match(name):
            raise Unreadable(name, "no name of a file on the shelf")
        try:
            file = os.open(name, _READ, dir_fd=self._folder)
        except OSError as wrong:
            raise Unreadable(name, wrong.strerror or "cannot be opened") from None
        if not stat.S_ISREG(os.fstat(file).st_mode):
            os.close(file)
            raise Unreadable(name, "no plain file")
        return os.fdopen(file, "rb")

    def has(self, name: str) -> bool:
        """Whether a plain file stands there."""
        try:
            return stat.S_ISREG(os.stat(name, dir_fd=self._folder, follow_symlinks=False).st_mode)
        except OSError:
            return False

    def read(self, name: str, most: int) -> bytes:
        """A file's bytes, where they are not more than this. Raises Unreadable."""
        with self.open(name) as file:
            data = file.read(most + 1)
        if len(data) > most:
            raise Unreadable(name, f"more than {most} bytes")
        return data

    def replace(self, name: str, source: BinaryIO) -> None:
        """Puts a copy of what a file holds under a name, whole or not at all; a link that stands there is replaced and not followed."""
        beside = f".{name}.repair"
        if beside in self.kinds():
            os.unlink(beside, dir_fd=self._folder)  # of a repair that was killed
        flags = os.O_WRONLY | os.O_CREAT | os.O_EXCL | os.O_NOFOLLOW | os.O_CLOEXEC
        with os.fdopen(os.open(beside, flags, 0o644, dir_fd=self._folder), "wb") as file:
            try:
                for block in iter(lambda: source.read(1 << 20), b""):
                    file.write(block)
                file.flush()
                os.fsync(file.fileno())
                os.rename(beside, name, src_dir_fd=self._folder, dst_dir_fd=self._folder)
            except BaseException:
                os.unlink(beside, dir_fd=self._folder)
                raise
        os.fsync(self._folder)
