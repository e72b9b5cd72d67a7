"""Which program made an answer."""

from __future__ import annotations

import subprocess
from pathlib import Path

HERE = Path(__file__).resolve().parent


def release() -> str:
    """The version."""
    from . import __version__

    return __version__


def commit() -> str:
    """The commit: as the installed package keeps it, or as git says of the repository; `-dirty` where files of it are changed."""
    kept = HERE / "commit"
    if kept.is_file():
        return kept.read_text().strip() or "unknown"
    if not (HERE.parent.parent / ".git").exists():
        return "unknown"
    words = ["git", "-C", str(HERE), "describe", "--always", "--abbrev=40", "--dirty", "--exclude=*"]
    try:
        said = subprocess.run(words, capture_output=True, text=True, check=False)
    except OSError:
        return "unknown"
    return said.stdout.strip() or "unknown"


def kit() -> str:
    """The toolchain that made the library: as the installed package keeps it, or as c/library noted it."""
    kept, note = HERE / "kit", HERE.parent.parent / "target" / "staticlib" / "libtulipcricket.built"
    if kept.is_file():
        return kept.read_text().strip() or "unknown"
    return (note.read_text().splitlines()[1:] or ["unknown"])[0] if note.is_file() else "unknown"
