"""What goes from the program into every shelf folder, where it is found, and which program this is: papers, the second player, versions."""

from __future__ import annotations

import hashlib
import importlib.util
import os
import subprocess
import sys
from functools import lru_cache
from pathlib import Path
from typing import Any, Optional, Tuple

from . import library, provenance

HERE = Path(__file__).resolve().parent
ROOT = HERE.parent.parent
PLACES = {"SHELF.txt": "docs/SHELF.md", "SHEET.txt": "docs/SHEET.md", "player.py": "drill/player.py"}
"""The names in a folder, and where the repository has them."""

PROGRAMS = "TULIPCRICKET_PROGRAMS"


def path_of(name: str) -> Optional[Path]:
    """Where this program has a file that it puts into folders: in the installed package, or in the repository."""
    places = (HERE / "data" / name, ROOT / PLACES[name])
    return next((path for path in places if path.is_file()), None)


@lru_cache(maxsize=None)
def second_player() -> Any:
    """player.py of this program, as a module; None where it is not here. Never that of a folder."""
    path = path_of("player.py")
    spec = importlib.util.spec_from_file_location("tulipcricket_second_player", path) if path else None
    if spec is None or spec.loader is None:
        return None
    module = importlib.util.module_from_spec(spec)
    writes, sys.dont_write_bytecode = sys.dont_write_bytecode, True
    try:
        spec.loader.exec_module(module)
    finally:
        sys.dont_write_bytecode = writes
    return module


def program(name: str) -> Optional[Path]:
    """One of the proved programs: in the folder that the front names, or that a variable names."""
    folder = os.environ.get(PROGRAMS)
    path = Path(folder) / name if folder else None
    return path if path is not None and os.access(path, os.X_OK) else None


def sheet_text(sheet: bytes) -> Optional[bytes]:
    """A sheet as text, by the proved program; None where it is not here."""
    path = program("sheet_text")
    if path is None:
        return None
    said = subprocess.run([str(path)], input=sheet, capture_output=True, check=False).stdout
    return None if said.startswith(b"refused") else said


def pages(listing: bytes, constants: bytes) -> bytes:
    """The listing as printed pages (pages.txt), by the library."""
    return library.pages(listing, constants).encode()


def origins(sheet: bytes) -> bytes:
    """Where each constant came from (the file origins): two bytes each, as lowering gives them."""
    return library.lower(sheet).origins


def drawn_on(sheet: bytes) -> Tuple[int, ...]:
    """The registers on which the listing of a sheet draws before it fills them, by number."""
    return library.lower(sheet).drawn


def version() -> bytes:
    """The file VERSION: version, commit, whether files of it were changed, kit, and the library's own sum."""
    commit = provenance.commit()
    changed = "yes" if commit.endswith("-dirty") else "unknown" if commit == "unknown" else "no"
    lines = [f"tulipcricket {provenance.release()}", f"commit {commit[:-6] if changed == 'yes' else commit}", f"changed {changed}",
             f"kit {provenance.kit()}", f"library {library_sum()}"]
    return "".join(f"{line}\n" for line in lines).encode()


def library_sum() -> str:
    """The SHA-256 of the shared library's file."""
    path = library.found()
    return hashlib.sha256(path.read_bytes()).hexdigest() if path is not None else "none"
