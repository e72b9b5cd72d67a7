"""Puts the shared library, what goes into shelf folders, and the names of commit and kit into the package; setup.cfg has all else."""

import shutil
import subprocess
from pathlib import Path

from setuptools import setup
from setuptools.command.build_py import build_py

ROOT = Path(__file__).resolve().parent.parent
LIBRARY = ROOT / "target" / "staticlib" / "libtulipcricket.so"
DATA = {"SHELF.txt": "docs/SHELF.md", "SHEET.txt": "docs/SHEET.md", "player.py": "drill/player.py"}
"""What goes into shelf folders, and where it stands (tulipcricket/kept.py)."""


class WithLibrary(build_py):
    """The package's files, and the library that c/library makes."""

    def run(self) -> None:
        """Copies both into what is built."""
        super().run()
        if not LIBRARY.is_file():
            raise SystemExit(f"{LIBRARY} is not there: run c/library first")
        folder = Path(self.build_lib) / "tulipcricket"
        shutil.copy2(LIBRARY, folder / LIBRARY.name)
        (folder / "commit").write_text(commit())
        (folder / "kit").write_text("".join(LIBRARY.with_suffix(".built").read_text().splitlines(True)[1:]))
        (folder / "data").mkdir(exist_ok=True)
        for name, place in DATA.items():
            if (ROOT / place).is_file():
                shutil.copy2(ROOT / place, folder / "data" / name)


def commit() -> str:
    """The commit's name, with -dirty where files are changed; nothing where there is no git."""
    words = ["git", "-C", str(ROOT), "describe", "--always", "--abbrev=40", "--dirty", "--exclude=*"]
    try:
        return subprocess.run(words, capture_output=True, text=True, check=False).stdout
    except OSError:
        return ""


setup(cmdclass={"build_py": WithLibrary})
