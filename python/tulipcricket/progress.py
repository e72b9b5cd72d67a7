"""How far a long work has come."""

from __future__ import annotations

import sys
import time


class Bar:
    """A bar of progress on a terminal, where it takes longer than a second."""

    def __init__(self) -> None:
        self.terminal = sys.stderr.isatty()
        self.began = self.last = time.monotonic()

    def __call__(self, done: int, count: int) -> None:
        """So many points of all are done."""
        now = time.monotonic()
        if not self.terminal or now - self.began < 1 or (now - self.last < 0.1 and done < count):
            return
        self.last = now
        filled = 40 * done // count
        sys.stderr.write(f"\r[{'#' * filled}{'.' * (40 - filled)}] {done} of {count}{chr(10) if done == count else ''}")
        sys.stderr.flush()
