"""The commands peak and nearest: columns of tables in and out."""

import contextlib
import io
import tempfile
import unittest
from pathlib import Path
from typing import Tuple

from tulipcricket.command import main

READINGS = "f,Z_re,Z_im\n1,3,0\n2,-0,1\n3,0,2\n4,lost 3,3\n5,7,4\n6,1,0\n"
REFERENCES = "Z_re,Z_im\n0,0\n7,4\n3,1\n7,4\n"


class Readings(unittest.TestCase):
    """What both commands write, worked out by hand from document 02's e), g) and j)."""

    def setUp(self) -> None:
        """Two tables in a folder of their own."""
        folder = tempfile.TemporaryDirectory()
        self.addCleanup(folder.cleanup)
        self.folder = Path(folder.name)
        self.table = self.file("z.csv", READINGS)
        self.references = self.file("ref.csv", REFERENCES)

    def file(self, name: str, text: str) -> str:
        """A file in the folder."""
        (self.folder / name).write_text(text, encoding="utf-8")
        return str(self.folder / name)

    def call(self, *words: str) -> Tuple[int, str]:
        """The status, and what was said on standard error."""
        said = io.StringIO()
        with contextlib.redirect_stderr(said):
            status = main(words)
        return status, said.getvalue()

    def written(self, *words: str) -> str:
        """What a command writes into a file."""
        made = self.folder / "made.csv"
        made.unlink(missing_ok=True)
        self.assertEqual(self.call(*words, "-o", str(made)), (0, ""))
        return made.read_text(encoding="utf-8")

    def test_peak(self) -> None:
        """Zeros are equal and the earlier stays; a lost reading is passed over."""
        self.assertEqual(
            self.written("peak", self.table, "Z_re", "2"),
            "Z_re,Z_re_peak\n3,3\n-0,3\n0,-0\nlost 3,0\n7,7\n1,7\n",
        )
        self.assertEqual(
            self.written("peak", self.table, "Z_im", "1", "--bits"),
            "Z_im,Z_im_peak,Z_im_peak_bits\n0,0,0000000000000000\n1,1,3ff0000000000000\n2,2,4000000000000000\n"
            "3,3,4008000000000000\n4,4,4010000000000000\n0,0,0000000000000000\n",
        )
        lost = self.file("lost.csv", "x\nlost 3\n1\n")
        self.assertEqual(self.written("peak", lost, "x", "64"), "x,x_peak\nlost 3,nan\n1,1\n")

    def test_peak_refused(self) -> None:
        """12 for the window and the run; usage and files."""
        for window in ("0", "65"):
            self.assertEqual(self.call("peak", self.table, "Z_re", window), (1, "refused 12 0 wrong window\n"))
        long = self.file("long.csv", "x\n" + 4097 * "1\n")
        self.assertEqual(self.call("peak", long, "x", "1"), (1, "refused 12 0 wrong window\n"))
        self.assertEqual(self.call("peak", self.table, "Z_re", "-1")[0], 2)
        self.assertEqual(self.call("peak", self.table, "Q", "1")[0], 1)
        self.assertEqual(self.call("peak", self.table, "Z_re", "1", "-o", self.table)[0], 2)

    def test_nearest(self) -> None:
        """Of equal distances the latest; none where the distance is no number."""
        self.assertEqual(
            self.written("nearest", self.table, self.references, "Z"),
            "Z_re,Z_im,nearest,nearest_re,nearest_im\n3,0,2,3,1\n-0,1,0,0,0\n0,2,0,0,0\nlost 3,3,none,none,none\n7,4,3,7,4\n1,0,0,0,0\n",
        )
        empty = self.file("empty.csv", "Z_re,Z_im\n")
        self.assertIn("7,4,none,none,none\n", self.written("nearest", self.table, empty, "Z"))

    def test_nearest_refused(self) -> None:
        """13 for more than 512 points; columns that are not there."""
        many = self.file("many.csv", "Z_re,Z_im\n" + 513 * "1,2\n")
        self.assertEqual(self.call("nearest", self.table, many, "Z"), (1, "refused 13 0 wrong points\n"))
        self.assertEqual(self.call("nearest", self.table, self.references, "Y")[0], 1)
        self.assertEqual(self.call("nearest", "-", "-", "Z")[0], 2)


if __name__ == "__main__":
    unittest.main()
