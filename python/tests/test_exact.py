"""The exact arithmetic: section 8 of docs/SHELF.md, the drill's player, and the machine's doubles."""

import math
import operator
import random
import sys
import unittest
from pathlib import Path

from tulipcricket import double_of, exact, word_of

DRILL = Path(__file__).resolve().parent.parent.parent / "drill"
WORDS = [0, 1 << 63, 1, 0x7FF << 52, 0xFFF << 52, 0x7FF8 << 48, 0x7FF1 << 48, 0xFFF9 << 48, 0x3FF << 52, 0x3FE << 52, (1 << 52) - 1,
         1 << 52, 0x7FEFFFFFFFFFFFFF, 0x4330 << 48, 0x3FF0000000000001, 0x3CA << 52, 0xBFDFFFFFFFFFFFFF]


def some_word(chance: random.Random) -> int:
    """A special word, any word, or one of middling size."""
    kind = chance.randrange(3)
    if kind == 0:
        return chance.choice(WORDS)
    if kind == 1:
        return chance.getrandbits(64)
    return chance.getrandbits(1) << 63 | chance.randint(1000, 1090) << 52 | chance.getrandbits(52)


@unittest.skipUnless(DRILL.exists(), "not in the repository")
class Drill(unittest.TestCase):
    """Against the paper and its player."""

    @classmethod
    def setUpClass(cls) -> None:
        """The drill's own files."""
        sys.path.insert(0, str(DRILL))
        import paper  # type: ignore[import-not-found]
        import player  # type: ignore[import-not-found]
        sys.path.remove(str(DRILL))
        cls.paper, cls.player = paper, player

    def test_section_8(self) -> None:
        """Every vector of the paper."""
        section = self.paper.Section()
        self.assertGreaterEqual(len(section.vectors), 100)
        self.assertEqual(list(self.paper.vector_differences(section, exact)), [])

    def test_player(self) -> None:
        """Every operation of the drill's player on random words."""
        chance = random.Random(7)
        for name in self.paper.FUNCTIONS.values():
            theirs, ours = getattr(self.player, name), getattr(exact, name)
            for _ in range(300):
                words = [some_word(chance) for _ in range(theirs.__code__.co_argcount)]
                self.assertEqual(ours(*words), theirs(*words), (name, [f"{word:016x}" for word in words]))


class Machine(unittest.TestCase):
    """Against the machine's own doubles, where no NaN is involved."""

    def test_doubles(self) -> None:
        """Sum, difference, product, quotient, root."""
        chance = random.Random(8)
        pairs = ((exact.plus, operator.add), (exact.minus, operator.sub), (exact.times, operator.mul), (exact.divide, operator.truediv))
        for _ in range(3000):
            a, b = some_word(chance), some_word(chance)
            if exact.is_nan(a) or exact.is_nan(b):
                continue
            for ours, theirs in pairs:
                if theirs is operator.truediv and exact.is_zero(b):
                    continue
                value = theirs(double_of(a), double_of(b))
                self.assertEqual(ours(a, b), exact.Q if math.isnan(value) else word_of(value))
            if not a >> 63:
                self.assertEqual(exact.root(a), word_of(math.sqrt(double_of(a))))


if __name__ == "__main__":
    unittest.main()
