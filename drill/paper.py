"""Section 8 of docs/SHELF.md, read from the paper itself.

check(player) gives a line for each word or answer in which a player
differs from the paper; `player` has the names of player.py.
"""

import re
from pathlib import Path

PAPER = Path(__file__).resolve().parent.parent / "docs" / "SHELF.md"
ONES = 2**64 - 1

# the paper's names of the operations, and the player's
FUNCTIONS = {
    "Plus": "plus", "Minus": "minus", "Times": "times", "Divide": "divide",
    "Half": "half", "Recip": "recip", "MulAdd": "mul_add", "Root": "root",
    "Round": "round_to_whole", "Floor": "floor", "Ceiling": "ceiling",
    "Trunc": "trunc", "IsZero": "ones_where_zero",
    "GreaterThan": "greater_than", "GreaterThanEqual": "greater_than_equal",
    "LittleThan": "little_than", "LittleThanEqual": "little_than_equal",
    "Equal": "equal", "NotEqual": "not_equal",
    "Neg": "neg", "Abs": "absolute", "Not": "turn_all", "Sign": "only_sign",
    "And": "both", "Or": "either", "Xor": "one_only",
    "ComplexBi Plus": "complex_plus", "ComplexBi Minus": "complex_minus",
    "ComplexBi Times": "complex_times", "ComplexBi Divide": "complex_divide",
}


def word(digits):
    """A word as section 8 writes it: without the zeros at its end."""
    return ONES if digits == "ones" else int(digits.ljust(16, "0"), 16)


def section_8():
    """Its text, without page lines, each run of blanks and line feeds one blank."""
    text = PAPER.read_text(encoding="ascii")
    text = text[text.index("\n8. TO TRY A NEW PLAYER\n"):]
    text = re.sub(r"\f.*\n", "", re.split(r"\n9\. ", text)[0])
    return " ".join(text.split())


def between(text, start, end):
    """What stands behind the line that begins with `start`, up to `end`."""
    text = text[text.index(start) + len(start):]
    return text[:text.index(end)] if end else text


def items(text):
    """What is parted by semicolons, each as left and right of its `=`."""
    pairs = [one.split("=") for one in text.split(";")]
    return [(left.split(), right.split()) for left, right in pairs]


def vectors(text):
    """Operation, operands and results of each vector; a name holds until the next."""
    found, name = [], None
    for left, right in items(text):
        names = [one for one in left if one[0].isupper()]
        name = " ".join(names) or name
        operands = [word(one) for one in left[len(names):]]
        found.append((name, operands, [word(one) for one in right]))
    return found


def words(text):
    """Words of a store by index."""
    pairs = re.findall(r"(\d+) = ([0-9a-f]+)", text)
    return {int(index): word(digits) for index, digits in pairs}


def cut_or_filled(row, count):
    """So many of them: the last left off, or zeros put behind."""
    return (row + [0] * (count - len(row)))[:count]


class Play:
    """One play: what it is given, the answer and the store's checksum where the paper has it."""

    def __init__(self, listing, left, right):
        given = {"start": 0, "constants": len(listing.constants), "words": 1602, "bytes": len(listing.listing)}
        changes = []
        for name, one in zip([None] + left, left):
            if name in given:
                given[name] = int(one)
            elif ":" in one:
                changes.append(one.split(":"))
        self.name, self.start = " ".join(left), given["start"]
        self.constants = cut_or_filled(listing.constants, given["constants"])
        self.store = cut_or_filled(listing.store, given["words"])
        self.listing = bytearray(cut_or_filled(list(listing.listing), given["bytes"]))
        for at, byte in changes:
            self.listing[int(at)] = int(byte, 16)
        if len(right) == 1:
            right = listing.answer + right
        self.answer = tuple(map(int, right[:3]))
        self.checksum = right[3] if len(right) > 3 else None

    def differences(self, player, after=None):
        """A line for each difference from the paper; after is the store at the end, where the paper has it."""
        store = list(self.store)
        answer = player.play(bytes(self.listing), self.constants, store, self.start)
        if answer != self.answer:
            yield "%s gives %s" % (self.name, answer)
        if self.answer[0] != 0:
            after = self.store
        if after is not None:
            yield from ("%s, word %d is %016x" % (self.name, at, given)
                        for at, (given, listed) in enumerate(zip(store, after)) if given != listed)
        if self.checksum is not None:
            given = "%08x" % player.checksum(player.file_of(store))
            if given != self.checksum:
                yield "%s gives a store with the checksum %s" % (self.name, given)


class Listing:
    """A listing of section 8 with its plays, from the text that begins with its number."""

    def __init__(self, text):
        self.checksum = between(text, "checksum ", ":")[:8]
        self.listing = bytes.fromhex(between(text, ":", "With one constant"))
        self.constants = [word(between(text, "With one constant, ", ","))]
        before = words(between(text, "zeros but for words", "from start 0"))
        self.store = [before.get(index, 0) for index in range(1602)]
        answer = between(text, "comes back", ",").split()
        after = words(between(text, "words are new:", "With a change"))
        self.after = [after.get(at, old) for at, old in enumerate(self.store)]
        self.answer = answer[:3]
        self.whole = Play(self, ["start", "0"], answer)
        listed = items(between(text, "With a change comes back:", None))
        self.plays = [Play(self, left, right) for left, right in listed]

    def differences(self, player):
        given = "%08x" % player.checksum(self.listing)
        if given != self.checksum:
            yield "the listing's checksum is " + given
        yield from self.whole.differences(player, self.after)
        for play in self.plays:
            yield from play.differences(player)


class Section:
    """All that section 8 has to try."""

    def __init__(self):
        text = section_8()
        self.vectors = (vectors(between(text, "Operands = result:", "With NaN operands:"))
                        + vectors(between(text, "With NaN operands:", "Then plays")))
        self.listings = [Listing(one) for one in re.split(r"Listing \d", text)[1:]]
        self.of_ff = re.search(r"checksum of (\d+) bytes ff is ([0-9a-f]{8})", text)

    def count_of_plays(self):
        return sum(1 + len(listing.plays) for listing in self.listings)


def vector_differences(section, player):
    for name, operands, results in section.vectors:
        given = getattr(player, FUNCTIONS[name])(*operands)
        given = list(given) if isinstance(given, tuple) else [given]
        if given != results:
            yield "%s of %s is %s" % (
                name, ["%016x" % one for one in operands],
                ["%016x" % one for one in given])


def check(player, section=None):
    """The differences one after the other, each worked out where it is asked for."""
    section = section or Section()
    given = "%08x" % player.checksum(b"\xff" * int(section.of_ff[1]))
    if given != section.of_ff[2]:
        yield "the checksum of bytes ff is " + given
    yield from vector_differences(section, player)
    for listing in section.listings:
        yield from listing.differences(player)
