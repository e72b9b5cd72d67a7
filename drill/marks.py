"""Which registers a listing fills and which it draws on before, by docs/SHEET.md, 7.

The listing is one that lowering made, of a whole sheet or of its first
instructions; a branch of such a one may have no Label yet.
"""

BLOCK_LABEL, OVER_LABEL, OWN_LABELS = 1, 2, 3
LABEL, BRANCH, CALL, BRANCH_IF = 14, 15, 16, 17
XOR = 13

# SHELF, 3 and 6: of each kind the fields that are registers read, and those that are registers stored to
READS = {1: [2], 2: [2, 3], 3: [1], 5: [0], 7: [2, 3, 4], 8: [1, 2], 12: [0, 1], 13: [3, 4, 5, 6], BRANCH_IF: [0]}
STORES = {1: [1], 2: [1], 3: [0], 4: [0], 6: [0], 7: [1], 8: [0], 11: [0, 1], 13: [1, 2]}


def records(listing: bytes) -> list[tuple[int, bytes]]:
    """Kind and fields of each record."""
    found, at = [], 0
    while at < len(listing):
        length = int.from_bytes(listing[at:at + 2], "little")
        found.append((int.from_bytes(listing[at + 2:at + 4], "little"), listing[at + 4:at + length]))
        at += length
    return found


class Walk:
    """A walk through records: what is filled, what is marked, and what was noted for each Label."""

    def __init__(self, rows: list[tuple[int, bytes]]) -> None:
        self.rows = rows
        self.filled: set[int] = set()
        self.marked: set[int] = set()
        self.notes: dict[int, list[set[int]]] = {}

    def label(self, number: int) -> int:
        """The index of a Label."""
        return next(i for i, (kind, fields) in enumerate(self.rows) if kind == LABEL and fields[0] == number)

    def work(self, kind: int, fields: bytes) -> None:
        """Marks what the record reads and is not filled, then fills what it stores to."""
        alone = kind == 2 and fields[0] == XOR and fields[2] == fields[3]
        reads = set() if alone else {fields[i] for i in READS.get(kind, [])}
        self.marked |= reads - self.filled
        self.filled |= {fields[i] for i in STORES.get(kind, [])}

    def block(self) -> None:
        """Goes through the block, from Label 1 to the Branch 0 after it."""
        for kind, fields in self.rows[self.label(BLOCK_LABEL):]:
            if (kind, fields) == (BRANCH, b"\0"):
                return
            self.work(kind, fields)

    def jump(self, kind: int, number: int, at: int) -> int:
        """A Label, Branch or BranchIf of this number; the index of the record to go on with."""
        if number == OVER_LABEL and kind == BRANCH:
            return self.label(OVER_LABEL)
        if number >= OWN_LABELS and kind == LABEL:
            self.filled.intersection_update(*self.notes.get(number, []))
        elif number >= OWN_LABELS:
            self.notes.setdefault(number, []).append(set(self.filled))
        return at + 1

    def go(self) -> None:
        """From record 0 to the end."""
        at = 0
        while at < len(self.rows):
            kind, fields = self.rows[at]
            self.work(kind, fields)
            if kind == CALL:
                self.block()
            at = self.jump(kind, fields[kind == BRANCH_IF], at) if kind in (LABEL, BRANCH, BRANCH_IF) else at + 1


def marks(listing: bytes) -> tuple[bytes, bytes]:
    """For each of the 66 registers 1 or 0: whether it is filled at the end, and whether it is marked."""
    walk = Walk(records(listing))
    walk.go()
    return bytes(i in walk.filled for i in range(66)), bytes(i in walk.marked for i in range(66))
