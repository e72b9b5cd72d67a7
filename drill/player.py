"""The player of docs/SHELF.md, with whole numbers only.

The numbers in the headings are the paper's. Names are the paper's words,
in small letters where they are functions. There is no floating-point
number anywhere: a word is a whole number from 0 to 2^64 - 1.

python3 player.py [FOLDER] tries a folder on the shelf (its last part).
"""

import csv
import hashlib
import io
import os
import re
import stat
import sys
import zlib

# 1. WORDS

HIGHEST_BIT = 2**63
ALL_ONES = 2**64 - 1
INFINITY = 0x7FF0000000000000
Q = 0x7FF8000000000000
ONE_HALF = 0x3FE0000000000000  # the word that Half multiplies by
ONE = 0x3FF0000000000000       # the word that Recip divides
NAN_BIT = 2**51                # set in a NaN that arithmetic hands on
UNIT = 2**1074                 # a finite word's value is V / UNIT


def sign(w):
    return w // 2**63


def field(w):
    return w // 2**52 % 2**11


def rest(w):
    """The paper's f."""
    return w % 2**52


def is_nan(w):
    return field(w) == 2047 and rest(w) != 0


def is_infinite(w):
    return field(w) == 2047 and rest(w) == 0


def size(w):
    """The paper's V, of a finite word."""
    e = field(w)
    if e == 0:
        return rest(w)
    return (2**52 + rest(w)) << (e - 1)


def is_zero(w):
    return not is_nan(w) and not is_infinite(w) and size(w) == 0


def signed(s, n):
    """n, below zero where s = 1."""
    return -n if s == 1 else n


def with_sign(s, w):
    """The word w, whose highest bit is clear, with sign s."""
    return w + s * HIGHEST_BIT


# 3. THE LISTING, and page 1: words in a file, a file's checksum


def file_of(words):
    """The words by index, one right after the other, the lowest byte of each first."""
    return b"".join(w.to_bytes(8, "little") for w in words)


def checksum(data):
    a, b = 1, 0
    for byte in data:
        a = (a + byte) % 65521
        b = (b + a) % 65521
    return b * 65536 + a


# 7. OPERATIONS ON WORDS


def near(s, n, m):
    """The word nearest to n / m, with sign s."""
    n = n * UNIT
    q = n // m
    k = 0 if q < 2**53 else q.bit_length() - 53
    m = m << k
    q, r = divmod(n, m)
    if 2 * r > m or (2 * r == m and q % 2 == 1):
        q += 1
    return with_sign(s, min(k * 2**52 + q, INFINITY))


def near_of_sum(total, m, s1, s2):
    """The paper's SUM: the signed sum as a word."""
    if total != 0:
        return near(1 if total < 0 else 0, abs(total), m)
    return with_sign(1 if s1 == 1 and s2 == 1 else 0, 0)


def sign_of_product(a, b):
    return 0 if sign(a) == sign(b) else 1


def handed_on(*operands):
    """The first operand that is NaN, with the bit 2^51 set."""
    first = next(filter(is_nan, operands))
    return first | NAN_BIT


def plus(a, b):
    if is_nan(a) or is_nan(b):
        return handed_on(a, b)
    if is_infinite(a) and is_infinite(b):
        return Q if sign(a) != sign(b) else a
    if is_infinite(a):
        return a
    if is_infinite(b):
        return b
    total = signed(sign(a), size(a)) + signed(sign(b), size(b))
    return near_of_sum(total, UNIT, sign(a), sign(b))


def minus(a, b):
    if is_nan(a) or is_nan(b):
        return handed_on(a, b)
    return plus(a, neg(b))


def times(a, b):
    if is_nan(a) or is_nan(b):
        return handed_on(a, b)
    s = sign_of_product(a, b)
    if is_infinite(a) or is_infinite(b):
        if is_zero(a) or is_zero(b):
            return Q
        return with_sign(s, INFINITY)
    return near(s, size(a) * size(b), UNIT * UNIT)


def divide(a, b):
    if is_nan(a) or is_nan(b):
        return handed_on(a, b)
    s = sign_of_product(a, b)
    if is_infinite(a) and is_infinite(b):
        return Q
    if is_zero(a) and is_zero(b):
        return Q
    if is_infinite(a) or is_zero(b):
        return with_sign(s, INFINITY)
    if is_infinite(b):
        return with_sign(s, 0)
    return near(s, size(a), size(b))


def half(a):
    return times(a, ONE_HALF)


def recip(a):
    return divide(ONE, a)


def mul_add(a, b, c):
    if is_nan(a) or is_nan(b) or is_nan(c):
        return handed_on(a, b, c)
    s = sign_of_product(a, b)
    if is_infinite(a) or is_infinite(b):
        if is_zero(a) or is_zero(b):
            return Q
        if is_infinite(c) and sign(c) != s:
            return Q
        return with_sign(s, INFINITY)
    if is_infinite(c):
        return c
    total = signed(s, size(a) * size(b)) + signed(sign(c), size(c) * UNIT)
    return near_of_sum(total, UNIT * UNIT, s, sign(c))


def largest_root(n):
    """The largest q with q * q <= n, for n from 1."""
    q = 1 << (n.bit_length() + 1) // 2  # not below the root
    while True:
        better = (q + n // q) // 2
        if better >= q:
            return q
        q = better


def root(a):
    if is_nan(a):
        return handed_on(a)
    if is_zero(a):
        return a
    if sign(a) == 1:
        return Q
    if is_infinite(a):
        return a
    n = size(a) * UNIT
    q = largest_root(n)
    k = q.bit_length() - 53
    p = q >> k
    if 4 * n > (2 * p + 1) ** 2 * 4**k:
        p += 1
    return k * 2**52 + p


def to_whole(a, adds_one):
    """Round, Floor, Ceiling and Trunc; adds_one(s, i, r) says where 1 is added to i."""
    if is_nan(a):
        return handed_on(a)
    if is_infinite(a):
        return a
    i, r = divmod(size(a), UNIT)
    if adds_one(sign(a), i, r):
        i += 1
    return near(sign(a), i, 1)


def round_to_whole(a):
    return to_whole(a, lambda s, i, r: 2 * r > UNIT or (2 * r == UNIT and i % 2 == 1))


def floor(a):
    return to_whole(a, lambda s, i, r: r > 0 and s == 1)


def ceiling(a):
    return to_whole(a, lambda s, i, r: r > 0 and s == 0)


def trunc(a):
    return to_whole(a, lambda s, i, r: False)


def value_to_compare(w):
    """A whole number that stands among the others as w's value does."""
    v = 2**2098 if is_infinite(w) else size(w)  # every finite V is below
    return signed(sign(w), v)


def ones_where(truth):
    return ALL_ONES if truth else 0


def greater_than(a, b):
    if is_nan(a) or is_nan(b):
        return 0
    return ones_where(value_to_compare(a) > value_to_compare(b))


def little_than(a, b):
    if is_nan(a) or is_nan(b):
        return 0
    return ones_where(value_to_compare(a) < value_to_compare(b))


def greater_than_equal(a, b):
    if is_nan(a) or is_nan(b):
        return 0
    return ones_where(value_to_compare(a) >= value_to_compare(b))


def little_than_equal(a, b):
    if is_nan(a) or is_nan(b):
        return 0
    return ones_where(value_to_compare(a) <= value_to_compare(b))


def equal(a, b):
    if is_nan(a) or is_nan(b):
        return 0
    return ones_where(value_to_compare(a) == value_to_compare(b))


def not_equal(a, b):
    if is_nan(a) or is_nan(b):
        return ALL_ONES
    return ones_where(value_to_compare(a) != value_to_compare(b))


def ones_where_zero(a):
    return ones_where(is_zero(a))


def neg(a):
    return a ^ HIGHEST_BIT


def absolute(a):
    return a & ~HIGHEST_BIT


def turn_all(a):
    return a ^ ALL_ONES


def both(a, b):
    return a & b


def either(a, b):
    return a | b


def one_only(a, b):
    return a ^ b


def only_sign(a):
    return a & HIGHEST_BIT


# The four of ComplexBi (6), each giving the pair x, y.


def complex_plus(x1, y1, x2, y2):
    return plus(x1, x2), plus(y1, y2)


def complex_minus(x1, y1, x2, y2):
    return minus(x1, x2), minus(y1, y2)


def complex_times(x1, y1, x2, y2):
    x = minus(times(x1, x2), times(y1, y2))
    y = plus(times(y1, x2), times(x1, y2))
    return x, y


def complex_divide(x1, y1, x2, y2):
    n = plus(times(x2, x2), times(y2, y2))
    x = divide(plus(times(x1, x2), times(y1, y2)), n)
    y = divide(minus(times(y1, x2), times(x1, y2)), n)
    return x, y


# 2. THE STORE

STORE_WORDS = 1602
HIGHEST_REGISTER = 65
HIGHEST_CLASS = 2
HIGHEST_POSITION = 255
STACK, PARAM = 0, 2


def real_index(place):
    place_class, position = place
    return 66 + 512 * place_class + 2 * position


def imaginary_index(place):
    return real_index(place) + 1


# 3. THE LISTING

MOST_BYTES = 65536
MOST_CONSTANTS = 256
OWN_LABEL = 3  # the lowest label of a sheet's own

# kind: name, fields in order, length
KINDS = {
    1: ("Uni", "operation d a", 7),
    2: ("Bi", "operation d a b", 8),
    3: ("Mov", "d a", 6),
    4: ("Load", "d place", 8),
    5: ("Save", "a place", 8),
    6: ("LoadConst", "d constant", 7),
    7: ("Fused", "operation d a b c", 9),
    8: ("IfElse", "d a b place", 10),
    11: ("LoadComplex", "d d2 place", 9),
    12: ("SaveComplex", "a a2 place", 9),
    13: ("ComplexBi", "operation d d2 x1 y1 x2 y2", 11),
    14: ("Label", "label", 5),
    15: ("Branch", "label", 5),
    16: ("Call", "label", 5),
    17: ("BranchIf", "a label else", 7),
}

OPERATIONS = {
    "Uni": {0: neg, 1: turn_all, 2: absolute, 3: root, 5: recip,
            6: round_to_whole, 7: floor, 8: ceiling, 9: trunc, 13: half,
            14: ones_where_zero, 16: only_sign},
    "Bi": {0: plus, 1: minus, 2: times, 3: divide, 4: greater_than,
           5: greater_than_equal, 6: little_than, 7: little_than_equal,
           8: equal, 9: not_equal, 10: both, 12: either, 13: one_only},
    "Fused": {0: mul_add},
    "ComplexBi": {0: complex_plus, 1: complex_minus, 2: complex_times,
                  3: complex_divide},
}


def number_at(listing, at, count):
    """A whole number of that many bytes, the lowest first."""
    return int.from_bytes(listing[at:at + count], "little")


def read_record(name, fields, listing, at):
    """The record's fields by name; all but those named below are registers."""
    record = {"kind": name, "registers": []}
    at += 4
    for one in fields.split():
        if one == "place":
            record[one] = (listing[at], number_at(listing, at + 1, 2))
            at += 3
        elif one == "constant":
            record[one] = number_at(listing, at, 2)
            at += 2
        else:
            record[one] = listing[at]
            if one not in ("operation", "label", "else"):
                record["registers"].append(listing[at])
            at += 1
    return record


# 4. WHAT IS EXAMINED FIRST


class Refused(Exception):
    def __init__(self, number, index):
        super().__init__(number, index)
        self.number = number
        self.index = index


def examine_sizes(listing, constants, store):
    """Test a."""
    if (len(listing) > MOST_BYTES or len(constants) > MOST_CONSTANTS
            or len(store) != STORE_WORDS):
        raise Refused(8, 0)


def place_is_allowed(name, place):
    place_class, position = place
    if place_class > HIGHEST_CLASS or position > HIGHEST_POSITION:
        return False
    if name in ("Save", "SaveComplex"):
        return place_class != PARAM
    if name == "IfElse":
        return place_class == STACK
    return True


def examine_record(listing, at, index, count_of_constants):
    """Test b for the record that begins at that byte; gives its length."""
    left = len(listing) - at
    if left < 4:
        raise Refused(1, index)
    length = number_at(listing, at, 2)
    if length < 4 or length > left:
        raise Refused(1, index)
    kind = number_at(listing, at + 2, 2)
    if kind not in KINDS:
        raise Refused(2, index)
    name, fields, length_of_kind = KINDS[kind]
    if length != length_of_kind:
        raise Refused(1, index)
    record = read_record(name, fields, listing, at)
    if "operation" in record and record["operation"] not in OPERATIONS[name]:
        raise Refused(2, index)
    if "else" in record and record["else"] > 1:
        raise Refused(2, index)
    if any(register > HIGHEST_REGISTER for register in record["registers"]):
        raise Refused(3, index)
    if "place" in record and not place_is_allowed(name, record["place"]):
        raise Refused(4, index)
    if "constant" in record and record["constant"] >= count_of_constants:
        raise Refused(5, index)
    return record, length


def examine_records(listing, count_of_constants):
    """Test b; gives the records."""
    records = []
    at = 0
    while at < len(listing):
        record, length = examine_record(
            listing, at, len(records), count_of_constants)
        records.append(record)
        at += length
    return records


def examine_start(start, records):
    """Test c."""
    if start > len(records):
        raise Refused(9, start)


def is_a(record, kind, label):
    return record["kind"] == kind and record["label"] == label


def first(records, kind, label, behind=-1):
    """Index of the first such record behind that index, or None."""
    for index in range(behind + 1, len(records)):
        if is_a(records[index], kind, label):
            return index
    return None


def examine_ways(records):
    """Test d."""
    label_1 = first(records, "Label", 1)
    block_end = None
    if label_1 is not None:
        block_end = first(records, "Branch", 0, behind=label_1)

    def in_block(index):
        return block_end is not None and label_1 < index < block_end

    def breaks_a_rule(index, record):
        kind = record["kind"]
        if kind not in ("Label", "Branch", "Call", "BranchIf"):
            return False
        label = record["label"]
        if in_block(index):
            return True
        if kind == "Label":
            if label == 0 or index != first(records, "Label", label):
                return True
            return label == 1 and block_end is None
        if kind == "Branch" and label < OWN_LABEL:
            if label == 0:
                return False
            return label != 2 or first(records, "Label", 2, index) is None
        if kind == "Call":
            return label != 1 or label_1 is None
        if label < OWN_LABEL or first(records, "Label", label, index) is None:
            return True
        return first(records, "Label", label) < index

    for index, record in enumerate(records):
        if breaks_a_rule(index, record):
            raise Refused(9, index)


def examine(listing, constants, store, start):
    examine_sizes(listing, constants, store)
    records = examine_records(listing, len(constants))
    examine_start(start, records)
    examine_ways(records)
    return records


# 6. THE WORK OF A RECORD


def if_else(a, b, mask):
    return (a & mask) | (b & turn_all(mask))


def work(record, constants, store):
    kind = record["kind"]

    def word(name):
        return store[record[name]]

    def operation():
        return OPERATIONS[kind][record["operation"]]

    if kind == "Uni":
        store[record["d"]] = operation()(word("a"))
    elif kind == "Bi":
        store[record["d"]] = operation()(word("a"), word("b"))
    elif kind == "Fused":
        store[record["d"]] = operation()(word("a"), word("b"), word("c"))
    elif kind == "Mov":
        store[record["d"]] = word("a")
    elif kind == "Load":
        store[record["d"]] = store[real_index(record["place"])]
    elif kind == "Save":
        store[real_index(record["place"])] = word("a")
    elif kind == "LoadConst":
        store[record["d"]] = constants[record["constant"]]
    elif kind == "IfElse":
        mask = store[real_index(record["place"])]
        store[record["d"]] = if_else(word("a"), word("b"), mask)
    elif kind == "LoadComplex":
        x = store[real_index(record["place"])]
        y = store[imaginary_index(record["place"])]
        store[record["d"]] = x
        store[record["d2"]] = y
    elif kind == "SaveComplex":
        x, y = word("a"), word("a2")
        store[real_index(record["place"])] = x
        store[imaginary_index(record["place"])] = y
    elif kind == "ComplexBi":
        x, y = operation()(word("x1"), word("y1"), word("x2"), word("y2"))
        store[record["d"]] = x
        store[record["d2"]] = y


# 5. THE PLAY


def goes_to_its_label(record, store):
    if record["kind"] == "BranchIf":
        return (store[record["a"]] == 0) == (record["else"] == 1)
    return record["kind"] == "Branch" and record["label"] != 0


def play_records(records, constants, store, start):
    """Gives how many records were played."""
    played = 0
    remembered = None
    at = start
    while at < len(records):
        record = records[at]
        played += 1
        if record["kind"] == "Label":
            at += 1
        elif goes_to_its_label(record, store):
            at = first(records, "Label", record["label"])
        elif record["kind"] == "BranchIf":
            at += 1
        elif record["kind"] == "Call":
            remembered = at
            at = first(records, "Label", 1)
        elif record["kind"] == "Branch":
            if remembered is None:
                break
            at = remembered + 1
            remembered = None
        else:
            work(record, constants, store)
            at += 1
    return played


def play(listing, constants, store, start):
    """Plays the listing on the store (a list of words, changed in place).

    Gives back the number, the index and how many records were played.
    """
    try:
        records = examine(listing, constants, store, start)
    except Refused as refused:
        return refused.number, refused.index, 0
    return 0, len(records), play_records(records, constants, store, start)


# A FOLDER ON THE SHELF: python3 player.py [FOLDER]
#
# Compares the folder's files with its MANIFEST, plays every point of its
# file points again, and compares the tables. It is no part of the paper;
# CHECK.txt of such a folder says how to use it. It writes nothing.

SIGNS = {"comma": ",", "semicolon": ";", "tab": "\t", "point": "."}
NAMED = {"inf": INFINITY, "+inf": INFINITY, "-inf": with_sign(1, INFINITY), "nan": Q}


class Damaged(Exception):
    """What is wrong with the folder, in words."""


def opened(folder, name):
    """A plain file of the folder; a link is not followed."""
    path = os.path.join(folder, name)
    if not re.match(r"[A-Za-z0-9][A-Za-z0-9._-]*\Z", name) or not stat.S_ISREG(os.lstat(path).st_mode):
        raise Damaged(ascii(name) + " is no plain file")
    return open(path, "rb")


def sums(file):
    """A file's length, Adler-32 and SHA-256, as MANIFEST has them."""
    length, adler, sha = 0, 1, hashlib.sha256()
    for block in iter(lambda: file.read(1 << 20), b""):
        length, adler = length + len(block), zlib.adler32(block, adler)
        sha.update(block)
    return "%d %08x %s" % (length, adler, sha.hexdigest())


def manifest(folder):
    """The sums of each file by name, and the folder's name."""
    with opened(folder, "MANIFEST") as file:
        data = file.read(1 << 20)
    lines = data.decode("utf-8", "replace").split("\n")
    above = data[: data.rfind(b"\n", 0, len(data) - 1) + 1]
    name = lines[1][len("folder "):] if len(lines) > 3 else ""
    last = "%s MANIFEST of %s" % (sums(io.BytesIO(above)), name)
    if lines[:2] != ["tulipcricket manifest 1", "folder " + name] or lines[-2:] != [last, ""]:
        raise Damaged("MANIFEST is damaged: its last line does not fit the others")
    return {line.rsplit(" ", 1)[1]: line.rsplit(" ", 1)[0] for line in lines[2:-2]}, name


def files_as_listed(folder, listed):
    """Every file has the sums of the manifest, none is missing or added."""
    there = set(os.listdir(folder))
    for name in sorted(there.symmetric_difference(set(listed) | {"MANIFEST"})):
        yield ascii(name) + (" is not in the manifest" if name in there else " is missing")
    for name in sorted(there.intersection(listed)):
        try:
            with opened(folder, name) as file:
                if sums(file) != listed[name]:
                    yield name + " differs from the manifest"
        except Damaged as damaged:
            yield str(damaged)


def read_word(text, decimal, as_words):
    """The word of a cell: a decimal becomes one by NEAR, lost 3 is Q with the mark 3."""
    if as_words:
        return int(text, 16)
    if text.lower() in NAMED:
        return NAMED[text.lower()]
    lost = re.match(r"(?i)lost\s+([0-9]+)\Z", text)
    if lost:
        return Q + int(lost.group(1))
    parts = re.match(r"([+-]?)([0-9]*)\.?([0-9]*)(?:[eE]([+-]?[0-9]+))?\Z", text.replace(decimal, "."))
    s, whole, broken, power = parts.groups()
    n = int(whole + broken or "x")
    # beyond 10^400, and below 10^-400, every decimal has the same word
    tens = max(min(int(power or 0) - len(broken), 400), -400 - len(whole + broken))
    return near(1 if s == "-" else 0, n * 10 ** max(tens, 0), 10 ** max(-tens, 0))


class Points:
    """The file points: what its head says, then a line for each play."""

    def __init__(self, file):
        self.file, self.put, self.answer, self.line = file, [], [], 0
        for words in iter(lambda: self.next_line().split(" ", 2), ["points"]):
            if words[0] == "start":
                self.start = int(words[1])
            elif words[0] == "table":
                self.table = words[1:] if words[1:] == ["none"] else [words[1]] + words[2].split(" ")
            elif words[0] in ("put", "answer"):
                getattr(self, words[0]).append((int(words[1]), words[2]))
            elif words != ["tulipcricket", "points", "1"]:
                raise Damaged("points: line %d is not understood" % self.line)

    def next_line(self):
        self.line += 1
        line = self.file.readline(1 << 17)
        if not line.endswith(b"\n"):
            raise Damaged("points: line %d is not whole" % self.line)
        return line.decode("utf-8")[:-1]

    def __iter__(self):
        for line in iter(lambda: self.file.readline(1 << 17), b""):
            self.line += 1
            yield line.decode("ascii", "replace")


def rows(folder, points, name):
    """The rows of a table; it is read line by line."""
    separator = SIGNS.get(points.table[0]) or chr(int(points.table[0][2:], 16))
    with io.TextIOWrapper(opened(folder, name), "utf-8-sig", newline="\n") as file:
        for line in file:
            for part in line.splitlines():
                if part.strip() and not part.lstrip().startswith("#"):
                    yield next(csv.reader([part], delimiter=separator))


def cells(folder, points, name, headers):
    """The words of these columns, row by row."""
    table = rows(folder, points, name)
    there = [cell.strip() for cell in next(table)]
    at = [there.index(header) for header in headers]
    for row in table:
        yield [read_word(row[i].strip(), SIGNS[points.table[1]], points.table[2] == "words" and name == "given.csv") for i in at]


class Plays:
    """What is played, and the tables beside it, where there are any."""

    def __init__(self, folder, points):
        self.points = points
        with opened(folder, "listing") as file:
            self.listing = file.read(MOST_BYTES + 1)
        self.constants, self.before = words_of(folder, "constants"), words_of(folder, "before")
        self.tables = []
        if points.table != ["none"]:
            headers = [text.split("=", 1)[1] for _, text in points.put]
            self.tables = [("given.csv", cells(folder, points, "given.csv", headers)),
                           ("z.csv", cells(folder, points, "z.csv", [text for _, text in points.answer]))]

    def again(self, put):
        """The words of the answer, and the line of points, worked out."""
        store = list(self.before)
        for (index, _), word in zip(self.points.put, put):
            store[index] = word
        came_back = play(self.listing, self.constants, store, self.points.start)
        answer = [store[index] for index, _ in self.points.answer]
        words = ["%016x" % word for word in put] + ["="] + ["%016x" % word for word in answer] + ["="]
        return answer, " ".join(words + ["%d" % number for number in came_back] + ["%08x\n" % checksum(file_of(store))])

    def differ(self, line):
        """What differs at one line of points: the play, the tables."""
        put = [int(word, 16) for word in line.split("=")[0].split()]
        answer, again = self.again(put)
        if again != line:
            yield "points: line %d differs; played again it is %s" % (self.points.line, again.strip())
        for (name, table), words in zip(self.tables, (put, answer)):
            there = next(table, [])
            if len(there) != len(words) or not all(map(as_told, there, words)):
                yield "%s and line %d of points differ" % (name, self.points.line)

    def left(self):
        """Tables with more lines than points."""
        for name, table in self.tables:
            if next(table, None) is not None:
                yield name + " has more lines than points"


def words_of(folder, name):
    with opened(folder, name) as file:
        data = file.read(MOST_BYTES + 1)
    return [int.from_bytes(data[i:i + 8], "little") for i in range(0, len(data), 8)]


def as_told(told, word):
    """A cell tells a word; of a NaN it tells the mark alone."""
    return told == word or is_nan(told) and is_nan(word) and (told - word) % NAN_BIT == 0


def differences(folder, said):
    """All that differs, in words."""
    listed, said["name"] = manifest(folder)
    yield from files_as_listed(folder, listed)
    said["files"] = len(listed)
    with opened(folder, "points") as file:
        plays = Plays(folder, Points(file))
        for line in plays.points:
            yield from plays.differ(line)
            said["played"] += 1
        yield from plays.left()


def main(folder):
    said, count = {"name": folder, "files": 0, "played": 0}, 0
    try:
        for difference in differences(folder, said):
            count += 1
            if count <= 20:
                print("differs: " + difference)
    except Exception as wrong:  # a folder that is damaged can be wrong in any way
        count += 1
        print("differs: the rest could not be tried: %s %s" % (type(wrong).__name__, ascii(str(wrong))))
    print("files: %d in the manifest; points: %d played again" % (said["files"], said["played"]))
    print("not repeated here: formula to sheet, sheet to listing (SHEET.txt)")
    print("%s: %s" % (said["name"], "%d differ" % count if count else "as it was shelved"))
    return 1 if count else 0


if __name__ == "__main__":
    sys.exit(main(sys.argv[1] if len(sys.argv) > 1 else os.path.dirname(os.path.abspath(__file__))))
