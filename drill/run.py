"""python3 drill/run.py LIST: plays every case of a list and compares.

Prints a line for each difference (at most 20), then how many plays there
were and how many differ. Exit status 1 if any differs.

A list, all numbers with the lowest byte first, u32 four bytes, a word
eight: u32 count of cases, then each case: u32 length of the listing, u32
count of constants, u32 words of the store, u32 count of words set before,
u32 count of words changed, word start, u32 number, word index, word
records played, the listing, the constants, the word that fills the whole
store, the words set before (u32 store index, word), the words changed at
the end (likewise). All other words must be as they were.
"""

import sys

sys.dont_write_bytecode = True

import player

MOST_LINES = 20


class Reader:
    def __init__(self, data):
        self.data = data
        self.at = 0

    def take(self, count):
        piece = self.data[self.at:self.at + count]
        if len(piece) != count:
            raise SystemExit("the list ends too early, at byte %d" % self.at)
        self.at += count
        return piece

    def u32(self):
        return int.from_bytes(self.take(4), "little")

    def word(self):
        return int.from_bytes(self.take(8), "little")

    def words(self, count):
        return [self.word() for _ in range(count)]

    def indexed_words(self, count):
        return [(self.u32(), self.word()) for _ in range(count)]


def read_case(reader):
    listing_length = reader.u32()
    constants_count = reader.u32()
    store_words = reader.u32()
    set_count = reader.u32()
    changed_count = reader.u32()
    case = {"start": reader.word()}
    case["number"] = reader.u32()
    case["index"] = reader.word()
    case["records played"] = reader.word()
    case["listing"] = reader.take(listing_length)
    case["constants"] = reader.words(constants_count)
    store = [reader.word()] * store_words
    for index, word in reader.indexed_words(set_count):
        store[index] = word
    case["store"] = store
    case["store after"] = list(store)
    for index, word in reader.indexed_words(changed_count):
        case["store after"][index] = word
    return case


def differences(case):
    """Plays the case; gives a line for each answer or word that differs."""
    store = case["store"]
    number, index, played = player.play(
        case["listing"], case["constants"], store, case["start"])
    answers = {"number": number, "index": index, "records played": played}
    lines = []
    for name, answer in answers.items():
        if answer != case[name]:
            lines.append("%s %d, the list has %d" % (name, answer, case[name]))
    if len(store) != len(case["store after"]):
        lines.append("the store's length has changed")
    for at, (word, listed) in enumerate(zip(store, case["store after"])):
        if word != listed:
            lines.append("word %d is %016x, the list has %016x"
                         % (at, word, listed))
    return lines


def main():
    if len(sys.argv) != 2:
        raise SystemExit("usage: python3 drill/run.py LIST")
    with open(sys.argv[1], "rb") as file:
        reader = Reader(file.read())
    count = reader.u32()
    printed = 0
    differ = 0
    for case_number in range(count):
        lines = differences(read_case(reader))
        if lines:
            differ += 1
        for line in lines[:MOST_LINES - printed]:
            print("play %d: %s" % (case_number, line))
            printed += 1
    if reader.at != len(reader.data):
        raise SystemExit("bytes are left behind the last case")
    print("%d plays, %d differ" % (count, differ))
    return 1 if differ else 0


if __name__ == "__main__":
    sys.exit(main())
