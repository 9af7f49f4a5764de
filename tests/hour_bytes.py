"""Hours before they are bytes, and as words and bytes, as document 01 lays them out."""

import struct
from collections import namedtuple

GENERATOR, REAL_TIME_LOAD, PROFILE_LOAD, IMPORT, EXPORT = 1, 2, 3, 4, 5
KINDS = (GENERATOR, REAL_TIME_LOAD, PROFILE_LOAD, IMPORT, EXPORT)
LOADS = (REAL_TIME_LOAD, PROFILE_LOAD)

# A record's words 3 to 10 by document 01's letters, the letters that each kind uses, and their ends.
LETTERS = "SAJNOMFH"
USED = {GENERATOR: "SAJNOMFH", REAL_TIME_LOAD: "SAJNO", PROFILE_LOAD: "SAJNO", IMPORT: "SJNFH", EXPORT: "SAJ"}
LOWEST = dict(S=0, A=0, J=-100_000, N=0, O=0, M=0, F=1, H=1)
HIGHEST = dict(S=100_000, A=100_000, J=100_000, N=100_000, O=100_000, M=100_000, F=20_000, H=20_000)

MOST_PRICE = 1_000_000
MOST_TIE = 10_000_000
MOST_RECORDS = 250

# Word 0 of the first block and of the others, and how much a file, a block and a record hold.
Layout = namedtuple("Layout", "first_mark other_mark most_blocks records_in_a_block record_words")


class Hour:
    """An hour before it is bytes: prices one a zone, areas as [zone, tie in, tie out], records as made
    by `record`."""

    layout = Layout(1, 2, 26, 10, 12)

    def __init__(self, number, members, prices, areas, records):
        self.number = number
        self.members = members
        self.prices = prices
        self.areas = areas
        self.records = records

    def blocks(self):
        """The blocks as lists of 128 words, sums mended."""
        most = self.layout.records_in_a_block
        held = [self.records[at:at + most] for at in range(0, len(self.records), most)]
        blocks = [padded([self.layout.first_mark, 0, len(held), 0, 0, 0, 0, 0, *self.head()], 128)]
        for position, records in enumerate(held, 1):
            words = [self.layout.other_mark, position, len(records), 0, 0, 0, 0, 0]
            for each in records:
                words += self.words_of(each)
            blocks.append(padded(words, 128))
        for block in blocks:
            mend(block)
        return blocks

    def head(self):
        """The words of the first body, up to the zeros that it ends with."""
        words = [self.number, self.members, len(self.prices), len(self.areas)]
        words += padded([price % 2**32 for price in self.prices], 4)
        for zone, tie_in, tie_out in self.areas:
            words += [zone, tie_in, tie_out, 0]
        return words

    def words_of(self, each):
        return record_words(each)

    def where(self, place, word):
        """The block and the word in it at which a word of a record stands."""
        block, within = divmod(place, self.layout.records_in_a_block)
        return 1 + block, 8 + self.layout.record_words * within + word

    def encode(self):
        return to_bytes(self.blocks())

    def of_area(self, area, *kinds):
        return [r for r in self.records if r["area"] == area and r["kind"] in kinds]


def record(kind, member, area, **letters):
    """A record; letters that are left out are 0."""
    return {"kind": kind, "member": member, "area": area, **dict.fromkeys(LETTERS, 0), **letters}


def letter_of_actual(kind):
    """The letter of what a record took or brought: an import is deemed to have brought what was scheduled (document 02, A3)."""
    return "S" if kind == IMPORT else "A"


def record_words(each):
    return [each["kind"], each["member"], each["area"], *(each[letter] % 2**32 for letter in LETTERS), 0]


def padded(words, length):
    return words + [0] * (length - len(words))


def mend(block):
    """Chooses word 7 so that the block's words add up to zero."""
    block[7] = 0
    block[7] = -sum(block) % 2**32


def to_bytes(blocks):
    return b"".join(struct.pack("<128I", *block) for block in blocks)


def question(member, file):
    """The input of program `explanation`: a member's number, and an hour file (document 02, A5)."""
    return struct.pack("<I", member) + file
