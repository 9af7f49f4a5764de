"""An hour's words by the names that people use, and what each may be (docs/FORMAT.md). It is for saying what stands where: whether it may
stand there is for the proved programs to say."""

import struct
from collections import namedtuple

BLOCK_WORDS, FIRST_WORD, HEAD_WORDS = 128, 8, 120
BLOCK_BYTES, HEAD_BYTES = 512, 480

MEMBERS, ZONES, AREAS, FIRST_AREA = 9, 10, 11, 16  # words of the first block
MOST_MEMBERS, MOST_ZONES, MOST_AREAS, AREA_WORDS = 32, 4, 8, 4
KIND, MEMBER, AREA, SCHEDULED, ACTUAL, MAXIMUM = 0, 1, 2, 3, 4, 8  # words of a record; the last two of an hourly one

# What a word is called, in what unit it is, and from what to what it may go.
Field = namedtuple("Field", "name unit low high")

KWH = "kWh"
HOUR = Field("hour", "", 0, 2**32 - 1)
MEMBER_COUNT = Field("members", "", 1, MOST_MEMBERS)
COUNTS = (HOUR, MEMBER_COUNT, Field("zones", "", 1, MOST_ZONES), Field("areas", "", 1, MOST_AREAS))
PRICE = Field("price", "cents/MWh", -1_000_000, 1_000_000)
ZONE = Field("zone", "", 0, MOST_ZONES - 1)
SCHEDULED_ENERGY, ACTUAL_ENERGY = Field("scheduled", KWH, 0, 100_000), Field("actual", KWH, 0, 100_000)
ADJUSTMENT, ANCILLARY = Field("adjustment", KWH, -100_000, 100_000), Field("ancillary", KWH, 0, 100_000)
MULTIPLIERS = tuple(Field(f"{name} multiplier", "ten-thousandths", 1, 20_000) for name in ("scheduled", "hour-ahead"))

# The kinds from 1 on.
KINDS = ("generator", "load", "profile load", "import", "export")
LOADS = (2, 3)


def value_of(word, field):
    """The number that a word stands for: two's complement where it may be negative."""
    return word - 2**32 if field.low < 0 and word >= 2**31 else word


def words_in(data):
    return list(struct.unpack(f"<{len(data) // 4}I", data))


class Hour:
    """The head's words, by their numbers in the first block, and the records' words. In capitals stands what differs between the two kinds
    of file: this one is the hourly."""

    NAME, CALLED = HOUR, "an hour"
    FIRST_MARK, OTHER_MARK = 1, 2  # word 0 of the first block, and of every other
    MOST_BLOCKS, MOST_RECORDS, BLOCK_RECORDS, RECORD_WORDS = 26, 250, 10, 12
    FIRST_PRICE, PRICES = 12, (PRICE,)  # the word of zone 0's first price, and the prices of a zone
    AREA_FIELDS = (ZONE, Field("tie in", KWH, 0, 10_000_000), Field("tie out", KWH, 0, 10_000_000))
    # The words of a record from 3 on, and those of them that each kind uses.
    ENERGIES = (SCHEDULED_ENERGY, ACTUAL_ENERGY, ADJUSTMENT, ANCILLARY, Field("obligation", KWH, 0, 100_000),
                Field("maximum", KWH, 0, 100_000), *MULTIPLIERS)
    USED = ((3, 4, 5, 6, 7, 8, 9, 10), (3, 4, 5, 6, 7), (3, 4, 5, 6, 7), (3, 5, 6, 9, 10), (3, 4, 5))

    def __init__(self, head, records):
        self.head = {FIRST_WORD + at: word for at, word in enumerate(head)}
        self.records = records

    @classmethod
    def of_words(cls, data):
        """Of head and records one behind the other, as the writer takes them."""
        words = words_in(data)
        behind = words[HEAD_WORDS:]
        return cls(words[:HEAD_WORDS], [behind[at:at + cls.RECORD_WORDS] for at in range(0, len(behind), cls.RECORD_WORDS)])

    @classmethod
    def of_file(cls, data):
        """Of a file whose blocks are as they should be."""
        blocks = [words_in(data[at:at + BLOCK_BYTES]) for at in range(0, len(data), BLOCK_BYTES)]
        records = [block[at:at + cls.RECORD_WORDS] for block in blocks[1:]
                   for at in range(FIRST_WORD, FIRST_WORD + cls.RECORD_WORDS * block[2], cls.RECORD_WORDS)]
        return cls(blocks[0][FIRST_WORD:], records)

    @classmethod
    def longest_file(cls):
        return cls.MOST_BLOCKS * BLOCK_BYTES

    @classmethod
    def uses(cls, kind, word):
        """Whether a record of this kind has something in one of its words from 3 on."""
        return word in cls.USED[kind - 1]

    @classmethod
    def word_name(cls, word):
        """What a record's word is called from word 1 on."""
        if word < SCHEDULED:
            return {MEMBER: "member", AREA: "area"}[word]
        return cls.ENERGIES[word - SCHEDULED].name if word - SCHEDULED < len(cls.ENERGIES) else f"word {word}"

    @classmethod
    def price_words(cls, zone):
        """Where a zone's prices stand in the first block."""
        first = cls.FIRST_PRICE + len(cls.PRICES) * zone
        return range(first, first + len(cls.PRICES))

    @classmethod
    def area_words(cls, area):
        """Where what an area has stands in the first block."""
        first = FIRST_AREA + AREA_WORDS * area
        return range(first, first + len(cls.AREA_FIELDS))

    def words(self):
        """As the writer takes them."""
        words = [*self.head.values(), *(word for record in self.records for word in record)]
        return struct.pack(f"<{len(words)}I", *words)

    def head_field(self, word):
        """What a word of the head is, beside the counts that stand before it; None where it must be 0."""
        if word - FIRST_WORD < len(COUNTS):
            return COUNTS[word - FIRST_WORD]
        for zone in range(min(self.head[ZONES], MOST_ZONES)):
            for field, price in zip(self.PRICES, self.price_words(zone)):
                if price == word:
                    return field._replace(name=f"{field.name} of zone {zone}")
        for area in range(min(self.head[AREAS], MOST_AREAS)):
            for field, part in zip(self.AREA_FIELDS, self.area_words(area)):
                if part == word:
                    high = self.head[ZONES] - 1 if field is ZONE else field.high
                    return field._replace(name=f"{field.name} of area {area}", high=high)
        return None

    def record_field(self, index, word):
        """What a word of a record of a known kind is, beside the kind and the counts; None where it must be 0."""
        if word == MEMBER:
            return Field("member", "", 0, self.head[MEMBERS] - 1)
        if word == AREA:
            return Field("area", "", 0, self.head[AREAS] - 1)
        return self.ENERGIES[word - SCHEDULED] if self.uses(self.records[index][KIND], word) else None


LONGEST_FILE = Hour.longest_file()  # of either kind
RECORD_BYTES = 4 * Hour.RECORD_WORDS
LONGEST_WORDS = HEAD_BYTES + Hour.MOST_RECORDS * RECORD_BYTES
