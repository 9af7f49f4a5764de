"""The second program's hour file: read and written, with the refusals that look at words and lengths."""

import functools
import struct
from collections import namedtuple
from itertools import chain

BLOCK_BYTES = 512
MOST_BLOCKS = 26
FIRST_BODY_WORD = 8
RECORD_WORDS = 12
RECORDS_IN_A_BLOCK = 10
HEAD_WORDS = 120
MOST_MEMBERS = 32
MOST_RECORDS = 250

# What tells the two kinds of file apart before their words are read: word 0 of the first block and of the others, and how much there is.
Layout = namedtuple("Layout", "first_mark other_mark most_blocks records_in_a_block record_words")
HOURLY = Layout(1, 2, MOST_BLOCKS, RECORDS_IN_A_BLOCK, RECORD_WORDS)

GENERATOR, REAL_TIME_LOAD, PROFILE_LOAD, IMPORT, EXPORT = 1, 2, 3, 4, 5
LOADS = (REAL_TIME_LOAD, PROFILE_LOAD)


class Refused(Exception):
    """A row of the refusal table, document 01's or one that document 02 adds: its number and its place."""

    def __init__(self, number, place=0):
        super().__init__(f"refused {number} at {place}")
        self.number = number
        self.place = place


# ---- The hour file (document 01, "The hour file" and "Units and ranges")

WORD = range(2**32)
ZERO = range(1)
PRICE = range(-1_000_000, 1_000_001)
TIE = range(10_000_001)
ENERGY = range(100_001)
ADJUSTMENT = range(-100_000, 100_001)
MULTIPLIER = range(1, 20_001)

# Words 3 to 10 of a record by document 01's letters, and which of them each kind uses; an import has no A of its
# own (document 02, A3).
RECORD_RANGES = {"S": ENERGY, "A": ENERGY, "J": ADJUSTMENT, "N": ENERGY,
                 "O": ENERGY, "M": ENERGY, "F": MULTIPLIER, "H": MULTIPLIER}
LETTERS_USED = {GENERATOR: "SAJNOMFH", REAL_TIME_LOAD: "SAJNO", PROFILE_LOAD: "SAJNO",
                IMPORT: "SJNFH", EXPORT: "SAJ"}


def signed(word):
    """A word read in two's complement."""
    return word - 2**32 if word >= 2**31 else word


def blocks_in(data, layout=HOURLY):
    """The file as blocks of 128 words; refusal 1 looks at nothing but the length."""
    if len(data) == 0 or len(data) % BLOCK_BYTES != 0 or len(data) > layout.most_blocks * BLOCK_BYTES:
        raise Refused(1)
    return list(struct.iter_unpack("<128I", data))


def bodies(data, places):
    """The block reader: where the body of each of these blocks begins, and its length; both 0 where the
    file's length is wrong or it has no such block."""
    try:
        there = len(blocks_in(data))
    except Refused:
        there = 0
    before = 4 * FIRST_BODY_WORD
    return [(BLOCK_BYTES * place + before, BLOCK_BYTES - before) if place < there else (0, 0) for place in places]


def check_sums(blocks):
    for place, block in enumerate(blocks):
        if sum(block) % 2**32 != 0:
            raise Refused(2, place)


def layout_holds(blocks, place, layout):
    """Words 0 to 6 of a block, and the zeros past its records."""
    block = blocks[place]
    if place == 0:
        return block[0:7] == (layout.first_mark, 0, len(blocks) - 1, 0, 0, 0, 0)
    held = block[2]
    last = place == len(blocks) - 1
    if held not in range(1 if last else layout.records_in_a_block, layout.records_in_a_block + 1):
        return False
    past = FIRST_BODY_WORD + layout.record_words * held
    return block[0:2] == (layout.other_mark, place) and not any(block[3:7]) and not any(block[past:])


def check_layout(blocks, layout):
    for place in range(len(blocks)):
        if not layout_holds(blocks, place, layout):
            raise Refused(3, place)


def whole_blocks(data, layout):
    """The blocks of a file that keeps rows 1 to 3."""
    blocks = blocks_in(data, layout)
    check_sums(blocks)
    check_layout(blocks, layout)
    return blocks


def head_word(block, place, allowed):
    """A word of the first body; one that may be below zero is in two's complement."""
    value = signed(block[place]) if allowed.start < 0 else block[place]
    if value not in allowed:
        raise Refused(4, place)
    return value


def read_counts(word):
    """The words that a first body begins with: the hour's number, and how many members, zones and areas there are."""
    return word(8, WORD), word(9, range(1, 33)), word(10, range(1, 5)), word(11, range(1, 9))


def read_areas(word, zones, areas, ties):
    """The areas of a first body, `ties` being what their ties may be."""
    rows = []
    for area in range(8):
        counted = area < areas
        at = 16 + 4 * area
        rows.append({"zone": word(at, range(zones) if counted else ZERO),
                     "in": word(at + 1, ties if counted else ZERO),
                     "out": word(at + 2, ties if counted else ZERO)})
        word(at + 3, ZERO)
    return rows[:areas]


def read_head(block):
    """The first body. Words are looked at in order, so that the counts are known to be in range
    before a later word leans on them."""
    word = functools.partial(head_word, block)
    number, members, zones, areas = read_counts(word)
    prices = [word(12 + zone, PRICE if zone < zones else ZERO) for zone in range(4)]
    rows = read_areas(word, zones, areas, TIE)
    for place in range(48, 128):
        word(place, ZERO)
    return {"number": number, "members": members, "prices": prices[:zones], "areas": rows}


def read_record(words):
    record = {"kind": words[0], "member": words[1], "area": words[2], "last": words[11]}
    record.update(zip("SAJNOMFH", words[3:11]))
    record["J"] = signed(record["J"])
    return record


def record_holds(record, members, areas):
    if record["kind"] not in LETTERS_USED:
        return False
    if record["member"] >= members or record["area"] >= areas or record["last"] != 0:
        return False
    used = LETTERS_USED[record["kind"]]
    return all(record[letter] in (allowed if letter in used else ZERO)
               for letter, allowed in RECORD_RANGES.items())


def records_held(blocks, size=RECORD_WORDS):
    """The words of each record that the blocks hold, in file order; `size` is how many a record has."""
    return [block[at:at + size] for block in blocks[1:]
            for at in range(FIRST_BODY_WORD, FIRST_BODY_WORD + size * block[2], size)]


def read_records(held, members, areas, read=read_record, holds=record_holds):
    """The records of these words; `read` and `holds` are those of the kind of file."""
    records = []
    for words in held:
        record = read(words)
        if not holds(record, members, areas):
            raise Refused(5, len(records))
        records.append(record)
    return records


def read_hour(data):
    """An hour as dicts, or refusals 1 to 5, each over the whole file before the next."""
    blocks = whole_blocks(data, HOURLY)
    hour = read_head(blocks[0])
    hour["records"] = read_records(records_held(blocks), hour["members"], len(hour["areas"]))
    return hour


def check_schedules(records):
    """No generator is scheduled above its maximum (document 02, A6); a row that is looked for once all records have passed row 5."""
    for place, r in enumerate(records):
        if r["kind"] == GENERATOR and r["S"] > r["M"]:
            raise Refused(14, place)


# ---- Writing an hour file (document 02, A2)

def sealed(mark, position, count, body):
    """A block's bytes: the front, the word that makes the sum zero, the body, and zeros up to the block's end."""
    front = [mark, position, count, 0, 0, 0, 0]
    seal = -(sum(front) + sum(body)) % 2**32
    return struct.pack(f"<{FIRST_BODY_WORD + len(body)}I", *front, seal, *body).ljust(BLOCK_BYTES, b"\0")


def hour_file(head, records):
    """The file of a head and of records: ten in each block but the last, and no block for none."""
    tens = [records[first:first + RECORDS_IN_A_BLOCK] for first in range(0, len(records), RECORDS_IN_A_BLOCK)]
    others = (sealed(2, position, len(ten), [*chain(*ten)]) for position, ten in enumerate(tens, 1))
    return b"".join([sealed(1, 0, len(tens), head), *others])


def write_hour(head, words, room):
    """The hour file of a head and of the words of records, one record after the other, for a buffer of `room` bytes; or refusals 1, 4,
    5, 14 and 11."""
    if len(head) != HEAD_WORDS or len(words) % RECORD_WORDS != 0 or len(words) > RECORD_WORDS * MOST_RECORDS:
        raise Refused(1)
    read = read_head((0,) * FIRST_BODY_WORD + tuple(head))
    records = [words[first:first + RECORD_WORDS] for first in range(0, len(words), RECORD_WORDS)]
    check_schedules(read_records(records, read["members"], len(read["areas"])))
    file = hour_file(head, records)
    if room < len(file):
        raise Refused(11)
    return file
