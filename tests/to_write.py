"""A maker of hours to write: the words of a head and of records, honest and spoiled (document 02, A2).

`made(seed, index)` is the index-th of an endless list that takes every maker and every fault below in turn. The hours and the faults of
their words are those of tests/hours.py, taken apart into head and records; the faults of lengths are this file's. SIDES names what a
few hundred of them must reach.
"""

import itertools
import random
import struct
from collections import namedtuple

import hours

BLOCK_BYTES = 512
HEAD_WORDS = 120
HEAD_BYTES = 4 * HEAD_WORDS
RECORD_BYTES = 48
MOST_ROOM = 26 * BLOCK_BYTES + 1_024  # of the file buffer

# The input of program `write_hour`; how many of its words are the head and how long the file buffer is, for the call from C; and the
# refusals, as (number, place), that its faults bring about in the program, which answers the first; None where they are unforeseen.
Made = namedtuple("Made", "name data split room due")


# ---- Words and lengths

def taken_apart(blocks):
    """The words of the head and of all records, one after the other, as bytes."""
    words = [*blocks[0][8:]]
    for block in blocks[1:]:
        words += block[8:8 + 12 * block[2]]
    return struct.pack(f"<{len(words)}I", *words)


def blocks_of(data):
    """A file's blocks, as lists of words."""
    return [list(block) for block in struct.iter_unpack("<128I", data)]


def records_in(data):
    """How many whole records stand behind the head."""
    return max(0, len(data) - HEAD_BYTES) // RECORD_BYTES


def bytes_needed(data):
    """How long the file will be."""
    return BLOCK_BYTES * (1 + -(-records_in(data) // 10))


def some_split(rng):
    """Mostly the head's own length; at times a word or a record off, so that the records are whole or not, or anything."""
    return rng.choice([HEAD_WORDS] * 24 + [HEAD_WORDS - 1, HEAD_WORDS + 1, HEAD_WORDS - 12, HEAD_WORDS + 12, 0, rng.randint(0, 300)])


def some_room(rng, needed):
    """Just enough, more, or too short: by one byte, by a block, or all but a byte or two."""
    long, short = [needed + 1, needed + rng.randint(1, 1_024), MOST_ROOM], [needed - 1, needed - BLOCK_BYTES, rng.choice([0, 1])]
    return min(MOST_ROOM, rng.choice([needed] * 3 + long + short))


# ---- Faults of the length: each is refusal 1 at 0

def nothing_at_all(rng, data):
    return b""


def head_cut(rng, data):
    """Less than a head: a byte, a word or a record too few, or anything."""
    return data[:rng.choice([HEAD_BYTES - 1, HEAD_BYTES - 4, HEAD_BYTES - RECORD_BYTES, rng.randrange(HEAD_BYTES)])]


def no_whole_word(rng, data):
    step = rng.randint(1, 3)
    return rng.choice([data + bytes(step), data[:-step]])


def no_whole_record(rng, data):
    """Words too many or too few for the last record, at times a single one."""
    step = 4 * rng.choice([1, 11, rng.randint(1, 11)])
    return data + bytes(step) if rng.random() < 0.5 or records_in(data) == 0 else data[:-step]


def too_many_records(rng, data):
    """251 that each keep the rules, as far as they were right before; or more."""
    more = struct.pack("<12I", *hours.record_words(hours.record(hours.EXPORT, 0, 0)))
    return data + more * (hours.MOST_RECORDS + rng.choice([1, 1, 1, 2, 50]) - records_in(data))


LENGTH_FAULTS = (nothing_at_all, head_cut, no_whole_word, no_whole_record, too_many_records)
RECORD_FAULTS = hours.RECORD_FAULTS + hours.PLACED_FAULTS
FAULTS = hours.HEAD_FAULTS + hours.SCHEDULE_FAULTS + RECORD_FAULTS + LENGTH_FAULTS

# Pairs of which the first place, or the order of the refusals, decides. Two faults of records at any place may be of the same one, and
# undo each other.
LONG_FAULTS = (no_whole_record, too_many_records)
PAIRS = ([*itertools.combinations(hours.HEAD_FAULTS, 2)], [*itertools.combinations(hours.PLACED_FAULTS, 2)],
         [*itertools.product(hours.HEAD_FAULTS, RECORD_FAULTS)], [*itertools.product(hours.HEAD_FAULTS, LONG_FAULTS)],
         [*itertools.product(RECORD_FAULTS, LONG_FAULTS)], *hours.WRONG_AND_SCHEDULE,
         [*itertools.product(hours.HEAD_FAULTS, hours.SCHEDULE_FAULTS)], [*itertools.product(hours.SCHEDULE_FAULTS, LONG_FAULTS)])


# ---- The makers

def lent(rng, name, data, due):
    """With the lengths that a caller in C states."""
    return Made(name, data, some_split(rng), some_room(rng, bytes_needed(data)), due and sorted(due))


def honest(count):
    """So many records, at times with all numbers at the ends of their ranges. Whether settling accepts the hour is another matter."""
    def make(rng):
        hour = hours.random_hour(rng, count, rng.choice([9, 3_000, 100_000]))
        if rng.random() < 0.3:
            hour.records = [hours.record_at_ends(rng, hour.members, len(hour.areas)) for _ in range(count)]
        return lent(rng, f"records_{count}", taken_apart(hour.blocks()), [])
    return make


def any_count(rng):
    return honest(rng.randint(0, hours.MOST_RECORDS))(rng)


def ends_as_they_fall(rng):
    return lent(rng, "ends_as_they_fall", taken_apart(hours.ends_as_they_fall(rng).blocks()), [])


def damaged(rng, faults):
    """An honest hour with these faults."""
    while True:
        hour = hours.random_hour(rng, rng.choice([rng.randint(0, 30), rng.randint(1, 250)]), 3_000)
        blocks = hour.blocks()
        due = [fault(rng, hour, blocks) for fault in faults if fault not in LENGTH_FAULTS]
        data = taken_apart(blocks)
        for fault in faults:
            if fault in LENGTH_FAULTS:
                data = fault(rng, data)
                due.append((1, 0))
        if None not in due:
            return lent(rng, " and ".join(fault.__name__ for fault in faults), data, due)


def alone(fault):
    return lambda rng: damaged(rng, (fault,))


def two_of(pairs):
    return lambda rng: damaged(rng, rng.choice(pairs))


def scattered(rng):
    """Some words changed anyhow; what is due only the rules tell."""
    words = [*struct.iter_unpack("<I", taken_apart(hours.random_hour(rng, rng.randint(0, 40), 3_000).blocks()))]
    for _ in range(rng.randint(1, 3)):
        place = rng.choice([rng.randrange(len(words)), rng.randrange(40)])
        words[place] = (rng.choice([0, 1, words[place][0] + 1, words[place][0] - 1, rng.randrange(2**32)]) % 2**32,)
    return lent(rng, "scattered", b"".join(struct.pack("<I", *word) for word in words), None)


COUNTS = (0, 1, 9, 10, 11, 250)
ROUND = ([honest(count) for count in COUNTS] * 2 + [any_count, ends_as_they_fall] * 3
         + [alone(fault) for fault in FAULTS] + [alone(fault) for fault in LENGTH_FAULTS] + [two_of(pairs) for pairs in PAIRS] * 3
         + [scattered] * 3)


def made(seed, index):
    """The index-th of a seed's list; seed and index alone decide it."""
    rng = random.Random(f"to write {seed} {index}")
    return ROUND[index % len(ROUND)](rng)


# ---- What must be reached

class Reached:
    """What SIDES ask about: what was made, and what the program `write_hour` and the call from C answer to it."""

    def __init__(self, case, program, called, imported, kept):
        """`program` is the number and place that the program answers, `called` the number that the call does, `imported` the import that
        row 5 refuses for its word 4 alone, or None, `kept` the records that keep row 5, by their places."""
        self.number, self.place = program
        self.called, self.imported = called, imported
        self.kept, self.above = kept, above_maximum(kept)
        self.bytes, self.split, self.records = len(case.data), case.split, records_in(case.data)
        self.spare = case.room - bytes_needed(case.data)
        self.due = [number for number, _ in case.due or []]

    def both(self, one, two):
        """Whether refusal `one` was answered where `two` was due as well."""
        return self.number == one and self.due.count(two) > (one == two)


def generators_in(kept):
    return {place: each for place, each in kept.items() if each["kind"] == hours.GENERATOR}


def above_maximum(kept):
    """By how many kWh a generator is scheduled above its maximum, by its place."""
    return {place: each["S"] - each["M"] for place, each in generators_in(kept).items() if each["S"] > each["M"]}


def at_maximum(kept):
    return any(each["S"] == each["M"] > 0 for each in generators_in(kept).values())


def at_each_place(name, shows):
    """Sides of a record that is refused: the first of some, one between, and the last."""
    return {f"{name} at the first of some records": lambda r: shows(r) and r.place == 0 < r.records - 1,
            f"{name} at a middle record": lambda r: shows(r) and 0 < r.place < r.records - 1,
            f"{name} at the last of some records": lambda r: shows(r) and r.place == r.records - 1 > 0}


# Document 02, A3; the hours to settle must reach these too.
IMPORT_SIDES = {
    **at_each_place("5 by an import's word 4", lambda r: r.imported),
    "5 by an import's word 4 that is its word 3": lambda r: r.imported and r.imported["A"] == r.imported["S"],
}

# Document 02, A6; these too.
SCHEDULE_SIDES = {
    **at_each_place("14", lambda r: r.number == 14),
    "14 by a kWh": lambda r: r.number == 14 and r.above[r.place] == 1,
    "14 at the first of two records": lambda r: r.number == 14 and len(r.above) > 1,
    "5 where 14 is due as well, at an earlier record": lambda r: r.number == 5 and r.above and min(r.above) < r.place,
    "5 where 14 is due as well, at a later record": lambda r: r.number == 5 and r.above and min(r.above) > r.place,
}
SIDES = {f"written, {count} records": lambda r, count=count: r.number == 0 and r.records == count for count in COUNTS}
SIDES.update({
    "1, no bytes": lambda r: r.number == 1 and r.bytes == 0,
    "1, less than a head": lambda r: r.number == 1 and 0 < r.bytes < HEAD_BYTES,
    "1, no whole word": lambda r: r.number == 1 and r.bytes % 4 != 0,
    "1, no whole record": lambda r: r.number == 1 and r.bytes > HEAD_BYTES and r.bytes % 4 == 0 and (r.bytes - HEAD_BYTES) % RECORD_BYTES,
    "1, 251 records": lambda r: r.number == 1 and r.bytes == HEAD_BYTES + 251 * RECORD_BYTES,
    "1, called with a head too short": lambda r: r.number == 0 and r.called == 1 and r.split < HEAD_WORDS,
    "1, called with a head too long": lambda r: r.number == 0 and r.called == 1 and r.split > HEAD_WORDS,
    "4 at its first word": lambda r: r.number == 4 and r.place == 9,
    "4 at a middle word": lambda r: r.number == 4 and 9 < r.place < 127,
    "4 at its last word": lambda r: r.number == 4 and r.place == 127,
    **at_each_place("5", lambda r: r.number == 5),
    **IMPORT_SIDES,
    **SCHEDULE_SIDES,
    "1 where 4 is due as well": lambda r: r.both(1, 4),
    "1 where 5 is due as well": lambda r: r.both(1, 5),
    "1 where 14 is due as well": lambda r: r.both(1, 14),
    "4 where 5 is due as well": lambda r: r.both(4, 5),
    "4 where 14 is due as well": lambda r: r.both(4, 14),
    "4 at the first of two words": lambda r: r.both(4, 4),
    "5 at the first of two records": lambda r: r.both(5, 5),
    "1 where the file is too short as well": lambda r: r.called == 1 and r.spare < 0,
    "4 where the file is too short as well": lambda r: r.called == 4 and r.spare < 0,
    "5 where the file is too short as well": lambda r: r.called == 5 and r.spare < 0,
    "14 where the file is too short as well": lambda r: r.called == 14 and r.spare < 0,
    "11 by a byte": lambda r: r.called == 11 and r.spare == -1,
    "11 by a block": lambda r: r.called == 11 and r.spare == -BLOCK_BYTES,
    "written, the file just long enough": lambda r: r.called == 0 and r.spare == 0,
    "written, bytes past the last block": lambda r: r.called == 0 and r.spare > 0,
    "written, a generator scheduled at its maximum": lambda r: r.number == 0 and at_maximum(r.kept),
})
