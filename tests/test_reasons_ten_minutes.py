"""A refusal of a ten-minute file in words (office/reasons.py): that each row's words are the promised ones, and that they name the true
fault.

    python3 -m unittest tests/test_reasons_ten_minutes.py       # programs from target/bin
"""

import re
import sys
import tempfile
import unittest
from collections import Counter
from pathlib import Path

HERE = Path(__file__).resolve().parent
sys.path.insert(0, str(HERE))
sys.path.insert(0, str(HERE.parent / "office"))
import hours  # noqa: E402
import known  # noqa: E402
import reasons  # noqa: E402
import second  # noqa: E402
import ten_minutes  # noqa: E402
import to_write  # noqa: E402
from office_calls import is_ten_minutes, under_names, written  # noqa: E402
from programs import asked  # noqa: E402
from test_reasons import BEYOND, BLOCK_WORDS, KINDS, MUST_BE, NUMBER, OF_RECORD, nearest_in, with_word, without_numbers  # noqa: E402


# ---- The words, row by row

def hour():
    """Ten records in three blocks, two in the last: kinds, members and areas by turns, so that record 7 is a load of member 3. It keeps
    every rule, and nothing is at an end of its range."""
    turns = (hours.EXPORT, hours.GENERATOR, hours.REAL_TIME_LOAD, hours.PROFILE_LOAD, hours.IMPORT)
    named = dict(S=600, before=500, next=700, F=9_900, H=9_800, A=100, J=-5, N=5)
    unused = {hours.EXPORT: ("before", "next", "F", "H", "N"), hours.REAL_TIME_LOAD: ("F", "H"), hours.GENERATOR: (),
              hours.PROFILE_LOAD: ("before", "next", "F", "H"), hours.IMPORT: ("before", "next", "A")}
    records = [ten_minutes.interval_record(kind, (place + 1) % 5, place % 3, **{name: value for name, value in named.items()
                                                                              if name not in unused[kind]})
               for place, kind in enumerate(turns * 2)]
    return ten_minutes.TenMinuteHour(7, 5, [ten_minutes.alike(1_000), ten_minutes.alike(-1_000)], [0, 1, 1], records)


def in_record(place, word, value):
    return *hour().where(place, word), value


# The word that was changed, as block, word and value; the number and the place of the refusal, its words. Row 3:
LAYOUTS = (
    ((0, 1, 1), 3, 0, "block 0: its position is 1 and must be 0"),
    ((0, 2, 4), 3, 0, "block 0: the number of blocks behind it is 4 and must be 3"),
    ((0, 6, -1), 3, 0, "block 0: word 6 is 4294967295 and must be 0"),
    ((1, 0, 2), 3, 1, "block 1: its first word is 2 and must be 4"),
    ((2, 0, 3), 3, 2, "block 2: its first word is 3 and must be 4"),
    ((1, 1, 2), 3, 1, "block 1: its position is 2 and must be 1"),
    ((1, 2, 3), 3, 1, "block 1: the number of its records is 3 and must be 4"),
    ((2, 2, 5), 3, 2, "block 2: the number of its records is 5 and must be 4"),
    ((3, 2, 0), 3, 3, "block 3: the number of its records is 0 and must be 1 to 4"),
    ((3, 2, 5), 3, 3, "block 3: the number of its records is 5 and must be 1 to 4"),
    ((3, 3, 7), 3, 3, "block 3: word 3 is 7 and must be 0"),
    ((3, 2, 1), 3, 3, "block 3: word 38, behind its last record, is 4 and must be 0"),
    ((3, 68, 1), 3, 3, "block 3: word 68, behind its last record, is 1 and must be 0"),
    ((3, 127, 1), 3, 3, "block 3: word 127, behind its last record, is 1 and must be 0"),
)
HEADS = (
    ((0, 9, 0), 4, 9, "members: 0 is below 1"),
    ((0, 10, 5), 4, 10, "zones: 5 is above 4"),
    ((0, 11, 9), 4, 11, "areas: 9 is above 8"),
    ((0, 12, 1_000), 4, 12, "word 12 is 1000 and must be 0"),
    ((0, 15, -1), 4, 15, "word 15 is 4294967295 and must be 0"),
    ((0, 16, 2), 4, 16, "zone of area 0: 2 is above 1"),
    ((0, 17, 1), 4, 17, "word 17 is 1 and must be 0"),
    ((0, 22, 1), 4, 22, "word 22 is 1 and must be 0"),
    ((0, 23, 1), 4, 23, "word 23 is 1 and must be 0"),
    ((0, 28, 1), 4, 28, "word 28 is 1 and must be 0"),
    ((0, 48, 100_001), 4, 48, "incremental price 1 of zone 0: 100001 is above 100000"),
    ((0, 53, -100_001), 4, 53, "incremental price 6 of zone 0: -100001 is below -100000"),
    ((0, 54, 1_000_000), 4, 54, "decremental price 1 of zone 0: 1000000 is above 100000"),
    ((0, 60, 100_001), 4, 60, "incremental price 1 of zone 1: 100001 is above 100000"),
    ((0, 71, -100_001), 4, 71, "decremental price 6 of zone 1: -100001 is below -100000"),
    ((0, 72, 1), 4, 72, "word 72 is 1 and must be 0"),
    ((0, 95, 1), 4, 95, "word 95 is 1 and must be 0"),
    ((0, 96, 1), 4, 96, "word 96 is 1 and must be 0"),
    ((0, 127, 1), 4, 127, "word 127 is 1 and must be 0"),
)
RECORDS = (
    (in_record(3, 0, 0), 5, 3, "record 3: kind 0 is none of 1 to 5 (generator, load, profile load, import, export)"),
    (in_record(9, 0, 6), 5, 9, "record 9: kind 6 is none of 1 to 5 (generator, load, profile load, import, export)"),
    (in_record(8, 1, 5), 5, 8, "record 8 (profile load): member 5 is above 4"),
    (in_record(5, 2, 3), 5, 5, "record 5 (member 1, export): area 3 is above 2"),
    (in_record(6, 3, 100_001), 5, 6, "record 6 (member 2, generator): scheduled 100001 is above 100000"),
    (in_record(6, 4, 100_001), 5, 6, "record 6 (member 2, generator): scheduled before 100001 is above 100000"),
    (in_record(7, 5, 100_001), 5, 7, "record 7 (member 3, load): scheduled next 100001 is above 100000"),
    (in_record(6, 6, 0), 5, 6, "record 6 (member 2, generator): scheduled multiplier 0 is below 1"),
    (in_record(4, 7, 20_001), 5, 4, "record 4 (member 0, import): hour-ahead multiplier 20001 is above 20000"),
    (in_record(7, 8, 100_001), 5, 7, "record 7 (member 3, load): actual 1: 100001 is above 100000"),
    (in_record(5, 13, 100_001), 5, 5, "record 5 (member 1, export): actual 6: 100001 is above 100000"),
    (in_record(8, 8, 100_001), 5, 8, "record 8 (member 4, profile load): actual 1: 100001 is above 100000"),
    (in_record(6, 14, -100_001), 5, 6, "record 6 (member 2, generator): adjustment 1: -100001 is below -100000"),
    (in_record(0, 19, 100_001), 5, 0, "record 0 (member 1, export): adjustment 6: 100001 is above 100000"),
    (in_record(9, 20, 100_001), 5, 9, "record 9 (member 0, import): ancillary 1: 100001 is above 100000"),
    (in_record(8, 25, -1), 5, 8, "record 8 (member 4, profile load): ancillary 6: 4294967295 is above 100000"),
    (in_record(8, 4, 1), 5, 8, "record 8 (member 4, profile load): scheduled before is 1 and must be 0"),
    (in_record(9, 5, 1), 5, 9, "record 9 (member 0, import): scheduled next is 1 and must be 0"),
    (in_record(7, 6, 10_000), 5, 7, "record 7 (member 3, load): scheduled multiplier is 10000 and must be 0"),
    (in_record(0, 7, 1), 5, 0, "record 0 (member 1, export): hour-ahead multiplier is 1 and must be 0"),
    (in_record(8, 9, 1), 5, 8, "record 8 (member 4, profile load): actual 2 is 1 and must be 0"),
    (in_record(4, 8, 100), 5, 4, "record 4 (member 0, import): actual 1 is 100 and must be 0"),
    (in_record(0, 20, 1), 5, 0, "record 0 (member 1, export): ancillary 1 is 1 and must be 0"),
    (in_record(6, 26, 1), 5, 6, "record 6 (member 2, generator): word 26 is 1 and must be 0"),
    (in_record(7, 29, -1), 5, 7, "record 7 (member 3, load): word 29 is 4294967295 and must be 0"),
)
MAY_HAVE = "it may have 512 to 8704, in whole blocks of 512"
# What is wrong with the file as a whole: its bytes, number, place, words.
FILES = (
    (hour().encode()[:1_000], 1, 0, f"the file has 1000 bytes; {MAY_HAVE}"),
    (hour().encode() + bytes(7_168), 1, 0, f"the file has more than 8704 bytes; {MAY_HAVE}"),
    (known.sums(hour().blocks(), 0), 2, 0, "block 0: its words add up to 2147483648 modulo 2^32, and must to 0"),
    (known.sums(hour().blocks(), 3), 2, 3, "block 3: its words add up to 2147483648 modulo 2^32, and must to 0"),
)


class OfEachRow(unittest.TestCase):
    """Behind the file's name and the proved program's line: what is wrong, where, what the value is and what it may be."""

    def test_the_hour_is_right_before_it_is_changed(self):
        self.assertEqual(second.settle_ten_minutes(hour().encode()).number, 0)

    def test_the_words(self):
        """One call settles them all."""
        cases = [*FILES, *((known.words(hour().blocks(), change), *told) for change, *told in LAYOUTS + HEADS + RECORDS)]
        with tempfile.TemporaryDirectory() as folder:
            paths = written(folder, [data for data, *_ in cases])
            status, printed, said = asked("settle", *paths)
        lines = [f"refused {number} at {place}" for _, number, place, _ in cases]
        self.assertEqual((status, printed), (1, under_names(paths, [f"{line}\n".encode() for line in lines])))
        due = [f"{path}: {line}: {words}" for path, line, (*_, words) in zip(paths, lines, cases)]
        self.assertEqual(said.splitlines(), due)

    def test_what_no_file_brings_about(self):
        """Row 11 is about a buffer; and of a block or a record that has nothing wrong in it."""
        for number, place, words in ((11, 0, "a buffer lent for the results is too short"),
                                     (3, 1, "block 1 is not as its place in the file asks"), (5, 9, "record 9 is not as its kind asks")):
            self.assertEqual(reasons.of_file(number, place, hour().encode()), words)


# ---- The words, read back

PATTERNS = {
    3: (r"block (?P<block>[0-9]+): (?P<name>[a-z]+ [a-z ]+|word [0-9]+(?:, behind its last record,)?) is " + MUST_BE,),
    4: (r"(?P<name>[a-z][a-z0-9 ]+): " + BEYOND, r"(?P<name>word [0-9]+) is " + MUST_BE),
    5: (r"record (?P<record>[0-9]+): (?P<name>kind) " + NUMBER + r" is none of (?P<low>1) to (?P<high>5) \(" + ", ".join(KINDS) + r"\)",
        OF_RECORD + r"(?P<name>[a-z -]+) " + BEYOND, OF_RECORD + r"(?P<name>[a-z]+ [1-6]): " + BEYOND,
        OF_RECORD + r"(?P<name>[a-z -]+(?: [1-6])?|word 2[6-9]) is " + MUST_BE),
}
INTERVALS = range(1, 7)
HEAD_WORDS = {
    "members": 9, "zones": 10, "areas": 11, **{f"zone of area {area}": 16 + 4 * area for area in range(8)},
    **{f"{name} price {interval} of zone {zone}": 48 + 12 * zone + at + interval - 1
       for zone in range(4) for at, name in ((0, "incremental"), (6, "decremental")) for interval in INTERVALS}}
RECORD_WORDS = {
    **{name: word for word, name in enumerate(("kind", "member", "area", "scheduled", "scheduled before", "scheduled next",
                                               "scheduled multiplier", "hour-ahead multiplier"))},
    **{f"{name} {interval}": first + interval - 1 for first, name in ((8, "actual"), (14, "adjustment"), (20, "ancillary"))
       for interval in INTERVALS},
    **{f"word {word}": word for word in range(26, 30)}}
SIGNED = ("incremental price of zone", "decremental price of zone", "adjustment")
NAMES = {3: {*BLOCK_WORDS, "word", "word, behind its last record,"}, 4: {*map(without_numbers, HEAD_WORDS), "word"},
         5: {*map(without_numbers, RECORD_WORDS)}}
ROUNDS = 6


def parsed(number, words):
    """The parts of a row's words by their names; None where they are not as that row's must be."""
    return next((found.groupdict() for pattern in PATTERNS[number] if (found := re.fullmatch(pattern, words))), None)


def place_in_file(number, said):
    """The block and the word in it that are named."""
    name = said["name"]
    if number == 5:
        return hour().where(int(said["record"]), RECORD_WORDS[name])
    if name.startswith("word "):
        return int(said.get("block") or 0), int(name.split()[1].rstrip(","))
    return (int(said["block"]), BLOCK_WORDS[name]) if number == 3 else (0, HEAD_WORDS[name])


class MendedAsItSays(unittest.TestCase):
    """Of made files that rows 3 to 5 refuse: the words are read back, what they name is looked up in the file and mended as they say, and
    the hour then gets further. Whatever is still wrong with it is mended too, for some rounds."""

    COUNT = 3_000

    def test_made_hours(self):
        self.rows, self.names = Counter(), set()
        for index in range(self.COUNT):
            made = ten_minutes.made("reasons", index)
            if is_ten_minutes(made.data):
                with self.subTest(index=index, name=made.name):
                    self.mended(made.data)
        print("\nreasons: ten-minute files mended as the words say, by row: " + ", ".join(f"{n}: {self.rows[n]}" for n in PATTERNS))
        self.assertEqual({(number, name) for number in NAMES for name in NAMES[number]} - self.names, set(), "never named")

    def mended(self, data):
        before = (0, 0, 0)
        for _ in range(ROUNDS):
            number, place, _ = second.settle_ten_minutes(data)
            if number not in PATTERNS:
                return
            words = reasons.of_file(number, place, data)
            said = parsed(number, words)
            self.assertIsNotNone(said, words)
            self.rows[number] += 1
            block, word = place_in_file(number, said)
            self.assertGreater((number, place, word), before, words)  # so it isn't the same fault again
            before = number, place, word
            data = self.with_nearest(number, place, words, said, data)

    def with_nearest(self, number, place, words, said, data):
        """The nearest number that may stand there; a step beyond it is still refused, so it is the end of what may."""
        (block, word), name = place_in_file(number, said), without_numbers(said["name"])
        self.names.add((number, name))
        held, value, nearest = to_write.blocks_of(data)[block][word], int(said["value"]), nearest_in(said)
        self.assertEqual(value, second.signed(held) if name in SIGNED else held, words)
        self.assertNotEqual(value, nearest, words)
        self.assertEqual({3: block, 4: word, 5: int(said.get("record") or 0)}[number], place, words)
        if "kind" in said:
            self.assert_record(place, words, said, data)
        beyond = with_word(data, block, word, nearest + (1 if value > nearest else -1))
        if is_ten_minutes(beyond):
            self.assertEqual(second.settle_ten_minutes(beyond)[:2], (number, place), words)
        return with_word(data, block, word, nearest)

    def assert_record(self, place, words, said, data):
        """Whose record it is said to be."""
        record = second.records_held(second.blocks_in(data), second.TEN_MINUTES.record_words)[place]
        self.assertEqual(said["kind"], KINDS[record[0] - 1], words)
        self.assertEqual(said["member"], None if said["name"] == "member" else str(record[1]), words)


if __name__ == "__main__":
    unittest.main()
