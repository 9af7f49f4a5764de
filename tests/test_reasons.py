"""A refusal in words (office/reasons.py): that each row's words are the promised ones, and that they name the true fault.

    python3 -m unittest tests/test_reasons.py       # some 20 seconds; programs from target/bin
"""

import re
import sys
import tempfile
import unittest
from collections import Counter, namedtuple
from pathlib import Path

HERE = Path(__file__).resolve().parent
ROOT = HERE.parent
PRINTED = ROOT / "examples" / "printed.hour"
sys.path.insert(0, str(HERE))
sys.path.insert(0, str(ROOT / "office"))
import hours  # noqa: E402
import known  # noqa: E402
import reasons  # noqa: E402
import second  # noqa: E402
import to_write  # noqa: E402
from office_calls import is_ten_minutes  # noqa: E402
from programs import asked  # noqa: E402

ENDLESS = "/dev/zero"
KINDS = ("generator", "load", "profile load", "import", "export")


# ---- The words, row by row

def blocks():
    """15 records in two blocks, five in the last: kinds, members and areas by turns, so that record 12 is a load of member 3. It keeps
    rows 1 to 5 and 14, and nothing is at an end of its range."""
    turns = (hours.EXPORT, hours.GENERATOR, hours.REAL_TIME_LOAD, hours.PROFILE_LOAD, hours.IMPORT)
    letters = dict(S=100, A=100, J=-5, N=5, O=5, M=200, F=9_900, H=9_800)
    records = [hours.record(kind, (place + 1) % 5, place % 3, **{letter: letters[letter] for letter in hours.USED[kind]})
               for place, kind in enumerate(turns * 3)]
    return hours.Hour(7, 5, [1_000, -1_000], [[0, 300, 20], [1, 300, 20], [1, 300, 20]], records).blocks()


def in_block(block, word, value):
    return block, word, value


def in_head(word, value):
    return 0, word, value


def in_record(place, word, value):
    return *known.field(place, word), value


PROMISED = (in_record(12, 4, 100_001), 5, 12, "record 12 (member 3, load): actual 100001 is above 100000")

# The word that was changed, the number and the place of the refusal, its words. Row 3:
LAYOUTS = (
    (in_block(0, 0, 2), 3, 0, "block 0: its first word is 2 and must be 1"),
    (in_block(0, 1, 1), 3, 0, "block 0: its position is 1 and must be 0"),
    (in_block(0, 2, 3), 3, 0, "block 0: the number of blocks behind it is 3 and must be 2"),
    (in_block(0, 3, 7), 3, 0, "block 0: word 3 is 7 and must be 0"),
    (in_block(0, 4, 7), 3, 0, "block 0: word 4 is 7 and must be 0"),
    (in_block(0, 5, 7), 3, 0, "block 0: word 5 is 7 and must be 0"),
    (in_block(0, 6, -1), 3, 0, "block 0: word 6 is 4294967295 and must be 0"),
    (in_block(1, 0, 1), 3, 1, "block 1: its first word is 1 and must be 2"),
    (in_block(1, 1, 2), 3, 1, "block 1: its position is 2 and must be 1"),
    (in_block(1, 2, 9), 3, 1, "block 1: the number of its records is 9 and must be 10"),
    (in_block(1, 2, 11), 3, 1, "block 1: the number of its records is 11 and must be 10"),
    (in_block(1, 3, 7), 3, 1, "block 1: word 3 is 7 and must be 0"),
    (in_block(2, 4, 7), 3, 2, "block 2: word 4 is 7 and must be 0"),
    (in_block(2, 5, 7), 3, 2, "block 2: word 5 is 7 and must be 0"),
    (in_block(2, 6, 7), 3, 2, "block 2: word 6 is 7 and must be 0"),
    (in_block(2, 2, 0), 3, 2, "block 2: the number of its records is 0 and must be 1 to 10"),
    (in_block(2, 2, 11), 3, 2, "block 2: the number of its records is 11 and must be 1 to 10"),
    (in_block(2, 2, 4), 3, 2, "block 2: word 56, behind its last record, is 4 and must be 0"),
    (in_block(2, 68, 1), 3, 2, "block 2: word 68, behind its last record, is 1 and must be 0"),
    (in_block(2, 127, 1), 3, 2, "block 2: word 127, behind its last record, is 1 and must be 0"),
)
HEADS = (
    (in_head(9, 0), 4, 9, "members: 0 is below 1"),
    (in_head(9, 33), 4, 9, "members: 33 is above 32"),
    (in_head(10, 0), 4, 10, "zones: 0 is below 1"),
    (in_head(10, 5), 4, 10, "zones: 5 is above 4"),
    (in_head(11, 0), 4, 11, "areas: 0 is below 1"),
    (in_head(11, 9), 4, 11, "areas: 9 is above 8"),
    (in_head(12, 1_000_001), 4, 12, "price of zone 0: 1000001 is above 1000000"),
    (in_head(13, -1_000_001), 4, 13, "price of zone 1: -1000001 is below -1000000"),
    (in_head(14, 1_000), 4, 14, "word 14 is 1000 and must be 0"),
    (in_head(15, -1), 4, 15, "word 15 is 4294967295 and must be 0"),
    (in_head(16, 2), 4, 16, "zone of area 0: 2 is above 1"),
    (in_head(21, 10_000_001), 4, 21, "tie in of area 1: 10000001 is above 10000000"),
    (in_head(26, -1), 4, 26, "tie out of area 2: 4294967295 is above 10000000"),
    (in_head(19, 1), 4, 19, "word 19 is 1 and must be 0"),
    (in_head(27, 1), 4, 27, "word 27 is 1 and must be 0"),
    (in_head(28, 1), 4, 28, "word 28 is 1 and must be 0"),
    (in_head(46, 1), 4, 46, "word 46 is 1 and must be 0"),
    (in_head(48, 1), 4, 48, "word 48 is 1 and must be 0"),
    (in_head(127, 1), 4, 127, "word 127 is 1 and must be 0"),
)
RECORDS = (
    PROMISED,
    (in_record(3, 0, 0), 5, 3, "record 3: kind 0 is none of 1 to 5 (generator, load, profile load, import, export)"),
    (in_record(14, 0, 6), 5, 14, "record 14: kind 6 is none of 1 to 5 (generator, load, profile load, import, export)"),
    (in_record(8, 1, 5), 5, 8, "record 8 (profile load): member 5 is above 4"),
    (in_record(9, 1, -1), 5, 9, "record 9 (import): member 4294967295 is above 4"),
    (in_record(10, 2, 3), 5, 10, "record 10 (member 1, export): area 3 is above 2"),
    (in_record(6, 3, 100_001), 5, 6, "record 6 (member 2, generator): scheduled 100001 is above 100000"),
    (in_record(6, 4, 100_001), 5, 6, "record 6 (member 2, generator): actual 100001 is above 100000"),
    (in_record(6, 5, 100_001), 5, 6, "record 6 (member 2, generator): adjustment 100001 is above 100000"),
    (in_record(6, 5, -100_001), 5, 6, "record 6 (member 2, generator): adjustment -100001 is below -100000"),
    (in_record(6, 6, 100_001), 5, 6, "record 6 (member 2, generator): ancillary 100001 is above 100000"),
    (in_record(6, 7, -1), 5, 6, "record 6 (member 2, generator): obligation 4294967295 is above 100000"),
    (in_record(6, 8, 100_001), 5, 6, "record 6 (member 2, generator): maximum 100001 is above 100000"),
    (in_record(6, 9, 20_001), 5, 6, "record 6 (member 2, generator): scheduled multiplier 20001 is above 20000"),
    (in_record(6, 9, 0), 5, 6, "record 6 (member 2, generator): scheduled multiplier 0 is below 1"),
    (in_record(6, 10, 20_001), 5, 6, "record 6 (member 2, generator): hour-ahead multiplier 20001 is above 20000"),
    (in_record(6, 10, 0), 5, 6, "record 6 (member 2, generator): hour-ahead multiplier 0 is below 1"),
    (in_record(4, 9, 0), 5, 4, "record 4 (member 0, import): scheduled multiplier 0 is below 1"),
    (in_record(6, 11, 1), 5, 6, "record 6 (member 2, generator): word 11 is 1 and must be 0"),
    (in_record(7, 8, 1), 5, 7, "record 7 (member 3, load): maximum is 1 and must be 0"),
    (in_record(7, 9, 10_000), 5, 7, "record 7 (member 3, load): scheduled multiplier is 10000 and must be 0"),
    (in_record(7, 10, 1), 5, 7, "record 7 (member 3, load): hour-ahead multiplier is 1 and must be 0"),
    (in_record(7, 11, 1), 5, 7, "record 7 (member 3, load): word 11 is 1 and must be 0"),
    (in_record(8, 8, 1), 5, 8, "record 8 (member 4, profile load): maximum is 1 and must be 0"),
    (in_record(8, 9, 1), 5, 8, "record 8 (member 4, profile load): scheduled multiplier is 1 and must be 0"),
    (in_record(8, 10, 1), 5, 8, "record 8 (member 4, profile load): hour-ahead multiplier is 1 and must be 0"),
    (in_record(8, 11, -1), 5, 8, "record 8 (member 4, profile load): word 11 is 4294967295 and must be 0"),
    (in_record(4, 4, 100), 5, 4, "record 4 (member 0, import): actual is 100 and must be 0"),
    (in_record(4, 7, 1), 5, 4, "record 4 (member 0, import): obligation is 1 and must be 0"),
    (in_record(4, 8, 1), 5, 4, "record 4 (member 0, import): maximum is 1 and must be 0"),
    (in_record(4, 11, 1), 5, 4, "record 4 (member 0, import): word 11 is 1 and must be 0"),
    (in_record(0, 6, -1), 5, 0, "record 0 (member 1, export): ancillary is 4294967295 and must be 0"),
    (in_record(0, 7, 1), 5, 0, "record 0 (member 1, export): obligation is 1 and must be 0"),
    (in_record(0, 8, 1), 5, 0, "record 0 (member 1, export): maximum is 1 and must be 0"),
    (in_record(0, 9, 1), 5, 0, "record 0 (member 1, export): scheduled multiplier is 1 and must be 0"),
    (in_record(0, 10, 1), 5, 0, "record 0 (member 1, export): hour-ahead multiplier is 1 and must be 0"),
    (in_record(0, 11, 1), 5, 0, "record 0 (member 1, export): word 11 is 1 and must be 0"),
    (in_record(11, 3, 201), 14, 11, "record 11 (member 2, generator): scheduled 201 is above its maximum 200"),
    (in_record(1, 8, 0), 14, 1, "record 1 (member 2, generator): scheduled 100 is above its maximum 0"),
)

MAY_HAVE = "it may have 512 to 13312, in whole blocks of 512"
WITHOUT_DEMAND = "nobody can be given what the charges leave over; the loads' actual adds up to 0, and must to 1 or more"
AREA_WITHOUT_DEMAND = "nobody can be given its unaccounted for energy; its loads' actual adds up to 0, and must to 1 or more"

# What is wrong with the file as a whole: what it is, its bytes, number, place, words.
FILES = (
    ("nothing in it", b"", 1, 0, f"the file has 0 bytes; {MAY_HAVE}"),
    ("cut", bytes(1_000), 1, 0, f"the file has 1000 bytes; {MAY_HAVE}"),
    ("a block too many", bytes(13_824), 1, 0, f"the file has more than 13312 bytes; {MAY_HAVE}"),
    ("a bit of its first block", known.sums(blocks(), 0), 2, 0, "block 0: its words add up to 2147483648 modulo 2^32, and must to 0"),
    ("a bit of its last block", known.sums(blocks(), 2), 2, 2, "block 2: its words add up to 2147483648 modulo 2^32, and must to 0"),
    ("an area without demand", known.hour_of(0).encode(), 6, 1, f"area 1: {AREA_WITHOUT_DEMAND}"),
    ("an hour without demand", known.idle_hour(1_000, (1, 1)).encode(), 12, 0, WITHOUT_DEMAND),
)


class OfEachRow(unittest.TestCase):
    """Behind the file's name and the proved program's line: what is wrong, where, what the value is and what it may be."""

    def settled(self, cases):
        """Each case, as (what it is, bytes, number, place, words), is a file of its own; one start settles them all."""
        with tempfile.TemporaryDirectory() as folder:
            paths = [Path(folder, f"{index}.hour") for index in range(len(cases))]
            for path, (_, data, *_) in zip(paths, cases):
                path.write_bytes(data)
            status, printed, said = asked("settle", *paths)
        self.assertEqual(status, 1, said)
        told = zip(paths, printed.decode().splitlines()[1::2], said.splitlines())
        self.assertEqual((printed.count(b"\n"), said.count("\n")), (2 * len(cases), len(cases)))
        for (what, _, number, place, words), (path, line, whole) in zip(cases, told):
            with self.subTest(what):
                self.assertEqual(line, f"refused {number} at {place}")
                self.assertEqual(whole, f"{path}: {line}: {words}")

    def test_the_hour_is_right_before_it_is_changed(self):
        second.check_schedules(second.read_hour(hours.to_bytes(blocks()))["records"])

    def test_the_promised_words(self):
        change = PROMISED[0]
        with tempfile.NamedTemporaryFile(suffix=".hour") as file:
            file.write(known.words(blocks(), change))
            file.flush()
            status, printed, said = asked("settle", file.name)
        self.assertEqual((status, printed), (1, b"refused 5 at 12\n"))
        self.assertEqual(said, f"{file.name}: refused 5 at 12: record 12 (member 3, load): actual 100001 is above 100000\n")

    def test_files(self):
        self.settled(FILES)

    def test_words_of_blocks_heads_and_records(self):
        self.settled([(change, known.words(blocks(), change), *told) for change, *told in LAYOUTS + HEADS + RECORDS])

    def test_an_endless_file(self):
        self.assertEqual(asked("settle", ENDLESS), (1, b"refused 1 at 0\n", f"{ENDLESS}: refused 1 at 0: {FILES[2][-1]}\n"))

    def test_a_member_that_is_not_there(self):
        for member in (2, 2**32 - 1):
            self.assertEqual(asked("explain", str(member), PRINTED), (1, b"refused 13 at 0\n", (
                f"{PRINTED}: refused 13 at 0: member {member} is above 1: the hour has 2, from 0 on\n")))

    def test_a_refused_hour_that_is_explained(self):
        change, number, place, words = PROMISED
        self.assertEqual(asked("explain", "9", data=known.words(blocks(), change)),
                         (1, b"refused 5 at 12\n", f"standard input: refused {number} at {place}: {words}\n"))

    def test_what_no_file_brings_about(self):
        """And of a block or a record that has nothing wrong in it."""
        for number, place, words in ((7, 3, "member 3: its amount is beyond 4000000000000000000 grains"),
                                     (3, 1, "block 1 is not as its place in the file asks"), (5, 0, "record 0 is not as its kind asks")):
            self.assertEqual(reasons.of_file(number, place, PRINTED.read_bytes()), words)
        for number, words in ((8, "an amount to be written is out of its range"), (9, "a field is shorter than the amount's text"),
                              (10, "a field holds no amount's text"), (11, "a buffer lent for the results is too short")):
            with self.subTest(number):
                self.assertEqual(reasons.of_file(number, 0, PRINTED.read_bytes()), words)


class OfWriting(unittest.TestCase):
    """What the writer refuses, of raw words and of a sheet."""

    PARTS = "a head has 480, and each of at most 250 records 48"

    def refused(self, number, place, words, *asking, data=b""):
        name = "standard input" if len(asking) == 1 else asking[1]
        line = f"refused {number} at {place}"
        self.assertEqual(asked(*asking, data=data), (1, f"{line}\n".encode(), f"{name}: {line}: {words}\n"))

    def test_lengths(self):
        data = to_write.taken_apart(blocks())
        for length, bytes_of_it in ((0, b""), (479, data[:479]), (481, data[:481]), (527, data[:527]), (1_201, data + b"\n"),
                                    ("more than 12480", data + bytes(48 * 236))):
            with self.subTest(length):
                self.refused(1, 0, f"there are {length} bytes of words; {self.PARTS}", "write", data=bytes_of_it)
        self.refused(1, 0, f"there are more than 12480 bytes of words; {self.PARTS}", "write", ENDLESS)

    def test_the_words_are_those_of_a_file(self):
        """Whether the words come in blocks or raw."""
        for change, number, place, words in HEADS + RECORDS:
            with self.subTest(change):
                data = to_write.taken_apart(known.changed(blocks(), change))
                self.assertEqual(second.written_hour(data), b"refused %d at %d\n" % (number, place))
                self.assertEqual(reasons.of_raw(number, place, data), words)

    def test_raw_words(self):
        for change, *told in (HEADS[-1], PROMISED, RECORDS[-1]):
            with self.subTest(change):
                self.refused(*told, "write", data=to_write.taken_apart(known.changed(blocks(), change)))

    def test_a_sheet(self):
        """tests/test_sheets.py has the other rows."""
        sheet = (ROOT / "examples" / "printed.csv").read_bytes().replace(b"generator,0,0,1000", b"generator,0,0,2001")
        self.refused(14, 0, "row 11, column D (scheduled): record 0 (member 0, generator): scheduled 2001 is above its maximum 2000",
                     "pack", data=sheet)


# ---- The words, read back

# What the words say is wrong: the block, the word in it, what it holds, and the nearest number that it may hold.
Named = namedtuple("Named", "block word value nearest name")

NUMBER = r"(?P<value>-?[0-9]+)"
BEYOND = NUMBER + r" is (?P<side>above|below) (?P<end>-?[0-9]+)"
MUST_BE = NUMBER + r" and must be (?P<low>[0-9]+)(?: to (?P<high>[0-9]+))?"
OF_RECORD = r"record (?P<record>[0-9]+) \((?:member (?P<member>[0-9]+), )?(?P<kind>[a-z ]+)\): "
PATTERNS = {
    1: (r"the file has (?P<more>more than )?(?P<length>[0-9]+) bytes; it may have 512 to 13312, in whole blocks of 512",),
    2: (r"block (?P<block>[0-9]+): its words add up to " + NUMBER + r" modulo 2\^32, and must to 0",),
    3: (r"block (?P<block>[0-9]+): (?P<name>[a-z]+ [a-z ]+|word [0-9]+(?:, behind its last record,)?) is " + MUST_BE,),
    4: (r"(?P<name>[a-z][a-z0-9 ]+): " + BEYOND, r"(?P<name>word [0-9]+) is " + MUST_BE),
    5: (r"record (?P<record>[0-9]+): (?P<name>kind) " + NUMBER + r" is none of (?P<low>1) to (?P<high>5) \(" + ", ".join(KINDS) + r"\)",
        OF_RECORD + r"(?P<name>[a-z -]+) " + BEYOND, OF_RECORD + r"(?P<name>[a-z -]+|word 11) is " + MUST_BE),
    14: (OF_RECORD + r"(?P<name>scheduled) " + NUMBER + r" is (?P<side>above) its maximum (?P<end>[0-9]+)",),
    6: (r"area (?P<area>[0-9]+): " + AREA_WITHOUT_DEMAND,),
    12: (WITHOUT_DEMAND,),
}

# Where each thing stands, by its name.
BLOCK_WORDS = {"its first word": 0, "its position": 1, "the number of blocks behind it": 2, "the number of its records": 2}
HEAD_WORDS = {
    "members": 9, "zones": 10, "areas": 11, **{f"price of zone {zone}": 12 + zone for zone in range(4)},
    **{f"{what} of area {area}": 16 + 4 * area + part for area in range(8) for part, what in enumerate(("zone", "tie in", "tie out"))}}
RECORD_WORDS = {name: word for word, name in enumerate((
    "kind", "member", "area", "scheduled", "actual", "adjustment", "ancillary", "obligation", "maximum", "scheduled multiplier",
    "hour-ahead multiplier", "word 11"))}


def parsed(number, words):
    """The parts of a row's words by their names; None where they are not as that row's must be."""
    for pattern in PATTERNS[number]:
        found = re.fullmatch(pattern, words)
        if found:
            return found.groupdict()
    return None


def place_in_file(number, said):
    """The block and the word in it that are named."""
    name = said["name"]
    if number in (5, 14):
        return known.field(int(said["record"]), RECORD_WORDS[name])
    if name.startswith("word "):
        return int(said.get("block") or 0), int(name.split()[1].rstrip(","))
    return (int(said["block"]), BLOCK_WORDS[name]) if number == 3 else (0, HEAD_WORDS[name])


def nearest_in(said):
    """The nearest number that may stand there."""
    if said.get("end"):
        return int(said["end"])
    return max(int(said["low"]), min(int(said["value"]), int(said["high"] or said["low"])))


def named(number, words):
    """What the words of rows 3, 4, 5 and 14 name."""
    said = parsed(number, words)
    return Named(*place_in_file(number, said), int(said["value"]), nearest_in(said), without_numbers(said["name"]))


def without_numbers(name):
    """What it is called, whichever it is."""
    return re.sub(" [0-9]+", "", name)


# ---- Mending

ROUNDS = 6


def refusal_of(data):
    """Number and place, by the second program; None where it settles the hour."""
    try:
        second.work_out(second.read_hour(data))
    except second.Refused as refused:
        return refused.number, refused.place
    return None


def with_word(data, block, word, value):
    """The file with another word, and that block's sum mended."""
    blocks = to_write.blocks_of(data)
    blocks[block][word] = value % 2**32
    hours.mend(blocks[block])
    return hours.to_bytes(blocks)


def with_demand(data, area):
    """The file in which a load of the area, or of any, took a kWh; one is added where there is none. None where there is no room."""
    blocks = second.blocks_in(data)
    records = [list(record) for record in second.records_held(blocks)]
    loads = [record for record in records if record[0] in hours.LOADS and area in (None, record[2])]
    if not loads and len(records) == hours.MOST_RECORDS:
        return None
    if not loads:
        records.append(hours.record_words(hours.record(hours.PROFILE_LOAD, 0, area or 0, A=1)))
    else:
        loads[-1][4] = 1
    return second.hour_file(blocks[0][8:], records)


class MendedAsItSays(unittest.TestCase):
    """Of made hours that are refused: the words are read back, what they name is looked up in the file and mended as they say, and the
    hour then gets further. Whatever is still wrong with it is mended too, for some rounds."""

    COUNT = 3_000
    SEED = "reasons"
    NAMES = {3: {*BLOCK_WORDS, "word", "word, behind its last record,"}, 4: {*map(without_numbers, HEAD_WORDS), "word"},
             5: {*map(without_numbers, RECORD_WORDS)}, 14: {"scheduled"}}

    def setUp(self):
        self.rows, self.names, self.full = Counter(), set(), 0

    def test_made_hours(self):
        for index in range(self.COUNT):
            made = hours.made(self.SEED, index)
            if made.expected != (0, 0) and not is_ten_minutes(made.data):
                with self.subTest(index=index, name=made.name):
                    self.mended(made.data)
        print("\nreasons: mended as the words say, by row: "
              + ", ".join(f"{number}: {self.rows[number]}" for number in PATTERNS) + f"; no room for a load: {self.full}")
        self.assertEqual([number for number in PATTERNS if not self.rows[number]], [], "these rows never occurred")
        self.assertEqual({(number, name) for number in self.NAMES for name in self.NAMES[number]} - self.names, set(), "never named")

    def mended(self, data):
        refusal, before = refusal_of(data), (-1,)
        for _ in range(ROUNDS):
            if refusal is None:
                return
            number, place = refusal
            words = reasons.of_file(number, place, data)
            self.assertIsNotNone(parsed(number, words), words)
            self.rows[number] += 1
            at = named(number, words).word if number in (3, 4, 5, 14) else 0
            self.assertGreater((hours.ROWS.index(number), place, at), before, words)  # so it isn't the same fault again
            before = hours.ROWS.index(number), place, at
            mend = {1: self.length, 2: self.sum, 6: self.area, 12: self.hour}.get(number, self.word)
            data = mend(number, place, words, data)
            if data is None:
                return
            refusal = refusal_of(data)

    def length(self, number, place, words, data):
        """There is nothing to mend in a file that was cut: the numbers are looked at."""
        said = parsed(number, words)
        self.assertEqual(int(said["length"]), min(len(data), 13_312))
        self.assertEqual(bool(said["more"]), len(data) > 13_312)
        self.assertTrue(len(data) % 512 or not 512 <= len(data) <= 13_312)

    def sum(self, number, place, words, data):
        said, blocks = parsed(number, words), to_write.blocks_of(data)
        self.assertEqual((int(said["block"]), int(said["value"])), (place, sum(blocks[place]) % 2**32))
        hours.mend(blocks[place])
        return hours.to_bytes(blocks)

    def word(self, number, place, words, data):
        """The nearest number that may stand there; a step beyond it is still refused, so it is the end of what may."""
        fault, blocks = named(number, words), to_write.blocks_of(data)
        held = blocks[fault.block][fault.word]
        self.names.add((number, fault.name))
        self.assertEqual(fault.value, second.signed(held) if fault.name in ("price of zone", "adjustment") else held, words)
        self.assertNotEqual(fault.value, fault.nearest, words)
        if number == 3:
            self.assertEqual(fault.block, place, words)
        elif number == 4:
            self.assertEqual((fault.block, fault.word), (0, place), words)
        else:
            self.assert_record(number, place, words, blocks)
        step = 1 if fault.value > fault.nearest else -1
        self.assertEqual(refusal_of(with_word(data, fault.block, fault.word, fault.nearest + step)), (number, place), words)
        return with_word(data, fault.block, fault.word, fault.nearest)

    def assert_record(self, number, place, words, blocks):
        """Whose record it is said to be, and for row 14 its maximum."""
        said = parsed(number, words)
        record = second.records_held(blocks)[place]
        self.assertEqual(int(said["record"]), place)
        if "kind" in said:
            self.assertEqual(said["kind"], KINDS[record[0] - 1], words)
            self.assertEqual(said["member"], None if said["name"] == "member" else str(record[1]), words)
        if number == 14:
            self.assertEqual(int(said["end"]), record[8], words)

    def area(self, number, place, words, data):
        """That area has demand then, and so has the hour: another area may be next, and nothing else."""
        self.assertEqual(int(parsed(number, words)["area"]), place)
        return self.given_demand(data, place, lambda next: next is None or next[0] == 6 and next[1] > place)

    def hour(self, number, place, words, data):
        """It is settled then."""
        return self.given_demand(data, None, lambda next: next is None)

    def given_demand(self, data, area, expected):
        given = with_demand(data, area)
        if given is None:
            self.full += 1
            return None
        self.assertTrue(expected(refusal_of(given)), refusal_of(given))
        return given


class NeverACrash(unittest.TestCase):
    """Whatever is refused, there are words for it, and they are those of the row."""

    COUNT = 1_500
    SEED = "words"

    def test_hours_to_write(self):
        numbers = Counter()
        for index in range(self.COUNT):
            data = to_write.made(self.SEED, index).data
            written = second.written_hour(data)
            if not written.startswith(b"refused"):
                continue
            number, place = (int(word) for word in written.split()[1::2])
            numbers[number] += 1
            with self.subTest(index=index):
                words = reasons.of_raw(number, place, data)
                if number == 1:
                    length = len(data) if len(data) <= 12_480 else "more than 12480"
                    self.assertEqual(words, f"there are {length} bytes of words; {OfWriting.PARTS}")
                else:
                    self.assertIsNotNone(parsed(number, words), words)
        print("\nreasons: hours to write, by row: " + ", ".join(f"{number}: {count}" for number, count in sorted(numbers.items())))
        self.assertEqual(set(numbers), {1, 4, 5, 14})

    def test_members_that_are_not_there(self):
        for index in range(40):
            made = hours.made(self.SEED, index)
            if made.expected == (0, 0):
                members = second.read_hour(made.data)["members"]
                for member in (members, members + 1, 2**32 - 1):
                    self.assertEqual(reasons.of_file(13, 0, made.data, member),
                                     f"member {member} is above {members - 1}: the hour has {members}, from 0 on")


if __name__ == "__main__":
    unittest.main()
