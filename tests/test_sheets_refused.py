"""Sheets (office/sheets.py) that don't say an hour clearly, that are damaged, or that the writer refuses: each is answered with its row and
column.

    python3 -m unittest tests/test_sheets_refused.py       # some seconds; programs from target/bin
"""

import itertools
import random
import re
import sys
import unittest
from collections import Counter
from pathlib import Path

HERE = Path(__file__).resolve().parent
ROOT = HERE.parent
sys.path.insert(0, str(HERE))
sys.path.insert(0, str(ROOT / "office"))
import second  # noqa: E402
import sheets  # noqa: E402
from programs import asked  # noqa: E402
from sheet_rows import (AREA_TITLES, LETTERS, RECORD_TITLES, SHEET, USED, ZONE_TITLES, parts, refusal_in, reordered,  # noqa: E402
                        rows_in, sheet_of, with_field, without_units)


def without_rows(*numbers):
    return [fields for number, fields in enumerate(rows_in(SHEET), 1) if number not in numbers]


def with_row(number, *fields):
    """The example's rows and one more, which gets this number."""
    rows = rows_in(SHEET)
    rows.insert(number - 1, list(fields))
    return rows


# ---- Sheets that say no hour

MANY_DIGITS = "7" * 5_000
NO_PART = "is none of hour, ten-minute hour, members, zone, area, kind"
NO_HOUR = "there is no row that begins with 'hour' or 'ten-minute hour'"
RECORD_COLUMNS = ("there are kind, member, area, scheduled, actual, adjustment, ancillary, obligation, maximum, scheduled multiplier, "
                  "hour-ahead multiplier")

# A field of the example: its row and column, what is put there, the words.
FIELDS = (
    (14, "D", "1.5", "row 14, column D (scheduled): '1.5' is no whole number"),
    (14, "D", "1,5", "row 14, column D (scheduled): '1,5' is no whole number"),
    (14, "D", "1e3", "row 14, column D (scheduled): '1e3' is no whole number"),
    (15, "E", "abc", "row 15, column E (actual): 'abc' is no whole number"),
    (15, "E", "", "row 15, column E (actual): nothing is there; it must be a whole number"),
    (17, "F", "+5", "row 17, column F (adjustment): '+5' is no whole number"),
    (17, "F", "--5", "row 17, column F (adjustment): '--5' is no whole number"),
    (17, "F", "-", "row 17, column F (adjustment): '-' is no whole number"),
    (17, "F", "\u22125", "row 17, column F (adjustment): '\u22125' is no whole number"),
    (17, "G", "\u0663\u0664", "row 17, column G (ancillary): '\u0663\u0664' is no whole number"),
    (17, "H", "1 000", "row 17, column H (obligation): '1 000' is no whole number"),
    (17, "H", "1_000", "row 17, column H (obligation): '1_000' is no whole number"),
    (17, "H", "0x10", "row 17, column H (obligation): '0x10' is no whole number"),
    (17, "H", "1\n2", "row 17, column H (obligation): '1\\n2' is no whole number"),
    (17, "I", MANY_DIGITS, f"row 17, column I (maximum): '{MANY_DIGITS[:40]}…' is too long for a number"),
    (17, "I", "x" * 41, f"row 17, column I (maximum): '{'x' * 40}…' is no whole number"),
    (18, "G", "-1", "row 18, column G (ancillary): -1 is below 0"),
    (18, "J", "-1", "row 18, column J (scheduled multiplier): -1 is below 1"),
    (18, "K", "5000000000", "row 18, column K (hour-ahead multiplier): 5000000000 is above 20000"),
    (19, "D", "5000000000", "row 19, column D (scheduled): 5000000000 is above 100000"),
    (19, "F", "5000000000", "row 19, column F (adjustment): 5000000000 is above 100000"),
    (19, "F", "-2147483649", "row 19, column F (adjustment): -2147483649 is below -100000"),
    (19, "I", "-1", "row 19, column I (maximum): -1 is below 0"),
    (20, "B", "-1", "row 20, column B (member): -1 is below 0"),
    (20, "C", "one", "row 20, column C (area): 'one' is no whole number"),
    (21, "A", "engine", "row 21, column A (kind): 'engine' is none of generator, load, profile load, import, export"),
    (21, "A", "5", "row 21, column A (kind): '5' is none of generator, load, profile load, import, export"),
    (21, "A", "", "row 21, column A (kind): '' is none of generator, load, profile load, import, export"),
    (1, "B", "", "row 1, column B (hour): nothing is there; it must be a whole number"),
    (1, "B", "4294967296", "row 1, column B (hour): 4294967296 is above 4294967295"),
    (2, "B", "five", "row 2, column B (members): 'five' is no whole number"),
    (2, "B", "-1", "row 2, column B (members): -1 is below 1"),
    (6, "B", "35.50", "row 6, column B (price): '35.50' is no whole number"),
    (6, "B", "2147483648", "row 6, column B (price): 2147483648 is above 1000000"),
    (6, "A", "2", "row 6, column A (zone): zone 2 stands where zone 1 is due"),
    (6, "A", "0", "row 6, column A (zone): zone 0 stands where zone 1 is due"),
    (6, "A", "north", "row 6, column A (zone): 'north' is no whole number"),
    (9, "B", "-1", "row 9, column B (zone): -1 is below 0"),
    (10, "C", "?", "row 10, column C (tie in): '?' is no whole number"),
    (11, "D", "", "row 11, column D (tie out): nothing is there; it must be a whole number"),
    (10, "A", "2", "row 10, column A (area): area 2 stands where area 1 is due"),
    (10, "A", "8", "row 10, column A (area): 8 is above 7"),
    (13, "D", "planned", f"row 13, column D: there is no column 'planned' here; {RECORD_COLUMNS}"),
    (13, "D", "scheduled (MWh)", f"row 13, column D: there is no column 'scheduled (MWh)' here; {RECORD_COLUMNS}"),
    (13, "D", "actual", "row 13, column E: column 'actual' is there twice"),
    (13, "D", "", "row 13: column 'scheduled' is missing"),
    (4, "B", "price (euro)", "row 4, column B: there is no column 'price (euro)' here; there are zone, price"),
    (8, "D", "tie in", "row 8, column D: column 'tie in' is there twice"),
    (8, "D", "tie", "row 8, column D: there is no column 'tie' here; there are area, zone, tie in, tie out"),
)


def too_many(part, *more):
    """The example with more rows in a part, numbered on."""
    counts = {"zone": (6, 2), "area": (11, 3)}
    rows, (last, due) = rows_in(SHEET), counts[part]
    return rows[:last] + [[str(number), *more] for number in range(due, 9)] + rows[last:]


# What is wrong with a sheet, its bytes, the words.
WHOLE = (
    ("a field under no title", sheet_of(rows_in(SHEET)[:13] + [rows_in(SHEET)[13] + ["5"]] + rows_in(SHEET)[14:]),
     "row 14, column L: '5' stands under no title"),
    ("a field far to the right", sheet_of([*rows_in(SHEET), ["load", "0"] + [""] * 28 + ["5"]]),
     "row 22, column AE: '5' stands under no title"),
    ("something behind the hour's number", SHEET.replace(b"hour,1400", b"hour,1400,,x"),
     "row 1, column D: 'x' stands behind the number"),
    ("the number in the next column", SHEET.replace(b"hour,1400", b"hour,,1400"), "row 1, column C: '1400' stands behind the number"),
    ("the hour twice", sheet_of(with_row(3, "hour", "1400")), "row 3, column A: 'hour' is there twice"),
    ("the zones twice", sheet_of(with_row(22, "Zone", "price")), "row 22, column A: 'zone' is there twice"),
    ("the records twice", sheet_of([*rows_in(SHEET), *parts()[-1]]), "row 22, column A: 'kind' is there twice"),
    ("no hour", sheet_of(itertools.chain(*parts()[1:])), NO_HOUR),
    *((f"no {name}", sheet_of(itertools.chain(*parts()[:at], *parts()[at + 1:])), f"there is no row that begins with '{name}'")
      for at, name in enumerate(("members", "zone", "area", "kind"), 1)),
    ("too many zones", sheet_of(too_many("zone", "1")), "row 9, column A (zone): 4 is above 3"),
    ("too many areas", sheet_of(too_many("area", "0", "0", "0")), "row 17, column A (area): 8 is above 7"),
    ("a zone left out", sheet_of(without_rows(5)), "row 5, column A (zone): zone 1 stands where zone 0 is due"),
    ("text before the first part", b"Week 46\n" + SHEET, f"row 1, column A: 'Week 46' {NO_PART}"),
    ("text between parts", sheet_of(with_row(2, "", "of the pool")), f"row 2, column A: '' {NO_PART}"),
    ("a zone behind the hour's number", sheet_of([*parts()[2][:2], *parts()[0], *parts()[2][2:], *parts()[1], *parts()[3], *parts()[4]]),
     f"row 4, column A: '1' {NO_PART}"),
    ("titles that are not known to begin a part", sheet_of(with_field(RECORD_TITLES, "A", "type")),
     "there is no row that begins with 'kind'"),
    ("tabs between fields", SHEET.replace(b",", b"\t"), f"row 1, column A: 'hour\\t1400' {NO_PART}"),
    ("an unclosed quote", SHEET.replace(b"load,1,0", b'"load,1,0', 1), "row 15: unexpected end of data"),
    ("something behind a quote", SHEET.replace(b"load,1,0", b'"load"s,1,0', 1), "row 15: ',' expected after '\"'"),
    ("no UTF-8", SHEET.replace(b"1400", b"14\xff0"), "the sheet is no UTF-8 text: byte 7"),
    ("UTF-16", SHEET.decode().encode("utf-16"), "the sheet is no UTF-8 text: byte 0"),
    ("nothing", b"", NO_HOUR),
    ("a byte-order mark alone", b"\xef\xbb\xbf", NO_HOUR),
    ("blank rows alone", b"\n\r\n,,,\n ; \n", f"row 4, column A: ';' {NO_PART}"),
    ("a long line", b"h" * 200_000 + SHEET, "row 1: field larger than field limit (131072)"),
    ("more than 1 MiB", SHEET + b"\n" * 2**20, "the sheet has more than 1048576 bytes; an hour has at most 250 records"),
)


class Unclear(unittest.TestCase):
    """What a sheet doesn't say clearly is said with its row and column; nothing is packed, whatever else it says."""

    def assert_unclear(self, sheet, words):
        with self.assertRaises(sheets.Unclear) as raised:
            sheets.Packed(sheet)
        self.assertEqual(str(raised.exception), words)

    def assert_said(self, sheet, words):
        """By the command too."""
        self.assertEqual(asked("pack", data=sheet), (2, b"", f"sneupelaar: standard input: {words}\n"))

    def test_fields(self):
        for row, letter, value, words in FIELDS:
            with self.subTest(words):
                self.assert_said(sheet_of(with_field(row, letter, value)), words)

    def test_sheets(self):
        for what, sheet, words in WHOLE:
            with self.subTest(what):
                self.assert_said(sheet, words)

    def test_an_endless_sheet(self):
        self.assertEqual(asked("pack", "/dev/zero"), (2, b"", f"sneupelaar: /dev/zero: {WHOLE[-1][-1]}\n"))

    def test_nul_bytes(self):
        """Python's own CSV reader refuses them up to 3.10, and leaves them in the field after that."""
        status, printed, said = asked("pack", data=SHEET.replace(b"generator,0,0,2000", b"generator,0,0,20\x0000"))
        self.assertEqual((status, printed), (2, b""))
        self.assertRegex(said, r"sneupelaar: standard input: (row 14, column D \(scheduled\): '20\\x0000' is no whole number"
                               r"|row 14: line contains NUL)\n")

    def test_every_column_missing(self):
        for titles_row in (ZONE_TITLES, AREA_TITLES, RECORD_TITLES):
            titles = rows_in(SHEET)[titles_row - 1]
            for column in range(1, len(titles)):
                order = [each for each in range(1, len(titles)) if each != column]
                self.assert_unclear(sheet_of(reordered(titles_row, order)),
                                    f"row {titles_row}: column '{without_units(titles[column])}' is missing")

    def test_every_field_that_a_kind_uses(self):
        """It may not be empty; member and area neither."""
        titles = [without_units(title) for title in rows_in(SHEET)[RECORD_TITLES - 1]]
        for row in range(14, 22):
            for letter in "BC" + USED[rows_in(SHEET)[row - 1][0]]:
                self.assert_unclear(sheet_of(with_field(row, letter, "")), f"row {row}, column {letter} "
                                    f"({titles[LETTERS.index(letter)]}): nothing is there; it must be a whole number")

    def test_rows_are_counted_as_spreadsheets_do(self):
        """Blank ones too, and a field with a line break in it is in one row."""
        rows = with_field(14, "D", "?")
        rows[2] = ["", "", ""]
        rows[RECORD_TITLES - 1][3] = "scheduled\n(kWh)"
        self.assert_unclear(sheet_of(rows, lineterminator="\r\n"), "row 14, column D (scheduled): '?' is no whole number")


# ---- Sheets damaged at random

NASTY = ("", "-", "0", "-1", "99999999999", "1.5", "abc", "hour", "ten-minute hour", "members", "zone", "area", "kind", "load", "scheduled",
         "price (cents/MWh)", ";", "\n", '"', "''", "=1+1", "\0", "\x1c", "\u0663", "\u2028", "\ufeff", "\U0001f331", "9" * 5_000)


def fields_exchanged(rng, sheet):
    rows = [*filter(None, rows_in(sheet))]
    one, two = rng.choice(rows), rng.choice(rows)
    at, other = rng.randrange(len(one)), rng.randrange(len(two))
    one[at], two[other] = two[other], one[at]
    return sheet_of(rows)


def nasty_field(rng, sheet):
    """In the place of another, or before it."""
    rows = [*filter(None, rows_in(sheet))]
    fields = rng.choice(rows)
    at = rng.randrange(len(fields))
    fields[at:at + rng.choice([0, 1, 1])] = [rng.choice(NASTY)]
    return sheet_of(rows, delimiter=rng.choice(",,;"))


def rows_exchanged(rng, sheet):
    lines = sheet.split(b"\n")
    one, two = rng.randrange(len(lines)), rng.randrange(len(lines))
    lines[one], lines[two] = lines[two], rng.choice([lines[one], lines[two], b""])
    return b"\n".join(lines)


def bytes_changed(rng, sheet):
    changed = bytearray(sheet)
    for _ in range(rng.randint(1, 4)):
        changed[rng.randrange(len(changed))] = rng.choice([rng.randrange(256), *b',;"\n\r\0-09 '])
    return bytes(changed)


def doubled(rng, sheet):
    one, two = sorted(rng.randrange(len(sheet) + 1) for _ in range(2))
    return sheet[:two] + sheet[one:]


def cut(rng, sheet):
    one, two = sorted(rng.randrange(len(sheet) + 1) for _ in range(2))
    return rng.choice([sheet[:one], sheet[one:], sheet[:one] + sheet[two:]])


# In the order in which they come, where several do: the first ones take the sheet for rows, the last may leave nothing.
DAMAGES = (fields_exchanged, nasty_field, rows_exchanged, bytes_changed, doubled, cut)


class DamagedAtRandom(unittest.TestCase):
    """Nothing but Unclear leaves Packed; and what it takes goes to the writer, or as a ten-minute file to be settled: a refusal of either
    has a row in the sheet."""

    COUNT = 4_000
    SAID = r"row [0-9]+(, column [A-Z]+( \([a-z0-9 -]+\))?)?: .|the sheet |there is no row that begins with "

    def test_sheets(self):
        bases = [path.read_bytes() for path in sorted((ROOT / "examples").glob("*.csv"))]
        outcomes = Counter()
        for index in range(self.COUNT):
            rng = random.Random(f"damaged {index}")
            sheet = rng.choice(bases)
            for damage in sorted(rng.sample(DAMAGES, rng.choice([1, 1, 2])), key=DAMAGES.index):
                sheet = damage(rng, sheet)
            with self.subTest(index=index):
                outcomes[self.outcome(sheet)] += 1
        print("\nsheets: damaged at random: " + ", ".join(f"{name}: {count}" for name, count in sorted(outcomes.items())))
        self.assertEqual(set(outcomes), {"unclear", "refused", "written", "ten minutes, refused", "ten minutes, written"})

    def outcome(self, sheet):
        try:
            packed = sheets.Packed(sheet)
        except sheets.Unclear as unclear:
            self.assertRegex(str(unclear), rf"\A({self.SAID})")
            return "unclear"
        hourly = packed.form.NAME.name == "hour"
        printed = second.written_hour(packed.hour().words()) if hourly else second.ten_minutes(packed.hour().file())
        if not printed.startswith(b"refused"):
            return "written" if hourly else "ten minutes, written"
        self.assertRegex(packed.reason(*refusal_in(printed)), r"\Arow [0-9]+, column [A-Z]+ \([a-z0-9 -]+\): .")
        return "refused" if hourly else "ten minutes, refused"


# ---- What the writer refuses

# A field of the example: its row and column, what is put there, number, place, the words.
REFUSED = (
    (2, "B", "0", 4, 9, "row 2, column B (members): members: 0 is below 1"),
    (2, "B", "33", 4, 9, "row 2, column B (members): members: 33 is above 32"),
    (5, "B", "1000001", 4, 12, "row 5, column B (price): price of zone 0: 1000001 is above 1000000"),
    (6, "B", "-1000001", 4, 13, "row 6, column B (price): price of zone 1: -1000001 is below -1000000"),
    (9, "B", "2", 4, 16, "row 9, column B (zone): zone of area 0: 2 is above 1"),
    (10, "C", "10000001", 4, 21, "row 10, column C (tie in): tie in of area 1: 10000001 is above 10000000"),
    (11, "D", "10000001", 4, 26, "row 11, column D (tie out): tie out of area 2: 10000001 is above 10000000"),
    (14, "B", "5", 5, 0, "row 14, column B (member): record 0 (generator): member 5 is above 4"),
    (15, "C", "3", 5, 1, "row 15, column C (area): record 1 (member 1, load): area 3 is above 2"),
    (17, "D", "100001", 5, 3, "row 17, column D (scheduled): record 3 (member 1, generator): scheduled 100001 is above 100000"),
    (16, "E", "100001", 5, 2, "row 16, column E (actual): record 2 (member 2, profile load): actual 100001 is above 100000"),
    (18, "E", "400", 5, 4, "row 18, column E (actual): record 4 (member 3, import): actual is 400 and must be 0"),
    (21, "F", "-100001", 5, 7, "row 21, column F (adjustment): record 7 (member 2, export): adjustment -100001 is below -100000"),
    (21, "F", "100001", 5, 7, "row 21, column F (adjustment): record 7 (member 2, export): adjustment 100001 is above 100000"),
    (21, "G", "1", 5, 7, "row 21, column G (ancillary): record 7 (member 2, export): ancillary is 1 and must be 0"),
    (19, "H", "100001", 5, 5, "row 19, column H (obligation): record 5 (member 0, load): obligation 100001 is above 100000"),
    (19, "I", "950", 5, 5, "row 19, column I (maximum): record 5 (member 0, load): maximum is 950 and must be 0"),
    (18, "J", "0", 5, 4, "row 18, column J (scheduled multiplier): record 4 (member 3, import): scheduled multiplier 0 is below 1"),
    (14, "K", "20001", 5, 0,
     "row 14, column K (hour-ahead multiplier): record 0 (member 0, generator): hour-ahead multiplier 20001 is above 20000"),
    (17, "D", "1201", 14, 3, "row 17, column D (scheduled): record 3 (member 1, generator): scheduled 1201 is above its maximum 1200"),
    (14, "I", "1999", 14, 0, "row 14, column D (scheduled): record 0 (member 0, generator): scheduled 2000 is above its maximum 1999"),
)


def moved(rows):
    """Two blank rows before each, and all columns of a part but the first the other way round."""
    return [row for fields in rows for row in ([], [""], fields if len(fields) < 3 else [fields[0], *reversed(fields[1:])])]


def moved_words(words, width):
    """What is said then of a field in a part of so many columns."""
    def place(found):
        row, column = int(found[1]), LETTERS.index(found[2])
        return f"row {3 * row}, column {LETTERS[column if column == 0 or width < 3 else width - column]}"
    return re.sub(r"\Arow ([0-9]+), column ([A-K])", place, words)


class RefusedByTheWriter(unittest.TestCase):
    """Its line stands in the file's place, and what is wrong is said with the sheet's row and column."""

    def assert_refused(self, sheet, number, place, words):
        """By the command, and so by the proved writer."""
        line = f"refused {number} at {place}"
        self.assertEqual(asked("pack", data=sheet), (1, f"{line}\n".encode(), f"standard input: {line}: {words}\n"))

    def assert_reason(self, sheet, number, place, words):
        """The same, without starting anything."""
        packed = sheets.Packed(sheet)
        self.assertEqual(refusal_in(second.written_hour(packed.hour().words())), (number, place))
        self.assertEqual(packed.reason(number, place), words)

    def test_fields(self):
        for row, letter, value, *told in REFUSED:
            with self.subTest(told[-1]):
                self.assert_refused(sheet_of(with_field(row, letter, value)), *told)

    def test_moved_fields(self):
        for row, letter, value, number, place, words in REFUSED:
            with self.subTest(words):
                rows = with_field(row, letter, value)
                self.assert_reason(sheet_of(moved(rows)), number, place, moved_words(words, len(rows[row - 1])))

    def test_no_zones_and_no_areas(self):
        """What is missing is said to be missing at its titles."""
        for rows, place, words in ((without_rows(5, 6), 10, "row 4, column A (zone): zones: 0 is below 1"),
                                   (without_rows(9, 10, 11), 11, "row 8, column A (area): areas: 0 is below 1")):
            self.assert_refused(sheet_of(rows), 4, place, words)
            self.assert_reason(sheet_of(moved(rows)), 4, place, moved_words(words, 4))

    def of_records(self, count):
        rows = rows_in(SHEET)
        return rows[:RECORD_TITLES] + rows[-1:] * count

    def test_too_many_records(self):
        """The first that is one too many, also where there are many more."""
        why = "a record more than the 250 that an hour can have"
        self.assertEqual(len(second.written_hour(sheets.Packed(sheet_of(self.of_records(250))).hour().words())), 13_312)
        self.assert_refused(sheet_of(self.of_records(251)), 1, 0, f"row 264: {why}")
        self.assert_reason(sheet_of(self.of_records(5_000)), 1, 0, f"row 264: {why}")
        self.assert_reason(sheet_of(moved(self.of_records(251))), 1, 0, f"row 792: {why}")


if __name__ == "__main__":
    unittest.main()
