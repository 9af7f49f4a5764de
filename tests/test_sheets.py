"""Hours as sheets (office/sheets.py): that a sheet says exactly the words of its hour, also as spreadsheets write it, and that nothing is
invented where one number is changed.

    python3 -m unittest tests/test_sheets.py       # some 20 seconds; programs from target/bin
"""

import csv
import itertools
import random
import re
import subprocess
import sys
import unittest
from collections import Counter
from pathlib import Path

HERE = Path(__file__).resolve().parent
ROOT = HERE.parent
sys.path.insert(0, str(HERE))
sys.path.insert(0, str(ROOT / "office"))
import hours  # noqa: E402
import programs  # noqa: E402
import second  # noqa: E402
import sheets  # noqa: E402
import to_write  # noqa: E402
from programs import COMMAND, asked  # noqa: E402
from sheet_rows import (AREA_TITLES, LETTERS, RECORD_TITLES, SHEET, USED, parts, refusal_in, reordered, rows_in,  # noqa: E402
                        sheet_of, with_field, without_units)

FILE = (ROOT / "examples" / "two-zones.hour").read_bytes()


def words_of(file):
    """Head and records of a file, by another hand than the office's."""
    return to_write.taken_apart(to_write.blocks_of(file))


# ---- There and back

def kept(seed, count):
    """So many made hours that keep rows 1 to 5 and 14; a row of the sums may refuse them. Of the list's makers those are asked that made
    such an hour in the first round, since most make damaged ones."""
    makers = [place for place in range(len(hours.ROUND)) if keeps_the_writers_rows(hours.made(seed, place))]
    indices = (turn * len(hours.ROUND) + place for turn in itertools.count() for place in makers)
    return itertools.islice(filter(keeps_the_writers_rows, (hours.made(seed, index) for index in indices)), count)


def keeps_the_writers_rows(made):
    try:
        second.check_schedules(second.read_hour(made.data)["records"])
    except second.Refused:
        return False
    return True


# What the hours must reach: by the hour as the second program reads it, and the number that it is known to be refused with.
SIDES = {
    "a negative price": lambda hour, number: min(hour["prices"]) < 0,
    "a negative adjustment": lambda hour, number: any(record["J"] < 0 for record in hour["records"]),
    **{name: lambda hour, number, kind=kind: any(record["kind"] == kind for record in hour["records"])
       for kind, name in enumerate(USED, 1)},
    "no records": lambda hour, number: not hour["records"],
    "250 records": lambda hour, number: len(hour["records"]) == 250,
    "4 zones": lambda hour, number: len(hour["prices"]) == 4,
    "8 areas": lambda hour, number: len(hour["areas"]) == 8,
    "the highest hour number": lambda hour, number: hour["number"] == 2**32 - 1,
    "refused by 6": lambda hour, number: number == 6,
    "refused by 12": lambda hour, number: number == 12,
}

# The columns of a record by document 01's letters.
NAMED = {"scheduled (kWh)": "S", "actual (kWh)": "A", "adjustment (kWh)": "J", "ancillary (kWh)": "N", "obligation (kWh)": "O",
         "maximum (kWh)": "M", "scheduled multiplier (ten-thousandths)": "F", "hour-ahead multiplier (ten-thousandths)": "H"}


def named_fields(record):
    """A record of the second program as a sheet has it; what its kind doesn't use is empty."""
    letters = {title: str(record[letter]) if letter in hours.USED[record["kind"]] else "" for title, letter in NAMED.items()}
    return {"kind": [*USED][record["kind"] - 1], "member": str(record["member"]), "area": str(record["area"]), **letters}


def under_titles(rows):
    """The rows of a part, each field by its title."""
    titles, *others = rows
    return [dict(zip(titles, fields)) for fields in others]


class ThereAndBack(unittest.TestCase):
    COUNT = 1_200
    SEED = "sheets"

    def test_made_hours(self):
        """The words of a sheet are those that the sheet was made of; with commas and semicolons by turns, and of some with both."""
        reached = Counter()
        for index, made in enumerate(kept(self.SEED, self.COUNT)):
            with self.subTest(index=index, name=made.name):
                for delimiter in ",;" if index % 8 == 0 else ",;"[index % 2]:
                    sheet = sheets.sheet_of(made.data, delimiter)
                    self.assertEqual(sheets.Packed(sheet).hour().words(), words_of(made.data))
            hour, number = second.read_hour(made.data), made.expected[0] if made.expected else None
            reached.update(name for name, shows in SIDES.items() if shows(hour, number))
        print(f"\nsheets: {self.COUNT} there and back: " + ", ".join(f"{name}: {reached[name]}" for name in SIDES))
        self.assertEqual([name for name in SIDES if not reached[name]], [], "never occurred")

    def test_under_their_names(self):
        """What stands under each title is what the second program reads under document 01's letter: there and back alone would not notice
        two columns that are exchanged both ways."""
        for index, made in enumerate(kept(f"{self.SEED} named", 100)):
            with self.subTest(index=index, name=made.name):
                rows, hour = rows_in(sheets.sheet_of(made.data)), second.read_hour(made.data)
                zones, areas = 4 + len(hour["prices"]), 6 + len(hour["prices"]) + len(hour["areas"])
                self.assertEqual(rows[:2], [["hour", str(hour["number"])], ["members", str(hour["members"])]])
                self.assertEqual(under_titles(rows[3:zones]), [
                    {"zone": str(zone), "price (cents/MWh)": str(price)} for zone, price in enumerate(hour["prices"])])
                self.assertEqual(under_titles(rows[zones + 1:areas]), [
                    {"area": str(area), "zone": str(each["zone"]), "tie in (kWh)": str(each["in"]), "tie out (kWh)": str(each["out"])}
                    for area, each in enumerate(hour["areas"])])
                self.assertEqual(under_titles(rows[areas + 1:]), [*map(named_fields, hour["records"])])

    def test_through_the_command(self):
        """Unpacked and packed again it is the same file, also one that a row of the sums refuses."""
        numbers = Counter()
        for index, made in enumerate([*kept(f"{self.SEED} piped", 120)][::3]):
            numbers[made.expected and made.expected[0]] += 1
            with self.subTest(index=index, name=made.name):
                self.assertEqual(self.piped(made.data, *["--semicolons"] * (index % 2)), (0, made.data, ""))
        self.assertTrue(numbers[0] and numbers[6] and numbers[12], numbers)

    def piped(self, file, *options):
        run = subprocess.run(["bash", "-c", 'set -o pipefail; "$0" unpack "$@" | "$0" pack', COMMAND, *options], input=file,
                             capture_output=True, timeout=programs.SECONDS)
        return run.returncode, run.stdout, run.stderr.decode()

    def test_the_examples(self):
        for name in ("printed", "two-zones", "left-over", "neutrality"):
            sheet, file = ((ROOT / "examples" / f"{name}.{what}").read_bytes() for what in ("csv", "hour"))
            self.assertEqual((sheets.sheet_of(file), sheets.Packed(sheet).hour().words()), (sheet, words_of(file)), name)

    def test_what_is_not_unpacked(self):
        """A file of which a word is wrong has its refusal, and no sheet."""
        said = "standard input: refused 1 at 0: the file has 1023 bytes; it may have 512 to 13312, in whole blocks of 512\n"
        self.assertEqual(asked("unpack", data=FILE[:-1]), (1, b"refused 1 at 0\n", said))


# ---- As spreadsheets write them

def each_field(change):
    return [[change(field) for field in fields] for fields in rows_in(SHEET)]


def padded_to_the_widest(rows):
    widest = max(map(len, rows))
    return [fields + [""] * (widest - len(fields)) for fields in rows]


def blank_rows_between(rows):
    """Rows without fields, with empty ones, and with blanks alone."""
    blank = itertools.cycle(([], ["", "", ""], [" ", "\t"]))
    return [row for fields in rows for row in (next(blank), fields, next(blank))]


def zeros_where_nothing_is_used():
    return [fields if row < RECORD_TITLES else [field or "0" for field in fields] for row, fields in enumerate(rows_in(SHEET))]


def all_at_once():
    rows = blank_rows_between(padded_to_the_widest(reordered(RECORD_TITLES, range(10, 0, -1))))
    return b"\xef\xbb\xbf" + sheet_of([[f" {field.upper()} " for field in fields] for fields in rows], delimiter=";",
                                      lineterminator="\r\n", quoting=csv.QUOTE_ALL)


MANNERS = {
    "as it is": SHEET,
    "without the last line end": SHEET.rstrip(b"\n"),
    "a byte-order mark": b"\xef\xbb\xbf" + SHEET,
    "CRLF": SHEET.replace(b"\n", b"\r\n"),
    "semicolons": sheet_of(rows_in(SHEET), delimiter=";"),
    "all fields quoted": sheet_of(rows_in(SHEET), quoting=csv.QUOTE_ALL),
    "padded to the widest": sheet_of(padded_to_the_widest(rows_in(SHEET))),
    "blank rows between": sheet_of(blank_rows_between(rows_in(SHEET))),
    "no blank rows": sheet_of(filter(any, rows_in(SHEET))),
    "blanks around fields": sheet_of(each_field(lambda field: f"  {field}\t ")),
    "titles without units": sheet_of(each_field(without_units)),
    "capitals": sheet_of(each_field(str.upper)),
    "capitals without units": sheet_of(each_field(lambda field: without_units(field).title())),
    "two blanks in a name": sheet_of(each_field(lambda field: field.replace(" ", "  "))),
    "leading zeros": sheet_of(each_field(lambda field: f"000{field}" if field.isdigit() else field)),
    "zeros where nothing is used": sheet_of(zeros_where_nothing_is_used()),
    "areas' columns in another order": sheet_of(reordered(AREA_TITLES, (3, 1, 2))),
    "all at once": all_at_once(),
}


class AsSpreadsheetsWriteThem(unittest.TestCase):
    """Each says the words of examples/two-zones.hour."""

    def assert_the_example(self, sheet):
        self.assertEqual(sheets.Packed(sheet).hour().words(), words_of(FILE), sheet)

    def test_manners(self):
        for name, sheet in MANNERS.items():
            with self.subTest(name):
                self.assertTrue(name == "as it is" or sheet != SHEET)
                self.assert_the_example(sheet)

    def test_columns_in_any_order(self):
        rng = random.Random("columns")
        for _ in range(100):
            order = rng.sample(range(1, len(LETTERS)), len(LETTERS) - 1)
            self.assert_the_example(sheet_of(reordered(RECORD_TITLES, order)))

    def test_parts_in_any_order(self):
        for order in itertools.permutations(parts()):
            self.assert_the_example(sheet_of(itertools.chain(*order)))

    def test_through_the_command(self):
        self.assertEqual(asked("pack", data=MANNERS["all at once"]), (0, FILE, ""))


# ---- The page

class ThePage(unittest.TestCase):
    """docs/SHEETS.md shows the example's sheet and statement as they are, and what is said of sheets as it is said."""

    PAGE = (ROOT / "docs" / "SHEETS.md").read_text()
    SAID = (
        with_field(15, "E", "12.5"), with_field(15, "E", ""), with_field(15, "D", "-1"), with_field(15, "A", "boiler"),
        [fields + ["remark"] * (row == RECORD_TITLES) for row, fields in enumerate(rows_in(SHEET), 1)],
        with_field(RECORD_TITLES, "E", ""), with_field(6, "A", "2"), with_field(15, "E", "100001"), with_field(5, "B", "1000001"),
        with_field(14, "D", "2600"), [*rows_in(SHEET)[:RECORD_TITLES], *rows_in(SHEET)[-1:] * 251])

    def said_of(self, sheet):
        try:
            packed = sheets.Packed(sheet)
        except sheets.Unclear as unclear:
            return re.sub("(?<=there are kind, member, ).*", "…", str(unclear))
        line = second.written_hour(packed.hour().words()).decode().rstrip()
        return f"SHEET: {line}: {packed.reason(*refusal_in(line))}"

    def test_the_example(self):
        self.assertIn(f"```\n{SHEET.decode()}```\n", self.PAGE)
        self.assertIn(f"```\n{second.statement(FILE).decode()}```\n", self.PAGE)

    def test_what_is_said(self):
        said = [self.said_of(sheet_of(rows)) for rows in self.SAID]
        self.assertEqual([words for words in said if f"| `{words}` |" not in self.PAGE], [])
        self.assertEqual(self.PAGE.count("| `row ") + self.PAGE.count("| `SHEET: "), len(said))


# ---- Nothing invented

ENDS = (0, 1, 4, 5, 8, 9, 32, 33, 20_000, 100_000, 1_000_000, 10_000_000, 2**31, 2**32)


def some_number(rng):
    """Near the end of a range as often as not, with zeros in front at times."""
    value = rng.choice([rng.choice(ENDS) + rng.randint(-1, 1), rng.randint(-99, 99), rng.randint(-2**33, 2**33)])
    return f"{rng.choice(['', '', '-'])}{'0' * rng.choice([0, 0, 2])}{abs(value)}"


class NothingInvented(unittest.TestCase):
    """With one number changed, whatever is written has that number, and all others as they were."""

    COUNT, EACH = 300, 4

    def test_one_number_changed(self):
        outcomes = Counter()
        for index, made in enumerate(kept("invented", self.COUNT)):
            rng = random.Random(f"invented {index}")
            before = rows_in(sheets.sheet_of(made.data))
            for row, column in rng.choices(self.numbers_in(before), k=self.EACH):
                changed = [*map(list, before)]
                changed[row][column] = some_number(rng)
                with self.subTest(index=index, name=made.name, row=row + 1, column=column + 1, number=changed[row][column]):
                    outcomes[self.outcome(before, changed, row, column)] += 1
        print("\nsheets: one number changed: " + ", ".join(f"{name}: {count}" for name, count in sorted(outcomes.items())))
        self.assertEqual(set(outcomes), {"unclear", "refused", "written"})

    def numbers_in(self, rows):
        """Where a number stands, or nothing where its kind uses none: of the head as often as of the records."""
        places = [(row, column) for row, fields in enumerate(rows) for column, field in enumerate(fields)
                  if not field or field.lstrip("-").isdigit()]
        head = [place for place in places if len(rows[place[0]]) < len(LETTERS)]
        return places + head * (len(places) // len(head) - 1)

    def outcome(self, before, changed, row, column):
        try:
            written = second.written_hour(sheets.Packed(sheet_of(changed)).hour().words())
        except sheets.Unclear:
            return "unclear"
        if written.startswith(b"refused"):
            return "refused"
        after = rows_in(sheets.sheet_of(written))
        self.assertEqual(int(after[row][column] or 0), int(changed[row][column]))
        after[row][column] = before[row][column]
        self.assertEqual(after, before)
        return "written"


if __name__ == "__main__":
    unittest.main()
