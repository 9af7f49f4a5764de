"""Ten-minute hours as sheets (office/sheets.py): that a sheet says exactly the words of its hour, that each fault is answered with its row
and column, and that nothing is invented where one number is changed.

    python3 -m unittest tests/test_sheets_ten_minutes.py       # programs from target/bin
"""

import csv
import itertools
import random
import re
import string
import subprocess
import sys
import unittest
from collections import Counter
from pathlib import Path

HERE = Path(__file__).resolve().parent
ROOT = HERE.parent
sys.path.insert(0, str(HERE))
sys.path.insert(0, str(ROOT / "office"))
import programs  # noqa: E402
import second  # noqa: E402
import sheets  # noqa: E402
import ten_minutes  # noqa: E402
from programs import COMMAND, asked  # noqa: E402
from sheet_rows import SHEET as HOURLY_SHEET  # noqa: E402
from sheet_rows import refusal_in, reordered, rows_in, sheet_of, with_field, without_units  # noqa: E402
from test_sheets import some_number, under_titles  # noqa: E402

SHEET, FILE = ((ROOT / "examples" / f"ten-minutes-1.{kind}").read_bytes() for kind in ("csv", "hour"))
NEXT_SHEET = (ROOT / "examples" / "ten-minutes-2.csv").read_bytes()  # with an import as record 2
ZONE_TITLES, AREA_TITLES, RECORD_TITLES = 4, 8, 12  # rows of the example, from 1 on; records from 13 on
COLUMNS = string.ascii_uppercase  # a record has as many as there are letters
USED = {"generator": COLUMNS[3:], "load": "DEF" + COLUMNS[8:], "profile load": "DI" + COLUMNS[14:], "import": "DGH" + COLUMNS[14:],
        "export": "D" + COLUMNS[8:20]}


def file_in(sheet):
    return sheets.Packed(sheet).hour().file()


# ---- There and back

def honest(seed, count):
    """So many made hours that keep every rule, each maker by turns."""
    for index in range(count):
        yield ten_minutes.HONEST[index % len(ten_minutes.HONEST)](random.Random(f"{seed} {index}")).encode()


# What the hours must reach, by the hour as the second program reads it.
SIDES = {
    "a negative price": lambda hour: any(min(*each["incremental"], *each["decremental"]) < 0 for each in hour["prices"]),
    "a negative adjustment": lambda hour: any(min(record["J"]) < 0 for record in hour["records"]),
    **{name: lambda hour, kind=kind: any(record["kind"] == kind for record in hour["records"]) for kind, name in enumerate(USED, 1)},
    "no records": lambda hour: not hour["records"],
    "64 records": lambda hour: len(hour["records"]) == 64,
    "4 zones": lambda hour: len(hour["prices"]) == 4,
    "8 areas": lambda hour: len(hour["areas"]) == 8,
    "the highest hour number": lambda hour: hour["number"] == 2**32 - 1,
}


def numbered(name, values):
    return {f"{name} {interval} (kWh)": str(value) for interval, value in enumerate(values, 1)}


def named_fields(record):
    """A record of the second program as a sheet has it; what its kind doesn't use is empty."""
    kind = [*USED][record["kind"] - 1]
    fields = {"kind": kind, "member": str(record["member"]), "area": str(record["area"]), "scheduled (kWh)": str(record["S"]),
              "scheduled before (kWh)": str(record["before"]), "scheduled next (kWh)": str(record["next"]),
              "scheduled multiplier (ten-thousandths)": str(record["F"]), "hour-ahead multiplier (ten-thousandths)": str(record["H"]),
              **numbered("actual", record["A"]), **numbered("adjustment", record["J"]), **numbered("ancillary", record["N"])}
    return {title: value if letter in "ABC" + USED[kind] else "" for letter, (title, value) in zip(COLUMNS, fields.items())}


def named_prices(zone, prices):
    return {"zone": str(zone), **{f"{name} price {interval} (cents/MWh)": str(price)
                                  for name in ("incremental", "decremental") for interval, price in enumerate(prices[name], 1)}}


class ThereAndBack(unittest.TestCase):
    COUNT = 600

    def test_made_hours(self):
        """The file of a sheet is the one that the sheet was made of, byte for byte; with commas and semicolons by turns."""
        reached = Counter()
        for index, data in enumerate(honest("sheets", self.COUNT)):
            with self.subTest(index=index):
                self.assertEqual(file_in(sheets.sheet_of(data, ",;"[index % 2])), data)
            hour = second.read_ten_minute_hour(data)
            reached.update(name for name, shows in SIDES.items() if shows(hour))
        print(f"\nten-minute sheets: {self.COUNT} there and back: " + ", ".join(f"{name}: {reached[name]}" for name in SIDES))
        self.assertEqual([name for name in SIDES if not reached[name]], [], "never occurred")

    def test_under_their_names(self):
        """What stands under each title is what the second program reads under that name: there and back alone would not notice two columns
        that are exchanged both ways."""
        for index, data in enumerate(honest("named", 100)):
            with self.subTest(index=index):
                rows, hour = rows_in(sheets.sheet_of(data)), second.read_ten_minute_hour(data)
                zones, areas = 4 + len(hour["prices"]), 6 + len(hour["prices"]) + len(hour["areas"])
                self.assertEqual(rows[:2], [["ten-minute hour", str(hour["number"])], ["members", str(hour["members"])]])
                self.assertEqual(under_titles(rows[3:zones]), [named_prices(*each) for each in enumerate(hour["prices"])])
                self.assertEqual(under_titles(rows[zones + 1:areas]),
                                 [{"area": str(area), "zone": str(each["zone"])} for area, each in enumerate(hour["areas"])])
                self.assertEqual(under_titles(rows[areas + 1:]), [*map(named_fields, hour["records"])])

    def test_through_the_command(self):
        """Unpacked and packed again it is the same file."""
        for index, data in enumerate(honest("piped", len(ten_minutes.HONEST))):
            script = 'set -o pipefail; "$0" unpack "$@" | "$0" pack'
            with self.subTest(index=index):
                run = subprocess.run(["bash", "-c", script, COMMAND, *["--semicolons"] * (index % 2)], input=data, capture_output=True,
                                     timeout=programs.SECONDS)
                self.assertEqual((run.returncode, run.stdout, run.stderr), (0, data, b""))


# ---- As spreadsheets write them

def each_field(change):
    return [[change(field) for field in fields] for fields in rows_in(SHEET)]


def parts():
    rows = rows_in(SHEET)
    return rows[0:1], rows[1:2], rows[3:6], rows[7:10], rows[11:]


MANNERS = {
    "semicolons": sheet_of(rows_in(SHEET), delimiter=";"),
    "a byte-order mark, CRLF, quotes": b"\xef\xbb\xbf" + sheet_of(rows_in(SHEET), lineterminator="\r\n", quoting=csv.QUOTE_ALL),
    "titles without units": sheet_of(each_field(without_units)),
    "capitals": sheet_of(each_field(str.upper)),
    "blanks around fields and in names": sheet_of(each_field(lambda field: f" {field.replace(' ', '  ')}\t")),
    "zeros where nothing is used": sheet_of(
        [fields if row < RECORD_TITLES else [field or "0" for field in fields] for row, fields in enumerate(rows_in(SHEET))]),
    "prices in another order": sheet_of(reordered(ZONE_TITLES, range(12, 0, -1), SHEET)),
    "records' columns in another order": sheet_of(reordered(RECORD_TITLES, range(25, 0, -1), SHEET)),
}


class AsSpreadsheetsWriteThem(unittest.TestCase):
    """Each says the words of examples/ten-minutes-1.hour."""

    def test_manners(self):
        for name, sheet in MANNERS.items():
            with self.subTest(name):
                self.assertNotEqual(sheet, SHEET)
                self.assertEqual(file_in(sheet), FILE)

    def test_parts_in_any_order(self):
        """So the row that says which kind of hour it is may be the last."""
        for order in itertools.permutations(parts()):
            self.assertEqual(file_in(sheet_of(itertools.chain(*order))), FILE)


# ---- Sheets that say no hour

NO_COLUMN = "there is no column '{}' here; there are {}".format
PRICES = ", ".join(["zone", *(f"{name} price {interval}" for name in ("incremental", "decremental") for interval in range(1, 7))])

# A field of the example: its row and column, what is put there, the words.
FIELDS = (
    (1, "B", "", "row 1, column B (ten-minute hour): nothing is there; it must be a whole number"),
    (1, "B", "4294967296", "row 1, column B (ten-minute hour): 4294967296 is above 4294967295"),
    (1, "A", "ten minute hour", "row 1, column A: 'ten minute hour' is none of hour, ten-minute hour, members, zone, area, kind"),
    (2, "B", "three", "row 2, column B (members): 'three' is no whole number"),
    (4, "B", "price (cents/MWh)", "row 4, column B: " + NO_COLUMN("price (cents/MWh)", PRICES)),
    (4, "H", "incremental price 1", "row 4, column H: column 'incremental price 1' is there twice"),
    (4, "M", "", "row 4: column 'decremental price 6' is missing"),
    (5, "A", "1", "row 5, column A (zone): zone 1 stands where zone 0 is due"),
    (5, "C", "31.00", "row 5, column C (incremental price 2): '31.00' is no whole number"),
    (6, "M", "", "row 6, column M (decremental price 6): nothing is there; it must be a whole number"),
    (6, "H", "2147483648", "row 6, column H (decremental price 1): 2147483648 is above 100000"),
    (8, "B", "tie in (kWh)", "row 8, column B: " + NO_COLUMN("tie in (kWh)", "area, zone")),
    (10, "B", "-1", "row 10, column B (zone): -1 is below 0"),
    (12, "Z", "maximum (kWh)", "row 12, column Z: there is no column 'maximum (kWh)' here; there are kind, member, area, scheduled, "),
    (12, "I", "actual (kWh)", "row 12, column I: there is no column 'actual (kWh)' here; there are kind, member, area, scheduled, "),
    (12, "Z", "", "row 12: column 'ancillary 6' is missing"),
    (13, "A", "engine", "row 13, column A (kind): 'engine' is none of generator, load, profile load, import, export"),
    (13, "E", "", "row 13, column E (scheduled before): nothing is there; it must be a whole number"),
    (13, "F", "7.5", "row 13, column F (scheduled next): '7.5' is no whole number"),
    (13, "G", "-1", "row 13, column G (scheduled multiplier): -1 is below 1"),
    (14, "N", "abc", "row 14, column N (actual 6): 'abc' is no whole number"),
    (15, "I", "", "row 15, column I (actual 1): nothing is there; it must be a whole number"),
    (15, "J", "x", "row 15, column J (actual 2): 'x' is no whole number"),
    (16, "T", "-2147483649", "row 16, column T (adjustment 6): -2147483649 is below -100000"),
)
# What is wrong with a sheet, its bytes, the words.
WHOLE = (
    ("both kinds", SHEET + b"hour,7\n", "row 17, column A: 'hour' is there beside 'ten-minute hour'; a sheet is of one of them"),
    ("the other way round", HOURLY_SHEET + b"ten-minute hour,7\n",
     "row 22, column A: 'ten-minute hour' is there beside 'hour'; a sheet is of one of them"),
    ("the hour twice", SHEET + b"Ten-minute hour,7\n", "row 17, column A: 'ten-minute hour' is there twice"),
    ("an hourly sheet that says it is by ten minutes", HOURLY_SHEET.replace(b"hour,1400", b"ten-minute hour,1400"),
     "row 4, column B: " + NO_COLUMN("price (cents/MWh)", PRICES)),
    ("the other way round", SHEET.replace(b"ten-minute hour", b"hour"),
     "row 4, column B: " + NO_COLUMN("incremental price 1 (cents/MWh)", "zone, price")),
    ("a column too many", sheet_of([*rows_in(SHEET)[:12], rows_in(SHEET)[12] + ["5"]]), "row 13, column AA: '5' stands under no title"),
    ("no members", sheet_of(itertools.chain(*parts()[:1], *parts()[2:])), "there is no row that begins with 'members'"),
    ("no records' titles", sheet_of(itertools.chain(*parts()[:4])), "there is no row that begins with 'kind'"),
)


class Unclear(unittest.TestCase):
    """What a sheet doesn't say clearly is said with its row and column; nothing is packed, whatever else it says."""

    def assert_unclear(self, sheet, words):
        """The words, or what they begin with where a list goes on."""
        with self.assertRaises(sheets.Unclear) as raised:
            sheets.Packed(sheet)
        said = str(raised.exception)
        self.assertEqual(said[:len(words)] if words.endswith(", ") else said, words)

    def test_fields(self):
        for row, letter, value, words in FIELDS:
            with self.subTest(words):
                self.assert_unclear(sheet_of(with_field(row, letter, value, SHEET)), words)

    def test_sheets(self):
        for what, sheet, words in WHOLE:
            with self.subTest(what):
                self.assert_unclear(sheet, words)

    def test_said_by_the_command(self):
        for row, letter, value, words in (FIELDS[8], FIELDS[-1]):
            sheet = sheet_of(with_field(row, letter, value, SHEET))
            self.assertEqual(asked("pack", data=sheet), (2, b"", f"sneupelaar: standard input: {words}\n"))

    def test_every_column_missing(self):
        for titles_row in (ZONE_TITLES, AREA_TITLES, RECORD_TITLES):
            titles = rows_in(SHEET)[titles_row - 1]
            for column in range(1, len(titles)):
                order = [each for each in range(1, len(titles)) if each != column]
                self.assert_unclear(sheet_of(reordered(titles_row, order, SHEET)),
                                    f"row {titles_row}: column '{without_units(titles[column])}' is missing")

    def test_every_field_that_a_kind_uses(self):
        """It may not be empty; member and area neither."""
        kinds = set()
        for sheet in (SHEET, NEXT_SHEET):
            titles = [without_units(title) for title in rows_in(sheet)[RECORD_TITLES - 1]]
            for row, fields in enumerate(rows_in(sheet)[RECORD_TITLES:], RECORD_TITLES + 1):
                kinds.add(fields[0])
                for letter in "BC" + USED[fields[0]]:
                    self.assert_unclear(sheet_of(with_field(row, letter, "", sheet)), f"row {row}, column {letter} "
                                        f"({titles[COLUMNS.index(letter)]}): nothing is there; it must be a whole number")
        self.assertEqual(kinds, set(USED))


# ---- What the proved program refuses

# A field of the example, or of the hour after it where an import is asked for: its row and column, what is put there, number, place, words.
REFUSED = (
    (2, "B", "33", 4, 9, "row 2, column B (members): members: 33 is above 32"),
    (10, "B", "2", 4, 20, "row 10, column B (zone): zone of area 1: 2 is above 1"),
    (5, "B", "100001", 4, 48, "row 5, column B (incremental price 1): incremental price 1 of zone 0: 100001 is above 100000"),
    (6, "M", "-100001", 4, 71, "row 6, column M (decremental price 6): decremental price 6 of zone 1: -100001 is below -100000"),
    (13, "B", "3", 5, 0, "row 13, column B (member): record 0 (generator): member 3 is above 2"),
    (14, "C", "2", 5, 1, "row 14, column C (area): record 1 (member 1, load): area 2 is above 1"),
    (13, "E", "100001", 5, 0,
     "row 13, column E (scheduled before): record 0 (member 0, generator): scheduled before 100001 is above 100000"),
    (15, "F", "1", 5, 2, "row 15, column F (scheduled next): record 2 (member 1, profile load): scheduled next is 1 and must be 0"),
    (14, "G", "1", 5, 1, "row 14, column G (scheduled multiplier): record 1 (member 1, load): scheduled multiplier is 1 and must be 0"),
    (13, "H", "0", 5, 0, "row 13, column H (hour-ahead multiplier): record 0 (member 0, generator): hour-ahead multiplier 0 is below 1"),
    (14, "N", "100001", 5, 1, "row 14, column N (actual 6): record 1 (member 1, load): actual 6: 100001 is above 100000"),
    (15, "J", "55", 5, 2, "row 15, column J (actual 2): record 2 (member 1, profile load): actual 2 is 55 and must be 0"),
    (16, "O", "-100001", 5, 3, "row 16, column O (adjustment 1): record 3 (member 2, export): adjustment 1: -100001 is below -100000"),
    (16, "Z", "1", 5, 3, "row 16, column Z (ancillary 6): record 3 (member 2, export): ancillary 6 is 1 and must be 0"),
)
OF_AN_IMPORT = (15, "I", "40", 5, 2, "row 15, column I (actual 1): record 2 (member 2, import): actual 1 is 40 and must be 0")


class RefusedByTheProgram(unittest.TestCase):
    """Its line stands in the file's place, and what is wrong is said with the sheet's row and column."""

    def assert_refused(self, sheet, number, place, words):
        line = f"refused {number} at {place}"
        self.assertEqual(asked("pack", data=sheet), (1, f"{line}\n".encode(), f"standard input: {line}: {words}\n"))
        self.assertEqual(asked("pack", "--quiet", data=sheet), (1, f"{line}\n".encode(), ""))

    def test_fields(self):
        for row, letter, value, *told in REFUSED:
            with self.subTest(told[-1]):
                self.assert_refused(sheet_of(with_field(row, letter, value, SHEET)), *told)

    def test_an_import(self):
        row, letter, value, *told = OF_AN_IMPORT
        self.assert_refused(sheet_of(with_field(row, letter, value, NEXT_SHEET)), *told)

    def test_no_zones(self):
        self.assert_refused(sheet_of(rows_in(SHEET)[:4] + rows_in(SHEET)[6:]), 4, 10, "row 4, column A (zone): zones: 0 is below 1")

    def test_too_many_records(self):
        """The first that is one too many, also where there are many more."""
        rows = rows_in(SHEET)
        of_records = [sheet_of(rows[:RECORD_TITLES] + rows[-1:] * count) for count in (64, 65, 5_000)]
        self.assertEqual(len(asked("pack", data=of_records[0]).printed), 8_704)
        for sheet in of_records[1:]:
            self.assert_refused(sheet, 1, 0, "row 77: a record more than the 64 that a ten-minute hour can have")


# ---- Nothing invented

class NothingInvented(unittest.TestCase):
    """With one number changed, whatever is accepted has that number, and all others as they were."""

    COUNT, EACH = 150, 6

    def test_one_number_changed(self):
        outcomes = Counter()
        for index, data in enumerate(honest("invented", self.COUNT)):
            rng = random.Random(f"invented {index}")
            before = rows_in(sheets.sheet_of(data))
            numbers = [(row, column) for row, fields in enumerate(before) for column, field in enumerate(fields)
                       if not field or re.fullmatch("-?[0-9]+", field)]
            for row, column in rng.choices(numbers, k=self.EACH):
                changed = [*map(list, before)]
                changed[row][column] = some_number(rng)
                with self.subTest(index=index, row=row + 1, column=column + 1, number=changed[row][column]):
                    outcomes[self.outcome(before, changed, row, column)] += 1
        print("\nten-minute sheets: one number changed: " + ", ".join(f"{name}: {count}" for name, count in sorted(outcomes.items())))
        self.assertEqual(set(outcomes), {"unclear", "refused", "written"})

    def named(self, changed, row, column):
        """The field that a refusal names: the changed one; where members are too few, the member of the first record that has none."""
        if (row, column) != (1, 1) or not 1 <= int(changed[row][column]) <= 32:
            return row, column
        records = [fields[:1] for fields in changed].index(["kind"]) + 1
        return next(at for at in range(records, len(changed)) if int(changed[at][1]) >= int(changed[row][column])), 1

    def outcome(self, before, changed, row, column):
        try:
            packed = sheets.Packed(sheet_of(changed))
        except sheets.Unclear:
            return "unclear"
        file = packed.hour().file()
        printed = second.ten_minutes(file)
        if printed.startswith(b"refused"):
            row, column = self.named(changed, row, column)
            self.assertRegex(packed.reason(*refusal_in(printed)), rf"\Arow {row + 1}, column {COLUMNS[column]} ")
            return "refused"
        after = rows_in(sheets.sheet_of(file))
        self.assertEqual(int(after[row][column] or 0), int(changed[row][column]))
        after[row][column] = before[row][column]
        self.assertEqual(after, before)
        return "written"


# ---- The page

class ThePage(unittest.TestCase):
    """docs/SHEETS.md has the titles of a ten-minute sheet, and what each kind leaves empty."""

    PAGE = (ROOT / "docs" / "SHEETS.md").read_text().split("## Ten-minute hours")[1].split("\n## ")[0]

    def listed(self, cell):
        """The names in a cell, those between the first and the last of a range too."""
        names = []
        for first, last in re.findall("`([a-z0-9 -]+)`(?: to `([a-z0-9 -]+)`)?", cell):
            name, number = re.fullmatch("(.*?)(?: ([1-6]))?", first).groups()
            names += [f"{name} {each}" for each in range(int(number), int(last[-1]) + 1)] if last else [first]
        return names

    def test_titles(self):
        for titles_row, part in ((ZONE_TITLES, "zone"), (AREA_TITLES, "area"), (RECORD_TITLES, "kind")):
            cell = re.search(rf"^\| `{part}` \| (.*) \|$", self.PAGE, re.M)[1].replace("(each `kWh`)", "").replace("(each `cents/MWh`)", "")
            titles = [without_units(title) for title in rows_in(SHEET)[titles_row - 1]]
            self.assertEqual(self.listed(cell.replace("(`ten-thousandths`)", "")), titles)

    def test_what_is_left_empty(self):
        whole = {"both multipliers": "GH", "all six actuals": COLUMNS[8:14], "all six ancillaries": COLUMNS[20:]}
        titles = [without_units(title) for title in rows_in(SHEET)[RECORD_TITLES - 1]]
        for kind, used in USED.items():
            cell = re.search(rf"^\| `{kind}` \| (.*?)(?:;.*)?\|$", self.PAGE, re.M)[1]
            empty = {COLUMNS[titles.index(name)] for name in self.listed(cell)}
            empty.update(*(letters for words, letters in whole.items() if words in cell))
            self.assertEqual(empty, set(COLUMNS[3:]) - set(used), kind)


if __name__ == "__main__":
    unittest.main()
