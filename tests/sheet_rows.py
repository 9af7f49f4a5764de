"""The example sheet of the tests of sheets, its rows and fields, and sheets made of changed ones: of the example, where no other is given."""

import csv
import io
import re
import string
from pathlib import Path

ROOT = Path(__file__).resolve().parent.parent

# The example that is changed: five rows of numbers and titles, 2 zones, 3 areas, 8 records of all kinds.
SHEET = (ROOT / "examples" / "two-zones.csv").read_bytes()
ZONE_TITLES, AREA_TITLES, RECORD_TITLES = 4, 8, 13  # their rows, from 1 on
LETTERS = "ABCDEFGHIJK"
USED = {"generator": "DEFGHIJK", "load": "DEFGH", "profile load": "DEFGH", "import": "DFGJK", "export": "DEF"}


def refusal_in(line):
    """Number and place."""
    return tuple(int(word) for word in line.split()[1::2])


# ---- Sheets as rows

def rows_in(sheet):
    return [*csv.reader(io.StringIO(sheet.decode(), newline=""))]


def sheet_of(rows, **manner):
    text = io.StringIO()
    csv.writer(text, **{"lineterminator": "\n", **manner}).writerows(rows)
    return text.getvalue().encode()


def with_field(row, letter, value, sheet=SHEET):
    """A sheet's rows with another field."""
    rows = rows_in(sheet)
    rows[row - 1][string.ascii_uppercase.index(letter)] = value
    return rows


def parts():
    """The example's five parts, each as rows: hour, members, zones, areas, records."""
    rows = rows_in(SHEET)
    return rows[0:1], rows[1:2], rows[3:6], rows[7:11], rows[12:]


def without_units(field):
    return re.sub(r" \(.*\)", "", field)


def reordered(titles_row, order, sheet=SHEET):
    """A sheet with the columns of a part in another order; the first stays, since it tells which part it is."""
    rows, first = rows_in(sheet), titles_row - 1
    for number in range(first, len(rows)):
        if not rows[number]:
            break
        rows[number] = [rows[number][column] for column in (0, *order)]
    return rows
