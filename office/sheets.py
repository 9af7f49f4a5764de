"""Hours as sheets, the CSV that spreadsheets read and write (docs/SHEETS.md). All that is judged here is whether a sheet says an hour's
words: what the words may be is for the proved programs to say."""

import csv
import io
import re
from collections import namedtuple

from hour import (AREA, AREAS, FIRST_WORD, HEAD_WORDS, KIND, KINDS, MEMBER, MEMBER_COUNT, MEMBERS, MOST_AREAS, MOST_MEMBERS, SCHEDULED,
                  ZONE, ZONES, Field, Hour, value_of)
from reasons import beyond, of_words
from ten_minute_hour import TenMinuteHour, form_of

MOST_BYTES = 2**20  # many times what an hour's sheet has
SHOWN = 40  # characters of a field, in a message

KIND_NAME, MEMBER_NUMBER = Field("kind", "", 1, len(KINDS)), Field("member", "", 0, MOST_MEMBERS - 1)
AREA_NUMBER = Field("area", "", 0, MOST_AREAS - 1)
# Which hour a sheet is of, by the first field of the row that has the hour's number.
FORMS = {form.NAME.name: form for form in (Hour, TenMinuteHour)}


# What stands in the first field of a row that begins a part: a single number behind it, or columns.

def numbers_of(form):
    return {field.name: field for field in (form.NAME, MEMBER_COUNT)}


def tables_of(form):
    """The columns of a record are its words, in their order."""
    return {"zone": (ZONE, *form.PRICES), "area": (AREA_NUMBER, *form.AREA_FIELDS),
            "kind": (KIND_NAME, MEMBER_NUMBER, AREA_NUMBER, *form.ENERGIES)}


class Unclear(Exception):
    """A sheet doesn't say an hour's words."""


# Where something stands: the row from 1 on, the column from 0 on, and the column's name, where it has one.
Place = namedtuple("Place", "row column name", defaults=(None,))


def text_of(place):
    return f"row {place.row}, column {letters_of(place.column)}" + (f" ({place.name})" if place.name else "")


def letters_of(column):
    """A column as spreadsheets call it: A to Z, then AA."""
    before, last = divmod(column, 26)
    return (letters_of(before - 1) if before else "") + chr(ord("A") + last)


def unclear(place, what):
    return Unclear(f"{text_of(place)}: {what}")


# ---- A sheet from an hour

def sheet_of(file, delimiter=","):
    """The sheet of a file whose words are all in their ranges, as bytes."""
    form = form_of(file)
    told, tables = form.of_file(file), tables_of(form)
    text = io.StringIO()
    out = csv.writer(text, delimiter=delimiter, lineterminator="\n")
    out.writerows([(form.NAME.name, told.head[FIRST_WORD]), ("members", told.head[MEMBERS]), ()])
    out.writerows([titles(tables["zone"]), *(head_row(told, zone, form.price_words) for zone in range(told.head[ZONES])), ()])
    out.writerows([titles(tables["area"]), *(head_row(told, area, form.area_words) for area in range(told.head[AREAS])), ()])
    out.writerows([titles(tables["kind"]), *(record_row(form, record) for record in told.records)])
    return text.getvalue().encode()


def titles(columns):
    return [f"{field.name} ({field.unit})" if field.unit else field.name for field in columns]


def head_row(told, number, words_of):
    """A zone or an area."""
    return number, *(value_of(told.head[word], told.head_field(word)) for word in words_of(number))


def record_row(form, record):
    """What a record's kind doesn't use is left empty."""
    kind = record[KIND]
    energies = (value_of(record[word], field) if form.uses(kind, word) else "" for word, field in enumerate(form.ENERGIES, SCHEDULED))
    return KINDS[kind - 1], *record[1:SCHEDULED], *energies


# ---- Rows from a sheet

def rows_of(data):
    """The rows that have something in them, as (number, fields without blanks around them)."""
    if len(data) > MOST_BYTES:
        raise Unclear(f"the sheet has more than {MOST_BYTES} bytes; an hour has at most {Hour.MOST_RECORDS} records")
    try:
        text = data.decode("utf-8-sig")
    except UnicodeDecodeError as error:
        raise Unclear(f"the sheet is no UTF-8 text: byte {error.start}") from error
    reader = csv.reader(io.StringIO(text, newline=""), delimiter=delimiter_of(text), strict=True)
    number, rows = 0, []
    try:
        for number, fields in enumerate(reader, 1):
            fields = [field.strip() for field in fields]
            if any(fields):
                rows.append((number, fields))
    except csv.Error as error:
        raise Unclear(f"row {number + 1}: {error}") from error
    return rows


def delimiter_of(text):
    """A comma or a semicolon, whichever comes first: the first field of a sheet has neither."""
    found = re.search("[,;]", text)
    return found.group() if found else ","


# ---- Parts from rows

class Table:
    """A part with columns: its titles' row, and its rows as (number, fields)."""

    def __init__(self, columns, number, fields):
        self.columns, self.number, self.rows = columns, number, []
        self.at = {}
        for column, title in enumerate(fields):
            if title:
                self.add_title(Place(number, column), title)
        for field in columns:
            if field.name not in self.at:
                raise Unclear(f"row {number}: column {field.name!r} is missing")

    def add_title(self, place, title):
        """A title has its unit, or none."""
        for field, whole in zip(self.columns, titles(self.columns)):
            if folded(title) in (field.name, folded(whole)):
                if field.name in self.at:
                    raise unclear(place, f"column {field.name!r} is there twice")
                self.at[field.name] = place.column
                return
        raise unclear(place, f"there is no column {shown(title)} here; there are {', '.join(field.name for field in self.columns)}")

    def place(self, row, name):
        return Place(row[0], self.at[name], name)

    def field_at(self, row, name):
        return row[1][self.at[name]] if self.at[name] < len(row[1]) else ""

    def number_at(self, row, field):
        return number_in(self.field_at(row, field.name), field, self.place(row, field.name))

    def expect_titles(self, row):
        number, fields = row
        for column, field in enumerate(fields):
            if field and column not in self.at.values():
                raise unclear(Place(number, column), f"{shown(field)} stands under no title")


def form_in(rows):
    """Which hour a sheet is of; the hourly where it doesn't say, so that what else is wrong with it is said in names of that."""
    named = [(number, name) for number, fields in rows if (name := folded(fields[0])) in FORMS]
    for number, name in named:
        if name != named[0][1]:
            raise unclear(Place(number, 0), f"{name!r} is there beside {named[0][1]!r}; a sheet is of one of them")
    return FORMS[named[0][1]] if named else Hour


def parts_of(rows, form):
    """{a part's name: (place, number), or a table}."""
    numbers, tables = numbers_of(form), tables_of(form)
    parts, table = {}, None
    for number, fields in rows:
        name = folded(fields[0])
        if name in numbers or name in tables:
            if name in parts:
                raise unclear(Place(number, 0), f"{name!r} is there twice")
            table = None
            if name in tables:
                parts[name] = table = Table(tables[name], number, fields)
            else:
                parts[name] = number_part(number, fields, numbers[name])
        elif table is not None:
            table.rows.append((number, fields))
        else:
            raise unclear(Place(number, 0), f"{shown(fields[0])} is none of {', '.join((*FORMS, MEMBER_COUNT.name, *tables))}")
    for name in (*numbers, *tables):
        if name not in parts:
            raise Unclear(f"there is no row that begins with {' or '.join(map(repr, FORMS if name in FORMS else [name]))}")
    return parts


def number_part(number, fields, field):
    for column, more in enumerate(fields[2:], 2):
        if more:
            raise unclear(Place(number, column), f"{shown(more)} stands behind the number")
    place = Place(number, 1, field.name)
    return place, number_in(fields[1] if len(fields) > 1 else "", field, place)


def folded(text):
    return " ".join(text.lower().split())


def shown(field):
    return repr(field if len(field) <= SHOWN else field[:SHOWN] + "…")


# ---- Words from parts

def number_in(text, field, place):
    """A field as a number that a word can hold."""
    if not re.fullmatch("-?[0-9]+", text):
        raise unclear(place, f"{shown(text)} is no whole number" if text else "nothing is there; it must be a whole number")
    if len(text) > SHOWN:
        raise unclear(place, f"{shown(text)} is too long for a number")
    value = int(text)
    low, high = (-2**31, 2**31 - 1) if field.low < 0 else (0, 2**32 - 1)
    if not low <= value <= high:
        raise unclear(place, beyond(value, field))
    return value


class Packed:
    """The words that a sheet says, and where in the sheet each stands."""

    def __init__(self, data):
        rows = rows_of(data)
        self.form = form_in(rows)
        parts = parts_of(rows, self.form)
        self.head, self.places = [0] * HEAD_WORDS, {}
        for word, name in zip((FIRST_WORD, MEMBERS), numbers_of(self.form)):
            place, value = parts[name]
            self.put(word, value, place)
        self.put_rows(parts["zone"], ZONES, self.form.price_words)
        self.put_rows(parts["area"], AREAS, self.form.area_words)
        self.table = parts["kind"]
        self.records = [self.record(row) for row in self.table.rows]

    def put(self, word, value, place):
        self.head[word - FIRST_WORD] = value % 2**32
        self.places[word] = place

    def put_rows(self, table, count, words_of):
        """Zones or areas. How many they are stands at the last of them, or at the titles."""
        for number, row in enumerate(table.rows):
            self.expect(table, row, number)
            for word, field in zip(words_of(number), table.columns[1:]):
                self.put(word, table.number_at(row, field), table.place(row, field.name))
        last = table.rows[-1] if table.rows else (table.number, [])
        self.put(count, len(table.rows), table.place(last, table.columns[0].name))

    def expect(self, table, row, due):
        """Zones and areas stand in order, from 0 on, as many as there is room for."""
        field = table.columns[0]
        value, place = table.number_at(row, field), table.place(row, field.name)
        if value > field.high:
            raise unclear(place, beyond(value, field))
        if value != due:
            raise unclear(place, f"{field.name} {value} stands where {field.name} {due} is due")
        table.expect_titles(row)

    def record(self, row):
        kind = self.kind(row)
        self.table.expect_titles(row)
        words = [kind, *(self.table.number_at(row, self.table.columns[word]) for word in (MEMBER, AREA))]
        for word, field in enumerate(self.form.ENERGIES, SCHEDULED):
            empty = not self.table.field_at(row, field.name) and not self.form.uses(kind, word)
            words.append(0 if empty else self.table.number_at(row, field) % 2**32)
        return words + [0] * (self.form.RECORD_WORDS - len(words))

    def kind(self, row):
        text = self.table.field_at(row, "kind")
        if folded(text) not in KINDS:
            raise unclear(self.table.place(row, "kind"), f"{shown(text)} is none of {', '.join(KINDS)}")
        return KINDS.index(folded(text)) + 1

    def hour(self):
        """A record too many is enough for a program to see that there are."""
        return self.form(self.head, self.records[:self.form.MOST_RECORDS + 1])

    def reason(self, number, place):
        """Why these words are refused, and where they stand in the sheet."""
        if number == 1:
            most = self.form.MOST_RECORDS
            return f"row {self.table.rows[most][0]}: a record more than the {most} that {self.form.CALLED} can have"
        word, why = of_words(number, place, self.hour())
        at = self.places[word] if number == 4 else self.table.place(self.table.rows[place], self.table.columns[word].name)
        return f"{text_of(at)}: {why}"
