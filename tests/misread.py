"""Hours that a misreading of document 01 or 02 would answer otherwise. Each case is named for its misreading; its comment works the right
answer by hand. So a slip that is made alike in the code and in its definition shows from outside.

`runs()` gives each case as calls of programs: the case's name, the program, its arguments, its input, and what it must print. The name up
to the colon is the misreading; tests/test_misread.py puts each of them into a copy of the second program and sees that its cases refuse it.

In most hours a price is 1,000 cents a MWh. There a kWh is a cent, 10,000 units and 10,000,000 grains.
"""

import itertools
import struct

import hours
import to_write
from hours import EXPORT, GENERATOR, IMPORT, PROFILE_LOAD, REAL_TIME_LOAD, Hour, record
from known import field, words

NAMES = {GENERATOR: "a generator", REAL_TIME_LOAD: "a load in real time", PROFILE_LOAD: "a load by profile", IMPORT: "an import",
         EXPORT: "an export"}
LEVEL = dict(F=10_000, H=10_000)  # multipliers of one


# ---- What each program must print

def amount(cents):
    """An amount in 14 columns."""
    return f"{'-' if cents < 0 else '+'}{abs(cents) // 100}.{abs(cents) % 100:02}".rjust(14)


def statement(hour, charges, finals):
    lines = [f"hour {hour.number} members {hour.members} records {len(hour.records)}"]
    lines += [f"{member:02} {amount(charge)} {amount(final)}" for member, (charge, final) in enumerate(zip(charges, finals))]
    return "".join(f"{line}\n" for line in lines)


def settled(answer, data, ufe=(), **buffers):
    """What program `settled` prints. Buffers that are left out have no places."""
    lines = [f"answer {answer}", "ufe" + "".join(f" {figure}" for figure in hours.padded([*ufe], 8))]
    for name in ("charges", "finals", "shares", "deviations", "lines"):
        lines.append(" ".join([name, *map(str, buffers.get(name, ()))]))
    bodies = [f"{512 * block + 32}:480" for block in range(len(data) // 512)]
    lines.append(" ".join(["bodies", *bodies, *["0:0"] * (29 - len(bodies))]))
    return "".join(f"{line}\n" for line in lines)


def written(name, data, wanted):
    """The hour's head and records, given to the writer."""
    yield name, "write_hour", (), to_write.taken_apart(to_write.blocks_of(data)), wanted


def accepted(name, hour, deviations, charges=(0,), finals=(0,), shares=None, ufe=(0,), grains=None):
    """An hour with all its figures. The shares are 0 where they are left out, and the charges whole cents where the grains are."""
    data, members, records = hour.encode(), hour.members, len(hour.records)
    grains = grains or [10_000_000 * charge for charge in charges]
    lines = [f"{amount}:{sum(r['member'] == member for r in hour.records)}" for member, amount in enumerate(grains)]
    yield name, "statement", (), data, statement(hour, charges, finals).encode()
    yield name, "settled", (members, members, members, records, records), data, settled(
        "0 at 0", data, ufe, charges=charges, finals=finals, shares=shares or [0] * records, deviations=deviations, lines=lines).encode()
    yield from written(name, data, data)


def refused(name, number, place, data):
    """A file that is refused, also where every buffer is too short. The writer has rows 4, 5 and 14, and no row 2, 3, 6 or 12."""
    yield name, "statement", (), data, f"refused {number} at {place}\n".encode()
    yield name, "settled", (0, 0, 0, 0, 0), data, settled(f"{number} at {place}", data).encode()
    if number in (4, 5, 14):
        yield from written(name, data, f"refused {number} at {place}\n".encode())
    elif number in (6, 12):
        yield from written(name, data, data)


# ---- Ranges of records: each letter at its ends, and one past them

def beside_a_load(kind, tie_in=1, tie_out=0, **letters):
    """The record, and a load that took the kWh it planned. All is free of charge, so that the deviations alone are looked at."""
    return Hour(7, 1, [0], [[0, tie_in, tie_out]], [record(kind, 0, 0, **letters), record(PROFILE_LOAD, 0, 0, S=1, A=1)])


# A letter, its value at an end, a kind, the letters beside it, what ties bring in and out so that there is no UFE, and the deviation.
# Ties have 1 kWh more in for the load. 100,000 kWh are 1,000,000,000 units, which is 100,000 x 10,000.
AT_ENDS = (
    ("S", 100_000, GENERATOR, dict(LEVEL, M=100_000), (1, 0), 1_000_000_000),        # S x F
    ("S", 100_000, REAL_TIME_LOAD, {}, (1, 0), 1_000_000_000),
    ("S", 100_000, PROFILE_LOAD, {}, (1, 0), 1_000_000_000),
    ("S", 100_000, IMPORT, LEVEL, (1, 0), 0),                                        # S x F - S x H
    ("S", 100_000, EXPORT, {}, (1, 0), 1_000_000_000),
    ("A", 100_000, GENERATOR, dict(LEVEL, M=100_000), (1, 100_000), -1_000_000_000),  # what it made goes out by the tie
    ("A", 100_000, REAL_TIME_LOAD, {}, (100_001, 0), -1_000_000_000),                # what it took comes in
    ("A", 100_000, PROFILE_LOAD, {}, (100_001, 0), -1_000_000_000),
    ("A", 100_000, EXPORT, {}, (1, 0), -1_000_000_000),
    ("N", 100_000, GENERATOR, LEVEL, (1, 0), 1_000_000_000),                         # min(0, 0 - 0 - (0 - N)) is 0
    ("N", 100_000, REAL_TIME_LOAD, {}, (1, 0), -1_000_000_000),                      # max(0, (0 - N) - 0) is 0
    ("N", 100_000, PROFILE_LOAD, {}, (1, 0), -1_000_000_000),
    ("N", 100_000, IMPORT, LEVEL, (1, 0), 1_000_000_000),
    ("O", 100_000, GENERATOR, LEVEL, (1, 0), 1_000_000_000),                         # less 10,000 x min(0, 0 - 0 - O)
    ("O", 100_000, REAL_TIME_LOAD, {}, (1, 0), -1_000_000_000),                      # less max(0, O - 0)
    ("O", 100_000, PROFILE_LOAD, {}, (1, 0), -1_000_000_000),
    ("M", 100_000, GENERATOR, LEVEL, (1, 0), 0),
    ("J", 100_000, GENERATOR, LEVEL, (1, 0), 1_000_000_000),                         # -(0 - J) x H
    ("J", 100_000, REAL_TIME_LOAD, {}, (1, 0), 1_000_000_000),
    ("J", 100_000, PROFILE_LOAD, {}, (1, 0), 1_000_000_000),
    ("J", 100_000, IMPORT, LEVEL, (1, 0), 1_000_000_000),
    ("J", 100_000, EXPORT, {}, (1, 0), -1_000_000_000),                              # S - A - J
    ("J", -100_000, GENERATOR, LEVEL, (1, 0), -1_000_000_000),
    ("J", -100_000, REAL_TIME_LOAD, {}, (1, 0), -1_000_000_000),
    ("J", -100_000, PROFILE_LOAD, {}, (1, 0), -1_000_000_000),
    ("J", -100_000, IMPORT, LEVEL, (1, 0), -1_000_000_000),
    ("J", -100_000, EXPORT, {}, (1, 0), 1_000_000_000),
    ("F", 20_000, GENERATOR, dict(H=10_000, S=1, M=1), (1, 0), 20_000),
    ("F", 20_000, IMPORT, dict(H=10_000, S=1), (1, 0), 10_000),                      # 20,000 - 10,000
    ("F", 1, GENERATOR, dict(H=10_000, S=1, M=1), (1, 0), 1),
    ("F", 1, IMPORT, dict(H=10_000, S=1), (1, 0), -9_999),                           # 1 - 10,000
    ("H", 20_000, GENERATOR, dict(F=10_000, A=1, M=1), (1, 2), -20_000),             # losses of -10,000 units: a kWh more goes out
    ("H", 20_000, IMPORT, dict(F=10_000, S=1), (1, 1), -10_000),                     # 10,000 - 20,000; losses of -10,000 again
    ("H", 1, GENERATOR, dict(F=10_000), (1, 0), 0),
    ("H", 1, IMPORT, dict(F=10_000), (1, 0), 0),
)


def end_misread(letter, end, step):
    """The name of a misreading: an end of a letter's range that is `step` further up."""
    number = f"{end + step:,}".replace("-", "\u2212")
    return f"{letter} {'up to' if end in (100_000, 20_000) else 'from'} {number}"


def of_ends():
    for letter, end, kind, others, ties, deviation in AT_ENDS:
        outwards = 1 if end in (100_000, 20_000) else -1
        hour = beside_a_load(kind, *ties, **{**others, letter: end})
        yield from accepted(f"{end_misread(letter, end, -outwards)}: {NAMES[kind]}", hour, [deviation, 0])
        past = beside_a_load(kind, *ties, **{**others, letter: end + outwards})
        yield from refused(f"{end_misread(letter, end, outwards)}: {NAMES[kind]}", 5, 0, past.encode())


# ---- Ranges of heads

def priced(zone, price):
    """Four zones, all free but one, in which an export of member 0 is a kWh over its plan: it pays a thousandth of the price. Member 1's
    load took the kWh that it planned, which came in by the tie, and carries N."""
    prices = [price if each == zone else 0 for each in range(4)]
    return Hour(7, 2, prices, [[zone, 1, 0]], [record(EXPORT, 0, 0, A=1), record(PROFILE_LOAD, 1, 0, S=1, A=1)])


def of_prices():
    for zone in range(4):
        for price in (1_000_000, -1_000_000):
            cents, outwards = price // 1_000, price // 1_000_000
            inner, outer = (f"{price + step:,}".replace("-", "\u2212") for step in (-outwards, outwards))
            ends = "up to" if price > 0 else "from"
            # -10,000 units, subtracted, at 1,000,000 cents: 10,000,000,000 grains, which are 1,000 cents
            yield from accepted(f"prices {ends} {inner}: zone {zone}", priced(zone, price), [-10_000, 0], [cents, 0], [cents, -cents])
            yield from refused(f"prices {ends} {outer}: zone {zone}", 4, 12 + zone, priced(zone, price + outwards).encode())


def tied(area, tie_in, tie_out):
    """Eight areas; a load in one of them that took a kWh as planned."""
    areas = [[0, tie_in, tie_out] if each == area else [0, 0, 0] for each in range(8)]
    return Hour(7, 1, [0], areas, [record(REAL_TIME_LOAD, 0, area, S=1, A=1)])


def of_ties():
    for area in (0, 7):
        before = [0] * area
        # 10,000 x (10,000,000 - 0 - 1), and 10,000 x (0 - 10,000,000 - 1); all to the only load
        for word, ties, units in (("in", (10_000_000, 0), 99_999_990_000), ("out", (0, 10_000_000), -100_000_010_000)):
            for most in ("1,000,000", "9,999,999"):
                yield from accepted(f"tie {word} up to {most}: area {area}", tied(area, *ties), [0], shares=[units], ufe=[*before, units])
        yield from refused(f"tie in up to 10,000,001: area {area}", 4, 17 + 4 * area, tied(area, 10_000_001, 0).encode())
        yield from refused(f"tie out up to 10,000,001: area {area}", 4, 18 + 4 * area, tied(area, 0, 10_000_001).encode())


def of_counts():
    """The most members, zones and areas, with a record of the last; and one more, or none. An export of the last is a kWh over its plan: 1
    cent at 1,000, or 3 cents at 3,000."""
    load = record(PROFILE_LOAD, 0, 0, S=1, A=1)
    members = Hour(7, 32, [1_000], [[0, 1, 0]], [load, record(EXPORT, 31, 0, A=1)])
    yield from accepted("31 members: 32", members, [0, -10_000], [0] * 31 + [1], [-1] + [0] * 30 + [1])
    zones = Hour(7, 1, [0, 0, 0, 3_000], [[3, 1, 0]], [load, record(EXPORT, 0, 0, A=1)])
    yield from accepted("3 zones: 4", zones, [0, -10_000], [3], [0])
    areas = Hour(7, 1, [3_000], [[0, 1, 0]] + [[0, 0, 0]] * 7, [load, record(EXPORT, 0, 7, A=1)])
    yield from accepted("7 areas: 8", areas, [0, -10_000], [3], [0], ufe=[0] * 8)
    for name, word, count in (("33 members", 9, 33), ("5 zones", 10, 5), ("9 areas", 11, 9), ("no members", 9, 0), ("no zones", 10, 0),
                              ("no areas", 11, 0)):
        blank = Hour(7, 1, [0], [[0, 0, 0]], []).blocks()
        yield from refused(f"{name}: {count}", 4, word, words(blank, (0, word, count)))


# ---- Words that a kind or a head does and doesn't use

def of_used_words():
    # 10,000 x (10 - 4 - max(0, (9 - 0) - 4)) = 10,000 x (10 - 4 - 5)
    for kind in (REAL_TIME_LOAD, PROFILE_LOAD):
        for name in ("a load without O", "min for a load's unavailable energy"):
            yield from accepted(f"{name}: {NAMES[kind]}", beside_a_load(kind, 5, 0, S=10, A=4, O=9), [10_000, 0])
        yield from refused(f"a load with M let through: {NAMES[kind]}", 5, 0, beside_a_load(kind, 5, 0, S=10, A=4, M=1).encode())
    # 30 x 10,000 - 30 x 10,000 + 10,000 x 7
    yield from accepted("an import without N: an import", beside_a_load(IMPORT, **LEVEL, S=30, N=7), [70_000, 0])
    for kind in hours.KINDS:
        multipliers = LEVEL if kind in (GENERATOR, IMPORT) else {}
        yield from refused(f"word 11 used: {NAMES[kind]}", 5, 0, words(beside_a_load(kind, **multipliers).blocks(), (*field(0, 11), 1)))


def of_head_words():
    def head(zones, areas):
        """So many zones at 1,000 cents and more, and areas in zone 0. A load in area 0 takes the kWh that it planned."""
        prices = [1_000 + zone for zone in range(zones)]
        return Hour(7, 1, prices, [[0, 1, 0]] + [[0, 0, 0]] * (areas - 1), [record(PROFILE_LOAD, 0, 0, S=1, A=1)])

    for areas, word in ((8, 19), (8, 31), (8, 47), (1, 19), (1, 23), (1, 47)):
        yield from refused(f"an area's fourth word anything: word {word} of {areas} areas", 4, word,
                           words(head(1, areas).blocks(), (0, word, 1)))
    yield from accepted("prices counted by areas: more zones than areas", head(4, 1), [0])
    yield from accepted("prices counted by areas: two of three", head(3, 2), [0], ufe=[0, 0])
    # word 13 is the price of zone 1, and there is zone 0 alone
    yield from refused("prices counted by areas: fewer zones than areas", 4, 13, words(head(1, 3).blocks(), (0, 13, 1_000)))
    yield from accepted("areas counted by zones: more areas than zones", tied(7, 1, 0), [0], ufe=[0] * 8)
    # word 21 is the tie in of area 1, and there is area 0 alone
    yield from refused("areas counted by zones: fewer areas than zones", 4, 21, words(head(4, 1).blocks(), (0, 21, 1)))
    yield from refused("an area's zone below the areas: zone 1 of one", 4, 20, words(head(1, 2).blocks(), (0, 20, 1)))


# ---- Rows in the wrong order, and a place that isn't the first

def broken(*rows):
    """Thirteen records in three blocks, each of these rows broken at two places, and row 12 as well.
    Nobody takes anything. Generators 2 and 7 are scheduled a kWh that they didn't make, which is a cent each: N is 2."""
    records = [record(EXPORT, 0, 0) for _ in range(13)]
    records[2] = records[7] = record(GENERATOR, 0, 0, S=1, M=0 if 14 in rows else 1, **LEVEL)
    tie_in = 5 if 6 in rows else 0  # UFE of 50,000 units in areas 1 and 2
    blocks = Hour(7, 1, [1_000], [[0, 0, 0], [0, tie_in, 0], [0, tie_in, 0]], records).blocks()
    changes = []
    if 5 in rows:
        changes += [(*field(4, 11), 1), (*field(11, 0), 6)]
    if 4 in rows:
        changes += [(0, 20, 1), (0, 127, 1)]
    if 3 in rows:
        changes += [(1, 3, 1), (2, 6, 1)]
    data = bytearray(words(blocks, *changes))
    if 2 in rows:
        data[1_020] ^= 1
        data[1_532] ^= 1
    return bytes(data)


# Each row of settling in its order, with the first of the two places above.
ORDER = ((2, 1), (3, 1), (4, 20), (5, 4), (14, 2), (6, 1), (12, 0), (11, 0))


def of_order():
    """Every row, with all rows behind it broken too. `refused` lends buffers that are too short, so that row 11 is always broken."""
    numbers = [number for number, _ in ORDER]
    for at, (number, place) in enumerate(ORDER[:-1]):
        data = broken(*numbers[at:])
        yield from refused(f"row {numbers[at + 1]} before row {number}: all rows from {number} on", number, place, data)
        if number != 12:
            yield from refused(f"row {number} at its last place: of two", number, place, data)


# ---- The writer's own rows

def of_writing():
    """A head of 119 words: a word too few for the program, and stated to the call from C."""
    hour = hours.printed_case()
    words_of = to_write.taken_apart(hour.blocks())
    for name, length in (("alone", 476), ("and a record", 524), ("and two", 572)):
        yield f"a head of 119 words: {name}", "write_hour", (), words_of[:length], b"refused 1 at 0\n"
    yield "a head of 119 words: with records of its own", "write_hour", (), words_of[:476] + words_of[480:], b"refused 1 at 0\n"
    yield "a head of 119 words: stated", "written", (119, 1_024), words_of[:476] + words_of[480:], \
        b"answer 1 at 0 length 0\n" + b"M" * 1_024
    yield "a head of 119 words: 120", "write_hour", (), words_of, hour.encode()


# ---- Formulas: the record of member 0, and a load of member 1 that took what it planned

def of_loads():
    """10,000 x (100 - ((80 - 5) + 3) - max(0, (0 - 3) - 80)) = 10,000 x 22: charged -22. Demands are 80 and 20 kWh, which come in by the
    tie. N is -22. Shares: 80 x 22 / 100 is 17.6 and 20 x 22 / 100 is 4.4; one is left, for the larger remainder: -18 and -4."""
    for kind in (REAL_TIME_LOAD, PROFILE_LOAD):
        hour = Hour(7, 2, [1_000], [[0, 100, 0]], [
            record(kind, 0, 0, S=100, A=80, J=5, N=3), record(PROFILE_LOAD, 1, 0, S=20, A=20)])
        for name in ("a load's A + J", "loads added"):
            yield from accepted(f"{name}: {NAMES[kind]}", hour, [220_000, 0], [-22, 0], [-4, 4])


def of_generators():
    def hour(**letters):
        return Hour(7, 2, [1_000], [[0, 0, 0]], [record(GENERATOR, 0, 0, **letters), record(REAL_TIME_LOAD, 1, 0, S=40, A=40)])

    # 50 x 10,000 - (40 - 10) x 9,000 = 500,000 - 270,000; min(0, 60 - 40 - 0) is 0.
    # UFE: 10,000 x (40 - 40) - 40 x (10,000 - 9,000) = -40,000, all to the load. N is 23 - 4, all the load's.
    for name in ("a generator's A + J", "a generator's J outside the multiplier"):
        yield from accepted(f"{name}: a generator", hour(S=50, A=40, J=10, M=60, F=10_000, H=9_000), [230_000, 0], [23, -4],
                            [23, -23], [0, -40_000], [-40_000])
    # 50 x 9,000 - 40 x 10,000 = 450,000 - 400,000; nothing is lost, since H is 10,000
    for name in ("a generator's F and H exchanged", "losses by F"):
        yield from accepted(f"{name}: a generator", hour(S=50, A=40, M=60, F=9_000, H=10_000), [50_000, 0], [5, 0], [5, -5])
    # 50 x 10,000 - (40 x 9,000 - 10,000 x 6) = 500,000 - 360,000 + 60,000; min(0, 60 - 40 - (0 - 6)) is 0; losses as above
    yield from accepted("a generator's N times H: a generator", hour(S=50, A=40, N=6, M=60, F=10_000, H=9_000), [200_000, 0], [20, -4],
                        [20, -20], [0, -40_000], [-40_000])


def of_imports():
    # 30 x 10,000 - 30 x 10,000 + 10,000 x 7; the load's 30 kWh come in by the tie
    load = record(PROFILE_LOAD, 1, 0, S=30, A=30)
    hour = Hour(7, 2, [1_000], [[0, 30, 0]], [record(IMPORT, 0, 0, S=30, N=7, **LEVEL), load])
    yield from accepted("an import's \u2212 N: an import", hour, [70_000, 0], [7, 0], [7, -7])


def of_areas():
    # 10,000 x (50 - 20 - 10) = 200,000, all to the load; N is 20 and its own
    hour = Hour(7, 1, [1_000], [[0, 50, 20]], [record(PROFILE_LOAD, 0, 0, S=10, A=10)])
    yield from accepted("ties in and out exchanged: one area", hour, [0], [20], [0], [200_000], [200_000])
    # UFE: 10,000 x (44 - 40) = 40,000; shares 40,000 x 10 / 40 and 40,000 x 30 / 40.
    # Deviations: 10,000 x (30 - 10) and 10,000 x (10 - 30). Charges: -20 + 1 and 20 + 3. N is 4; shares 1 and 3.
    hour = Hour(7, 2, [1_000], [[0, 44, 0]], [record(REAL_TIME_LOAD, 0, 0, S=30, A=10), record(PROFILE_LOAD, 1, 0, S=10, A=30)])
    for name in ("D by the scheduled energy", "a member's demand by the scheduled energy"):
        yield from accepted(f"{name}: two loads", hour, [200_000, -200_000], [-19, 23], [-20, 20], [10_000, 30_000], [40_000])


def of_zones():
    """Area 0 is in zone 1, at 3,000 cents, and area 1 in zone 0, at 1,000. Exports are 2 and 5 kWh over their plans: 6 and 5 cents. N is
    11, all of it member 1's, whose load took what it planned."""
    hour = Hour(7, 2, [1_000, 3_000], [[1, 10, 0], [0, 0, 0]], [
        record(EXPORT, 0, 0, A=2), record(EXPORT, 1, 1, A=5), record(PROFILE_LOAD, 1, 0, S=10, A=10)])
    for name in ("an area's zone from word 19", "prices reversed", "an area's own number as its zone", "exports added"):
        yield from accepted(f"{name}: two zones", hour, [-20_000, -50_000, 0], [6, 5], [6, -6], ufe=[0, 0])


# ---- Units left over and cents: at a cent a MWh a unit is a grain

def of_units_left():
    def hour(losses, *demands):
        """A member for each load, which took what it planned and came in by the tie. An import of 1 kWh makes the losses, and U is
        their negative."""
        source = record(IMPORT, 0, 0, S=1, F=10_000 - losses, H=10_000 - losses)
        loads = [record(PROFILE_LOAD, member, 0, S=kwh, A=kwh) for member, kwh in enumerate(demands)]
        return Hour(7, len(demands), [1], [[0, sum(demands), 0]], [source, *loads])

    # 10 / 3 each: 3, and one unit is left, which goes to the first of equal remainders
    for name in ("units left to the last load", "a unit to the later of equals"):
        for sign in (1, -1):
            shares = [4 * sign, 3 * sign, 3 * sign]
            yield from accepted(f"{name}: {10 * sign} over 1, 1, 1", hour(-10 * sign, 1, 1, 1), [0] * 4, [0] * 3, [0] * 3,
                                [0, *shares], [10 * sign], shares)
    # 2 x 5 / 3 is 3 and a third, 1 x 5 / 3 is 1 and two thirds: the unit left goes to the second
    yield from accepted("a unit to the smallest remainder: 5 over 2, 1", hour(-5, 2, 1), [0] * 3, [0] * 2, [0] * 2, [0, 3, 2], [5], [3, 2])


def of_rounding():
    def hour(h):
        """An import of member 0, scheduled nothing, deviates by -(0 + 1) x H units, at 1,000 grains each. Member 1's load carries N."""
        return Hour(7, 2, [1_000], [[0, 1, 0]], [record(IMPORT, 0, 0, J=-1, F=10_000, H=h), record(PROFILE_LOAD, 1, 0, S=1, A=1)])

    # -4,999,000 grains are under half a cent, -5,001,000 over it
    yield from accepted("negative grains towards minus infinity: under half a cent", hour(4_999), [-4_999, 0], [0, 0], [0, 0],
                        grains=[-4_999_000, 0])
    yield from accepted("negative grains towards zero: over half a cent", hour(5_001), [-5_001, 0], [-1, 0], [-1, 1],
                        grains=[-5_001_000, 0])


# Half cents in grains, behind 0, 1 and 2 whole cents, and their charges: the even cent (document 02, A8). A grain less in size is charged
# the whole cents before the half, and a grain more one cent more than these. Then misreadings, with the halves that each rounds otherwise.
HALVES = {5_000_000: 0, 15_000_000: 2, 25_000_000: 2, -5_000_000: 0, -15_000_000: -2, -25_000_000: -2}
HALVES_MISREAD = {
    "halves away from zero": (5_000_000, 25_000_000, -5_000_000, -25_000_000),   # 1, 3, -1, -3
    "halves towards zero": (15_000_000, -15_000_000),                            # 1, -1
    "halves to the odd cent": tuple(HALVES),                                     # 1, 1, 3, -1, -1, -3
    "halves upwards": (5_000_000, 25_000_000, -15_000_000),                      # 1, 3, -1
    "halves downwards": (15_000_000, -5_000_000, -25_000_000),                   # 1, -1, -3
}


def of_grains(name, kwh, units, charge):
    """Member 0's imports, scheduled nothing and at a cent a MWh, where a unit is a grain: one deviates by so many kWh and one by so many
    units, since a deviation is J x H. Member 1's load took what it planned and carries N, which is member 0's charge."""
    own = [record(IMPORT, 0, 0, J=kwh, **LEVEL), record(IMPORT, 0, 0, J=units, F=1, H=1)]
    hour, grains = Hour(7, 2, [1], [[0, 1, 0]], [*own, record(PROFILE_LOAD, 1, 0, S=1, A=1)]), 10_000 * kwh + units
    yield from accepted(name, hour, [10_000 * kwh, units, 0], [charge, 0], [charge, -charge], grains=[grains, 0])
    decided = "import" if charge else "none"
    yield name, "explanation", (), struct.pack("<I", 0) + hour.encode(), \
        f"generation 0\nload 0\nimport {grains}\nexport 0\nshare 0\ndecided {decided}\n".encode()


def of_halves():
    for name, halves in HALVES_MISREAD.items():
        for half in halves:
            yield from of_grains(f"{name}: {half:,} grains", half // 10_000, 0, HALVES[half])
    for half in HALVES:
        way, whole = (1 if half > 0 else -1), abs(half) // 10_000_000
        yield from of_grains(f"outwards from just under a half: a grain under {half:,}", half // 10_000, -way, way * whole)
        yield from of_grains(f"inwards up to just over a half: a grain over {half:,}", half // 10_000, way, way * (whole + 1))


def half_cents(*exported, loads=()):
    """A member for each export, so many kWh over its plan or, below zero, under it, at half a cent a kWh; and these loads, which took what
    came in by the tie."""
    exports = [record(EXPORT, member, 0, S=max(0, -kwh), A=max(0, kwh)) for member, kwh in enumerate(exported)]
    return Hour(7, len(exported) + len(loads), [500], [[0, sum(load["A"] for load in loads), 0]], [*exports, *loads])


def of_halves_in_n():
    """N is the sum of the rounded charges."""
    # three halves and 1.5: 0 + 0 + 0 + 2. N is 2, all of it member 4's. Away from zero or upwards N would be 5, towards zero or downwards
    # 1, to the odd cent 4, and of the unrounded amounts 3.
    hour = half_cents(1, 1, 1, 3, loads=[record(PROFILE_LOAD, 4, 0, S=10, A=10)])
    for name in HALVES_MISREAD:
        yield from accepted(f"{name}: another member's final", hour, [-10_000, -10_000, -10_000, -30_000, 0], [0, 0, 0, 2, 0],
                            [0, 0, 0, 2, -2], grains=[5_000_000, 5_000_000, 5_000_000, 15_000_000, 0])
    # 1.5, -0.5 and -0.5 without demand: 2 + 0 + 0, where away from zero it is 2 - 1 - 1 and no refusal
    yield from refused("halves away from zero: row 12 of three", 12, 0, half_cents(3, -1, -1).encode())
    # 1.5 and -2.5 without demand: 2 - 2 and no refusal, where away from zero it is 2 - 3, towards zero 1 - 2, to the odd cent and downwards
    # 1 - 3
    for name in ("halves away from zero", "halves towards zero", "halves to the odd cent", "halves downwards"):
        yield from accepted(f"{name}: row 12 of two", half_cents(3, -5), [-30_000, 50_000], [2, -2], [2, -2],
                            grains=[15_000_000, -25_000_000])


# ---- Finals and row 12

def of_finals():
    """An export of member 0 is 60 kWh over its plan: N is 60 cents. Demands are 10, 20 and 30 kWh, and so are the shares."""
    loads = [record(PROFILE_LOAD, member, 0, S=10 * (member + 1), A=10 * (member + 1)) for member in range(3)]
    hour = Hour(7, 3, [1_000], [[0, 60, 0]], [record(EXPORT, 0, 0, A=60), *loads])
    yield from accepted("a member's demand from the next member: three", hour, [-600_000, 0, 0, 0], [60, 0, 0], [50, -20, -30])


def of_no_demand():
    def hour(taking, paying):
        """One of two members takes the 10 kWh it planned, the other's export is 3 kWh over its plan."""
        return Hour(7, 2, [1_000], [[0, 10, 0]], [record(PROFILE_LOAD, taking, 0, S=10, A=10), record(EXPORT, paying, 0, A=3)])

    yield from accepted("12 by the last member's demand alone: the first's", hour(0, 1), [0, -30_000], [0, 3], [-3, 3])
    yield from accepted("12 by the first member's demand alone: the last's", hour(1, 0), [0, -30_000], [3, 0], [3, -3])
    # exports 30 kWh over, 10 under and 20 under: N is 30 - 10 - 20, and nobody takes anything
    idle = Hour(7, 3, [1_000], [[0, 0, 0]], [record(EXPORT, 0, 0, A=30), record(EXPORT, 1, 0, S=10), record(EXPORT, 2, 0, S=20)])
    yield from accepted("12 where N is 0 and charges aren't: three", idle, [-300_000, 100_000, 200_000], [30, -10, -20], [30, -10, -20])


# ---- Explanations

def of_explanations():
    """A member without records, and one whose load took the kWh that it planned: neither is charged, so nothing decided."""
    data = Hour(7, 2, [1_000], [[0, 1, 0]], [record(PROFILE_LOAD, 0, 0, S=1, A=1)]).encode()
    text = b"generation 0\nload 0\nimport 0\nexport 0\nshare 0\ndecided none\n"
    for member, name in enumerate(("as planned", "without records")):
        yield f"nobody for none: {name}", "explanation", (), struct.pack("<I", member) + data, text


def runs():
    return itertools.chain(of_ends(), of_prices(), of_ties(), of_counts(), of_used_words(), of_head_words(), of_order(), of_writing(),
                           of_loads(), of_generators(), of_imports(), of_areas(), of_zones(), of_units_left(), of_rounding(),
                           of_halves(), of_halves_in_n(), of_finals(), of_no_demand(), of_explanations())
