"""The second program's ten-minute settlement: the ten-minute file, read with refusals 1 to 5, and its charges (document 02, A7; document
000, D 2.1.1). Energy is in kWh and exact fractions of it, interval by interval, as document 000 writes it."""

import functools
from fractions import Fraction

from second_file import ADJUSTMENT, ENERGY, EXPORT, GENERATOR, IMPORT, MULTIPLIER, PROFILE_LOAD, REAL_TIME_LOAD, ZERO, Layout
from second_file import head_word, read_areas, read_counts, read_records, records_held, signed, whole_blocks
from second_sums import DIRECTION, UNITS_IN_A_KWH, cents, multiplier

TEN_MINUTES = Layout(first_mark=3, other_mark=4, most_blocks=17, records_in_a_block=4, record_words=30)
INTERVALS = (1, 2, 3, 4, 5, 6)
INTERVAL_PRICE = range(-100_000, 100_001)

# Kinds whose schedule is adjusted for ramping, whose multipliers are in the file, and whose actuals and ancillary energy are.
RAMPED = (GENERATOR, REAL_TIME_LOAD)
MULTIPLIED = (GENERATOR, IMPORT)
METERED_BY_INTERVAL = (GENERATOR, REAL_TIME_LOAD, EXPORT)
WITH_ANCILLARY = (GENERATOR, REAL_TIME_LOAD, PROFILE_LOAD, IMPORT)


# ---- The ten-minute file (document 02, A7)

def read_interval_prices(word, zone, counted):
    """Of a zone: six incremental prices, then six decremental ones."""
    at, allowed = 48 + 12 * zone, INTERVAL_PRICE if counted else ZERO
    return {"incremental": [word(at + place, allowed) for place in range(6)],
            "decremental": [word(at + 6 + place, allowed) for place in range(6)]}


def read_ten_minute_head(block):
    """The first body, its words in order, as the hourly one is read."""
    word = functools.partial(head_word, block)
    number, members, zones, areas = read_counts(word)
    for place in range(12, 16):
        word(place, ZERO)
    rows = read_areas(word, zones, areas, ZERO)
    prices = [read_interval_prices(word, zone, zone < zones) for zone in range(4)]
    for place in range(96, 128):
        word(place, ZERO)
    return {"number": number, "members": members, "prices": prices[:zones], "areas": rows}


def read_interval_record(words):
    return {"kind": words[0], "member": words[1], "area": words[2], "S": words[3], "before": words[4], "next": words[5],
            "F": words[6], "H": words[7], "A": words[8:14], "J": tuple(map(signed, words[14:20])), "N": words[20:26], "rest": words[26:]}


def interval_ranges(kind):
    """What the words after the first three of a record may be, by name; a list of six has a range for each."""
    metered = [ENERGY] * 6 if kind in METERED_BY_INTERVAL else [ENERGY if kind == PROFILE_LOAD else ZERO, *[ZERO] * 5]
    ramp = ENERGY if kind in RAMPED else ZERO
    scaled = MULTIPLIER if kind in MULTIPLIED else ZERO
    return {"S": [ENERGY], "before": [ramp], "next": [ramp], "F": [scaled], "H": [scaled], "A": metered, "J": [ADJUSTMENT] * 6,
            "N": [ENERGY if kind in WITH_ANCILLARY else ZERO] * 6, "rest": [ZERO] * 4}


def interval_record_holds(record, members, areas):
    if record["kind"] not in DIRECTION or record["member"] >= members or record["area"] >= areas:
        return False
    for name, ranges in interval_ranges(record["kind"]).items():
        values = record[name] if isinstance(record[name], tuple) else (record[name],)
        if not all(value in allowed for value, allowed in zip(values, ranges)):
            return False
    return True


def read_ten_minute_hour(data):
    """A ten-minute hour as dicts, or refusals 1 to 5, each over the whole file before the next."""
    blocks = whole_blocks(data, TEN_MINUTES)
    hour = read_ten_minute_head(blocks[0])
    hour["records"] = read_records(records_held(blocks, TEN_MINUTES.record_words), hour["members"], len(hour["areas"]),
                                   read_interval_record, interval_record_holds)
    return hour


# ---- Interval by interval (document 000, D 2.1.1; document 01's formulas without unavailable energy)

def interval_schedule(r, interval):
    """The schedule of an interval, in kWh: a sixth of the hour's, which implicit instructions for ramping adjust in the first and the last
    interval of a generator and of a load metered in real time."""
    sixth = Fraction(r["S"], 6)
    if r["kind"] in RAMPED and interval == 1:
        return sixth - Fraction(r["S"] - r["before"], 24)
    if r["kind"] in RAMPED and interval == 6:
        return sixth + Fraction(r["next"] - r["S"], 24)
    return sixth


def interval_actual(r, interval):
    """The actual energy of an interval, in kWh. A load by profile has an hourly reading alone; an import is deemed to be as scheduled."""
    if r["kind"] == IMPORT:
        return Fraction(r["S"], 6)
    if r["kind"] == PROFILE_LOAD:
        return Fraction(r["A"][0], 6)
    return Fraction(r["A"][interval - 1])


def interval_deviation(r, interval):
    """GenDev, LoadDev, ImpDev or ExpDev of an interval, in kWh; adjustment and ancillary energy are the interval's own."""
    scheduled, metered = interval_schedule(r, interval), interval_actual(r, interval)
    adjusted, ancillary = r["J"][interval - 1], r["N"][interval - 1]
    if r["kind"] == GENERATOR:
        return scheduled * multiplier(r["F"]) - ((metered - adjusted) * multiplier(r["H"]) - ancillary)
    if r["kind"] == IMPORT:
        return scheduled * multiplier(r["F"]) - (metered - adjusted) * multiplier(r["H"]) + ancillary
    if r["kind"] == EXPORT:
        return scheduled - metered - adjusted
    return scheduled - ((metered - adjusted) + ancillary)


def net_deviation(records, interval):
    """NetDev: of a member's records in a zone, in kWh."""
    return sum(DIRECTION[r["kind"]] * interval_deviation(r, interval) for r in records)


def interval_price(prices, net, interval):
    """BIP: the decremental price for a net below zero, the incremental one for a net above it; a net of zero costs nothing."""
    if net == 0:
        return 0
    return prices["decremental" if net < 0 else "incremental"][interval - 1]


def records_in_zone(hour, member, zone):
    """A member's records in the areas of a zone."""
    return [r for r in hour["records"] if r["member"] == member and hour["areas"][r["area"]]["zone"] == zone]


def unrounded_amount(hour, member):
    """A member's sum over all zones and intervals, in grains and exact fractions of them."""
    amount = Fraction(0)
    for zone, prices in enumerate(hour["prices"]):
        own = records_in_zone(hour, member, zone)
        for interval in INTERVALS:
            net = net_deviation(own, interval)
            amount += net * UNITS_IN_A_KWH * interval_price(prices, net, interval)
    return amount


def ten_minute_charges(hour):
    """Each member's charge in cents, rounded once."""
    return [cents(unrounded_amount(hour, member)) for member in range(hour["members"])]
