"""Misreadings of document 02, A7 and A8, and of document 000, D 2.1.1, each as changes of the second program, with the known answers of
tests/known_ten_minutes.py that notice it: a slip that a reader could make alike in the code and in its definition. The made ten-minute
hours must show every one too."""

from collections import namedtuple

from hours import EXPORT, GENERATOR, IMPORT, PROFILE_LOAD, REAL_TIME_LOAD
from misread import NAMES
from slips import HOUR_SLIPS, ROUNDINGS

# Texts of the second program, an old one before each new one, and the names of the cases that notice the change, each of them.
Misread = namedtuple("Misread", "changes noticed")


def names(kinds, *rest):
    return [f"{NAMES[kind]}, {each}" for kind in kinds for each in rest]


def by_interval(kinds, letter, what):
    return names(kinds, *(f"{letter} {interval} {what}" for interval in range(1, 7)))


# ---- Formulas

RAMPED = "RAMPED = (GENERATOR, REAL_TIME_LOAD)"
SIXTH = 'sixth = Fraction(r["S"], 6)'
IN_FIRST = 'sixth - Fraction(r["S"] - r["before"], 24)'
IN_LAST = 'sixth + Fraction(r["next"] - r["S"], 24)'
FIRST, LAST = "in RAMPED and interval == 1:", "in RAMPED and interval == 6:"
OF_IMPORT = 'if r["kind"] == IMPORT:\n        return Fraction(r["S"], 6)'
OF_PROFILE = 'return Fraction(r["A"][0], 6)'
OF_METERED = 'return Fraction(r["A"][interval - 1])'
GENERATED = 'scheduled * multiplier(r["F"]) - ((metered - adjusted) * multiplier(r["H"]) - ancillary)'
IMPORTED = 'scheduled * multiplier(r["F"]) - (metered - adjusted) * multiplier(r["H"]) + ancillary'
EXPORTED = "return scheduled - metered - adjusted"
TAKEN = "return scheduled - ((metered - adjusted) + ancillary)"
OWN_ENERGY = 'adjusted, ancillary = r["J"][interval - 1], r["N"][interval - 1]\n'
PROFILE_SIXTHS = '    if r["kind"] == PROFILE_LOAD:\n        adjusted, ancillary = Fraction(adjusted, 6), Fraction(ancillary, 6)\n'
SLIPS = {
    "loads by profile ramp": Misread((RAMPED, RAMPED.replace(")", ", PROFILE_LOAD)")),
                                     ["profile-load-plain", *names([PROFILE_LOAD], "word 4 of 1", "word 5 of 1")]),
    "imports ramp": Misread((RAMPED, RAMPED.replace(")", ", IMPORT)")), ["import-plain", *names([IMPORT], "word 4 of 1", "word 5 of 1")]),
    "exports ramp": Misread((RAMPED, RAMPED.replace(")", ", EXPORT)")), ["export-plain", *names([EXPORT], "word 4 of 1", "word 5 of 1")]),
    "generators alone ramp": Misread((RAMPED, "RAMPED = (GENERATOR,)"), ["load-ramps"]),
    "loads alone ramp": Misread((RAMPED, "RAMPED = (REAL_TIME_LOAD,)"), ["generator-ramps", "ramp-followed"]),
    "a ramp added in interval 1": Misread((IN_FIRST, IN_FIRST.replace("sixth -", "sixth +")), ["generator-ramps", "load-ramps"]),
    "a ramp taken off in interval 6": Misread((IN_LAST, IN_LAST.replace("sixth +", "sixth -")), ["generator-ramps", "load-ramps"]),
    "no ramp in interval 1": Misread((FIRST, FIRST.replace("1", "7")), ["generator-ramps", "ramp-before-half"]),
    "no ramp in interval 6": Misread((LAST, LAST.replace("6", "7")), ["generator-ramps", "ramp-half"]),
    "the first ramp in interval 2": Misread((FIRST, FIRST.replace("1", "2")), ["generator-ramps"]),
    "the last ramp in interval 5": Misread((LAST, LAST.replace("6", "5")), ["generator-ramps"]),
    "the hours before and next exchanged": Misread(('"before": words[4], "next": words[5]', '"before": words[5], "next": words[4]'),
                                                   ["generator-ramps", "load-ramps"]),
    "a ramp of a twelfth": Misread((IN_FIRST, IN_FIRST.replace("24", "12"), IN_LAST, IN_LAST.replace("24", "12")),
                                   ["generator-ramps", "ramp-under"]),
    "a ramp of a sixth": Misread((IN_LAST, IN_LAST.replace("24", "6")), ["generator-ramps", "ramp-under"]),
    "a ramp in whole kWh": Misread((IN_LAST, 'sixth + (r["next"] - r["S"]) // 24'), ["ramp-half"]),
    "a ramp after the multiplier": Misread(
        (GENERATED, 'Fraction(r["S"], 6) * multiplier(r["F"]) + scheduled - Fraction(r["S"], 6)'
         ' - ((metered - adjusted) * multiplier(r["H"]) - ancillary)'), ["ramp-scaled"]),
    "the hour's schedule in every interval": Misread((SIXTH, 'sixth = Fraction(r["S"])'), ["generator", "real-time-load", "export"]),
    "a sixth in whole kWh": Misread((SIXTH, 'sixth = Fraction(r["S"] // 6)'), ["sixth-half"]),
    "an hourly reading not divided": Misread((OF_PROFILE, OF_PROFILE.replace(", 6", "")), ["profile-load", "reading-half"]),
    "an hourly reading in interval 1 alone": Misread((OF_PROFILE, 'return Fraction(r["A"][0]) if interval == 1 else Fraction(0)'),
                                                     ["profile-load-plain", "reading-half"]),
    "a profile's adjustment and ancillary energy divided": Misread((OWN_ENERGY, OWN_ENERGY + PROFILE_SIXTHS), ["profile-load"]),
    "a load in real time divided": Misread((OF_METERED, 'return Fraction(r["A"][interval - 1], 6 if r["kind"] == REAL_TIME_LOAD else 1)'),
                                           ["real-time-load"]),
    "an import's actual by the file": Misread((OF_IMPORT, "if False:\n        return None"), ["import", "import-plain"]),
    "an import's actual the hour's schedule": Misread((OF_IMPORT, OF_IMPORT.replace(", 6", "")), ["import", "import-plain"]),
    "an export deemed to be as scheduled": Misread((OF_IMPORT, OF_IMPORT.replace("== IMPORT", "in (IMPORT, EXPORT)")), ["export"]),
    "an import's ancillary energy in the multiplier": Misread(
        (IMPORTED, IMPORTED.replace("metered - adjusted", "metered + ancillary - adjusted")), ["import"]),
    "an import's ancillary energy taken off": Misread((IMPORTED, IMPORTED.replace("+ ancillary", "- ancillary")), ["import"]),
    "an import's A + J": Misread((IMPORTED, IMPORTED.replace("- adjusted", "+ adjusted")), ["import"]),
    "an import's F and H exchanged": Misread(
        (IMPORTED, IMPORTED.replace('"F"', '"?"').replace('"H"', '"F"').replace('"?"', '"H"')), ["import", "import-half"]),
    "a generator's N times H": Misread((GENERATED, GENERATED.replace("- ancillary", '- ancillary * multiplier(r["H"])')), ["generator"]),
    "a generator's N taken off": Misread((GENERATED, GENERATED.replace("- ancillary", "+ ancillary")), ["generator"]),
    "a generator's J outside the multiplier": Misread(
        (GENERATED, GENERATED.replace('(metered - adjusted) * multiplier(r["H"])', 'metered * multiplier(r["H"]) - adjusted')),
        ["generator"]),
    "a generator's A + J": Misread((GENERATED, GENERATED.replace("- adjusted", "+ adjusted")), ["generator"]),
    "a generator's F and H exchanged": Misread(
        (GENERATED, GENERATED.replace('"F"', '"?"').replace('"H"', '"F"').replace('"?"', '"H"')), ["generator"]),
    "a load's A + J": Misread((TAKEN, TAKEN.replace("- adjusted", "+ adjusted")), ["real-time-load", "profile-load"]),
    "a load's N added": Misread((TAKEN, TAKEN.replace("+ ancillary", "- ancillary")), ["real-time-load", "profile-load"]),
    "an export's J added": Misread((EXPORTED, EXPORTED.replace("- adjusted", "+ adjusted")), ["export", "incremental"]),
    "five intervals": Misread(("INTERVALS = (1, 2, 3, 4, 5, 6)", "INTERVALS = (1, 2, 3, 4, 5)"), ["incremental", "generator"]),
    "loads added": Misread(("REAL_TIME_LOAD: -1, PROFILE_LOAD: -1", "REAL_TIME_LOAD: 1, PROFILE_LOAD: 1"),
                           ["real-time-load", "profile-load", "net-of-zero"]),
    "exports added": Misread(("EXPORT: -1}", "EXPORT: 1}"), ["export", "incremental"]),
    "imports taken off": Misread(("IMPORT: 1, EXPORT", "IMPORT: -1, EXPORT"), ["import"]),
}

# ---- Nets, prices and rounding

SIGN = '"decremental" if net < 0 else "incremental"'
PRICED = "[interval - 1]\n\n\ndef records_in_zone"
OWN = 'r["member"] == member and hour["areas"][r["area"]]["zone"] == zone]'
OF_OWN = "        own = records_in_zone(hour, member, zone)\n"
COSTS = "            net = net_deviation(own, interval)\n" \
        "            amount += net * UNITS_IN_A_KWH * interval_price(prices, net, interval)\n"
ONCE = "cents(unrounded_amount(hour, member)) for member"


EXACT, LEAST = "(unrounded_amount(hour, member) / GRAINS_IN_A_CENT)", "Fraction(1, 24 * GRAINS_IN_A_CENT)"


def rounded(form):
    """The charge rounded in another way, of its cents."""
    return ONCE.replace("cents(unrounded_amount(hour, member))", f"({form.format(EXACT, LEAST)})")


# The known answers that notice each rounding of `ROUNDINGS`.
EACH_HALF = ("500", "1500", "2500", "minus-500", "minus-1500", "minus-2500")
ROUNDED_OTHERWISE = {
    "halves away from zero": ["rounded-half", "rounded-two-and-a-half", "rounded-minus-half", "rounded-minus-two-and-a-half",
                              "ramp-half-a-cent"],
    "halves towards zero": ["rounded-one-and-a-half", "rounded-minus-one-and-a-half", "sixth-half", "ramp-half"],
    "halves to the odd cent": [f"rounded-{way}{half}" for way in ("", "minus-") for half in ("half", "one-and-a-half", "two-and-a-half")],
    "halves upwards": ["rounded-half", "rounded-two-and-a-half", "rounded-minus-one-and-a-half", "sixth-half"],
    "halves downwards": ["rounded-one-and-a-half", "rounded-minus-half", "rounded-minus-two-and-a-half", "ramp-half"],
    "outwards from just under a half": [f"rounded-a-24th-under-{price}" for price in EACH_HALF],
    "inwards up to just over a half": [f"rounded-a-24th-over-{price}" for price in EACH_HALF],
}
AT = "at, allowed = 48 + 12 * zone,"
SLIPS.update({
    "the prices exchanged": Misread((SIGN, SIGN.replace("<", ">")), ["incremental", "decremental", "both-prices"]),
    "the incremental price always": Misread((SIGN, '"incremental"'), ["decremental", "both-prices"]),
    "the decremental price always": Misread((SIGN, '"decremental"'), ["incremental", "both-prices"]),
    "decremental words first": Misread(
        ('"incremental": [word(at + place', '"decremental": [word(at + place',
         '"decremental": [word(at + 6 + place', '"incremental": [word(at + 6 + place'), ["incremental", "decremental"]),
    "incremental prices of all zones first": Misread(
        (AT, AT.replace("12 *", "6 *"), "[word(at + 6 + place, allowed)", "[word(at + 24 + place, allowed)"),
        ["decremental", "past-counts-60"]),
    "a pair of prices for each interval": Misread(
        ("[word(at + place, allowed)", "[word(at + 2 * place, allowed)",
         "[word(at + 6 + place, allowed)", "[word(at + 2 * place + 1, allowed)"), ["incremental", "decremental"]),
    "the price of interval 1 throughout": Misread((PRICED, PRICED.replace("interval - 1", "0")), ["incremental", "decremental"]),
    "intervals from the last on": Misread((PRICED, PRICED.replace("interval - 1", "6 - interval")), ["incremental", "both-prices"]),
    "each record priced by itself": Misread(
        (COSTS, "            for each in own:\n                net = net_deviation([each], interval)\n"
         "                amount += net * UNITS_IN_A_KWH * interval_price(prices, net, interval)\n"), ["net-of-zero", "net-over-areas"]),
    "the net of an area": Misread(
        (OF_OWN, "      for area in range(8):\n"
         '        own = [r for r in records_in_zone(hour, member, zone) if r["area"] == area]\n'), ["net-over-areas"]),
    "the net of all zones": Misread(
        (OWN, 'r["member"] == member and zone == 0]'), ["net-by-zone", "zone-of-the-area"]),
    "the net of all members": Misread((OWN, OWN.replace('r["member"] == member and ', "")), ["net-by-member", "member-without-records"]),
    "the net of the hour": Misread(
        (COSTS, COSTS.replace("net_deviation(own, interval)", "Fraction(sum(net_deviation(own, each) for each in INTERVALS), 6)")),
        ["net-by-interval", "generator-ramps", "both-prices"]),
    "an area's own number as its zone": Misread((OWN, OWN.replace('hour["areas"][r["area"]]["zone"]', 'r["area"]')),
                                                ["net-over-areas", "zone-of-the-area"]),
    "each zone rounded": Misread(
        ("        for interval in INTERVALS:\n            net = net_deviation", "        before = amount\n"
         "        for interval in INTERVALS:\n            net = net_deviation",
         "interval_price(prices, net, interval)\n    return amount",
         "interval_price(prices, net, interval)\n        amount = before + GRAINS_IN_A_CENT * cents(amount - before)\n    return amount"),
        ["three-zones", "two-zones-half", "zones-cancel-half"]),
    "each interval rounded": Misread(
        ("amount += net * UNITS_IN_A_KWH * interval_price(prices, net, interval)",
         "amount += GRAINS_IN_A_CENT * cents(net * UNITS_IN_A_KWH * interval_price(prices, net, interval))"),
        ["three-intervals", "two-intervals-half", "three-zones"]),
    "cut off": Misread((ONCE, rounded("int({0})")), ["rounded-one-and-a-half", "rounded-over-500", "rounded-over-minus-500"]),
    "towards minus infinity": Misread((ONCE, rounded("int({0} // 1)")), ["rounded-one-and-a-half", "rounded-under-minus-500"]),
    **{name: Misread((ONCE, rounded(form)), ROUNDED_OTHERWISE[name]) for name, form in ROUNDINGS.items()},
    "halves away from zero, below zero alone": Misread(
        (ONCE, rounded(f"round({{0}}) if {{0}} > 0 else {ROUNDINGS['halves away from zero']}")),
        ["rounded-minus-half", "rounded-minus-two-and-a-half"]),
    "whole grains first": Misread(
        (ONCE, ONCE.replace("unrounded_amount(hour, member)", "round(unrounded_amount(hour, member))")),
        [f"rounded-a-24th-{near}" for near in ("over-500", "under-1500", "over-2500", "over-minus-500", "under-minus-1500",
                                               "over-minus-2500")]),
    "a sum in kWh and dollars": Misread((ONCE, ONCE.replace("member))", "member) / 100)")), ["generator", "largest"]),
    "members that have records alone": Misread(
        (f'{ONCE} in range(hour["members"])', f'{ONCE} in sorted({{r["member"] for r in hour["records"]}})'),
        ["no-records", "member-without-records"]),
})

# ---- Ranges: each end a step further in, which an end notices, or further out, which one past it does

EVERY = (GENERATOR, REAL_TIME_LOAD, PROFILE_LOAD, IMPORT, EXPORT)
METERED, SCALED, RAMPING = (GENERATOR, REAL_TIME_LOAD, EXPORT), (GENERATOR, IMPORT), (GENERATOR, REAL_TIME_LOAD)
PRICES = "INTERVAL_PRICE = range(-100_000, 100_001)"
RANGED = {"schedules": ('"S": [{}]', "ENERGY", EVERY, ["S"]),
          "the other hours' schedules": ("ramp = {} if", "ENERGY", RAMPING, ["before", "next"]),
          "actuals": ("[{}] * 6 if kind in METERED_BY_INTERVAL", "ENERGY", METERED, [f"A {interval}" for interval in range(1, 7)]),
          "readings": ("[{} if kind == PROFILE_LOAD else ZERO", "ENERGY", [PROFILE_LOAD], ["A"]),
          "adjustments": ('"J": [{}] * 6', "ADJUSTMENT", EVERY, [f"J {interval}" for interval in range(1, 7)]),
          "ancillary energies": ("[{} if kind in WITH_ANCILLARY", "ENERGY", EVERY[:-1], [f"N {interval}" for interval in range(1, 7)]),
          "multipliers": ("scaled = {} if", "MULTIPLIER", SCALED, ["F", "H"])}
ENDS = {"ENERGY": (0, 100_000), "ADJUSTMENT": (-100_000, 100_000), "MULTIPLIER": (1, 20_000)}


def range_slips():
    for name, (text, allowed, kinds, each) in RANGED.items():
        low, high = ENDS[allowed]
        for down, up in ((0, -1), (0, 1), (1, 0), (-1, 0)):
            end = high if up else low
            what = "of" if (down, up) in ((0, -1), (1, 0)) else "past"
            if end != 0:  # no word is below 0, and 0 is the usual value
                yield f"{name} from {low + down} to {high + up}", Misread(
                    (text.format(allowed), text.format(f"range({low + down}, {high + up + 1})")),
                    names(kinds, *(f"{letter} {what} {end}" for letter in each)))
    for low, high, what in ((-99_999, 100_000, "of -100000"), (-100_001, 100_000, "past -100000"), (-100_000, 99_999, "of 100000"),
                            (-100_000, 100_001, "past 100000"), (-1_000_000, 1_000_000, "past 100000")):
        sides = [f"price {what.replace('of ', '')} in word {word}" for word in range(48, 96)]
        yield f"prices from {low} to {high}", Misread((PRICES, f"INTERVAL_PRICE = range({low}, {high + 1})"), sides)


SLIPS.update(range_slips())

# ---- Words that a kind or the head does and doesn't use

USE_A = "METERED_BY_INTERVAL = (GENERATOR, REAL_TIME_LOAD, EXPORT)"
USE_N = "WITH_ANCILLARY = (GENERATOR, REAL_TIME_LOAD, PROFILE_LOAD, IMPORT)"
MULTIPLIED = "scaled = MULTIPLIER if kind in MULTIPLIED else ZERO"
UNRAMPED = "ramp = ENERGY if kind in RAMPED else ZERO"
NO_TIES = "read_areas(word, zones, areas, ZERO)"


def word_of_one(kinds, *words):
    return names(kinds, *(f"word {word} of 1" for word in words))


SLIPS.update({
    "an import with actuals": Misread((USE_A, USE_A.replace(")", ", IMPORT)")), word_of_one([IMPORT], *range(8, 14))),
    "a load by profile with six actuals": Misread((USE_A, USE_A.replace(")", ", PROFILE_LOAD)")),
                                                  word_of_one([PROFILE_LOAD], *range(9, 14))),
    "an export without actuals": Misread((USE_A, USE_A.replace(", EXPORT", "")), ["export", *by_interval([EXPORT], "A", "of 100000")]),
    "an export with ancillary energy": Misread((USE_N, USE_N.replace(")", ", EXPORT)")), word_of_one([EXPORT], *range(20, 26))),
    "an import without ancillary energy": Misread((USE_N, USE_N.replace(", IMPORT", "")),
                                                  ["import", *by_interval([IMPORT], "N", "of 100000")]),
    "a profile without ancillary energy": Misread((USE_N, USE_N.replace(", PROFILE_LOAD", "")), ["profile-load"]),
    "multipliers let through": Misread((MULTIPLIED, MULTIPLIED.replace("ZERO", "range(20_001)")),
                                       word_of_one((REAL_TIME_LOAD, PROFILE_LOAD, EXPORT), 6, 7)),
    "multipliers for loads": Misread(("MULTIPLIED = (GENERATOR, IMPORT)", "MULTIPLIED = (GENERATOR, IMPORT, REAL_TIME_LOAD)"),
                                     ["real-time-load", "load-ramps"]),
    "other hours' schedules let through": Misread((UNRAMPED, UNRAMPED.replace("ZERO", "ENERGY")),
                                                  word_of_one((PROFILE_LOAD, IMPORT, EXPORT), 4, 5)),
    "the rest anything": Misread(('"rest": [ZERO] * 4', '"rest": [WORD] * 4'), word_of_one(EVERY, 26, 27, 28, 29)),
    "the last word anything": Misread(('"rest": [ZERO] * 4', '"rest": [ZERO] * 3 + [WORD]'), word_of_one(EVERY, 29)),
    "the hourly prices anything": Misread(("for place in range(12, 16):", "for place in ():"), [f"head-word-{at}" for at in range(12, 16)]),
    "ties": Misread((NO_TIES, NO_TIES.replace("ZERO", "TIE")), ["head-word-17", "head-word-18", "head-word-45", "head-word-46"]),
    "an area's fourth word anything": Misread(("        word(at + 3, ZERO)\n", ""), ["head-word-19", "head-word-47"]),
    "prices past the zones": Misread(("INTERVAL_PRICE if counted else ZERO", "INTERVAL_PRICE"),
                                     [f"past-counts-{at}" for at in (60, 66, 95)]),
    "word 96 anything": Misread(("range(96, 128)", "range(97, 128)"), ["head-word-96"]),
    "the last word of the head anything": Misread(("range(96, 128)", "range(96, 127)"), ["head-word-127"]),
})

# ---- The layout, the order of the rows, and the first place of each

MARKS, HEAD_READ = "first_mark=3, other_mark=4", "    hour = read_ten_minute_head(blocks[0])\n"
CHECKED = "    check_layout(blocks, layout)\n"
RECORDS_READ = "read_records(records_held(blocks, 30), 32, 8, read_interval_record, interval_record_holds)\n"
HOUR_READ = "        hour = read_ten_minute_hour(data)\n"
TOO_SHORT = '        if length < hour["members"]:\n            raise Refused(11)\n'
CHARGED = "return Charged(refused.number, refused.place, charges)"
HEAD_GIVEN = '    for place in range(96, 128):\n        word(place, ZERO)\n'
SLIPS.update({
    "the marks of an hourly file": Misread((MARKS, "first_mark=1, other_mark=2"), ["bytes-512", "marks-alone-hourly", "mark-first"]),
    "the same mark in every block": Misread((MARKS, "first_mark=3, other_mark=3"), ["other-mark-3", "bytes-8704"]),
    "the marks exchanged": Misread((MARKS, "first_mark=4, other_mark=3"), ["bytes-512", "first-mark-4"]),
    "16 blocks": Misread(("most_blocks=17", "most_blocks=16"), ["bytes-8704", "hourly-17-blocks"]),
    "18 blocks": Misread(("most_blocks=17", "most_blocks=18"), ["bytes-9216", "hourly-18-blocks"]),
    "26 blocks": Misread(("most_blocks=17", "most_blocks=26"), ["bytes-9216", "bytes-13312", "hourly-18-blocks"]),
    "any number of records before the last block": Misread(
        ("range(1 if last else layout.records_in_a_block, ", "range(1, "), ["block-of-three"]),
    "a last block without records": Misread(("range(1 if last else", "range(0 if last else"), ["last-block-empty"]),
    "zeros past the records anything": Misread((" and not any(block[past:])", ""), ["past-records-first", "past-records-last"]),
    "row 3 before row 2": Misread((f"    check_sums(blocks)\n{CHECKED}", f"{CHECKED}    check_sums(blocks)\n"), ["sum-before-layout"]),
    "row 4 before row 3": Misread((CHECKED, f"    read_ten_minute_head(blocks[0])\n{CHECKED}"), ["layout-before-head"]),
    "row 5 before row 4": Misread((HEAD_READ, f"    {RECORDS_READ}{HEAD_READ}"), ["head-before-record"]),
    "row 11 before row 5": Misread(
        (f"{HOUR_READ}{TOO_SHORT}", '        if length < read_ten_minute_head(whole_blocks(data, TEN_MINUTES)[0])["members"]:\n'
         f"            raise Refused(11)\n{HOUR_READ}"), ["kind-0-first", "last-word-1-last"]),
    "row 2 at its last place": Misread(HOUR_SLIPS["last block whose sum isn't zero"], ["first-of-two-sums"]),
    "row 3 at its last place": Misread(HOUR_SLIPS["last block that breaks the layout"], ["first-of-two-blocks"]),
    "row 4 at its last place": Misread(
        (*HOUR_SLIPS["last word of the head"][:-2], HEAD_GIVEN, f"{HEAD_GIVEN}    if BAD:\n        raise Refused(4, BAD[-1])\n"),
        ["first-of-two-words"]),
    "row 5 at its last place": Misread(HOUR_SLIPS["last record"], ["first-of-two-records"]),
    "a charge too many asked for": Misread((TOO_SHORT, TOO_SHORT.replace("<", "<=")), ["no-records", "members-32"]),
    "a charge too few asked for": Misread((TOO_SHORT, TOO_SHORT.replace("length <", "length + 1 <")), ["no-records", "members-32"]),
    "charges cleared on refusal": Misread((CHARGED, CHARGED.replace("charges)", "[0] * length)")), ["kind-0-first", "no-records"]),
    "charges past the members cleared": Misread(
        ("written_over(ten_minute_charges(hour), charges)", "written_over(ten_minute_charges(hour), [0] * length)"), ["no-records"]),
    "two columns": Misread(('b"%02d %s\\n" % (member, column(charge))', 'b"%02d %s %s\\n" % (member, column(charge), column(charge))'),
                           ["generator", "no-records"]),
    "no first line": Misread(('return first_line(hour) + b"".join(lines)', 'return b"".join(lines)'), ["generator", "no-records"]),
})
