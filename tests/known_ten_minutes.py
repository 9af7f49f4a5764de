"""Ten-minute hours whose answers are known by hand (document 02, A7): every kind of record, both prices by sign, ramping, sixths and 24ths
of a kWh, rounding, the largest sum, each end of each range and one past it, and refusals 1 to 5 at a first, a middle and a last place.

`cases()` gives each as a `Known`. No program had a part in its answer, and nothing here is left to chance. Where the prices are 1,000
cents a MWh, a kWh is a cent. A sum that ends on half a cent is charged the even cent (document 02, A8); a case that this decides has `half`
in its name.
"""

import itertools
from collections import namedtuple

import hours
from hours import EXPORT, GENERATOR, IMPORT, KINDS, PROFILE_LOAD, REAL_TIME_LOAD
from known import changed, sums, words
from misread import NAMES, amount
from ten_minute_hours import FIRST_PRICE_WORD, USED_WORDS, TenMinuteHour, alike, interval_record

NUMBER = 7
LEVEL = dict(F=10_000, H=10_000)  # multipliers of one
SCALED = (GENERATOR, IMPORT)

# A file and its answer: the refusal's number and place, both 0 where it is accepted; then the charges in cents, and how many records.
Known = namedtuple("Known", "name data number place charges records")


def statement(case):
    """What program `ten_minutes` must print."""
    if case.number:
        return f"refused {case.number} at {case.place}\n".encode()
    lines = [f"hour {NUMBER} members {len(case.charges)} records {case.records}"]
    lines += [f"{member:02} {amount(charge)}" for member, charge in enumerate(case.charges)]
    return "".join(f"{line}\n" for line in lines).encode()


def charged(case, length):
    """What program `charged` must print where so many charges are lent, each of which is 77 before."""
    short = case.number == 0 and length < len(case.charges)
    number, charges = (11 if short else case.number), [] if short else case.charges
    charges = [*charges, *[77] * (length - len(charges))]
    return (" ".join(["answer", str(number), "at", f"{case.place}\ncharges", *map(str, charges)]) + "\n").encode()


def refused(name, number, place, data):
    return Known(name, data, number, place, [], 0)


def accepted(name, hour, *charges):
    return Known(name, hour.encode(), 0, 0, [*charges], len(hour.records))


def hour_of(*records, prices=None, areas=(0,), members=1):
    """One zone at a cent a kWh, if not told otherwise."""
    return TenMinuteHour(NUMBER, members, prices or [alike(1_000)], [*areas], [*records])


def own(kind, **named):
    """A record of member 0 in area 0, with multipliers of one if it has any."""
    return interval_record(kind, 0, 0, **{**(LEVEL if kind in SCALED else {}), **named})


# ---- Every kind of record, worked in kWh an interval; there are six

def of_kinds():
    # 100 x 0.9 - ((90 - 10) x 0.8 - 4) = 90 - 60
    generator = own(GENERATOR, S=600, before=600, next=600, F=9_000, H=8_000, A=90, J=10, N=4)
    yield accepted("generator", hour_of(generator), 6 * 30)
    # -(100 - ((90 - 10) + 4))
    load = own(REAL_TIME_LOAD, S=600, before=600, next=600, A=90, J=10, N=4)
    yield accepted("real-time-load", hour_of(load), 6 * -16)
    # the same with a reading of 540 for the hour, 90 an interval; J and N are the interval's
    yield accepted("profile-load", hour_of(own(PROFILE_LOAD, S=600, A=540, J=10, N=4)), 6 * -16)
    # 100 x 0.9 - (100 - 10) x 0.8 + 4 = 90 - 72 + 4
    yield accepted("import", hour_of(own(IMPORT, S=600, F=9_000, H=8_000, J=10, N=4)), 6 * 22)
    # -(100 - 90 - 4)
    yield accepted("export", hour_of(own(EXPORT, S=600, A=90, J=4)), 6 * -6)
    # 30 - 16 - 16 + 22 - 6 is the net of all five
    all_five = [generator, load, own(PROFILE_LOAD, S=600, A=540, J=10, N=4), own(IMPORT, S=600, F=9_000, H=8_000, J=10, N=4),
                own(EXPORT, S=600, A=90, J=4)]
    yield accepted("all-kinds", hour_of(*all_five), 6 * 14)
    yield accepted("no-records", hour_of(members=3), 0, 0, 0)
    yield accepted("member-without-records", hour_of({**load, "member": 2}, members=3), 0, 0, 6 * -16)


# ---- Prices: an export with an adjustment of so many kWh is that net

RISING = [1_000, 2_000, 3_000, 4_000, 5_000, 6_000]
DEAR = [10_000, 20_000, 30_000, 40_000, 50_000, 60_000]


def of_prices():
    # 1 x 1 + 2 x 2 + 4 x 3 + 8 x 4 + 16 x 5 + 32 x 6
    yield accepted("incremental", hour_of(own(EXPORT, J=[1, 2, 4, 8, 16, 32]), prices=[RISING + DEAR]), 321)
    yield accepted("decremental", hour_of(own(EXPORT, J=[-1, -2, -4, -8, -16, -32]), prices=[DEAR + RISING]), -321)
    # 1 x 1 - 2 x 20 + 3 x 3 - 4 x 40 + 5 x 5 - 6 x 60
    yield accepted("both-prices", hour_of(own(EXPORT, J=[1, -2, 3, -4, 5, -6]), prices=[RISING + DEAR]), -525)
    # a price below zero turns the sign
    below = [[-1_000] * 6 + [-3_000] * 6]
    yield accepted("prices-below-zero", hour_of(own(EXPORT, J=[2, -5, 0, 0, 0, 0]), prices=below), -2 + 15)


def of_nets():
    """An export's 5 kWh over its plan, and a load's adjustment of 5: its deviation is 5, which is taken off. Prices are 1 and 3 cents a
    kWh."""
    prices = [[1_000] * 6 + [3_000] * 6]
    export, load = own(EXPORT, J=[5, 0, 0, 0, 0, 0]), own(REAL_TIME_LOAD, J=[5, 0, 0, 0, 0, 0])
    other = {**load, "area": 1}
    yield accepted("net-of-zero", hour_of(export, load, prices=prices), 0)
    yield accepted("net-over-areas", hour_of(export, other, prices=prices, areas=(0, 0)), 0)
    yield accepted("net-by-zone", hour_of(export, other, prices=prices * 2, areas=(0, 1)), 5 - 15)
    yield accepted("net-by-member", hour_of(export, {**load, "member": 1}, prices=prices, members=2), 5, -15)
    later = own(REAL_TIME_LOAD, J=[0, 5, 0, 0, 0, 0])
    yield accepted("net-by-interval", hour_of(export, later, prices=prices), 5 - 15)
    # area 0 is in zone 1, at 3 and 7, and area 1 in zone 0, at 1 and 5: 5 x 3 - 5 x 5
    zones = [[1_000] * 6 + [5_000] * 6, [3_000] * 6 + [7_000] * 6]
    yield accepted("zone-of-the-area", hour_of(export, other, prices=zones, areas=(1, 0)), 15 - 25)


# ---- Schedules: 240 kWh are 40 an interval, and 240 kWh from hour to hour are 10 at the end

ENDS = [[1_000, 0, 0, 0, 0, 3_000, 2_000, 0, 0, 0, 0, 4_000]]  # interval 1: 1 and 2 cents a kWh, interval 6: 3 and 4; between them nothing


def of_ramps():
    # interval 1: 40 - (240 - 0) / 24 = 30, interval 6: 40 + (480 - 240) / 24 = 50; 40 were metered in each: -10 x 2 + 10 x 3
    ramp = dict(S=240, before=0, next=480, A=40)
    yield accepted("generator-ramps", hour_of(own(GENERATOR, **ramp), prices=ENDS), -20 + 30)
    # the load's deviations are the same and are taken off: 10 x 1 - 10 x 4
    yield accepted("load-ramps", hour_of(own(REAL_TIME_LOAD, **ramp), prices=ENDS), 10 - 40)
    # the other way: 40 - (240 - 480) / 24 = 50, 40 + (0 - 240) / 24 = 30: 10 x 1 - 10 x 4
    yield accepted("generator-ramps-down", hour_of(own(GENERATOR, S=240, before=480, next=0, A=40), prices=ENDS), 10 - 40)
    # no ramp between them: with all prices alike the two ends cancel, and so they do interval by interval with 30 and 50 metered
    yield accepted("ramp-cancels", hour_of(own(GENERATOR, **ramp)), 0)
    followed = own(GENERATOR, S=240, before=0, next=480, A=[30, 40, 40, 40, 40, 50])
    yield accepted("ramp-followed", hour_of(followed, prices=[DEAR + RISING]), 0)
    # the ramp is scaled as the schedule is: 30 x 0.9 - 36 = -9 and 50 x 0.9 - 36 = 9: -9 x 2 + 9 x 3
    yield accepted("ramp-scaled", hour_of(own(GENERATOR, F=9_000, S=240, before=0, next=480, A=36), prices=ENDS), -18 + 27)
    # the others have a plain sixth, 40, in the first interval and in the last: no deviation
    yield accepted("profile-load-plain", hour_of(own(PROFILE_LOAD, S=240, A=240), prices=ENDS), 0)
    yield accepted("import-plain", hour_of(own(IMPORT, S=240), prices=ENDS), 0)
    yield accepted("export-plain", hour_of(own(EXPORT, S=240, A=40), prices=ENDS), 0)
    # an hour that stays as it was: 100 an interval
    yield accepted("no-ramp", hour_of(own(GENERATOR, S=600, before=600, next=600, A=100), prices=ENDS), 0)


def of_sixths():
    first, last = [alike(0)], [alike(0)]
    first[0][0] = first[0][6] = 9_000
    last[0][5] = last[0][11] = 1_000
    # -1 / 6 kWh in each interval, of which the first costs 9 cents a kWh: 1.5 cents, and just under that
    yield accepted("sixth-half", hour_of(own(EXPORT, S=1), prices=first), -2)
    yield accepted("sixth-under", hour_of(own(EXPORT, S=1), prices=[[8_999, 0, 0, 0, 0, 0] * 2]), -1)
    # 36 / 24 and 35 / 24 kWh at a cent in the last interval; 12 / 24, which is half a cent
    yield accepted("ramp-half", hour_of(own(GENERATOR, next=36), prices=last), 2)
    yield accepted("ramp-under", hour_of(own(GENERATOR, next=35), prices=last), 1)
    yield accepted("ramp-half-a-cent", hour_of(own(GENERATOR, next=12), prices=last), 0)
    # in the first interval 4 / 24 x 9
    yield accepted("ramp-before-half", hour_of(own(REAL_TIME_LOAD, before=4), prices=first), -2)
    # a reading of 1 kWh is a sixth an interval: 9 / 6
    yield accepted("reading-half", hour_of(own(PROFILE_LOAD, A=1), prices=first), 2)
    # an import's actual is a sixth: 1 / 6 x (2 - 1) x 9
    yield accepted("import-half", hour_of(own(IMPORT, S=1, F=20_000), prices=first), 2)
    yield accepted("import-as-scheduled", hour_of(own(IMPORT, S=99_999, F=9_000, H=9_000)), 0)
    # no reading is 0 in every interval, and so is the deviation of a schedule of 0
    yield accepted("reading-of-zero", hour_of(own(PROFILE_LOAD)), 0)


# ---- Rounding, once over all zones and intervals

# Half cents behind 0, 1 and 2 whole cents: their names, the price of a kWh that costs them, and the even cent.
HALVES = (("half", 500, 0), ("one-and-a-half", 1_500, 2), ("two-and-a-half", 2_500, 2), ("minus-half", -500, 0),
          ("minus-one-and-a-half", -1_500, -2), ("minus-two-and-a-half", -2_500, -2))


def of_rounding():
    def priced(*prices, kwh=(1, 0, 0, 0, 0, 0)):
        """An export of these kWh in each zone, at its price."""
        records = [interval_record(EXPORT, 0, zone, J=kwh) for zone in range(len(prices))]
        return hour_of(*records, prices=[alike(price) for price in prices], areas=range(len(prices)))

    yield accepted("three-zones", priced(400, 400, 400), 1)  # 1.2, and 0 each
    yield accepted("two-zones-half", priced(500, 500), 1)    # 1, and 0 each
    yield accepted("zones-cancel-half", priced(1_500, -1_400), 0)  # 0.1, and 2 - 1
    yield accepted("three-intervals", priced(400, kwh=(1, 0, 1, 0, 1, 0)), 1)
    yield accepted("two-intervals-half", priced(500, kwh=(1, 1, 0, 0, 0, 0)), 1)
    # two records of a zone, 0.3 each
    yield accepted("two-records", hour_of(*[own(EXPORT, J=[1, 0, 0, 0, 0, 0])] * 2, prices=[alike(300)]), 1)
    # two members, 0.4 each: each is rounded by itself
    yield accepted("two-members", hour_of(own(EXPORT, J=[1, 0, 0, 0, 0, 0]), interval_record(EXPORT, 1, 0, J=[1, 0, 0, 0, 0, 0]),
                                          prices=[alike(400)], members=2), 0, 0)
    for name, price, cents in HALVES:
        yield accepted(f"rounded-{name}", priced(price), cents)


def of_near_halves():
    """Just under each of these half cents, and just over: a kWh costs a thousandth of a cent less or more; or a 24th of a grain, the least
    that there is, is beside it: a ramp of 1 kWh times an F of 1 at a cent a MWh in a zone of its own."""
    export, ramp = own(EXPORT, J=[1, 0, 0, 0, 0, 0]), interval_record(GENERATOR, 0, 1, next=1, F=1, H=1)
    for price in (price for _, price, _ in HALVES):
        way, whole = (1 if price > 0 else -1), abs(price) // 1_000
        for side, step, size in (("under", -way, whole), ("over", way, whole + 1)):
            name = f"{side}-{price}".replace("--", "-minus-")
            yield accepted(f"rounded-{name}", hour_of(export, prices=[alike(price + step)]), way * size)
            beside = hour_of(export, ramp, prices=[alike(price), alike(step)], areas=(0, 1))
            yield accepted(f"rounded-a-24th-{name}", beside, way * size)


def of_sizes():
    """64 generators that each made 100,000 kWh an interval against an adjustment of -100,000: -200,000 x 2 x 6 x 64 kWh at a dollar."""
    generator = own(GENERATOR, A=100_000, J=-100_000, H=20_000)
    for name, price, cents in (("largest", 100_000, -15_360_000_000), ("largest-above-zero", -100_000, 15_360_000_000)):
        yield accepted(name, hour_of(*[generator] * 64, prices=[alike(price)]), cents)
    # 64 records of 32 members, each twice 6 kWh and the member's number over its plan
    records = [interval_record(EXPORT, place % 32, place % 8, J=[place % 32, 0, 0, 0, 0, 6]) for place in range(64)]
    yield accepted("members-32", hour_of(*records, areas=[0] * 8, members=32), *(2 * (member + 6) for member in range(32)))


# ---- Each end of each range, and one past it. Interval i costs i cents a kWh, on either side: 21 in all

BY_INTERVAL = [RISING * 2]


def six(interval, kwh):
    return [kwh if each == interval else 0 for each in range(1, 7)]


# Which way 100,000 kWh of an interval's actual, adjustment and ancillary energy go into the net of each kind.
SIGNS = {GENERATOR: dict(A=-1, J=1, N=1), REAL_TIME_LOAD: dict(A=1, J=-1, N=1), PROFILE_LOAD: dict(J=-1, N=1), IMPORT: dict(J=1, N=1),
         EXPORT: dict(A=1, J=1)}


def of_interval_ends():
    for kind, signs in SIGNS.items():
        for (name, sign), interval in itertools.product(signs.items(), range(1, 7)):
            for way in (1, -1) if name == "J" else (1,):
                at, past = (hour_of(own(kind, **{name: six(interval, way * kwh)}), prices=BY_INTERVAL) for kwh in (100_000, 100_001))
                yield accepted(f"{NAMES[kind]}, {name} {interval} of {way * 100_000}", at, sign * way * 100_000 * interval)
                yield refused(f"{NAMES[kind]}, {name} {interval} past {way * 100_000}", 5, 0, past.encode())


# A kind, a name, its value at an end, what is beside it, and the charge.
AT_ENDS = (
    (GENERATOR, "S", 100_000, dict(before=100_000, next=100_000), 350_000),   # 100,000 / 6 x 21
    (REAL_TIME_LOAD, "S", 100_000, dict(before=100_000, next=100_000), -350_000),
    (PROFILE_LOAD, "S", 100_000, {}, -350_000),
    (IMPORT, "S", 100_000, dict(F=20_000), 350_000),                          # 100,000 / 6 x (2 - 1) x 21
    (EXPORT, "S", 100_000, {}, -350_000),
    (PROFILE_LOAD, "A", 100_000, {}, 350_000),
    (GENERATOR, "before", 100_000, {}, 4_167),                                # 100,000 / 24 x 1 is 4,166 and two thirds
    (REAL_TIME_LOAD, "before", 100_000, {}, -4_167),
    (GENERATOR, "next", 100_000, {}, 25_000),                                 # 100,000 / 24 x 6
    (REAL_TIME_LOAD, "next", 100_000, {}, -25_000),
    (GENERATOR, "F", 20_000, dict(S=60_000, before=60_000, next=60_000), 420_000),  # 10,000 x 2 x 21
    (GENERATOR, "F", 1, dict(S=60_000, before=60_000, next=60_000), 21),      # 10,000 x 0.0001 x 21
    (IMPORT, "F", 20_000, dict(S=60_000), 210_000),                           # (20,000 - 10,000) x 21
    (IMPORT, "F", 1, dict(S=60_000), -209_979),                               # (1 - 10,000) x 21
    (GENERATOR, "H", 20_000, dict(A=10_000), -420_000),
    (GENERATOR, "H", 1, dict(A=10_000), -21),
    (IMPORT, "H", 20_000, dict(J=10_000), 420_000),
    (IMPORT, "H", 1, dict(J=10_000), 21),
)


def of_ends():
    for kind, name, end, beside, cents in AT_ENDS:
        past = end - 1 if end == 1 else end + 1
        yield accepted(f"{NAMES[kind]}, {name} of {end}", hour_of(own(kind, **{**beside, name: end}), prices=BY_INTERVAL), cents)
        yield refused(f"{NAMES[kind]}, {name} past {end}", 5, 0, hour_of(own(kind, **{**beside, name: past}), prices=BY_INTERVAL).encode())


def of_unused_words():
    """Each word that a kind doesn't use is zero; a 1 there is refused."""
    for kind in KINDS:
        for word in (word for word in range(3, 30) if word not in USED_WORDS[kind]):
            hour = hour_of(own(kind))
            yield refused(f"{NAMES[kind]}, word {word} of 1", 5, 0, words(hour.blocks(), (*hour.where(0, word), 1)))


def of_price_ends():
    """A kWh over the plan or under it, in a zone and interval at the highest or lowest price: a dollar. One past is refused."""
    for zone, place in itertools.product(range(4), range(12)):
        word, kwh = FIRST_PRICE_WORD + 12 * zone + place, 1 if place < 6 else -1
        for price in (100_000, -100_000):
            prices = [alike(0) for _ in range(4)]
            prices[zone][place] = price
            hour = hour_of(own(EXPORT, J=six(place % 6 + 1, kwh)), prices=prices, areas=[zone])
            yield accepted(f"price {price} in word {word}", hour, kwh * price // 1_000)
            yield refused(f"price past {price} in word {word}", 4, word, words(hour.blocks(), (0, word, price + price // 100_000)))


# ---- The file

def full_hour(count, members=32, areas=8):
    """So many records, of all kinds by turns, none of which deviates; four zones, of which the prices are as large as can be."""
    records = [interval_record(kind, place % members, place % areas, **(LEVEL if kind in SCALED else {}))
               for place, kind in zip(range(count), itertools.cycle(KINDS))]
    prices = [alike(100_000), alike(-100_000), alike(0), alike(12_345)]
    return TenMinuteHour(NUMBER, members, prices, [area % 4 for area in range(areas)], records)


def five_blocks():
    """A head and 15 records, three in the last block."""
    return full_hour(15).blocks()


def field(place, word):
    return full_hour(0).where(place, word)


def of_lengths():
    full = full_hour(64).encode()
    yield accepted("bytes-8704", full_hour(64), *[0] * 32)
    yield accepted("bytes-512", full_hour(0), *[0] * 32)
    for data in (full + full[-512:], b"", full[:511], full[:513], full[:-1], bytes(13_312)):
        yield refused(f"bytes-{len(data)}", 1, 0, data)


def of_blocks():
    for name, place in (("first", 0), ("middle", 2), ("last", 4)):
        yield refused(f"sum-{name}", 2, place, sums(five_blocks(), place))
        yield refused(f"reserved-{name}", 3, place, words(five_blocks(), (place, 6, 1)))
        yield refused(f"mark-{name}", 3, place, words(five_blocks(), (place, 0, 2 if place else 1)))
        yield refused(f"position-{name}", 3, place, words(five_blocks(), (place, 1, place + 1)))
    yield refused("first-mark-4", 3, 0, words(five_blocks(), (0, 0, 4)))
    yield refused("other-mark-3", 3, 3, words(five_blocks(), (3, 0, 3)))
    yield refused("blocks-counted", 3, 0, words(five_blocks(), (0, 2, 5)))
    yield refused("block-not-full", 3, 1, words(five_blocks(), (1, 2, 3)))
    yield refused("block-of-three", 3, 1, words(five_blocks(), (1, 2, 3), *((1, word, 0) for word in range(98, 128))))
    yield refused("block-of-five", 3, 1, words(five_blocks(), (1, 2, 5)))
    yield refused("last-block-of-five", 3, 4, words(full_hour(16).blocks(), (4, 2, 5)))
    yield refused("last-block-empty", 3, 4, words(five_blocks(), (4, 2, 0), *((4, word, 0) for word in range(8, 128))))
    yield refused("past-records-first", 3, 4, words(five_blocks(), (4, 98, 1)))
    yield refused("past-records-last", 3, 4, words(five_blocks(), (4, 127, 1)))
    yield refused("last-block-holds-one-more", 5, 15, words(five_blocks(), (4, 2, 4)))


def of_heads():
    for name, word, most in (("members", 9, 32), ("zones", 10, 4), ("areas", 11, 8)):
        for count in (0, most + 1):
            yield refused(f"{count}-{name}", 4, word, words(five_blocks(), (0, word, count)))
    for word in (*range(12, 16), 17, 18, 19, 45, 46, 47, *range(96, 128)):
        yield refused(f"head-word-{word}", 4, word, words(five_blocks(), (0, word, 1)))
    yield refused("zone-past-zones", 4, 20, words(five_blocks(), (0, 20, 4)))
    few = hour_of(own(EXPORT))
    for word in (20, 44, 60, 66, 95):
        yield refused(f"past-counts-{word}", 4, word, words(few.blocks(), (0, word, 1)))
    # the fewest and the most of each
    yield accepted("one-of-each", few, 0)
    last = [alike(0), alike(0), alike(0), alike(1_000)]
    of_last = interval_record(EXPORT, 31, 7, J=[1, 0, 0, 0, 0, 0])
    yield accepted("most-of-each", hour_of(of_last, prices=last, areas=[0] * 7 + [3], members=32), *[0] * 31, 1)


def of_records():
    for name, place in (("first", 0), ("middle", 7), ("last", 14)):
        for what, word, value in (("kind-0", 0, 0), ("kind-6", 0, 6), ("member-32", 1, 32), ("area-8", 2, 8),
                                  ("schedule-100001", 3, 100_001), ("last-word-1", 29, 1)):
            yield refused(f"{what}-{name}", 5, place, words(five_blocks(), (*field(place, word), value)))


def of_two_faults():
    """The order of the table decides, and in a row the first place."""
    yield refused("length-before-sum", 1, 0, sums(five_blocks(), 0)[:-1])
    yield refused("sum-before-layout", 2, 4, sums(changed(five_blocks(), (0, 3, 1)), 4))
    yield refused("layout-before-head", 3, 4, words(five_blocks(), (0, 9, 0), (4, 3, 1)))
    yield refused("head-before-record", 4, 127, words(five_blocks(), (0, 127, 1), (*field(0, 0), 0)))
    yield refused("first-of-two-sums", 2, 1, sums(five_blocks(), 3, 1))
    yield refused("first-of-two-blocks", 3, 1, words(five_blocks(), (3, 3, 1), (1, 6, 1)))
    yield refused("first-of-two-words", 4, 49, words(five_blocks(), (0, 127, 1), (0, 49, 100_001)))
    yield refused("first-of-two-records", 5, 9, words(five_blocks(), (*field(13, 0), 0), (*field(9, 29), 1)))


def of_hourly_files():
    """Hourly files: 17 blocks hold 160 of their records."""
    yield refused("hourly-printed", 3, 0, hours.printed_case().encode())
    records = [hours.record(EXPORT, 0, 0)] * 161
    yield refused("hourly-17-blocks", 3, 0, hours.Hour(7, 1, [0], [[0, 0, 0]], records[:160]).encode())
    yield refused("hourly-18-blocks", 1, 0, hours.Hour(7, 1, [0], [[0, 0, 0]], records).encode())
    yield refused("hourly-wrong-sum", 2, 1, sums(hours.printed_case().blocks(), 1))
    yield refused("marks-alone-hourly", 3, 0, words(five_blocks(), (0, 0, 1), *((place, 0, 2) for place in range(1, 5))))


def cases():
    return itertools.chain(of_kinds(), of_prices(), of_nets(), of_ramps(), of_sixths(), of_rounding(), of_near_halves(), of_sizes(),
                           of_interval_ends(), of_ends(), of_unused_words(), of_price_ends(), of_lengths(), of_blocks(), of_heads(),
                           of_records(), of_two_faults(), of_hourly_files())
