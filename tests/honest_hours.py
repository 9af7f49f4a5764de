"""Makers of hours that keep the rules: each is accepted, but for those of row 12 and those of which only the sums tell."""

from hour_bytes import (EXPORT, GENERATOR, HIGHEST, IMPORT, KINDS, LOADS, LOWEST, MOST_PRICE, MOST_RECORDS, MOST_TIE, PROFILE_LOAD,
                        REAL_TIME_LOAD, USED, Hour, letter_of_actual, record)

# ---- Honest hours: each is accepted

def printed_case(rng=None):
    """The input that document 01 prints with its statement."""
    return Hour(7, 2, [5_000], [[0, 0, 0]], [
        record(GENERATOR, 0, 0, S=1_000, A=900, M=2_000, F=10_000, H=10_000),
        record(REAL_TIME_LOAD, 1, 0, S=1_000, A=870)])


def random_record(rng, members, areas, most, kinds=KINDS):
    """A record with energies up to `most` and multipliers around 1, as meters give them."""
    kind = rng.choice(kinds)
    each = record(kind, rng.randrange(members), rng.randrange(areas))
    for letter in USED[kind]:
        if letter in "FH":
            each[letter] = rng.choice([10_000, rng.randint(9_000, 10_500), rng.randint(1, 20_000)])
        elif letter == "J":
            each[letter] = rng.choice([0, rng.randint(-most, most)])
        else:
            each[letter] = rng.choice([0, rng.randint(0, most), rng.randint(0, most)])
    if kind == GENERATOR:
        schedule_within_maximum(each)
        if rng.random() < 0.2:
            each["S"] = each["M"]
    return each


def schedule_within_maximum(generator):
    """The larger of a generator's schedule and maximum becomes the maximum (document 02, A6). What was metered may be above it, and the
    obligation too."""
    generator["S"], generator["M"] = sorted((generator["S"], generator["M"]))


def random_areas(rng, zones, areas, most_tie):
    return [[rng.randrange(zones), rng.randint(0, most_tie), rng.randint(0, most_tie)] for _ in range(areas)]


def random_hour(rng, count, most, kinds=KINDS):
    members, zones, areas = rng.randint(1, 32), rng.randint(1, 4), rng.randint(1, 8)
    prices = [rng.randint(-MOST_PRICE, MOST_PRICE) // rng.choice([1, 100, 10_000]) for _ in range(zones)]
    records = [random_record(rng, members, areas, most, kinds) for _ in range(count)]
    hour = Hour(rng.randrange(2**32), members, prices,
                random_areas(rng, zones, areas, rng.choice([most, MOST_TIE])), records)
    give_demand(rng, hour)
    give_somebody_demand(rng, hour)
    return hour


def give_demand(rng, hour):
    """Leaves no area with UFE and without demand: one of its loads gets some, or, where it has no load,
    its energy is brought into balance."""
    for area in range(len(hour.areas)):
        loads = hour.of_area(area, *LOADS)
        if not loads:
            balance(rng, hour, area)
        elif not any(load["A"] for load in loads):
            rng.choice(loads)["A"] = rng.randint(1, 100)


def give_somebody_demand(rng, hour):
    """Leaves no hour with records and without demand, since somebody may be charged in it (refusal 12)."""
    demanded = any(r["A"] for r in hour.records if r["kind"] in LOADS)
    if hour.records and not demanded:
        place = rng.randrange(len(hour.records))
        member, area = hour.records[place]["member"], hour.records[place]["area"]
        hour.records[place] = record(rng.choice(LOADS), member, area, S=rng.randint(0, 100), A=rng.randint(1, 100))


def balance(rng, hour, area):
    """Gives an area demand 0 and UFE 0: nothing is lost, and what is generated leaves by the ties."""
    for load in hour.of_area(area, *LOADS):
        load["A"] = 0
    for source in hour.of_area(area, GENERATOR, IMPORT):
        source["H"] = 10_000
    generators = hour.of_area(area, GENERATOR)
    if sum(r["A"] for r in generators) > MOST_TIE:
        for generator in generators:
            generator["A"] = 0
    generated = sum(r["A"] for r in generators)
    tie_in = rng.randint(0, MOST_TIE - generated)
    hour.areas[area][1:] = [tie_in, tie_in + generated]


def ordinary(rng):
    return random_hour(rng, rng.randint(1, 60), rng.choice([20, 5_000, 100_000]))


def few_records(rng):
    """Small numbers that a person can check."""
    return random_hour(rng, rng.randint(0, 5), 9)


def many_records(rng):
    return random_hour(rng, rng.randint(200, MOST_RECORDS), rng.choice([50, 100_000]))


def no_records(rng):
    """One block: as short as a file may be."""
    return random_hour(rng, 0, 100)


def full_file(rng):
    """26 blocks: as long as a file may be."""
    return random_hour(rng, MOST_RECORDS, 100_000)


def full_blocks(rng):
    """A last block of ten records, or of one."""
    return random_hour(rng, 10 * rng.randint(1, 24) + rng.randint(0, 1), 3_000)


def equal_remainders(rng):
    """One area, a few different demands, and a source whose losses bring the UFE to any number of
    units: many remainders are equal, and the earlier record gets the unit."""
    count = rng.randint(2, 40)
    demands = [rng.randint(1, 50) for _ in range(rng.randint(1, 2))]
    records = [record(rng.choice(LOADS), rng.randrange(4), 0, S=rng.randint(0, 50), A=rng.choice(demands))
               for _ in range(count)]
    kind = rng.choice([GENERATOR, IMPORT])
    source = record(kind, rng.randrange(4), 0, F=10_000, H=rng.randint(1, 20_000), **{letter_of_actual(kind): 1})
    records.insert(rng.randint(0, count), source)
    # ties that all but meet the demand, from either side, so that the UFE is small or large
    spare = rng.choice([0, 1, -1, rng.randint(-500, 500)])
    tie_in = sum(r["A"] for r in records if r["kind"] in LOADS) + 1_000 + spare
    return Hour(rng.randrange(10_000), 4, [rng.randint(-9_999, 9_999)], [[0, tie_in, 1_000]], records)


def most_units_left(rng):
    """250 loads in one area and 249 units left, the most that there can be: where the size of the UFE
    is one short of a multiple of the demand T, every load's remainder is T less its own demand."""
    most = rng.choice([2, 9, 9_000])
    demands = [rng.randint(1, most) for _ in range(MOST_RECORDS)]
    while sum(demands) % 2 == 0 or sum(demands) % 5 == 0:
        demands[rng.randrange(MOST_RECORDS)] += 1
    total = sum(demands)
    # the ties are whole kWh, 10,000 units each: solve 10,000 x over = -1 modulo T, which takes a T
    # that has no factor in common with 10
    over = -pow(10_000, -1, total) % total
    tie_out = rng.randint(0, 1_000)
    areas = [[0, tie_out + total + rng.choice([over, -over]), tie_out]]
    records = [record(rng.choice(LOADS), rng.randrange(32), 0, S=rng.randint(0, 9), A=each) for each in demands]
    return Hour(rng.randrange(10_000), 32, [rng.randint(-MOST_PRICE, MOST_PRICE)], areas, records)


def halves(rng, most_zones=4, most_areas=8):
    """Amounts that end on exactly half a cent: odd numbers of kWh at odd multiples of 500 cents a MWh
    make odd multiples of 5,000,000 grains. Loads that took what was planned and came in by the ties carry N."""
    zones = rng.randint(1, most_zones)
    prices = [500 * (2 * rng.randint(-9, 9) + 1) for _ in range(zones)]
    areas = random_areas(rng, zones, rng.randint(1, most_areas), 0)
    members = rng.randint(1, 32)
    records = [record(EXPORT, rng.randrange(members), rng.randrange(len(areas)),
                      S=rng.randint(0, 9), A=rng.randint(0, 9), J=rng.randint(-9, 9))
               for _ in range(rng.randint(1, 40))]
    records += [load_as_planned(rng, rng.randrange(members), areas, rng.randint(1, 9)) for _ in range(rng.randint(1, 9))]
    return Hour(rng.randrange(10_000), members, prices, areas, records)


def a_grain_from_halves(rng):
    """The same, and each member has a grain more or less: an import that was scheduled nothing deviates by a unit, in a zone of its own at
    a cent a MWh."""
    hour = halves(rng, most_zones=3, most_areas=7)
    hour.records += [record(IMPORT, member, len(hour.areas), J=rng.choice([1, -1]), F=1, H=1) for member in range(hour.members)]
    hour.areas.append([len(hour.prices), 0, 0])
    hour.prices.append(1)
    return hour


def no_demand_no_ufe(rng):
    """Areas without demand that are in balance, beside areas with demand."""
    hour = random_hour(rng, rng.randint(1, 60), rng.choice([20, 5_000]))
    for area in range(len(hour.areas)):
        if rng.random() < 0.6:
            balance(rng, hour, area)
    give_somebody_demand(rng, hour)
    return hour


def unavailable_energy(rng):
    """Obligations that the room under the maximum, or the load, cannot meet, beside ones that it just
    can: both unavailable terms are at work, and off by one kWh either way."""
    hour = random_hour(rng, rng.randint(1, 40), 5_000, (GENERATOR, REAL_TIME_LOAD, PROFILE_LOAD))
    for each in hour.records:
        nearly = rng.choice([-1, 0, 1, rng.randint(-2_000, 2_000)])
        if each["kind"] == GENERATOR:
            each["O"] = max(0, each["M"] - each["A"] + each["N"] + nearly)
        else:
            each["O"] = max(0, each["A"] + each["N"] + nearly)
    return hour


def schedules_at_maximum(rng):
    """Generators that are scheduled at their maximum, or a kWh below it; some have the highest maximum there can be, or a kWh, or none."""
    hour = random_hour(rng, rng.randint(5, 40), 5_000)
    for generator in (each for each in hour.records if each["kind"] == GENERATOR):
        generator["M"] = rng.choice([generator["M"], HIGHEST["M"], HIGHEST["M"], 1, 0])
        generator["S"] = max(0, generator["M"] - rng.choice([0, 1]))
    return hour


# ---- Hours that are about N, the sum of all charges, and the finals (document 02, A1)

# At this price, cents a MWh, a kWh is a cent: an export pays for what it took over its plan and is paid for what it
# took less.
CENT_A_KWH = 1_000


def load_as_planned(rng, member, areas, demand):
    """A load that took what was planned, brought in by the tie of an area: no deviation and no UFE."""
    area = rng.randrange(len(areas))
    areas[area][1] += demand
    return record(rng.choice(LOADS), member, area, S=demand, A=demand)


def export_over(rng, member, areas, kwh):
    """An export of so many kWh over its plan, or under it."""
    planned = max(0, -kwh) + rng.randint(0, 9)
    return record(EXPORT, member, rng.randrange(len(areas)), S=planned, A=planned + kwh)


def in_parts(rng, whole):
    """A demand as at most three that are not 0."""
    parts = []
    while whole > 0:
        parts.append(whole if len(parts) == 2 else rng.randint(1, whole))
        whole -= parts[-1]
    return parts


def cents_left_over(rng):
    """Members with one of two demands, each over several loads and areas, and an N of a few cents: mostly cents are
    left over, and often equal remainders decide who gets them. One of the two may be 0."""
    members = rng.randint(2, 32)
    areas = random_areas(rng, 1, rng.randint(1, 8), 0)
    sizes = [rng.choice([0, 1, rng.randint(2, 60)]), rng.randint(1, 60)]
    demands = [sizes[1]] + [rng.choice(sizes) for _ in range(members - 1)]
    rng.shuffle(demands)
    records = [load_as_planned(rng, member, areas, part)
               for member, demand in enumerate(demands) for part in in_parts(rng, demand)]
    records += [export_over(rng, rng.randrange(members), areas, rng.randint(-9, 9)) for _ in range(rng.randint(1, 9))]
    records.append(export_over(rng, rng.randrange(members), areas, rng.randint(-3 * members, 3 * members)))
    rng.shuffle(records)
    return Hour(rng.randrange(10_000), members, [rng.choice([CENT_A_KWH, -CENT_A_KWH])], areas, records)


def largest_products(rng):
    """The largest demands there can be with the largest N that was thought of beside them."""
    members = rng.choice([2, 32])
    load = dict(A=100_000, J=-100_000, N=100_000)
    records = [record(rng.choice(LOADS), rng.choice([0, members - 1]), place % 8, **load) for place in range(MOST_RECORDS)]
    return Hour(1, members, [rng.choice([MOST_PRICE, -MOST_PRICE])], [[0, MOST_TIE, 0] for _ in range(8)], records)


# Hours in which nobody takes anything: they are accepted where N is 0, whatever the charges are.

def nobody_takes_anything(rng, members, price, charged):
    """An hour without demand: exports over their plan, given as member and kWh, and at times records of other kinds
    that kept to the plan, loads that took nothing among them."""
    areas = random_areas(rng, 1, rng.randint(1, 8), 0)
    records = [export_over(rng, member, areas, kwh) for member, kwh in charged]
    records += [idle_as_planned(rng, rng.randrange(members), areas) for _ in range(rng.choice([0, 0, 1, 9]))]
    rng.shuffle(records)
    return Hour(rng.randrange(10_000), members, [price], areas, records)


def idle_as_planned(rng, member, areas):
    """A load that took nothing, or a source without losses whose energy left by the tie of its area."""
    kind, area, actual = rng.choice([*LOADS, GENERATOR, IMPORT]), rng.randrange(len(areas)), rng.randint(0, 99)
    if kind in LOADS:
        return record(kind, member, area)
    if kind == IMPORT:
        return record(kind, member, area, S=actual, F=10_000, H=10_000)
    areas[area][2] += actual
    return record(kind, member, area, S=actual, A=actual, M=actual, F=10_000, H=10_000)


def some_members(rng, least):
    """How many members there are, and some of them in any order, at least so many."""
    members = rng.randint(least, 32)
    return members, rng.sample(range(members), rng.randint(least, members))


def exports_as_planned(rng):
    members, some = some_members(rng, 1)
    return nobody_takes_anything(rng, members, rng.randint(-MOST_PRICE, MOST_PRICE), [(member, 0) for member in some])


def charges_that_cancel(rng):
    members, some = some_members(rng, 2)
    kwh = [rng.randint(-99, 99) for _ in some[1:]]
    return nobody_takes_anything(rng, members, rng.choice([CENT_A_KWH, -CENT_A_KWH]), list(zip(some, [-sum(kwh), *kwh])))


def charges_that_cancel_by_rounding(rng):
    """A cent and a half on one side, two and a half on the other: each is charged as two."""
    members, some = some_members(rng, 2)
    way = rng.choice([1, -1])
    return nobody_takes_anything(rng, members, CENT_A_KWH // 2, [(some[0], 3 * way), (some[1], -5 * way)])


def under_half_a_cent(rng):
    """Amounts on either side that are charged as nothing; at times just under half a cent."""
    members, some = some_members(rng, 1)
    price = rng.choice([499, -499, rng.randint(-499, 499)])
    return nobody_takes_anything(rng, members, price, [(member, rng.choice([1, 1, -1])) for member in some])


def half_cents_for_nothing(rng):
    """Half a cent each, on either side: 0 is the even cent."""
    members, some = some_members(rng, 1)
    return nobody_takes_anything(rng, members, CENT_A_KWH // 2, [(member, rng.choice([1, 1, -1])) for member in some])


def price_of_nothing(rng):
    members, some = some_members(rng, 1)
    return nobody_takes_anything(rng, members, 0, [(member, rng.randint(-99, 99)) for member in some])


NO_CHARGES = (exports_as_planned, under_half_a_cent, half_cents_for_nothing, price_of_nothing)
NO_DEMAND_AND_NO_N = (*NO_CHARGES, charges_that_cancel, charges_that_cancel_by_rounding)


# And they are refused with 12 where N isn't 0.

def one_record_charged(rng):
    """A single record, an export or a load that took nothing of what was planned."""
    members = rng.choice([1, 2, rng.randint(1, 32)])
    areas = random_areas(rng, 1, rng.randint(1, 8), 0)
    kwh = rng.choice([1, rng.randint(1, 99)])
    over = rng.choice([record(EXPORT, rng.randrange(members), rng.randrange(len(areas)), A=kwh),
                       record(rng.choice(LOADS), rng.randrange(members), rng.randrange(len(areas)), S=kwh)])
    # from just over half a cent on
    return Hour(rng.randrange(10_000), members, [rng.choice([501, -501, rng.randint(501, MOST_PRICE)])], areas, [over])


def several_charged(rng):
    """Charges on both sides, as often as not a single cent short of cancelling."""
    members, some = some_members(rng, 2)
    kwh = [rng.randint(-99, 99) for _ in some[1:]]
    left = rng.choice([1, -1, rng.randint(1, 99)])
    return nobody_takes_anything(rng, members, rng.choice([CENT_A_KWH, -CENT_A_KWH]), list(zip(some, [left - sum(kwh), *kwh])))


def cancelling_before_rounding(rng):
    """Two halves of a cent, which aren't charged, against a whole one: the amounts cancel, the charges don't."""
    members, some = some_members(rng, 3)
    way = rng.choice([1, -1])
    return nobody_takes_anything(rng, members, CENT_A_KWH // 2, [(some[0], way), (some[1], way), (some[2], -2 * way)])


def cancelling_away_from_zero(rng):
    """A cent and a half, charged as two, against two halves, charged as nothing: halves away from zero would cancel."""
    members, some = some_members(rng, 3)
    way = rng.choice([1, -1])
    return nobody_takes_anything(rng, members, CENT_A_KWH // 2, [(some[0], 3 * way), (some[1], -way), (some[2], -way)])


NO_DEMAND_FOR_N = (one_record_charged, several_charged, cancelling_before_rounding, cancelling_away_from_zero)


# ---- Hours at the edges

def at_an_end(rng, letter):
    """Mostly an end of the range, at times a step inside it."""
    step = rng.choice([0, 0, 0, 1])
    return rng.choice([LOWEST[letter] + step, HIGHEST[letter] - step])


def record_at_ends(rng, members, areas):
    kind = rng.choice(KINDS)
    each = record(kind, rng.choice([0, members - 1]), rng.randrange(areas))
    each.update((letter, at_an_end(rng, letter)) for letter in USED[kind])
    if kind == GENERATOR:
        schedule_within_maximum(each)
    return each


def ends_as_they_fall(rng):
    """Every count, price, tie and record field at an end of its range: accepted, or refused with 6 or 12."""
    members, zones, areas = rng.choice([1, 32]), rng.choice([1, 4]), rng.choice([1, 8])
    prices = [rng.choice([-MOST_PRICE, MOST_PRICE, 0]) for _ in range(zones)]
    rows = [[rng.choice([0, zones - 1]), rng.choice([0, MOST_TIE]), rng.choice([0, MOST_TIE])]
            for _ in range(areas)]
    count = rng.choice([0, 1, 10, 11, 249, 250])
    records = [record_at_ends(rng, members, areas) for _ in range(count)]
    return Hour(rng.choice([0, 2**32 - 1]), members, prices, rows, records)


def ends_everywhere(rng):
    """The same, with demand where there is UFE."""
    hour = ends_as_they_fall(rng)
    give_demand(rng, hour)
    give_somebody_demand(rng, hour)
    return hour


def largest_amounts(rng):
    """250 records of one member and ties all to one side: as near to refusal 7 as was thought of."""
    if rng.random() < 0.5:
        ties = [0, MOST_TIE, 0]
        load = dict(A=100_000, J=-100_000, N=100_000)
        rest = record(GENERATOR, 0, 0, S=100_000, J=100_000, N=100_000, M=100_000, F=20_000, H=20_000)
    else:
        ties = [0, 0, MOST_TIE]
        load = dict(S=100_000, A=1, J=100_000)
        rest = record(IMPORT, 0, 0, S=100_000, J=-100_000, F=1, H=20_000)
    areas = rng.choice([1, 8])
    records = [record(REAL_TIME_LOAD, 0, area, **load) for area in range(areas)]
    records += [{**rest, "area": place % areas} for place in range(MOST_RECORDS - areas)]
    return Hour(1, 1, [rng.choice([MOST_PRICE, -MOST_PRICE])], [list(ties) for _ in range(areas)], records)


HONEST = (printed_case, few_records, ordinary, many_records, no_records, full_file, full_blocks,
          equal_remainders, most_units_left, halves, a_grain_from_halves, no_demand_no_ufe, unavailable_energy,
          schedules_at_maximum, ends_everywhere, largest_amounts, cents_left_over, largest_products)
