"""Ten-minute hours before they are bytes, as document 02, A7, lays them out, and makers of ones that keep the rules."""

from honest_hours import at_an_end
from hour_bytes import EXPORT, GENERATOR, IMPORT, KINDS, PROFILE_LOAD, REAL_TIME_LOAD, Hour, Layout, padded

MOST_INTERVAL_PRICE = 100_000
MOST_INTERVAL_RECORDS = 64
FIRST_PRICE_WORD = 48
PAST_PRICES = 96

# Each word of a record by document 01's letter for what it holds, and the words that each kind uses. A list of six is an interval a word.
SCHEDULE, BEFORE, NEXT, FORECAST, HOUR_AHEAD = 3, 4, 5, 6, 7
ACTUALS, ADJUSTMENTS, ANCILLARY, REST = range(8, 14), range(14, 20), range(20, 26), range(26, 30)
LETTER_AT = {SCHEDULE: "S", BEFORE: "S", NEXT: "S", FORECAST: "F", HOUR_AHEAD: "H", **dict.fromkeys(ACTUALS, "A"),
             **dict.fromkeys(ADJUSTMENTS, "J"), **dict.fromkeys(ANCILLARY, "N")}
USED_WORDS = {GENERATOR: (SCHEDULE, BEFORE, NEXT, FORECAST, HOUR_AHEAD, *ACTUALS, *ADJUSTMENTS, *ANCILLARY),
              REAL_TIME_LOAD: (SCHEDULE, BEFORE, NEXT, *ACTUALS, *ADJUSTMENTS, *ANCILLARY),
              PROFILE_LOAD: (SCHEDULE, ACTUALS[0], *ADJUSTMENTS, *ANCILLARY),
              IMPORT: (SCHEDULE, FORECAST, HOUR_AHEAD, *ADJUSTMENTS, *ANCILLARY),
              EXPORT: (SCHEDULE, *ACTUALS, *ADJUSTMENTS)}
NAMES = {"S": SCHEDULE, "before": BEFORE, "next": NEXT, "F": FORECAST, "H": HOUR_AHEAD}
SIXES = {"A": ACTUALS, "J": ADJUSTMENTS, "N": ANCILLARY}


class TenMinuteHour(Hour):
    """Prices are twelve a zone, six incremental and six decremental; areas are their zones; records are made by `interval_record`."""

    layout = Layout(3, 4, 17, 4, 30)

    def head(self):
        words = [self.number, self.members, len(self.prices), len(self.areas), 0, 0, 0, 0]
        for zone in self.areas:
            words += [zone, 0, 0, 0]
        words = padded(words, FIRST_PRICE_WORD - 8)
        for prices in self.prices:
            words += [price % 2**32 for price in prices]
        return words

    def words_of(self, each):
        return [each["kind"], each["member"], each["area"], *(each["words"].get(word, 0) % 2**32 for word in range(3, 30))]


def interval_record(kind, member, area, **named):
    """A record; what is left out is 0. `A`, `J` and `N` are six numbers, or one for all six; `A` of a load by profile is its hourly
    reading."""
    words = {NAMES[name]: named.pop(name) for name in NAMES if name in named}
    for name, value in named.items():
        if name == "A" and kind == PROFILE_LOAD:
            words[ACTUALS[0]] = value
        else:
            words.update(zip(SIXES[name], [value] * 6 if isinstance(value, int) else value))
    return {"kind": kind, "member": member, "area": area, "words": words}


def alike(price):
    """The prices of a zone, all the same."""
    return [price] * 12


# ---- Random ones

def random_word(rng, word, most):
    letter = LETTER_AT[word]
    if letter in "FH":
        return rng.choice([10_000, rng.randint(9_000, 10_500), rng.randint(1, 20_000)])
    if letter == "J":
        return rng.choice([0, rng.randint(-most, most)])
    return rng.choice([0, rng.randint(0, most), rng.randint(0, most)])


def random_interval_record(rng, members, areas, most, kinds=KINDS):
    kind = rng.choice(kinds)
    each = interval_record(kind, rng.randrange(members), rng.randrange(areas))
    each["words"] = {word: random_word(rng, word, most) for word in USED_WORDS[kind]}
    return each


def random_prices(rng, zones):
    size = rng.choice([1, 100, 10_000])
    return [[rng.randint(-MOST_INTERVAL_PRICE, MOST_INTERVAL_PRICE) // size for _ in range(12)] for _ in range(zones)]


def random_ten_minutes(rng, count, most, kinds=KINDS):
    members, zones, areas = rng.randint(1, 32), rng.randint(1, 4), rng.randint(1, 8)
    return TenMinuteHour(rng.randrange(2**32), members, random_prices(rng, zones), [rng.randrange(zones) for _ in range(areas)],
                         [random_interval_record(rng, members, areas, most, kinds) for _ in range(count)])


def ordinary(rng):
    return random_ten_minutes(rng, rng.randint(1, 30), rng.choice([20, 5_000, 100_000]))


def few_records(rng):
    """Small numbers that a person can check."""
    return random_ten_minutes(rng, rng.randint(1, 4), 9)


def no_records(rng):
    """One block: as short as a file may be."""
    return random_ten_minutes(rng, 0, 100)


def full_file(rng):
    """17 blocks: as long as a file may be."""
    return random_ten_minutes(rng, MOST_INTERVAL_RECORDS, 100_000)


def full_blocks(rng):
    """A last block of four records, or of one."""
    return random_ten_minutes(rng, 4 * rng.choice([1, rng.randint(1, 15)]) + rng.randint(0, 1), 3_000)


def all_members(rng):
    """64 records of 32 members, two each, in several zones."""
    hour = random_ten_minutes(rng, MOST_INTERVAL_RECORDS, 5_000)
    hour.members, hour.prices, hour.areas = 32, random_prices(rng, 4), [area % 4 for area in range(8)]
    for place, each in enumerate(hour.records):
        each.update(member=place % 32, area=rng.randrange(8))
    rng.shuffle(hour.records)
    return hour


# ---- At the edges

def ends_everywhere(rng):
    """Every count, price and word of a record at an end of its range."""
    members, zones, areas = rng.choice([1, 32]), rng.choice([1, 4]), rng.choice([1, 8])
    prices = [[rng.choice([-MOST_INTERVAL_PRICE, MOST_INTERVAL_PRICE, 0]) for _ in range(12)] for _ in range(zones)]
    records = [interval_record(rng.choice(KINDS), rng.choice([0, members - 1]), rng.randrange(areas))
               for _ in range(rng.choice([0, 1, 4, 5, 63, 64]))]
    for each in records:
        each["words"] = {word: at_an_end(rng, LETTER_AT[word]) for word in USED_WORDS[each["kind"]]}
    return TenMinuteHour(rng.choice([0, 2**32 - 1]), members, prices, [rng.choice([0, zones - 1]) for _ in range(areas)], records)


def largest_sum(rng):
    """One member's 64 generators, each 400,000 kWh from its plan in every interval: 64 x 6 x 400,000 kWh at 100 cents are 15,360,000,000
    cents, and 64 x 6 x 400,000 x 10,000 x 100,000 x 24 is 3.6864 x 10^18 24ths of a grain. No sum is larger: what a generator lacks is at
    most a schedule of 100,000 / 6 + 100,000 / 24 times 2, an adjustment of 100,000 times 2 and ancillary energy of 100,000."""
    price = rng.choice([MOST_INTERVAL_PRICE, -MOST_INTERVAL_PRICE])
    generator = interval_record(GENERATOR, 0, 0, A=100_000, J=-100_000, F=rng.choice([1, 20_000]), H=20_000)
    return TenMinuteHour(1, 1, [alike(price)], [0], [generator] * MOST_INTERVAL_RECORDS)


# ---- What rounding, prices and ramping hang on

def over_plan(rng, member, area, interval, kwh):
    """An export that is so many kWh over its plan in an interval, or under it: its member's net is as many."""
    return interval_record(EXPORT, member, area, J=[kwh if each == interval else 0 for each in range(1, 7)])


def halves(rng, most_zones=4, most_areas=8, most_members=32):
    """Sums that end on exactly half a cent: odd numbers of kWh at odd multiples of 500 cents a MWh."""
    zones, areas, members = rng.randint(1, most_zones), rng.randint(1, most_areas), rng.randint(1, most_members)
    prices = [alike(500 * (2 * rng.randint(-9, 9) + 1)) for _ in range(zones)]
    records = [over_plan(rng, rng.randrange(members), rng.randrange(areas), rng.randint(1, 6), rng.randint(-9, 9))
               for _ in range(rng.randint(1, 40))]
    return TenMinuteHour(rng.randrange(10_000), members, prices, [rng.randrange(zones) for _ in range(areas)], records)


def a_24th_from_halves(rng):
    """The same, and each member has a 24th of a grain more or less, the least that there is: a ramp of 1 kWh times an F of 1, in a zone of
    its own at a cent a MWh."""
    hour = halves(rng, most_zones=3, most_areas=7, most_members=24)  # with at most 40 records: that makes 64
    for member in range(hour.members):
        ramp = rng.choice([{"before": 1}, {"next": 1}])
        hour.records.append(interval_record(GENERATOR, member, len(hour.areas), F=1, H=1, **ramp))
    hour.areas.append(len(hour.prices))
    hour.prices.append(alike(rng.choice([1, -1])))
    return hour


def halves_by_ramp(rng):
    """A ramp of 12 kWh from hour to hour is half a kWh in the interval at its end: half a cent at 1,000 cents a MWh. At times a 24th of a
    kWh less than that or more."""
    members = rng.randint(1, 32)
    records = []
    for member in range(members):
        ramp = 12 * (2 * rng.randint(0, 4) + 1) + rng.choice([0, 0, 0, 1, -1])
        change = rng.choice([{"before": ramp}, {"next": ramp}])
        scaled = rng.choice([{"kind": REAL_TIME_LOAD}, {"kind": GENERATOR, "F": 10_000, "H": 10_000}])
        records.append(interval_record(member=member, area=0, **scaled, **change))
    return TenMinuteHour(rng.randrange(10_000), members, [alike(rng.choice([1_000, -1_000, 3_000]))], [0], records)


def rounded_once(rng):
    """Parts of a cent in each zone and interval, which round otherwise alone than together."""
    zones, members = rng.choice([2, 3, 4, 4, 4, 4]), rng.randint(1, 8)
    prices = [[rng.choice([-1, 1]) * rng.randint(100, 499) for _ in range(12)] for _ in range(zones)]
    records = [over_plan(rng, member, zone, interval, rng.choice([1, 1, -1])) for member in range(members) for zone in range(zones)
               for interval in rng.sample(range(1, 7), 2)]
    return TenMinuteHour(rng.randrange(10_000), members, prices, [*range(zones)], records)


def nets_of_zero(rng):
    """Records that deviate by as much as each other on either side, in the same zone: nothing is charged there, whatever the prices are.
    The two are in areas of their own."""
    zones, members = rng.randint(1, 4), rng.randint(1, 32)
    records = []
    for member in range(members):
        zone, kwh = rng.randrange(zones), [rng.randint(1, 99) for _ in range(6)]
        records += [interval_record(EXPORT, member, zone, A=kwh), interval_record(REAL_TIME_LOAD, member, 4 + zone, J=kwh)]
    return TenMinuteHour(rng.randrange(10_000), members, random_prices(rng, zones), [area % 4 % zones for area in range(8)], records)


def as_ramped(rng):
    """Generators and loads that followed the ramp to the kWh, and so have no deviation in any interval: schedules are multiples of 24."""
    members = rng.randint(1, 32)
    records = []
    for member in range(members):
        before, own, after = (24 * rng.randint(0, 99) for _ in range(3))
        metered = [own // 6 - (own - before) // 24, *[own // 6] * 4, own // 6 + (after - own) // 24]
        scaled = rng.choice([{"kind": REAL_TIME_LOAD}, {"kind": GENERATOR, "F": 10_000, "H": 10_000}])
        records.append(interval_record(member=member, area=0, S=own, before=before, next=after, A=metered, **scaled))
    return TenMinuteHour(rng.randrange(10_000), members, random_prices(rng, 1), [0], records)


HONEST = (few_records, ordinary, no_records, full_file, full_blocks, all_members, ends_everywhere, largest_sum, halves, a_24th_from_halves,
          halves_by_ramp, rounded_once, nets_of_zero, as_ramped)
