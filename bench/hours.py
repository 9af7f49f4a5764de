"""Makes the hours that the bench settles and writes:   hours.py FOLDER

worst.hour                250 loads in one area, and 249 units left over: the most that there can be
ordinary.hour             8 members, 2 zones, 2 areas, 60 records of all kinds
refused.hour              250 records, the last of which is one past a range: refusal 5 at record 249
full.hour                 250 records of all kinds
loads-N-left-U.hour       N loads in one area, the first N of the same 250, and U units left over
halved.hour               250 loads in one area: for the UFE and for N the bound is halved as often as it can be
ten-minutes-N-of-M.hour   a ten-minute hour: N records of all kinds, of M members, in 4 zones
The numbers come from a fixed seed, so that every run takes the same bytes.
"""

import functools
import itertools
import random
import sys
from pathlib import Path

sys.dont_write_bytecode = True
sys.path.insert(0, str(Path(__file__).resolve().parent.parent / "tests"))
import hours  # noqa: E402
import second  # noqa: E402
import ten_minutes  # noqa: E402

# Loads and units left over: more loads with half as many units, and more units left of as many loads.
GROWING = ((25, 12), (50, 25), (100, 50), (150, 75), (200, 100), (250, 125), (250, 0), (250, 1), (250, 25), (250, 225), (250, 249))

# Records and members of ten-minute hours: as many as there can be of both, one member's, and more members than records.
TEN_MINUTES = ((64, 32), (63, 1), (5, 19))


def some(rng, letter):
    """A number as meters give it."""
    if letter in "FH":
        return rng.randint(9_000, 10_500)
    if letter == "J":
        return rng.randint(-50, 50)
    return rng.randint(0, 5_000)


def record(rng, kind, members, areas):
    # A number for A is drawn for an import too, which doesn't use it (document 02, A3): so every other word is what it was when
    # imports had one, and figures of then and now can be compared.
    drawn = {letter: some(rng, letter) for letter in hours.LETTERS if letter == "A" or letter in hours.USED[kind]}
    letters = {letter: drawn[letter] for letter in hours.USED[kind]}
    if kind == hours.GENERATOR:  # no schedule above the engine (document 02, A6): where one was drawn, the maximum is raised to it
        letters["M"] = max(letters["S"], letters["M"])
    return hours.record(kind, rng.randrange(members), rng.randrange(areas), **letters)


def remainders(demands, size):
    total = sum(demands)
    return [demand * size % total for demand in demands]


def units_left(demands, size):
    """How many units are left after the whole parts."""
    return sum(remainders(demands, size)) // sum(demands)


def halvings(demands, size):
    """How often the hand's share.c halves until it has the bound."""
    units, rests = units_left(demands, size), remainders(demands, size)
    low, high, spare = 0, sum(demands), units
    for times in itertools.count():
        if spare == 0 or high - low == 1:
            return times
        middle = (low + high) // 2
        above = sum(rest > middle for rest in rests)
        if above > units:
            low = middle
        else:
            high, spare = middle, units - above


def loads(count, left):
    """So many loads in one area, and so many units left; these hang on R alone, which is the UFE modulo the demand T. Most R leave about
    half as many units as there are loads: of some such R the one with the middle number of halvings is taken. For other numbers R is small,
    or just short of T. The ties are whole kWh, 10,000 units each, so 10,000 x over = R modulo T is solved, for a T that is prime to 10."""
    rng = random.Random(1)
    records = [record(rng, rng.choice(hours.LOADS), 32, 1) for _ in range(count)]
    for each in records:
        each["A"] += 1
    while sum(each["A"] for each in records) % 2 == 0 or sum(each["A"] for each in records) % 5 == 0:
        records[0]["A"] += 1
    demands = [each["A"] for each in records]
    total = sum(demands)
    tried = [rng.randrange(total) for _ in range(500)] + [left, left - count]
    found = sorted((each for each in tried if units_left(demands, each) == left), key=functools.partial(halvings, demands))
    over = found[len(found) // 2] * pow(10_000, -1, total) % total or total  # with a UFE of 0 nothing would be shared
    assert units_left(demands, 10_000 * over) == left
    return hours.Hour(1, 32, [4_321], [[0, total + over, 0]], records)


def worst():
    """Where the UFE is one short of a multiple of the demand T, every remainder is T less the load's own demand, and one unit a load but
    for one is left."""
    return loads(hours.MOST_RECORDS, hours.MOST_RECORDS - 1)


def halved():
    """All demands but one are the largest there can be, so that T is nearly 25,000,000, which can be halved 25 times. As many remainders
    are equal, and half of the loads get a unit: the bound is one of the equal ones, and the last halving finds it. The price is one at
    which N takes 25 halvings as well."""
    records = [hours.record(hours.LOADS[at % 2], at % 32, 0, S=90_000, A=100_000) for at in range(hours.MOST_RECORDS)]
    records[0]["A"] -= 1
    demands = [each["A"] for each in records]
    total = sum(demands)
    rng = random.Random(4)
    sizes = (10_000 * (total - rng.randint(0, hours.MOST_TIE)) for _ in itertools.count())
    size = next(each for each in sizes if units_left(demands, each) == 125 and halvings(demands, each) == 25)
    for price in itertools.count(4_321):
        hour = hours.Hour(4, 32, [price], [[0, total - size // 10_000, 0]], records)
        read = second.read_hour(hour.encode())
        if halvings(second.member_demands(read), abs(sum(second.work_out(read)["charges"]))) == 25:
            return hour


def ordinary():
    rng = random.Random(2)
    records = [record(rng, hours.KINDS[at % 5], 8, 2) for at in range(60)]
    return hours.Hour(2, 8, [4_321, -1_234], [[0, 3_000, 2_000], [1, 10, 5_000]], records)


def full():
    rng = random.Random(3)
    records = [record(rng, hours.KINDS[at % 5], 32, 8) for at in range(hours.MOST_RECORDS)]
    return hours.Hour(3, 32, [4_321, -1_234], [[0, 3_000, 2_000] for _ in range(8)], records)


def refused():
    hour = full()
    hour.records[-1]["S"] = hours.HIGHEST["S"] + 1
    return hour


def ten_minute_hour(count, members):
    """So many records, of the members in turn and in areas of all zones; the prices differ in every interval."""
    rng = random.Random(5)
    records = [ten_minutes.interval_record(hours.KINDS[at % 5], at % members, rng.randrange(8)) for at in range(count)]
    for each in records:
        each["words"] = {word: some(rng, ten_minutes.LETTER_AT[word]) for word in ten_minutes.USED_WORDS[each["kind"]]}
    prices = [[rng.randint(-5_000, 10_000) for _ in range(12)] for _ in range(4)]
    return ten_minutes.TenMinuteHour(5, members, prices, [area % 4 for area in range(8)], records)


def main(folder):
    made = {make.__name__: make() for make in (worst, ordinary, refused, full, halved)}
    made.update((f"loads-{count}-left-{left}", loads(count, left)) for count, left in GROWING)
    for name, hour in made.items():
        data = hour.encode()
        assert second.settle(data)[:2] == ((5, 249) if name == "refused" else (0, 0)), name
        (Path(folder) / f"{name}.hour").write_bytes(data)
    for count, members in TEN_MINUTES:
        data = ten_minute_hour(count, members).encode()
        assert second.settle_ten_minutes(data).number == 0, (count, members)
        (Path(folder) / f"ten-minutes-{count}-of-{members}.hour").write_bytes(data)


if __name__ == "__main__":
    main(sys.argv[1])
