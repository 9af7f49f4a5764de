"""A maker of ten-minute hours (document 02, A7): honest ones, ones at the edges, damaged ones, and hourly files among them.

`made(seed, index)` is the index-th of an endless list that takes every maker and every fault in turn; where the maker knows the answer from
the way the hour was made, it says so. The makers and the faults stand in files of their own; a test finds all of them here, as
`ten_minutes.NAME`. `SIDES` are what a comparison must reach.

No sum is larger than 3.6864 x 10^18 24ths of a grain, which is a charge of 15,360,000,000 cents (ten_minute_hours.largest_sum has why).
"""

import random
from fractions import Fraction

import faults
import half_cents
import hours
import second
import to_write
from hours import Made
from misread import NAMES as KIND_NAMES
from ten_minute_faults import *  # noqa: F401, F403
from ten_minute_faults import FAULTS, NEIGHBOURS, TWICE
from ten_minute_hours import *  # noqa: F401, F403
from ten_minute_hours import HONEST, random_ten_minutes

MOST_CHARGES = 40
LAST_HOURLY_RECORD = 160  # of a file of 17 blocks
HOURLY_COUNTS = ((0, 0), (1, 159), (151, 160), (161, 161), (161, 250))


# ---- Damaged hours, and files of the other kind

def damaged(rng, spoiling):
    """An honest ten-minute hour with these faults."""
    while True:
        spoiled = faults.spoil(rng, random_ten_minutes(rng, rng.choice([rng.randint(1, 9), rng.randint(1, 64)]), 3_000), spoiling)
        if spoiled:
            return Made(" and ".join(fault.__name__ for fault in spoiling), *spoiled)


def alone(fault):
    return lambda rng: damaged(rng, (fault,))


def two_of(pairs):
    return lambda rng: damaged(rng, rng.choice(pairs))


def hourly_file(least, most):
    """An hourly file of so many records breaks the layout in its first block, where it isn't too long."""
    def make(rng):
        count = rng.randint(least, most)
        return Made("hourly_file", hours.random_hour(rng, count, 3_000).encode(), (3 if count <= LAST_HOURLY_RECORD else 1, 0))
    return make


def hourly_file_damaged(rng):
    """An hourly file of at most 17 blocks, one of which has a wrong sum."""
    blocks = hours.random_hour(rng, rng.randint(0, LAST_HOURLY_RECORD), 3_000).blocks()
    due = faults.wrong_sum(rng, blocks)
    return Made("hourly_file_damaged", hours.to_bytes(blocks), due)


def marked_as_hourly(rng):
    """A ten-minute hour with the marks of an hourly one."""
    blocks = random_ten_minutes(rng, rng.randint(0, 64), 3_000).blocks()
    for block in blocks:
        block[0] -= 2
        hours.mend(block)
    return Made("marked_as_hourly", hours.to_bytes(blocks), (3, 0))


def sum_wrong(which):
    """A block of which the sum is wrong, for each place."""
    def make(rng):
        blocks = random_ten_minutes(rng, rng.randint(5, 64), 3_000).blocks()
        place = some_block(rng, blocks, which)
        faults.add_to_a_word(rng, blocks[place], rng.randint(1, 2**32 - 1))
        return Made(f"sum_wrong_{which}", hours.to_bytes(blocks), (2, place))
    return make


def block_wrong(which):
    """A block that breaks the layout by one of its words 0 to 6, for each place."""
    def make(rng):
        blocks = random_ten_minutes(rng, rng.randint(5, 64), 3_000).blocks()
        place, word = some_block(rng, blocks, which), rng.choice([0, 1, 3, 4, 5, 6])
        blocks[place][word] += rng.choice([1, 2**31])
        hours.mend(blocks[place])
        return Made(f"block_wrong_{which}", hours.to_bytes(blocks), (3, place))
    return make


def some_block(rng, blocks, which):
    """The place of the first block, of the last, or of one between; there are three or more."""
    return {"first": 0, "middle": rng.randint(1, len(blocks) - 2), "last": len(blocks) - 1}[which]


def scattered(rng):
    return hours.scatter(rng, random_ten_minutes(rng, rng.randint(0, 20), rng.choice([9, 3_000])).blocks())


# ---- The endless list

ROUND = ([hours.honest(maker) for maker in HONEST] * 4 + [alone(fault) for fault in FAULTS] + [two_of(pairs) for pairs in NEIGHBOURS] * 2
         + [two_of(pairs) for pairs in TWICE] * 2 + [make(which) for make in (sum_wrong, block_wrong) for which in hours.PLACES]
         + [hourly_file(*counts) for counts in HOURLY_COUNTS] + [hourly_file_damaged, marked_as_hourly] + [scattered] * 3)


def made(seed, index):
    """The index-th hour of a seed's list; seed and index alone decide it."""
    return ROUND[index % len(ROUND)](random.Random(f"ten minutes {seed} {index}"))


def length_for(rng, data):
    """How many charges are lent: just enough, more, one too few, none, or any number; to a refused hour none as often as not."""
    try:
        members = second.read_ten_minute_hour(data)["members"]
    except second.Refused:
        return rng.choice([0, rng.randint(0, MOST_CHARGES)])
    return rng.choice([members, members, rng.randint(members, MOST_CHARGES), members - 1, members - 1, 0, rng.randint(0, MOST_CHARGES)])


# ---- What must be reached

class Reached:
    """What SIDES ask about: the bytes, the answer of program `ten_minutes`, and the number that a call with so many charges answers."""

    def __init__(self, data, length):
        self.bytes, self.length = len(data), length
        self.blocks = len(data) // 512
        self.hourly = second.statement(data).startswith(b"hour ")
        number, self.place, self.charges = second.settle_ten_minutes(data)
        self.number, self.called = number, second.settle_ten_minutes(data, length).number
        self.hour = second.read_ten_minute_hour(data) if number == 0 else None
        self.records = len(record_words(data)) if number in (0, 5) else 0
        self.broken = broken_words(data, self.place) if number == 5 else ()
        self.members = self.hour["members"] if self.hour else None
        self.posted = len({each["member"] for each in self.hour["records"]}) if self.hour else None
        self.nets = [nets_of(self.hour, member) for member in range(self.members)] if self.hour else []

    def any_member(self, shows):
        """Whether a member's nets show something, of an hour that is accepted."""
        return any(map(shows, self.nets))

    def any_record(self, shows):
        return self.hour is not None and any(map(shows, self.hour["records"]))


def nets_of(hour, member):
    """For each zone the member's records, its six nets in kWh, and what each costs in grains."""
    zones = []
    for zone, prices in enumerate(hour["prices"]):
        own = second.records_in_zone(hour, member, zone)
        nets = [second.net_deviation(own, interval) for interval in second.INTERVALS]
        costs = [net * 10_000 * second.interval_price(prices, net, interval) for interval, net in zip(second.INTERVALS, nets)]
        zones.append((own, nets, costs))
    return zones


def record_words(data):
    """The words of each record of a file that keeps rows 1 to 3."""
    return second.records_held(second.blocks_in(data), second.TEN_MINUTES.record_words)


def broken_words(data, place):
    """The words of a record that row 5 refuses, each of which alone breaks it; its kind alone where that is none."""
    head, words = second.words_in(data[:second.BLOCK_BYTES]), record_words(data)[place]
    if words[0] not in second.DIRECTION:
        return (0,)
    ranges = [range(6), range(head[9]), range(head[11]), *sum(second.interval_ranges(words[0]).values(), [])]
    return [at for at, (word, allowed) in enumerate(zip(words, ranges))
            if (second.signed(word) if allowed.start < 0 else word) not in allowed]


def at_each_block(number):
    """Sides of a block that is refused: the first of some, one between, and the last."""
    return {f"{number} at the first of some blocks": lambda r: r.number == number and r.place == 0 < r.blocks - 1,
            f"{number} at a middle block": lambda r: r.number == number and 0 < r.place < r.blocks - 1,
            f"{number} at the last of some blocks": lambda r: r.number == number and r.place == r.blocks - 1 > 0}


def around(amount):
    """What is a 24th of a grain less, and more."""
    return amount - Fraction(1, 24), amount + Fraction(1, 24)


def all_costs(zones):
    return [cost for _, _, costs in zones for cost in costs]


def zone_by_zone(zones):
    return sum(second.cents(sum(costs)) for _, _, costs in zones)


def ramps(kind, interval):
    """A record of the kind whose schedule in the interval is no sixth."""
    return lambda r: r["kind"] == kind and second.interval_schedule(r, interval) != Fraction(r["S"], 6)


def deviates(kind):
    return lambda r: r["kind"] == kind and any(second.interval_deviation(r, interval) for interval in second.INTERVALS)


HEAD_PARTS = {"the counts": range(9, 12), "the hourly prices": range(12, 16), "an area's zone": range(16, 48, 4),
              "an area's other words": [word for word in range(16, 48) if word % 4],
              "an incremental price": [word for word in range(48, 96) if word % 12 < 6],
              "a decremental price": [word for word in range(48, 96) if word % 12 > 5],
              "the zeros past the prices": range(96, 127), "the last word": [127]}
SIDES = {
    "1, no bytes": lambda r: r.number == 1 and r.bytes == 0,
    "1, no whole block": lambda r: r.number == 1 and r.bytes % 512 != 0,
    "1, 18 blocks": lambda r: r.number == 1 and r.bytes == 18 * 512,
    "1, an hourly file that settling accepts": lambda r: r.number == 1 and r.hourly,
    **at_each_block(2),
    **at_each_block(3),
    "3, an hourly file that settling accepts": lambda r: r.number == 3 and r.hourly,
    "3, an hourly file of 17 blocks": lambda r: r.number == 3 and r.hourly and r.blocks == 17,
    **{f"4 at {name}": lambda r, words=words: r.number == 4 and r.place in words for name, words in HEAD_PARTS.items()},
    **to_write.at_each_place("5", lambda r: r.number == 5),
    **{f"5 by word {word} alone": lambda r, word=word: [*r.broken] == [word] for word in range(30)},
    "11 by one charge": lambda r: r.called == 11 and r.length == r.members - 1 > 0,
    "11, no charges": lambda r: r.called == 11 and r.length == 0,
    **{f"{number} where no charges are lent": lambda r, number=number: r.called == number and r.length == 0 for number in (1, 2, 3, 4, 5)},
    "accepted, charges just long enough": lambda r: r.called == 0 and r.length == r.members,
    "accepted, charges to spare": lambda r: r.called == 0 and r.length > r.members,
    **{f"accepted, {count} records": lambda r, count=count: r.number == 0 and r.records == count for count in (0, 1, 4, 5, 64)},
    "accepted, 64 records of 32 members": lambda r: r.number == 0 and r.records == 64 and r.posted == 32,
    **{f"{name} deviates": lambda r, kind=kind: r.any_record(deviates(kind)) for kind, name in KIND_NAMES.items()},
    **{f"{KIND_NAMES[kind]} ramps in interval {interval}": lambda r, kind=kind, interval=interval: r.any_record(ramps(kind, interval))
       for kind in second.RAMPED for interval in (1, 6)},
    **{f"net above zero in interval {interval}": lambda r, at=interval - 1: r.any_member(lambda z: any(n[at] > 0 for _, n, _ in z))
       for interval in second.INTERVALS},
    **{f"net below zero in interval {interval}": lambda r, at=interval - 1: r.any_member(lambda z: any(n[at] < 0 for _, n, _ in z))
       for interval in second.INTERVALS},
    "records that deviate and cancel": lambda r: r.any_member(
        lambda zones: any(not any(nets) and any(deviates(x["kind"])(x) for x in own) for own, nets, _ in zones)),
    "a member in four zones": lambda r: r.any_member(lambda zones: len(zones) == 4 and all(own for own, _, _ in zones)),
    "nets of both signs in a zone": lambda r: r.any_member(lambda zones: any(min(nets) < 0 < max(nets) for _, nets, _ in zones)),
    **{name: lambda r, name=name: r.any_member(lambda zones: half_cents.side_of(sum(all_costs(zones))) == name)
       for name in half_cents.NAMES},
    "a 24th of a grain from a half": lambda r: r.any_member(lambda zones: any(map(half_cents.side_of, around(sum(all_costs(zones)))))),
    "rounded by zone it would differ": lambda r: r.any_member(lambda zones: zone_by_zone(zones) != second.cents(sum(all_costs(zones)))),
    "rounded by interval it would differ": lambda r: r.any_member(
        lambda zones: sum(map(second.cents, all_costs(zones))) != second.cents(sum(all_costs(zones)))),
    "a sum that is no whole grain": lambda r: r.any_member(lambda zones: sum(all_costs(zones)).denominator > 1),
    "the largest sum": lambda r: r.number == 0 and -15_360_000_000 in r.charges,
    "the largest sum above zero": lambda r: r.number == 0 and 15_360_000_000 in r.charges,
}
ANSWERS = {"accepted": 0, **{f"refused {number}": number for number in (1, 2, 3, 4, 5, 11)}}
