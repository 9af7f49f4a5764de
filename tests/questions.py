"""A maker of questions: a member's number and an hour (document 02, A5).

`made(seed, index)` is the index-th of an endless list that takes every maker below in turn. Most questions are about an hour in which the
kWh under each of the asked member's heads are chosen: ties, heads of either sign, amounts that are charged as nothing. Others have hours
of tests/hours.py, honest and damaged, numbers that are no member's, and inputs too short or too long. Where the maker knows the answer from
the way the question was made, it says so. SIDES names what a few hundred of them must reach.
"""

import itertools
import random
import struct
from collections import namedtuple

import hours
import second
from hours import EXPORT, GENERATOR, IMPORT, LOADS, record

HEADS = ("generation", "load", "import", "export", "share")
PAIRS = tuple(itertools.combinations(HEADS, 2))
BOTH_WAYS = (1, -1)

# Five hundred kWh at a cent a MWh are half a cent, the most that is charged as nothing.
HALF_A_CENT = 500
LEAST_CHARGED = HALF_A_CENT + 1
GRAINS = 10_000  # of a kWh at a cent a MWh

# The input of program `explanation`; and what is known of its answer: (number, place) of a refusal, the name behind `decided`, or None.
Made = namedtuple("Made", "name data expected")


def asked(name, member, file, expected):
    return Made(name, hours.question(member, file), expected)


# ---- Hours of chosen heads

def records_of(rng, member, area, kwh):
    """Records that bring a member these kWh under its heads, and the ties of their area, in which nobody else has any: a load, which
    carries the share, and one for each other head that isn't 0. Nothing is lost."""
    generation, load, imported, exported, share = kwh
    took = max(0, load) + rng.randint(1, 9)
    made = max(0, -generation) + rng.randint(1, 9) if generation else 0
    planned, ancillary = max(0, -exported) + rng.randint(0, 9), rng.randint(0, 9)
    records = [record(rng.choice(LOADS), member, area, S=took - load, A=took)]
    if generation:
        most = max(made + generation, made)  # no schedule is above it, and all that was made is available
        records.append(record(GENERATOR, member, area, S=made + generation, A=made, M=most, F=10_000, H=10_000))
    if imported:
        records.append(record(IMPORT, member, area, S=rng.randint(0, 9), J=imported - ancillary, N=ancillary, F=10_000, H=10_000))
    if exported:
        records.append(record(EXPORT, member, area, S=planned, A=planned + exported))
    short = share + took - made
    return records, [max(0, short), max(0, -short)]


def some_kwh(rng):
    return [rng.choice([0, rng.randint(-2_000, 2_000)]) for _ in HEADS]


def hour_of(rng, price, kwh):
    """An hour in which some member, at this price, has these kWh under its heads, and others have any; and that member. The last member
    has no records."""
    count = rng.randint(2, 8)
    member = rng.randrange(count)
    prices = [rng.randint(-9_999, 9_999) for _ in range(rng.randint(1, 4))]
    zones = [rng.randrange(len(prices)) for _ in range(count)]
    prices[zones[member]] = price
    records, areas = [], []
    for each in range(count):
        own, ties = records_of(rng, each, each, kwh if each == member else some_kwh(rng))
        records += own
        areas.append([zones[each], *ties])
    rng.shuffle(records)
    return hours.Hour(rng.randrange(10_000), count + 1, prices, areas, records), member


def about(rng, name, price, kwh, expected):
    hour, member = hour_of(rng, price, kwh)
    return asked(name, member, hour.encode(), expected)


def with_heads(chosen, others=lambda: 0):
    """The kWh of each head: those that are chosen by name, and for each other one what `others` makes."""
    return [chosen[head] if head in chosen else others() for head in HEADS]


def some_price(rng):
    return rng.choice([1, 7, 499, 1_000, rng.randint(1, 9_999)]) * rng.choice(BOTH_WAYS)


def charged(price, kwh):
    """The sign of the charge, 0 where it is 0."""
    amount = price * sum(kwh)
    return (amount > 0) - (amount < 0) if abs(amount) >= LEAST_CHARGED else 0


# ---- Which head decided

def deciding(name, chosen, way):
    """The heads of these names have the same kWh, which are the most with the charge's sign: the first of them decided. `way` is that
    sign. The others have less, or the other sign."""
    def make(rng):
        while True:
            price, most = some_price(rng), rng.randint(2, 9_000)
            turn = way if price > 0 else -way
            kwh = with_heads(dict.fromkeys(chosen, turn * most), lambda: turn * rng.choice([0, rng.randint(-2 * most, most - 1)]))
            if charged(price, kwh) == way:
                return about(rng, name, price, kwh, chosen[0])
    return make


def decided_by(head, way):
    return deciding(f"decided_by_{head}", (head,), way)


def tie_of(heads, way):
    return deciding(f"tie_of_{'_and_'.join(heads)}", heads, way)


def larger_with_the_other_sign(rng):
    """Two heads against one that is larger than either."""
    while True:
        one, two, other = rng.sample(HEADS, 3)
        price, most = some_price(rng), rng.randint(2_000, 20_000)
        way = rng.choice(BOTH_WAYS)
        kwh = with_heads({one: way * most, two: way * (most - 1), other: -way * rng.randint(most + 1, most + most // 2)})
        if charged(price, kwh) == (way if price > 0 else -way):
            return about(rng, "larger_with_the_other_sign", price, kwh, one)


def within_a_cent(rng):
    """The later of two heads is a kWh larger, which in whole cents doesn't show."""
    one, two = rng.choice(PAIRS)
    price, most = rng.choice([1, -1, rng.randint(-400, 400) or 1]), rng.randint(LEAST_CHARGED, 9_000)
    while second.cents(GRAINS * price * most) != second.cents(GRAINS * price * (most + 1)):
        most += 1
    way = rng.choice(BOTH_WAYS)
    return about(rng, "within_a_cent", price, with_heads({one: way * most, two: way * (most + 1)}), two)


def cancelling_but_for(rng, price, over, way):
    """Large heads that cancel but for what `over` kWh cost at a cent a MWh, and the larger of them. `way` is the sign of what is left."""
    turn, most = way if price > 0 else -way, rng.randint(1_000, 9_000)
    one, two = rng.sample(HEADS, 2)
    return with_heads({one: turn * (most + over // abs(price)), two: -turn * most}), one


def half_a_cent(way):
    """The most that is charged as nothing."""
    def make(rng):
        price = rng.choice([1, -1, 500, -500, 250, -4])
        kwh, _ = cancelling_but_for(rng, price, HALF_A_CENT, way)
        return about(rng, "half_a_cent", price, kwh, "none")
    return make


def over_half_a_cent(way):
    """The least that is charged, in thousandths of a cent."""
    def make(rng):
        price = rng.choice([1, -1, 501, -501, 167, -3])
        kwh, one = cancelling_but_for(rng, price, LEAST_CHARGED, way)
        return about(rng, "over_half_a_cent", price, kwh, one)
    return make


def anothers_share(rng):
    """A load and some share of UFE, which did not decide, beside a member with far more UFE."""
    price, way = some_price(rng), rng.choice(BOTH_WAYS)
    kwh = with_heads({"load": way * rng.randint(5_000, 9_000), "share": way * rng.randint(0, 4_000)})
    hour, member = hour_of(rng, price, kwh)
    other = rng.choice([each for each in range(hour.members - 1) if each != member])
    hour.areas[other][0] = hour.areas[member][0]
    hour.areas[other][1 if way > 0 else 2] += rng.randint(50_000, 90_000)
    return asked("anothers_share", member, hour.encode(), "load")


# ---- A charge of 0

def charged_as_nothing(way):
    """Under half a cent, on either side, as often as not by a hair; and heads that are far larger, or not."""
    def make(rng):
        price = rng.choice([1, -1, 499, -499, rng.randint(1, 499)])
        over = rng.choice([1, (HALF_A_CENT - 1) // abs(price)]) * (way if price > 0 else -way)
        one, two, three = rng.sample(HEADS, 3)
        most, some = rng.choice([0, rng.randint(1, 9_000)]), rng.choice([0, rng.randint(-9_000, 9_000)])
        kwh = with_heads({one: over + most - some, two: some, three: -most})
        return about(rng, "charged_as_nothing", price, kwh, "none")
    return make


def heads_that_cancel(rng):
    one, two = rng.sample(HEADS, 2)
    most = rng.randint(1, 9_000)
    return about(rng, "heads_that_cancel", some_price(rng), with_heads({one: most, two: -most}), "none")


def price_of_nothing(rng):
    return about(rng, "price_of_nothing", 0, some_kwh(rng), "none")


def without_records(rng):
    hour, _ = hour_of(rng, some_price(rng), some_kwh(rng))
    return asked("without_records", hour.members - 1, hour.encode(), "none")


# ---- Numbers of many digits, and of few

def largest_head(way):
    """Nineteen digits: 249 generators, each of which deviates as far as one can, at the highest price."""
    def make(rng):
        generator = record(GENERATOR, 0, 0, S=100_000, J=100_000, N=100_000, M=100_000, F=20_000, H=20_000)
        load = record(rng.choice(LOADS), 0, 0, S=1, A=1)
        hour = hours.Hour(rng.randrange(10_000), 1, [way * hours.MOST_PRICE], [[0, 1, 0]], [generator] * 249 + [load])
        return asked("largest_head", 0, hour.encode(), "generation")
    return make


def few_grains(way, most):
    """A unit at a cent a MWh is a grain. An import that was scheduled nothing deviates by its adjustment times H, and loses nothing."""
    def make(rng):
        units = rng.choice([1, most, rng.randint(1, most)])
        hour = hours.Hour(rng.randrange(10_000), 3, [1], [[0, 0, 0]],
                          [record(IMPORT, 1, 0, J=way, F=1, H=units), record(EXPORT, 2, 0, A=rng.randint(0, 9))])
        return asked("few_grains", 1, hour.encode(), "none")
    return make


# ---- Hours of tests/hours.py, and numbers that are no member's

def members_in(data):
    """The member count that a file states, where it is long enough to state one."""
    return struct.unpack_from("<I", data, 4 * 9)[0] if len(data) >= 40 else 0


def any_member(maker):
    """Any member of an hour, or of a damaged one any number that may be a member's."""
    def make(rng):
        made = maker(rng)
        member = rng.randrange(members_in(made.data) or 1) if made.expected == (0, 0) else rng.randrange(32)
        return asked(f"any_member, {made.name}", member, made.data, made.expected if made.expected and made.expected[0] else None)
    return make


def no_member(name, number_after):
    """A number that is not below the member count; `number_after` makes it of that."""
    def make(rng):
        hour = rng.choice([hours.few_records, hours.ordinary, hours.no_records])(rng)
        return asked(name, number_after(hour.members), hour.encode(), (13, 0))
    return make


NO_MEMBERS = (("the_count", lambda count: count), ("one_more", lambda count: count + 1), ("no_hour_has_it", lambda count: 32),
              ("a_byte", lambda count: 255), ("in_the_second_byte", lambda count: 256), ("in_the_last_byte", lambda count: 2**24),
              ("the_highest_bit", lambda count: 2**31), ("minus_one", lambda count: 2**32 - 1))

# Faults by the refusal that they bring about, in the order of the rows.
FAULTS = {1: hours.LENGTH_FAULTS, 2: hours.SUM_FAULTS, 3: hours.LAYOUT_FAULTS, 4: hours.HEAD_FAULTS, 5: hours.RECORD_FAULTS,
          14: hours.SCHEDULE_FAULTS, 6: hours.AREA_FAULTS, 12: (hours.nobody_demands,)}


def refused_before_13(number):
    """An hour that is refused, and no member of it: the count that it states, where that is right, or a number that no hour has."""
    def make(rng):
        made = hours.damaged(rng, (rng.choice(FAULTS[number]),))
        count = members_in(made.data) if number > 4 else 32
        return asked(f"no member, {made.name}", max(count, rng.choice([1, 32, 256, 2**32 - 1])), made.data, made.expected)
    return make


# ---- Inputs of wrong lengths: each is refusal 1 at 0

def first_bytes(count):
    """So many bytes, which with more behind them would be a question."""
    def make(rng):
        return Made(f"first_{count}_bytes", (bytes(4) + hours.few_records(rng).encode())[:count], (1, 0))
    return make


def no_number(rng):
    """A file without a number before it."""
    return Made("no_number", hours.ordinary(rng).encode(), (1, 0))


def a_byte_too_many(rng):
    """13,317 bytes: one more than the longest question."""
    return Made("a_byte_too_many", bytes(4) + hours.full_file(rng).encode() + b"\0", (1, 0))


ROUND = ([decided_by(head, way) for head in HEADS for way in BOTH_WAYS] + [tie_of(pair, way) for pair in PAIRS for way in BOTH_WAYS]
         + [tie_of(HEADS, way) for way in BOTH_WAYS]
         + [larger_with_the_other_sign, within_a_cent, anothers_share] * 2
         + [maker(way) for maker in (half_a_cent, over_half_a_cent) for way in BOTH_WAYS]
         + [charged_as_nothing(way) for way in BOTH_WAYS] * 2 + [heads_that_cancel, price_of_nothing, without_records]
         + [largest_head(way) for way in BOTH_WAYS] + [few_grains(way, most) for way in BOTH_WAYS for most in (9, 10, 1_000)]
         + [any_member(hours.honest(maker)) for maker in hours.HONEST] + [any_member(hours.two_faults), any_member(hours.scattered)]
         + list(itertools.starmap(no_member, NO_MEMBERS)) + [refused_before_13(number) for number in FAULTS]
         + [first_bytes(count) for count in (0, 1, 2, 3, 4, 5, 515)] + [no_number, a_byte_too_many])


def made(seed, index):
    """The index-th of a seed's list; seed and index alone decide it."""
    rng = random.Random(f"question {seed} {index}")
    return ROUND[index % len(ROUND)](rng)


# ---- What must be reached

class Reached:
    """What SIDES ask about: an input, what the second program answers to it, and of an hour that settling accepts the member's amount,
    charge and records, and every member's grains of shares."""

    def __init__(self, data):
        self.bytes = len(data)
        self.member, file = int.from_bytes(data[:4], "little"), data[4:]
        self.stated = members_in(file)
        answer = second.explain(file, [self.member])[0]
        self.number, self.heads, self.decided = (1 if self.bytes < 4 else answer.number), answer.heads, answer.decided
        self.explained = self.number == 0
        self.count = self.amount = self.charge = self.records = 0
        self.shares = []
        if self.number in (0, 13):
            self.look_into(second.read_hour(file))

    def look_into(self, hour):
        self.count = hour["members"]
        if not self.explained:
            return
        figures = second.work_out(hour)
        self.amount, self.charge = figures["amounts"][self.member], figures["charges"][self.member]
        self.records = sum(r["member"] == self.member for r in hour["records"])
        self.shares = [heads["share"] for heads in second.member_heads(hour, figures["deviations"], figures["shares"])]

    def ties(self, one, two):
        return self.explained and self.decided == one and self.heads[one] == self.heads[two]

    def otherwise(self, heads):
        """Whether another head would have decided of these; not where none of them has the charge's sign."""
        agreeing = any(grains * self.charge > 0 for grains in heads.values())
        return agreeing and second.head_that_decided(heads, self.charge) != self.decided

    def otherwise_in_cents(self):
        return self.otherwise({head: second.cents(grains) for head, grains in self.heads.items()})

    def otherwise_with_share(self, grains):
        return self.otherwise({**self.heads, "share": grains})

    def larger_contrary(self):
        """Whether a head with the other sign is larger than the one that decided."""
        return any(grains * self.charge < 0 and abs(grains) > abs(self.heads[self.decided]) for grains in self.heads.values())

    def no_member(self):
        """Whether 13 is due, as far as a refused hour tells: from row 5 on its member count is right."""
        return self.bytes >= 4 and self.member >= (self.stated if self.number > 4 else 32)


ANSWERS = {"explained": 0, **{f"refused {number}": number for number in sorted((*FAULTS, 13))}}
SIDES = {
    **{f"{head} decided, charge {name} 0": lambda r, head=head, way=way: r.decided == head and r.charge * way > 0
       for head in HEADS for name, way in (("above", 1), ("below", -1))},
    **{f"{one} decided, {two} as large": lambda r, one=one, two=two: r.ties(one, two) for one, two in PAIRS},
    "a head with the other sign is larger": Reached.larger_contrary,
    "decided by less than a cent": Reached.otherwise_in_cents,
    "another member's shares would decide otherwise": lambda r: any(map(r.otherwise_with_share, r.shares)),
    "all members' shares would decide otherwise": lambda r: r.otherwise_with_share(sum(r.shares)),
    "19 digits, above 0": lambda r: max(r.heads.values()) >= 10**18,
    "19 digits, below 0": lambda r: min(r.heads.values()) <= -10**18,
    "one digit, above 0": lambda r: any(0 < grains < 10 for grains in r.heads.values()),
    "one digit, below 0": lambda r: any(-10 < grains < 0 for grains in r.heads.values()),
    "none, half a cent above 0": lambda r: r.explained and r.amount == GRAINS * HALF_A_CENT,
    "none, half a cent below 0": lambda r: r.explained and r.amount == -GRAINS * HALF_A_CENT,
    "charged for just over half a cent": lambda r: r.explained and abs(r.amount) == GRAINS * LEAST_CHARGED,
    "none, amount above 0": lambda r: r.explained and r.charge == 0 and r.amount > 0,
    "none, amount below 0": lambda r: r.explained and r.charge == 0 and r.amount < 0,
    "none, heads that cancel": lambda r: r.explained and r.amount == 0 and any(r.heads.values()),
    "none, records and no grains": lambda r: r.explained and r.records > 0 and not any(r.heads.values()),
    "none, no records": lambda r: r.explained and r.records == 0,
    **{f"1, {count} bytes": lambda r, count=count: r.number == 1 and r.bytes == count for count in (0, 1, 2, 3)},
    "1, four bytes alone": lambda r: r.number == 1 and r.bytes == 4,
    "1, 13317 bytes": lambda r: r.number == 1 and r.bytes == 13_317,
    **{f"{number} where 13 is due as well": lambda r, number=number: r.number == number and r.no_member() for number in FAULTS},
    "13, the member count": lambda r: r.number == 13 and r.member == r.count,
    "13, the number after it": lambda r: r.number == 13 and r.member == r.count + 1,
    "13, a member's number in one byte": lambda r: r.number == 13 and r.member > 255 and r.member % 256 < r.count,
    "13, the highest number": lambda r: r.number == 13 and r.member == 2**32 - 1,
}
