"""A maker of hours: honest ones, ones at the edges, and damaged ones.

`made(seed, index)` is the index-th hour of an endless list that takes every maker and every fault in turn, so
that a few hundred hours see each refusal that an hour file can bring about. Where the maker knows the answer
(number and place) from the way the hour was made, it says so. The makers and the faults stand in files of their
own; a test finds all of them here, as `hours.NAME`.

Refusals 1 to 6, 12 and 14 occur. Refusal 7 cannot: within the ranges of document 01 a record's deviation is at most
9 x 10^9 units in size (2 scheduled, 4 metered less adjustment, 1 ancillary, 2 unavailable), so 250 of
them at 1,000,000 cents come to 2.25 x 10^18 grains; the UFE of all areas together is at most
8 x 10^11 units of ties and 250 x 2 x 10^9 of meters and losses, which makes 1.3 x 10^18 more. That is
under 4 x 10^18. Refusal 11 comes from the buffers' lengths, not from the hour: see tests/compare.
Refusals 8 to 10 belong to text amounts.

Where the answer hangs on N, the sum of all charges (document 02, A1), the maker sees to it that N is known: at a
price of 1,000 cents a MWh an export is charged a cent for each kWh over its plan.
"""

import random
import struct
from collections import namedtuple

from faults import *  # noqa: F401, F403
from faulty_records import *  # noqa: F401, F403
from honest_hours import *  # noqa: F401, F403
from hour_bytes import *  # noqa: F401, F403

Made = namedtuple("Made", "name data expected")


# ---- Damaged hours

def damaged(rng, faults):
    """An honest hour with these faults."""
    while True:
        hour = random_hour(rng, rng.choice([rng.randint(1, 30), rng.randint(1, 250)]), 3_000)
        spoiled = spoil(rng, hour, faults)
        if spoiled:
            return Made(" and ".join(fault.__name__ for fault in faults), *spoiled)


def two_of(pairs):
    return lambda rng: damaged(rng, rng.choice(pairs))


two_faults = two_of(PAIRS)


def scattered(rng):
    return scatter(rng, random_hour(rng, rng.randint(0, 40), rng.choice([9, 3_000])).blocks())


def scatter(rng, blocks):
    """A few words of an honest hour changed anyhow, at times without mending the sum."""
    for _ in range(rng.randint(1, 3)):
        block, word = rng.choice(blocks), rng.choice([rng.randrange(128), rng.randrange(48)])
        block[word] = rng.choice([0, 1, block[word] + 1, block[word] - 1, rng.randrange(2**32)]) % 2**32
    if rng.random() < 0.9:
        for block in blocks:
            mend(block)
    return Made("scattered", to_bytes(blocks), None)


def words_swapped(rng):
    """Two words of a block in each other's place: the sum does not notice."""
    blocks = random_hour(rng, rng.randint(1, 40), 100).blocks()
    block = rng.choice(blocks)
    one, two = rng.randrange(128), rng.randrange(128)
    block[one], block[two] = block[two], block[one]
    return Made("words_swapped", to_bytes(blocks), None)


def junk(rng):
    """Bytes of no hour: zeros, or any, in whole blocks or not, their sums mended or not."""
    length = rng.choice([512 * rng.randint(1, 26), rng.randint(1, 14_000)])
    data = bytes(length) if rng.random() < 0.3 else rng.randbytes(length)
    if length % 512 == 0 and rng.random() < 0.6:
        blocks = [list(block) for block in struct.iter_unpack("<128I", data)]
        for block in blocks:
            mend(block)
        data = to_bytes(blocks)
    return Made("junk", data, None)


# ---- The endless list

def answered(maker, expected):
    return lambda rng: Made(maker.__name__, maker(rng).encode(), expected)


def honest(maker):
    return answered(maker, (0, 0))


def unforeseen(maker):
    """For hours of which only the sums tell whether they are accepted."""
    return answered(maker, None)


def alone(fault):
    return lambda rng: damaged(rng, (fault,))


ROUND = ([honest(maker) for maker in HONEST] * 2 + [unforeseen(ends_as_they_fall)] * 2 + [honest(cents_left_over)] * 2
         + [honest(maker) for maker in NO_DEMAND_AND_NO_N] + [answered(maker, (12, 0)) for maker in NO_DEMAND_FOR_N]
         + [two_of(pairs) for pairs in NEIGHBOURS] + [alone(fault) for fault in FAULTS + LONE_FAULTS] + [two_faults] * 4
         + [scattered] * 3 + [words_swapped, junk])


def made(seed, index):
    """The index-th hour of a seed's list; seed and index alone decide it."""
    rng = random.Random(f"{seed} {index}")
    return ROUND[index % len(ROUND)](rng)
