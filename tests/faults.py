"""Faults of an hour, of its blocks, its head and its bytes, and which of them come in pairs. Each fault spoils one thing and gives the
number and place of the refusal that is due, or None where the hour has no room for it."""

import itertools

from faulty_records import (BIG_WORDS, PLACES, adjustment_too_low, beyond, field_below_zero, field_too_high, import_with_actual,
                            imports_as_document_01_had_them, last_word_of_a_record, no_multiplier, other, schedule_above, schedules_above,
                            unused_field, unwanted, wrong_area, wrong_at, wrong_kind, wrong_kind_twice, wrong_member)
from honest_hours import balance
from hour_bytes import EXPORT, GENERATOR, IMPORT, LETTERS, MOST_PRICE, MOST_TIE, USED, letter_of_actual, mend, padded, record, to_bytes

# Faults of the hour's figures, before it is encoded.

def nobody_demands(rng, hour):
    """Everybody keeps to the plan and takes nothing, but for some exports under their plan, each at a price of the
    same sign and over half a cent a kWh: so N isn't 0."""
    way = rng.choice([1, -1])
    hour.prices = [way * rng.randint(501, MOST_PRICE) for _ in hour.prices]
    under = rng.sample(hour.records, min(len(hour.records), rng.randint(1, 3)))
    for each in under:
        each.update(record(EXPORT, each["member"], each["area"]))
    for area in range(len(hour.areas)):
        balance(rng, hour, area)
    for each in hour.records:
        keep_to_plan(each)
    for each in under:
        each["S"] = rng.randint(1, 99)
    return 12, 0


def keep_to_plan(each):
    """What was metered was planned, without losses, adjustments or obligations: no deviation."""
    letter, multiplier = letter_of_actual(each["kind"]), 10_000 if "F" in USED[each["kind"]] else 0
    actual = each[letter]
    each.update(dict.fromkeys(LETTERS, 0))
    each.update({"S": actual, letter: actual, "F": multiplier, "H": multiplier})
    if each["kind"] == GENERATOR:
        each["M"] = actual


def spoil_area(rng, hour, area):
    """Gives an area UFE that no load can carry."""
    balance(rng, hour, area)
    sources = [r for r in hour.of_area(area, GENERATOR, IMPORT) if r[letter_of_actual(r["kind"])] > 0]
    if sources and rng.random() < 0.5:
        rng.choice(sources)["H"] = rng.choice([9_999, 10_001, 1, 20_000])
    else:
        tie = rng.choice([1, 2])
        hour.areas[area][tie] = (hour.areas[area][tie] + rng.randint(1, MOST_TIE)) % (MOST_TIE + 1)


def no_demand(rng, hour):
    area = rng.randrange(len(hour.areas))
    spoil_area(rng, hour, area)
    return 6, area


def no_demand_twice(rng, hour):
    if len(hour.areas) == 1:
        return None
    areas = rng.sample(range(len(hour.areas)), 2)
    for area in areas:
        spoil_area(rng, hour, area)
    return 6, min(areas)


# Faults of single words; the sums are mended after them.

def wrong_mark(rng, hour, blocks):
    place = rng.randrange(len(blocks))
    blocks[place][0] = other(rng, blocks[place][0], [0, 1, 2, 3, 4, 2**32 - 1])
    return 3, place


def wrong_position(rng, hour, blocks):
    place = rng.randrange(len(blocks))
    blocks[place][1] = other(rng, place, [0, 1, place + 1, len(blocks), 2**32 - 1])
    return 3, place


def wrong_count_of_blocks(rng, hour, blocks):
    most = hour.layout.most_blocks
    blocks[0][2] = other(rng, blocks[0][2], [0, len(blocks) - 2, len(blocks), most - 1, most, *BIG_WORDS])
    return 3, 0


def wrong_count_before_the_last(rng, hour, blocks):
    """A block that isn't the last, and holds other than it has room for."""
    if len(blocks) < 3:
        return None
    place, full = rng.randint(1, len(blocks) - 2), hour.layout.records_in_a_block
    blocks[place][2] = rng.choice([0, 1, full - 1, full + 1, *BIG_WORDS])
    return 3, place


def wrong_count_in_the_last(rng, hour, blocks):
    if len(blocks) == 1:
        return None
    full = hour.layout.records_in_a_block
    blocks[-1][2] = full + 1 if rng.random() < 0.6 else rng.choice([0, full + 2, *BIG_WORDS])
    return 3, len(blocks) - 1


def reserved_word(word):
    """A fault for each of words 3 to 6."""
    def fault(rng, hour, blocks):
        place = rng.randrange(len(blocks))
        blocks[place][word] = unwanted(rng)
        return 3, place
    fault.__name__ = f"reserved_word_{word}"
    return fault


def word_past_records(rng, hour, blocks):
    if len(hour.records) % hour.layout.records_in_a_block == 0:
        return None
    _, past = hour.where(len(hour.records), 0)
    blocks[-1][rng.choice([past, 127, rng.randint(past, 127)])] = unwanted(rng)
    return 3, len(blocks) - 1


COUNTS = (("members", 9, 32), ("zones", 10, 4), ("areas", 11, 8))


def none_of(what, word, most):
    def fault(rng, hour, blocks):
        blocks[0][word] = 0
        return 4, word
    fault.__name__ = f"no_{what}"
    return fault


def too_many(what, word, most):
    def fault(rng, hour, blocks):
        blocks[0][word] = beyond(rng, most)
        return 4, word
    fault.__name__ = f"too_many_{what}"
    return fault


def price_too_high(rng, hour, blocks):
    word = 12 + rng.randrange(len(hour.prices))
    blocks[0][word] = rng.choice([MOST_PRICE + 1, MOST_PRICE + 1, 2**31 - 1])
    return 4, word


def price_too_low(rng, hour, blocks):
    word = 12 + rng.randrange(len(hour.prices))
    blocks[0][word] = rng.choice([-MOST_PRICE - 1, -MOST_PRICE - 1, -2**31]) % 2**32
    return 4, word


def price_past_zones(rng, hour, blocks):
    if len(hour.prices) == 4:
        return None
    word = rng.choice([12 + len(hour.prices), rng.randint(12 + len(hour.prices), 15)])
    blocks[0][word] = unwanted(rng)
    return 4, word


def wrong_zone(rng, hour, blocks):
    word = 16 + 4 * rng.randrange(len(hour.areas))
    blocks[0][word] = beyond(rng, len(hour.prices) - 1)
    return 4, word


def wrong_tie_in(rng, hour, blocks):
    word = 17 + 4 * rng.randrange(len(hour.areas))
    blocks[0][word] = beyond(rng, MOST_TIE)
    return 4, word


def wrong_tie_out(rng, hour, blocks):
    word = 18 + 4 * rng.randrange(len(hour.areas))
    blocks[0][word] = beyond(rng, MOST_TIE)
    return 4, word


def fourth_word_of_an_area(rng, hour, blocks):
    word = 19 + 4 * rng.randrange(8)
    blocks[0][word] = unwanted(rng)
    return 4, word


def area_past_areas(rng, hour, blocks):
    if len(hour.areas) == 8:
        return None
    past = 16 + 4 * len(hour.areas)
    word = rng.choice([past + 1, past + 2, rng.randint(past, 47)])
    blocks[0][word] = unwanted(rng)
    return 4, word


def word_past_areas(rng, hour, blocks):
    word = rng.choice([48, rng.randint(48, 127)])
    blocks[0][word] = unwanted(rng)
    return 4, word


def last_word_of_the_head(rng, hour, blocks):
    blocks[0][127] = unwanted(rng)
    return 4, 127


# Faults that move the border between what is a record and what is not; they come alone, since another
# fault may take their place from them.

def one_record_more(rng, hour, blocks):
    """The zeros past the last record are taken for a record: its kind is 0."""
    if len(blocks) == 1 or blocks[-1][2] == hour.layout.records_in_a_block:
        return None
    blocks[-1][2] += 1
    return 5, len(hour.records)


def one_record_fewer(rng, hour, blocks):
    """The last record stands where zeros belong; or the last block holds none."""
    if len(blocks) == 1:
        return None
    blocks[-1][2] -= 1
    return 3, len(blocks) - 1


def block_too_many(rng, hour, blocks):
    if len(blocks) == hour.layout.most_blocks:
        return None
    blocks.append([0] * 128)
    return 3, 0


def last_block_without_records(rng, hour, blocks):
    """A block that is right in all but that it holds none, after blocks that are full."""
    if len(hour.records) % hour.layout.records_in_a_block != 0 or len(blocks) == hour.layout.most_blocks:
        return None
    blocks.append(padded([hour.layout.other_mark, len(blocks)], 128))
    blocks[0][2] += 1
    return 3, len(blocks) - 1


def block_too_few(rng, hour, blocks):
    if len(blocks) == 1:
        return None
    blocks.pop()
    return 3, 0


def block_not_full(rng, hour, blocks):
    """A block before the last without its last records, zeros in their place."""
    if len(blocks) < 3:
        return None
    place, held = rng.randint(1, len(blocks) - 2), rng.randint(1, hour.layout.records_in_a_block - 1)
    _, past = hour.where(held, 0)
    blocks[place][2], blocks[place][past:] = held, [0] * (128 - past)
    return 3, place


def blocks_swapped(rng, hour, blocks):
    if len(blocks) < 3:
        return None
    place = rng.randint(1, len(blocks) - 2)
    blocks[place], blocks[place + 1] = blocks[place + 1], blocks[place]
    return 3, place


# Faults of the sums, after mending.

def add_to_a_word(rng, block, step):
    word = rng.choice([7, rng.randrange(128)])
    block[word] = (block[word] + step) % 2**32


def wrong_sum(rng, blocks):
    place = rng.randrange(len(blocks))
    add_to_a_word(rng, blocks[place], rng.choice([1, 2**32 - 1, rng.randint(1, 2**32 - 1)]))
    return 2, place


def wrong_sum_by_its_highest_bit(rng, blocks):
    place = rng.randrange(len(blocks))
    add_to_a_word(rng, blocks[place], 2**31)
    return 2, place


def wrong_sum_twice(rng, blocks):
    """Steps that undo each other over the whole file, but not in a block."""
    if len(blocks) == 1:
        return None
    places = rng.sample(range(len(blocks)), 2)
    step = rng.randint(1, 2**32 - 1)
    add_to_a_word(rng, blocks[places[0]], step)
    add_to_a_word(rng, blocks[places[1]], -step)
    return 2, min(places)


# Faults of the length: each is refusal 1 at 0.

def nothing_at_all(rng, hour, data):
    return b""


def cut(rng, hour, data):
    return data[:rng.choice([1, len(data) - 1, len(data) - rng.randint(1, 511)])]


def bytes_too_many(rng, hour, data):
    return data + bytes(rng.choice([1, 511, rng.randint(1, 511)]))


def file_too_long(rng, hour, data):
    """Whole blocks, but more than there may be: one, mostly, so that an hour has 13,824 bytes."""
    return data + bytes(512 * (hour.layout.most_blocks + rng.choice([1, 1, 6]) - len(data) // 512))


AREA_FAULTS = (no_demand, no_demand_twice)
HOUR_FAULTS = (nobody_demands, *AREA_FAULTS)  # in this order: an area that is spoiled before would be in balance again
LAYOUT_FAULTS = (wrong_mark, wrong_position, wrong_count_of_blocks, wrong_count_before_the_last,
                 wrong_count_in_the_last, *map(reserved_word, (3, 4, 5, 6)), word_past_records)
HEAD_FAULTS = (*itertools.starmap(none_of, COUNTS), *itertools.starmap(too_many, COUNTS), price_too_high,
               price_too_low, price_past_zones, wrong_zone, wrong_tie_in, wrong_tie_out, fourth_word_of_an_area,
               area_past_areas, word_past_areas, last_word_of_the_head)
IMPORT_FAULTS = tuple(map(import_with_actual, PLACES))
RECORD_FAULTS = (wrong_kind, wrong_member, wrong_area, *map(field_too_high, LETTERS), adjustment_too_low,
                 field_below_zero, no_multiplier, unused_field, *IMPORT_FAULTS,
                 imports_as_document_01_had_them, last_word_of_a_record, wrong_kind_twice)
PLACED_SCHEDULES = tuple(map(schedule_above, PLACES))
SCHEDULE_FAULTS = (*PLACED_SCHEDULES, schedules_above)
WORD_FAULTS = LAYOUT_FAULTS + HEAD_FAULTS + SCHEDULE_FAULTS + RECORD_FAULTS  # a schedule put in last could mend a record
PLACED_FAULTS = tuple(map(wrong_at, PLACES))
SUM_FAULTS = (wrong_sum, wrong_sum_by_its_highest_bit, wrong_sum_twice)
LENGTH_FAULTS = (nothing_at_all, cut, bytes_too_many, file_too_long)
LONE_FAULTS = (one_record_more, one_record_fewer, block_too_many, last_block_without_records, block_too_few,
               block_not_full, blocks_swapped)
FAULTS = HOUR_FAULTS + WORD_FAULTS + SUM_FAULTS + LENGTH_FAULTS

# Two faults of an area, of a sum or of the length can undo each other, and no record is an import and a generator.
PAIRS = [pair for pair in itertools.combinations(FAULTS, 2)
         if not any(set(pair) <= set(stage) for stage in (AREA_FAULTS, SUM_FAULTS, LENGTH_FAULTS, *zip(IMPORT_FAULTS, PLACED_SCHEDULES)))]

# A record that breaks row 5, and a later one with a schedule above the maximum; and the other way round.
EARLIER_AND_LATER = [*itertools.combinations(range(len(PLACES)), 2)]
WRONG_AND_SCHEDULE = ([(PLACED_FAULTS[one], PLACED_SCHEDULES[two]) for one, two in EARLIER_AND_LATER],
                      [(PLACED_FAULTS[two], PLACED_SCHEDULES[one]) for one, two in EARLIER_AND_LATER])

# Pairs of rows next to each other, each in every round, so that a change of their order doesn't show by luck alone.
NEIGHBOURS = (*([*itertools.product(*faults)] for faults in (
    (LENGTH_FAULTS, SUM_FAULTS), (LAYOUT_FAULTS, SUM_FAULTS), (LAYOUT_FAULTS, HEAD_FAULTS), (HEAD_FAULTS, RECORD_FAULTS),
    (AREA_FAULTS, SCHEDULE_FAULTS), ([nobody_demands], SCHEDULE_FAULTS), ([nobody_demands], AREA_FAULTS))), *WRONG_AND_SCHEDULE)

# The order in which settling looks for the rows.
ROWS = (1, 2, 3, 4, 5, 14, 6, 7, 12, 11)


def first_row(due):
    """Of refusals that are due, each a number and a place, the one that is given."""
    return min(due, key=lambda each: (ROWS.index(each[0]), each[1]))


def spoil(rng, hour, faults):
    """The hour's bytes with the faults in them, and the refusal that the table's order gives first; or
    None where the hour has no room for one of them."""
    due = [fault(rng, hour) for fault in faults if fault in HOUR_FAULTS]
    blocks = hour.blocks()
    due += [fault(rng, hour, blocks) for fault in faults if fault not in HOUR_FAULTS + SUM_FAULTS + LENGTH_FAULTS]
    for block in blocks:
        mend(block)
    due += [fault(rng, blocks) for fault in faults if fault in SUM_FAULTS]
    data = to_bytes(blocks)
    for fault in faults:
        if fault in LENGTH_FAULTS:
            data = fault(rng, hour, data)
            due.append((1, 0))
    return None if None in due else (data, first_row(due))
