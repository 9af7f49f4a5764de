"""Faults of ten-minute hours, those of hourly files that are alike among them. Each fault spoils one thing and gives the number and place
of the refusal that is due, or None where the hour has no room for it."""

import itertools

from faults import (COUNTS, LAYOUT_FAULTS, LENGTH_FAULTS, LONE_FAULTS, SUM_FAULTS, area_past_areas, fourth_word_of_an_area,
                    last_word_of_the_head, none_of, too_many, wrong_zone)
from faulty_records import (PLACES, place_of, put_in_record, spoil_record, unwanted, wrong_area, wrong_kind, wrong_kind_twice,
                            wrong_member)
from hour_bytes import HIGHEST, LOWEST, PROFILE_LOAD
from ten_minute_hours import (ACTUALS, ADJUSTMENTS, FIRST_PRICE_WORD, FORECAST, HOUR_AHEAD, LETTER_AT, MOST_INTERVAL_PRICE, PAST_PRICES,
                              REST, USED_WORDS)


# ---- The head

def put_in_head(blocks, word, value):
    blocks[0][word] = value % 2**32
    return 4, word


def hourly_price(rng, hour, blocks):
    """A word where the hourly file has its prices."""
    return put_in_head(blocks, rng.randint(12, 15), unwanted(rng))


def tie(rng, hour, blocks):
    """A word where the hourly file has the ties of an area."""
    return put_in_head(blocks, rng.choice([17, 18]) + 4 * rng.randrange(len(hour.areas)), unwanted(rng))


def price_word(rng, hour):
    """The first, the last or any price of a zone that there is."""
    past = FIRST_PRICE_WORD + 12 * len(hour.prices)
    return rng.choice([FIRST_PRICE_WORD, past - 1, rng.randrange(FIRST_PRICE_WORD, past)])


def interval_price_too_high(rng, hour, blocks):
    return put_in_head(blocks, price_word(rng, hour), rng.choice([MOST_INTERVAL_PRICE + 1, MOST_INTERVAL_PRICE + 1, 1_000_000, 2**31 - 1]))


def interval_price_too_low(rng, hour, blocks):
    return put_in_head(blocks, price_word(rng, hour), -rng.choice([MOST_INTERVAL_PRICE + 1, MOST_INTERVAL_PRICE + 1, 1_000_000, 2**31]))


def interval_price_past_zones(rng, hour, blocks):
    """Mostly a price that would do for a zone that there is."""
    past = FIRST_PRICE_WORD + 12 * len(hour.prices)
    if past == PAST_PRICES:
        return None
    price = rng.choice([1, MOST_INTERVAL_PRICE, -MOST_INTERVAL_PRICE, unwanted(rng)])
    return put_in_head(blocks, rng.choice([past, rng.randrange(past, PAST_PRICES)]), price)


def word_past_prices(rng, hour, blocks):
    return put_in_head(blocks, rng.choice([PAST_PRICES, rng.randint(PAST_PRICES, 127)]), unwanted(rng))


# ---- Records

def word_too_high(word):
    """A fault for each word that some kind uses, so that each end is tried in every round."""
    highest = HIGHEST[LETTER_AT[word]]

    def fault(rng, hour, blocks):
        over = rng.choice([highest + 1, highest + 1, rng.randint(highest + 1, 2**31 - 1)])
        return spoil_record(rng, hour, blocks, lambda each: (word, over) if word in USED_WORDS[each["kind"]] else None)
    fault.__name__ = f"word_{word}_too_high"
    return fault


def word_unused(word):
    """A fault for each word that some kind doesn't use."""
    def fault(rng, hour, blocks):
        return spoil_record(rng, hour, blocks, lambda each: (word, unwanted(rng)) if word not in USED_WORDS[each["kind"]] else None)
    fault.__name__ = f"word_{word}_unused"
    return fault


def word_too_low(word):
    """A multiplier of 0, or an adjustment below its range."""
    under = LOWEST[LETTER_AT[word]] - 1

    def fault(rng, hour, blocks):
        return spoil_record(rng, hour, blocks, lambda each: (word, under) if word in USED_WORDS[each["kind"]] else None)
    fault.__name__ = f"word_{word}_too_low"
    return fault


def reading_too_high(rng, hour, blocks):
    """The hourly reading of a load by profile."""
    return spoil_record(rng, hour, blocks, lambda each: (ACTUALS[0], HIGHEST["A"] + 1) if each["kind"] == PROFILE_LOAD else None)


def word_below_zero(rng, hour, blocks):
    """A minus sign where the file has none: as a word it is far too high."""
    def choose(each):
        return rng.choice([word for word in USED_WORDS[each["kind"]] if word not in ADJUSTMENTS]), -rng.choice([1, rng.randint(1, 2**31)])
    return spoil_record(rng, hour, blocks, choose)


def wrong_at(which):
    """A fault for each place: the first record, the last, and one between."""
    def fault(rng, hour, blocks):
        place = place_of(hour, which)
        if place is None:
            return None
        put_in_record(hour, blocks, place, *rng.choice([(0, 6), (29, 1), (1, hour.members), (3, 100_001), (14, -100_001)]))
        return 5, place
    fault.__name__ = f"{which}_record_wrong"
    return fault


UNUSED_BY_SOME = [word for word in LETTER_AT if any(word not in used for used in USED_WORDS.values())]
HEAD_FAULTS = (*itertools.starmap(none_of, COUNTS), *itertools.starmap(too_many, COUNTS), hourly_price, wrong_zone, tie,
               fourth_word_of_an_area, area_past_areas, interval_price_too_high, interval_price_too_low, interval_price_past_zones,
               word_past_prices, last_word_of_the_head)
RECORD_FAULTS = (wrong_kind, wrong_member, wrong_area, *map(word_too_high, LETTER_AT), *map(word_unused, [*UNUSED_BY_SOME, *REST]),
                 *map(word_too_low, [FORECAST, HOUR_AHEAD, *ADJUSTMENTS]), reading_too_high, word_below_zero, wrong_kind_twice,
                 *map(wrong_at, PLACES))
FAULTS = LAYOUT_FAULTS + HEAD_FAULTS + RECORD_FAULTS + SUM_FAULTS + LENGTH_FAULTS + LONE_FAULTS

# Pairs of rows next to each other, of which the table's order decides, and of two faults in a row, of which the first place does.
NEIGHBOURS = tuple([*itertools.product(*faults)] for faults in (
    (LENGTH_FAULTS, SUM_FAULTS), (LAYOUT_FAULTS, SUM_FAULTS), (LAYOUT_FAULTS, HEAD_FAULTS), (HEAD_FAULTS, RECORD_FAULTS)))
TWICE = tuple([*itertools.combinations(faults, 2)] for faults in (LAYOUT_FAULTS, HEAD_FAULTS, RECORD_FAULTS))
