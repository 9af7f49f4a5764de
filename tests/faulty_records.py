"""Faults of records and schedules, and words that are out of place. Each fault spoils one thing and gives the number and place of the
refusal that is due, or None where the hour has no room for it."""

from hour_bytes import GENERATOR, HIGHEST, IMPORT, LETTERS, LOWEST, USED

BIG_WORDS = (2**31 - 1, 2**31, 2**32 - 1)


def other(rng, present, values):
    """One of the values that isn't the present one."""
    return rng.choice([value for value in values if value != present])


def unwanted(rng):
    """A word where a zero belongs: as often as not one that would do elsewhere."""
    return 1 if rng.random() < 0.5 else rng.choice([rng.randint(1, 2**32 - 1), *BIG_WORDS])


def beyond(rng, highest):
    """A word over the highest that is allowed: mostly one more, so that a few tries have it, or far more."""
    return highest + 1 if rng.random() < 0.85 else rng.choice([rng.randint(highest + 1, 2**31), *BIG_WORDS])


def put_in_record(hour, blocks, place, word, value):
    block, at = hour.where(place, word)
    blocks[block][at] = value % 2**32


def spoil_record(rng, hour, blocks, choose):
    """Sets one word of some record: `choose` is handed the record and gives the word's number and its
    new value, or None."""
    if not hour.records:
        return None
    place = rng.randrange(len(hour.records))
    chosen = choose(hour.records[place])
    if chosen is None:
        return None
    put_in_record(hour, blocks, place, *chosen)
    return 5, place


def wrong_kind(rng, hour, blocks):
    return spoil_record(rng, hour, blocks, lambda each: (0, rng.choice([0, beyond(rng, 5)])))


def wrong_member(rng, hour, blocks):
    return spoil_record(rng, hour, blocks, lambda each: (1, beyond(rng, hour.members - 1)))


def wrong_area(rng, hour, blocks):
    return spoil_record(rng, hour, blocks, lambda each: (2, beyond(rng, len(hour.areas) - 1)))


def field_too_high(letter):
    """A fault for each letter, so that each end is tried in every round."""
    def fault(rng, hour, blocks):
        def choose(each):
            over = rng.choice([HIGHEST[letter] + 1, HIGHEST[letter] + 1, rng.randint(HIGHEST[letter] + 1, 2**31 - 1)])
            return (3 + LETTERS.index(letter), over) if letter in USED[each["kind"]] else None
        return spoil_record(rng, hour, blocks, choose)
    fault.__name__ = f"{letter}_too_high"
    return fault


def adjustment_too_low(rng, hour, blocks):
    return spoil_record(rng, hour, blocks, lambda each: (5, rng.choice([LOWEST["J"] - 1, LOWEST["J"] - 1, -2**31])))


def field_below_zero(rng, hour, blocks):
    """A minus sign where the file has none: as a word it is far too high."""
    def choose(each):
        letter = rng.choice([letter for letter in USED[each["kind"]] if letter != "J"])
        return 3 + LETTERS.index(letter), -rng.choice([1, rng.randint(1, 2**31)])
    return spoil_record(rng, hour, blocks, choose)


def no_multiplier(rng, hour, blocks):
    def choose(each):
        return (rng.choice([9, 10]), 0) if "F" in USED[each["kind"]] else None
    return spoil_record(rng, hour, blocks, choose)


def unused_field(rng, hour, blocks):
    def choose(each):
        unused = [letter for letter in LETTERS if letter not in USED[each["kind"]]]
        return (3 + LETTERS.index(rng.choice(unused)), unwanted(rng)) if unused else None
    return spoil_record(rng, hour, blocks, choose)


PLACES = ("first", "middle", "last")


def place_of(hour, which):
    """The place of the first, a middle or the last of an hour's records; None where it has too few."""
    count = len(hour.records)
    return {"first": 0, "middle": count // 2, "last": count - 1}[which] if count >= 3 else None


def import_with_actual(which):
    """A fault for each of these places: an import whose word 4 isn't zero."""
    def fault(rng, hour, blocks):
        place = place_of(hour, which)
        if place is None or hour.records[place]["kind"] != IMPORT:
            return None
        put_in_record(hour, blocks, place, 4, unwanted(rng))
        return 5, place
    fault.__name__ = f"import_with_actual_{which}"
    return fault


def imports_as_document_01_had_them(rng, hour, blocks):
    """A file of the form before document 02, A3, in which every import brought what was scheduled: word 4 is word 3."""
    places = [place for place, each in enumerate(hour.records) if each["kind"] == IMPORT and each["S"] > 0]
    for place in places:
        put_in_record(hour, blocks, place, 4, hour.records[place]["S"])
    return (5, places[0]) if places else None


def wrong_at(which):
    """Where the first, the last and a record between breaks a rule; for pairs of which the place decides."""
    def fault(rng, hour, blocks):
        place = place_of(hour, which)
        if place is None:
            return None
        put_in_record(hour, blocks, place, *rng.choice([(0, 6), (11, 1), (1, hour.members), (3, 100_001)]))
        return 5, place
    fault.__name__ = f"{which}_record_wrong"
    return fault


def last_word_of_a_record(rng, hour, blocks):
    return spoil_record(rng, hour, blocks, lambda each: (11, unwanted(rng)))


def wrong_kind_twice(rng, hour, blocks):
    if len(hour.records) < 2:
        return None
    places = rng.sample(range(len(hour.records)), 2)
    for place in places:
        put_in_record(hour, blocks, place, 0, beyond(rng, 5))
    return 5, min(places)


# A generator's schedule above its maximum (document 02, A6).

def put_above_maximum(rng, hour, blocks, place):
    """By a kWh, tenfold, as a clerk typed it, or as far as it goes; the schedule too high or the maximum too low. One of them has room: the
    hours that are damaged have no energies near the end of the range."""
    scheduled, maximum = hour.records[place]["S"], hour.records[place]["M"]
    raised = [(3, over) for over in (maximum + 1, maximum + 1, 10 * maximum, HIGHEST["S"]) if maximum < over <= HIGHEST["S"]]
    lowered = [(8, under) for under in (scheduled - 1, scheduled // 10) if 0 <= under < scheduled]
    put_in_record(hour, blocks, place, *rng.choice(raised + lowered))
    return 14, place


def schedule_above(which):
    """A fault for each of the places."""
    def fault(rng, hour, blocks):
        place = place_of(hour, which)
        if place is None or hour.records[place]["kind"] != GENERATOR:
            return None
        return put_above_maximum(rng, hour, blocks, place)
    fault.__name__ = f"schedule_above_{which}"
    return fault


def schedules_above(rng, hour, blocks):
    """Of two generators or more."""
    generators = [place for place, each in enumerate(hour.records) if each["kind"] == GENERATOR]
    if len(generators) < 2:
        return None
    return min(put_above_maximum(rng, hour, blocks, place) for place in rng.sample(generators, rng.randint(2, len(generators))))
