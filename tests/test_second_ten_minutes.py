"""Tests of the second program's ten-minute settlement (document 02, A7): every refusal, its formulas in whole 24ths, the half-cent bound
and the ramps of consecutive hours with exact fractions, and the two kinds of file.

    python3 -m unittest tests/test_second_ten_minutes.py
"""

import itertools
import random
import subprocess
import sys
import unittest
from fractions import Fraction
from pathlib import Path

HERE = Path(__file__).resolve().parent
sys.path.insert(0, str(HERE))
import hours  # noqa: E402
import known_ten_minutes as known  # noqa: E402
import second  # noqa: E402
import ten_minutes  # noqa: E402
from hours import EXPORT, GENERATOR, IMPORT, PROFILE_LOAD, REAL_TIME_LOAD  # noqa: E402
from ten_minutes import alike, interval_record  # noqa: E402

# Document 02, A7: units are a 24th of document 01's, so a cent is 24 x 10,000,000 of what is summed.
IN_A_CENT = 240_000_000


def answer(hour, length=32):
    """Number and place, of an hour or of bytes."""
    return second.settle_ten_minutes(hour if isinstance(hour, bytes) else hour.encode(), length)[:2]


def accepted(seed, count):
    """So many made hours that are accepted, as the second program reads them."""
    index = 0
    while count > 0:
        data = ten_minutes.made(seed, index).data
        index += 1
        if answer(data) == (0, 0):
            count -= 1
            yield second.read_ten_minute_hour(data)


def as_read(record):
    """A record of the maker as the second program has it."""
    return second.read_interval_record(tuple(ten_minutes.TenMinuteHour(0, 1, [], [], [record]).words_of(record)))


def in_24ths(hour, member):
    """A member's unrounded sum in 24ths of a grain, which must be whole."""
    value = 24 * second.unrounded_amount(hour, member)
    assert value.denominator == 1
    return value.numerator


class Formulas(unittest.TestCase):
    def deviation_in_24ths(self, r, interval):
        """Once more, in whole 24ths of a unit of document 01, with no fractions: what A7 says of units."""
        own, at = r["S"], interval - 1
        scheduled = 4 * own
        if r["kind"] in (GENERATOR, REAL_TIME_LOAD):
            scheduled += {1: r["before"] - own, 6: r["next"] - own}.get(interval, 0)
        metered = {IMPORT: 4 * own, PROFILE_LOAD: 4 * r["A"][0]}.get(r["kind"], 24 * r["A"][at])
        adjusted, ancillary = 24 * r["J"][at], 24 * r["N"][at]
        load = 10_000 * (scheduled - (metered - adjusted) - ancillary)
        scaled = scheduled * r["F"] - (metered - adjusted) * r["H"] + 10_000 * ancillary
        return {GENERATOR: scaled, IMPORT: scaled, REAL_TIME_LOAD: load, PROFILE_LOAD: load,
                EXPORT: 10_000 * (scheduled - metered - adjusted)}[r["kind"]]

    def test_in_whole_24ths(self):
        seen = set()
        for hour in accepted("24ths", 80):
            for r in hour["records"]:
                seen.add(r["kind"])
                for interval in second.INTERVALS:
                    self.assertEqual(240_000 * second.interval_deviation(r, interval), self.deviation_in_24ths(r, interval), r)
        self.assertEqual(seen, set(hours.KINDS))

    def test_six_intervals_have_the_hours_schedule_and_its_ramps(self):
        """All six schedules add up to the hour's and the two ramps."""
        for hour in accepted("sixths", 40):
            for r in hour["records"]:
                ramped = r["kind"] in (GENERATOR, REAL_TIME_LOAD)
                ramps = Fraction(r["before"] - r["S"] + r["next"] - r["S"], 24) if ramped else 0
                self.assertEqual(sum(second.interval_schedule(r, interval) for interval in second.INTERVALS), r["S"] + ramps)


class Bounds(unittest.TestCase):
    def test_half_a_cent(self):
        """Each charge differs from the member's unrounded sum by at most half a cent, and at times by all of it, on either side; then the
        charge is even (document 02, A8)."""
        differences = set()
        for hour in accepted("half a cent", 300):
            for member, charge in enumerate(second.ten_minute_charges(hour)):
                difference = IN_A_CENT * charge - in_24ths(hour, member)
                self.assertLessEqual(abs(difference), IN_A_CENT // 2)
                self.assertTrue(abs(difference) < IN_A_CENT // 2 or charge % 2 == 0)
                differences.add(difference)
        self.assertLessEqual({IN_A_CENT // 2, -IN_A_CENT // 2, 0}, differences)
        self.assertGreater(len(differences), 1_000)

    def test_the_largest_sum(self):
        """It fits 64 bits, no made hour passes it, and no record of any kind adds more to it."""
        largest = 36_864 * 10**14
        self.assertLess(largest, 2**63)
        for turn in range(4):
            hour = second.read_ten_minute_hour(ten_minutes.largest_sum(random.Random(turn)).encode())
            self.assertEqual(abs(in_24ths(hour, 0)), largest)
        for hour in accepted("largest", 150):
            self.assertLessEqual(max(abs(in_24ths(hour, member)) for member in range(hour["members"])), largest)

    def test_no_record_deviates_more_than_those_of_the_largest_sum(self):
        """A deviation is linear in each of its words by itself, so the ends of their ranges decide: all of them, of every kind."""
        sizes = set()
        for kind in hours.KINDS:
            names = [name for name in (*ten_minutes.NAMES, *ten_minutes.SIXES) if self.used(kind, name)]
            for ends in itertools.product(*((hours.LOWEST[letter], hours.HIGHEST[letter]) for letter in map(self.letter, names))):
                r = as_read(interval_record(kind, 0, 0, **dict(zip(names, ends))))
                sizes |= {abs(second.interval_deviation(r, interval)) for interval in second.INTERVALS}
        self.assertEqual(max(sizes), 400_000)

    @staticmethod
    def letter(name):
        return "S" if name in ("before", "next") else name

    @staticmethod
    def used(kind, name):
        first = ten_minutes.NAMES[name] if name in ten_minutes.NAMES else ten_minutes.SIXES[name][0]
        return first in ten_minutes.USED_WORDS[kind]


class Ramps(unittest.TestCase):
    """For consecutive hours whose neighbouring schedules agree, the ramp parts cancel except at the two ends."""

    @staticmethod
    def ramp_parts(r):
        """What ramping adds to the schedules of an hour's six intervals, in kWh."""
        return sum(second.interval_schedule(r, interval) - Fraction(r["S"], 6) for interval in second.INTERVALS)

    def hours_of(self, kind, schedules):
        """The hours between the first schedule and the last, each with its neighbours' schedules in it."""
        for before, own, after in zip(schedules, schedules[1:], schedules[2:]):
            yield as_read(interval_record(kind, 0, 0, S=own, before=before, next=after))

    def test_consecutive_hours(self):
        rng = random.Random(3)
        for turn in range(300):
            schedules = [rng.choice([0, 100_000, rng.randint(0, 100_000)]) for _ in range(rng.randint(3, 26))]
            first, own, last, after = *schedules[:2], *schedules[-2:]
            for kind in (GENERATOR, REAL_TIME_LOAD):
                parts = sum(map(self.ramp_parts, self.hours_of(kind, schedules)))
                self.assertEqual(24 * parts, (after - last) - (own - first))

    def test_at_a_border_of_two_hours(self):
        """What the first lacks in its last interval the second has too much in its first: they cancel, in energy; the prices may differ."""
        one, two = self.hours_of(GENERATOR, [5, 17, 99, 3])
        self.assertEqual(second.interval_schedule(one, 6) - Fraction(17, 6), Fraction(99 - 17, 24))
        self.assertEqual(second.interval_schedule(two, 1) - Fraction(99, 6), -Fraction(99 - 17, 24))

    def test_hours_whose_neighbours_do_not_agree(self):
        """So that agreeing is no idle condition."""
        parts = sum(map(self.ramp_parts, [*self.hours_of(GENERATOR, [0, 24, 48]), *self.hours_of(GENERATOR, [0, 72, 96])]))
        self.assertNotEqual(24 * parts, (96 - 72) - (24 - 0))

    def test_other_kinds_have_none(self):
        for kind in (PROFILE_LOAD, IMPORT, EXPORT):
            self.assertEqual([self.ramp_parts(r) for r in self.hours_of(kind, [0, 24, 96, 7])], [0, 0])


class Refusals(unittest.TestCase):
    def test_each_fault_alone_is_refused_with_its_number_and_place(self):
        for fault in ten_minutes.FAULTS:
            for turn in range(12):
                made = ten_minutes.damaged(random.Random(f"{fault.__name__} {turn}"), (fault,))
                self.assertEqual(answer(made.data), made.expected, (made.name, turn))

    def test_of_two_faults_the_table_and_the_first_place_decide(self):
        for at, pairs in enumerate(ten_minutes.NEIGHBOURS + ten_minutes.TWICE):
            rng = random.Random(at)
            for pair in rng.sample(pairs, min(len(pairs), 80)):
                made = ten_minutes.damaged(rng, pair)
                self.assertEqual(answer(made.data), made.expected, made.name)

    def test_faults_of_every_number_taken_away_one_by_one(self):
        hour = known.full_hour(5, members=3)
        blocks = hour.blocks()
        blocks[0][127] = 1                        # 4 at word 127
        blocks[2][8 + 29] = 1                     # 5 at record 4
        blocks[1][6] = 1                          # 3 at block 1
        for block in blocks:
            hours.mend(block)
        blocks[2][7] ^= 1                         # 2 at block 2
        self.assertEqual(answer(hours.to_bytes(blocks)[:-1], 2), (1, 0))
        self.assertEqual(answer(hours.to_bytes(blocks), 2), (2, 2))
        for number, place, block, word in ((3, 1, 1, 6), (4, 127, 0, 127), (5, 4, 2, 37)):
            hours.mend(blocks[2])
            self.assertEqual(answer(hours.to_bytes(blocks), 2), (number, place))
            blocks[block][word] = 0
            hours.mend(blocks[block])
        self.assertEqual(answer(hours.to_bytes(blocks), 2), (11, 0))
        self.assertEqual(answer(hours.to_bytes(blocks), 3), (0, 0))

    def test_a_refusal_changes_nothing(self):
        for index in range(300):
            data = ten_minutes.made("refused", index).data
            for length in (0, 5, 32):
                settled = second.settle_ten_minutes(data, length)
                if settled.number:
                    self.assertEqual(settled.charges, [77] * length)

    def test_charges_past_the_members_are_what_they_were(self):
        data = known.hour_of(known.own(EXPORT, J=[3, 0, 0, 0, 0, 0]), members=2).encode()
        self.assertEqual(second.settle_ten_minutes(data, 4), (0, 0, [3, 0, 77, 77]))
        self.assertEqual(second.settle_ten_minutes(data, 2), (0, 0, [3, 0]))
        self.assertEqual(second.settle_ten_minutes(data, 1), (11, 0, [77]))

    def test_every_word_of_a_small_file_is_looked_at(self):
        """One more is accepted in the words that hold a figure with room above it, and in no other: for each kind, with two areas and two
        zones, of which the last area is in zone 0."""
        for kind in hours.KINDS:
            hour = known.hour_of(known.own(kind), prices=[alike(5)] * 2, areas=(1, 0), members=2)
            figures = {(0, word) for word in (8, 9, 10, 11, 20, *range(48, 72))}
            figures |= {(1, 8 + word) for word in (1, 2, *ten_minutes.USED_WORDS[kind])}
            if kind == REAL_TIME_LOAD:
                figures.add((1, 8))  # a load by profile, with words that are all 0
            for block, word in ((block, word) for block in range(2) for word in set(range(128)) - {7}):
                blocks = hour.blocks()
                blocks[block][word] += 1
                hours.mend(blocks[block])
                self.assertEqual(answer(hours.to_bytes(blocks)) == (0, 0), (block, word) in figures, (kind, block, word))


class Files(unittest.TestCase):
    """The two kinds of file."""

    def test_a_ten_minute_file_is_no_hourly_one(self):
        """Where its sums are whole, it breaks the layout of its first block."""
        for index in range(60):
            data = ten_minutes.HONEST[index % len(ten_minutes.HONEST)](random.Random(index)).encode()
            self.assertEqual(answer(data), (0, 0))
            self.assertEqual(second.settle(data)[:2], (3, 0))
            self.assertEqual(second.explanation(hours.question(0, data)), b"refused 3 at 0\n")

    def test_an_hourly_file_is_no_ten_minute_one(self):
        for index in range(300):
            data = hours.made("hourly", index).data
            if second.settle(data).number in (0, 3, 4, 5, 6, 11, 12, 14):
                self.assertEqual(answer(data), (3, 0) if len(data) <= 17 * 512 else (1, 0), index)

    def test_lengths(self):
        for length in (0, 511, 513, 8_703, 8_705, 9_216, 13_312):
            self.assertEqual(answer(bytes(length)), (1, 0))
        self.assertEqual(answer(bytes(8_704)), (3, 0))

    def test_as_a_command(self):
        data = known.hour_of(known.own(EXPORT, J=[3, 0, 0, 0, 0, 0]), members=2).encode()
        for words, text in ((["ten_minutes"], b"hour 7 members 2 records 1\n00          +0.03\n01          +0.00\n"),
                            (["charged"], b"answer 0 at 0\ncharges 3 0" + b" 77" * 30 + b"\n"),
                            (["charged", "3"], b"answer 0 at 0\ncharges 3 0 77\n"),
                            (["charged", "0"], b"answer 11 at 0\ncharges\n")):
            ended = subprocess.run([sys.executable, HERE / "second.py", *words], input=data, capture_output=True)
            self.assertEqual((ended.returncode, ended.stdout), (0, text))
        ended = subprocess.run([sys.executable, HERE / "second.py", "ten_minutes"], input=data[:-1], capture_output=True)
        self.assertEqual((ended.returncode, ended.stdout), (0, b"refused 1 at 0\n"))


if __name__ == "__main__":
    unittest.main()
