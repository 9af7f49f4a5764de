"""Tests of the makers of hours: what they make is what they say.

    python3 -m unittest tests/test_hours.py
"""

import random
import sys
import unittest
from collections import Counter
from pathlib import Path

HERE = Path(__file__).resolve().parent
sys.path.insert(0, str(HERE))
import half_cents  # noqa: E402
import hours  # noqa: E402
import second  # noqa: E402
from answers import answer  # noqa: E402
from hours import GENERATOR, IMPORT  # noqa: E402
from scripts import load_script  # noqa: E402

compare = load_script(HERE / "compare")


class MadeHours(unittest.TestCase):
    """The maker says what it made, and its hours reach what they are made for."""

    def test_answers_are_the_ones_foreseen(self):
        for index in range(6 * len(hours.ROUND)):
            made = hours.made("foreseen", index)
            if made.expected:
                self.assertEqual(answer(made.data), made.expected, (index, made.name))

    def test_the_same_seed_makes_the_same_hours(self):
        """And another seed others, but for the printed case and empty files."""
        for index in range(0, 60, 7):
            self.assertEqual(hours.made(5, index), hours.made("5", index))
        self.assertGreater(sum(hours.made(5, index).data != hours.made(6, index).data for index in range(60)), 55)

    def test_most_units_left(self):
        for turn in range(6):
            hour = second.read_hour(hours.most_units_left(random.Random(turn)).encode())
            ufe = second.unaccounted_energy(hour, 0)
            whole = [r["A"] * abs(ufe) // second.demand(hour, 0) for r in hour["records"]]
            self.assertEqual((len(whole), abs(ufe) - sum(whole)), (250, 249))

    def test_the_earlier_of_equal_remainders(self):
        """And a single kWh of a generator or of an import has losses, so that the UFE is no whole kWh."""
        decided, lossy = 0, set()
        for turn in range(60):
            hour = second.read_hour(hours.equal_remainders(random.Random(turn)).encode())
            ufe, total = abs(second.unaccounted_energy(hour, 0)), second.demand(hour, 0)
            lossy |= {r["kind"] for r in hour["records"] if ufe % 10_000 != 0} - set(second.LOADS)
            rests = sorted((r["A"] * ufe % total for r in second.records_of(hour, 0, *second.LOADS)), reverse=True)
            left = sum(rests) // total
            decided += 0 < left < len(rests) and rests[left - 1] == rests[left]
        self.assertGreater(decided, 30)
        self.assertEqual(lossy, {GENERATOR, IMPORT})

    @staticmethod
    def half_cents_in(maker, grain=0):
        """How many amounts are half a cent of each kind, once a grain is taken off them or, below zero, put to them."""
        lines = [line for turn in range(60) for line in second.settle(maker(random.Random(turn)).encode()).lines]
        return Counter(half_cents.side_of(amount - grain) for amount, records in lines if records != second.UNTOUCHED)

    def test_halves(self):
        """Behind even and odd cents, above zero and below, each often; and a grain over and under each of them."""
        for maker, grain in ((hours.halves, 0), (hours.a_grain_from_halves, 1), (hours.a_grain_from_halves, -1)):
            sides = self.half_cents_in(maker, grain)
            self.assertGreater(min(sides[name] for name in half_cents.NAMES), 20, (maker.__name__, grain))
        self.assertEqual([*self.half_cents_in(hours.a_grain_from_halves)], [None])

    def test_cents_left_over(self):
        """Often the earlier of members with equal remainders gets a cent, and members are without demand beside others."""
        decided = without = 0
        for turn in range(60):
            hour = second.read_hour(hours.cents_left_over(random.Random(turn)).encode())
            demands, neutrality = second.member_demands(hour), sum(second.work_out(hour)["charges"])
            decided += compare.left_over(demands, abs(neutrality))[1]
            without += not all(demands)
        self.assertGreater(decided, 30)
        self.assertGreater(without, 10)

    def test_hours_without_demand(self):
        """Each maker's hours have no demand, and the charges that it is named for."""
        for maker in hours.NO_DEMAND_AND_NO_N + hours.NO_DEMAND_FOR_N:
            for turn in range(20):
                hour = second.read_hour(maker(random.Random(turn)).encode())
                charges = second.work_out_charges(hour)["charges"]
                self.assertEqual(second.member_demands(hour), [0] * hour["members"], maker.__name__)
                self.assertEqual(sum(charges) != 0, maker in hours.NO_DEMAND_FOR_N, maker.__name__)
                self.assertEqual(any(charges), maker not in hours.NO_CHARGES, maker.__name__)

    def test_both_unavailable_terms_are_at_work(self):
        generators = loads = 0
        for turn in range(20):
            for r in hours.unavailable_energy(random.Random(turn)).records:
                generators += r["kind"] == GENERATOR and r["M"] - r["A"] - (r["O"] - r["N"]) < 0
                loads += r["kind"] in hours.LOADS and r["O"] - r["N"] - r["A"] > 0
        self.assertGreater(min(generators, loads), 30)

    def test_schedules_at_their_maximum(self):
        """Or a kWh below it, from the lowest maximum to the highest; and a maximum that what was metered or the obligation is above."""
        seen = set()
        for turn in range(20):
            for r in hours.schedules_at_maximum(random.Random(turn)).records:
                if r["kind"] == GENERATOR:
                    self.assertIn(r["M"] - r["S"], (0, 1))
                    seen |= {(r["S"], r["M"]), *(letter for letter in "AO" if r[letter] > r["M"])}
        self.assertLess({(0, 0), (0, 1), (1, 1), (99_999, 100_000), (100_000, 100_000), "A", "O"}, seen)

    def test_no_generator_is_scheduled_above_its_maximum(self):
        """In honest hours, of which some at the ends of the ranges; other letters than S are as they fall."""
        above = set()
        for turn in range(300):
            rng = random.Random(turn)
            for r in [hours.record_at_ends(rng, 1, 1), *(hours.random_record(rng, 1, 1, 100) for _ in range(9))]:
                if r["kind"] == GENERATOR:
                    above |= {letter for letter in "SAJNO" if r[letter] > r["M"]}
        self.assertEqual(above, set("AJNO"))

    def test_no_demand_and_no_ufe(self):
        areas = 0
        for turn in range(20):
            hour = second.read_hour(hours.no_demand_no_ufe(random.Random(turn)).encode())
            for area in range(len(hour["areas"])):
                areas += second.demand(hour, area) == 0 and bool(second.records_of(hour, area, *second.LOADS))
        self.assertGreater(areas, 10)


if __name__ == "__main__":
    unittest.main()
