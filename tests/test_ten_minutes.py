"""Tests of the maker of ten-minute hours, and of their comparison: what it makes is what it says, reaches every side, and shows every slip
of tests/ten_minute_slips.py; a wrong program is noticed.

    python3 -m unittest tests/test_ten_minutes.py
"""

import random
import sys
import unittest
from collections import Counter
from pathlib import Path
from unittest import mock

HERE = Path(__file__).resolve().parent
sys.path.insert(0, str(HERE))
import comparing  # noqa: E402
import half_cents  # noqa: E402
import hours  # noqa: E402
import programs  # noqa: E402
import second  # noqa: E402
import ten_minutes  # noqa: E402
from slips import slipped, wrong_program  # noqa: E402
from ten_minute_slips import SLIPS  # noqa: E402


def read(maker, turn):
    return second.read_ten_minute_hour(maker(random.Random(turn)).encode())


def amounts(hour):
    return [second.unrounded_amount(hour, member) for member in range(hour["members"])]


def deviating(hour):
    return any(second.interval_deviation(r, interval) for r in hour["records"] for interval in second.INTERVALS)


class MadeHours(unittest.TestCase):
    def test_answers_are_the_ones_foreseen(self):
        foreseen = 0
        for index in range(4 * len(ten_minutes.ROUND)):
            made = ten_minutes.made("foreseen", index)
            if made.expected:
                foreseen += 1
                self.assertEqual(second.settle_ten_minutes(made.data)[:2], made.expected, (index, made.name))
        self.assertGreater(foreseen, 3 * len(ten_minutes.ROUND))

    def test_the_same_seed_makes_the_same_hours(self):
        for index in range(0, 180, 7):
            self.assertEqual(ten_minutes.made(5, index), ten_minutes.made("5", index))
        self.assertNotEqual(ten_minutes.made(5, 0).data, ten_minutes.made(6, 0).data)

    def test_every_file_has_its_length(self):
        for turn in range(5):
            self.assertEqual(len(ten_minutes.full_file(random.Random(turn)).encode()), 8_704)
            self.assertEqual(len(ten_minutes.no_records(random.Random(turn)).encode()), 512)
            hour = read(ten_minutes.all_members, turn)
            self.assertEqual((len(hour["records"]), {r["member"] for r in hour["records"]}), (64, set(range(32))))

    def test_halves(self):
        """Behind even and odd cents, above zero and below, each often."""
        for maker in (ten_minutes.halves, ten_minutes.halves_by_ramp):
            sides = Counter(half_cents.side_of(amount) for turn in range(40) for amount in amounts(read(maker, turn)))
            self.assertGreater(min(sides[name] for name in half_cents.NAMES), 20, maker.__name__)

    def test_a_24th_from_halves(self):
        """On either side of each half, and never a half itself."""
        exact = [amount for turn in range(60) for amount in amounts(read(ten_minutes.a_24th_from_halves, turn))]
        self.assertFalse(any(map(half_cents.side_of, exact)))
        for at, way in enumerate(("over", "under")):
            sides = Counter(half_cents.side_of(ten_minutes.around(amount)[at]) for amount in exact)
            self.assertGreater(min(sides[name] for name in half_cents.NAMES), 20, way)

    def test_nets_of_zero(self):
        for turn in range(20):
            hour = read(ten_minutes.nets_of_zero, turn)
            self.assertTrue(deviating(hour))
            self.assertFalse(any(amounts(hour)))

    def test_as_ramped(self):
        """Nothing deviates; without ramping it would."""
        for turn in range(20):
            hour = read(ten_minutes.as_ramped, turn)
            self.assertFalse(deviating(hour))
            self.assertTrue(any(r["S"] not in (r["before"], r["next"]) for r in hour["records"]))

    def test_the_hours_show_every_slip(self):
        cases = [ten_minutes.made(1, index).data for index in range(500)]
        lent = [ten_minutes.length_for(random.Random(index), data) for index, data in enumerate(cases)]
        runs = sorted(zip(cases, lent), key=lambda run: len(run[0]))  # most slips show in small hours, which are quick
        right = [(second.ten_minutes(data), second.charged(data, [length])) for data, length in runs]
        for name, slip in SLIPS.items():
            wrong = wrong_program(name, {name: slip.changes})
            with self.subTest(name):
                self.assertTrue(any((wrong.ten_minutes(data), wrong.charged(data, [length])) != answers
                                    for (data, length), answers in zip(runs, right)))


class Compared(unittest.TestCase):
    """tests/compare with ten-minute hours."""

    def test_right_programs(self):
        with comparing.stand_ins() as folder:
            status, said = comparing.run_compare("--ten-minutes", 3, "--programs", folder, "--save", folder / "saved")
            self.assertEqual((status, (folder / "saved").exists()), (0, False), said)
            self.assertIn("3 ten-minute hours of seed 1 against the second program: every byte agreed", said)

    def test_a_wrong_program(self):
        """It is noticed in each of the programs, also where hourly settling takes a ten-minute file."""
        wrong = slipped("loads added", {"loads added": SLIPS["loads added"].changes})
        takes_both = slipped("any mark", {"any mark": ("(layout.first_mark, 0, len(blocks) - 1,", "(block[0], 0, len(blocks) - 1,")})
        honest = [hours.honest(ten_minutes.no_records), hours.honest(ten_minutes.halves_by_ramp)]
        for name, text in (("ten_minutes", wrong), ("charged", wrong), ("statement", takes_both)):
            with comparing.stand_ins(**{name: text}) as folder, mock.patch.object(ten_minutes, "ROUND", honest):
                status, said = comparing.run_compare("--ten-minutes", 10, "--programs", folder, "--save", folder / "saved")
                self.assertEqual(status, 1, said)
                saved = sorted((folder / "saved").glob("*.ten-minute"))
                self.assertEqual(saved[0].read_bytes(), ten_minutes.made(1, int(saved[0].stem.split("-")[-1])).data)
                self.assertIn(f": {name}", said)

    def test_no_program(self):
        with comparing.stand_ins() as folder:
            (folder / "ten_minutes").unlink()
            status, said = comparing.run_compare("--ten-minutes", 3, "--programs", folder)
            self.assertEqual(status, 2)
            self.assertIn("there is no program", said)

    def test_every_side_is_seen_in_500_hours(self):
        with comparing.stand_ins() as folder, mock.patch.object(programs, "run", comparing.without_starting):
            for seed in range(3):
                status, said = comparing.run_compare("--ten-minutes", 500, "--seed", seed, "--programs", folder)
                self.assertEqual(status, 0, said)

    def test_it_says_if_something_never_occurred(self):
        with comparing.stand_ins() as folder, mock.patch.object(programs, "run", comparing.without_starting), \
                mock.patch.object(ten_minutes, "ROUND", [hours.honest(ten_minutes.no_records)]):
            status, said = comparing.run_compare("--ten-minutes", 500, "--programs", folder)
        self.assertEqual(status, 1)
        self.assertIn("never occurred in 500 ten-minute hours: refused 1; refused 2; refused 3; refused 4; refused 5; 1, no bytes; ", said)
        self.assertIn("; 5 by word 29 alone; ", said)
        self.assertIn(f"; {'; '.join(half_cents.NAMES)}; a 24th of a grain from a half; ", said)


if __name__ == "__main__":
    unittest.main()
