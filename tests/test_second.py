"""Tests of the second program: document 01's own figures and printed case, every refusal, text amounts, and the three bounds of demand 3
with exact fractions.

    python3 -m unittest tests/test_second.py
"""

import random
import subprocess
import sys
import unittest
from fractions import Fraction
from pathlib import Path
from unittest import mock

HERE = Path(__file__).resolve().parent
sys.path.insert(0, str(HERE))
import half_cents  # noqa: E402
import hours  # noqa: E402
import known  # noqa: E402
import second  # noqa: E402
import second_sums  # noqa: E402
from answers import answer  # noqa: E402
from hours import EXPORT, GENERATOR, IMPORT, PROFILE_LOAD, REAL_TIME_LOAD, Hour, record  # noqa: E402


class Figures(unittest.TestCase):
    """Document 01, "Figures to check by", with imports as document 02, A3, has them."""

    def deviation(self, kind, **letters):
        return second.deviation(record(kind, 0, 0, **letters))

    def test_generators(self):
        self.assertEqual(self.deviation(GENERATOR, S=1_000, A=900, M=2_000, F=9_800, H=9_800), 980_000)
        self.assertEqual(self.deviation(GENERATOR, S=1_000, A=1_100, M=2_000, F=9_800, H=9_800), -980_000)
        self.assertEqual(self.deviation(GENERATOR, S=1_000, A=1_000, F=10_000, H=10_000, M=1_500, O=600), 1_000_000)
        self.assertEqual(self.deviation(GENERATOR, S=1_000, A=1_000, F=10_000, H=10_000, M=1_500, O=500), 0)

    def test_loads(self):
        for kind in hours.LOADS:
            self.assertEqual(self.deviation(kind, S=500, A=450, N=30, O=500), 0)
            self.assertEqual(self.deviation(kind, S=500, A=450), 500_000)

    def test_imports_and_exports(self):
        self.assertEqual(self.deviation(IMPORT, S=300, J=50, F=10_000, H=9_000), 750_000)
        self.assertEqual(self.deviation(EXPORT, S=200, A=180, J=30), -100_000)

    def test_ancillary_energy_is_not_scaled_by_losses(self):
        self.assertEqual(self.deviation(GENERATOR, A=100, N=40, M=100, F=1, H=9_000), -500_000)
        self.assertEqual(self.deviation(IMPORT, S=100, N=40, F=10_000, H=9_000), 500_000)

    def test_adjustment_is_scaled_by_losses(self):
        self.assertEqual(self.deviation(GENERATOR, A=100, J=-10, M=100, F=1, H=9_000), -990_000)
        self.assertEqual(self.deviation(IMPORT, S=100, J=-10, F=10_000, H=9_000), 10_000)

    def test_deviations_in_units_as_document_01_writes_them(self):
        rng = random.Random(1)
        for _ in range(2_000):
            r = hours.record_at_ends(rng, 1, 1) if rng.random() < 0.5 else hours.random_record(rng, 1, 1, 100_000)
            s, a, j, n, o, m, f, h = (r[letter] for letter in hours.LETTERS)
            load = 10_000 * (s - ((a - j) + n) - max(0, (o - n) - a))
            units = {GENERATOR: s * f - ((a - j) * h - 10_000 * n) - 10_000 * min(0, m - a - (o - n)),
                     REAL_TIME_LOAD: load, PROFILE_LOAD: load,
                     IMPORT: s * f - (s - j) * h + 10_000 * n,  # A of an import is S (document 02, A3)
                     EXPORT: 10_000 * (s - a - j)}
            self.assertEqual(second.deviation(r), units[r["kind"]], r)

    def test_ufe_in_units_as_document_01_writes_it(self):
        for turn in range(100):
            hour = hours.ordinary(random.Random(turn))
            for area, (_, tie_in, tie_out) in enumerate(hour.areas):
                generators, loads = hour.of_area(area, GENERATOR), hour.of_area(area, *hours.LOADS)
                kwh = tie_in - tie_out + sum(r["A"] for r in generators) - sum(r["A"] for r in loads)
                losses = sum(r["A"] * (10_000 - r["H"]) for r in generators)
                losses += sum(r["S"] * (10_000 - r["H"]) for r in hour.of_area(area, IMPORT))
                self.assertEqual(second.unaccounted_energy(second.read_hour(hour.encode()), area), 10_000 * kwh - losses)

    def test_an_import_that_is_worked_by_hand(self):
        """In tests/known.py."""
        self.assertEqual(second.settle(known.import_hour().encode(), (2, 2, 2, 2, 2)), (
            0, 0, [100_000, 0, 0, 0, 0, 0, 0, 0], [95, 10], [95, -95], [0, 100_000], [950_000, 0],
            [(950_000_000, 1), (100_000_000, 1)]))

    def test_shares(self):
        self.assertEqual(second.shares_of([1, 1, 1], 10), [4, 3, 3])
        self.assertEqual(second.shares_of([1, 1, 1], -10), [-4, -3, -3])
        self.assertEqual(second.shares_of([2, 1], 5), [3, 2])
        self.assertEqual(second.shares_of([0, 5], 7), [0, 7])
        self.assertEqual(second.shares_of([0, 0], 0), [0, 0])

    def test_cents(self):
        """Document 02, A8: a half goes to the even cent; a grain less or more, or a 24th of one, goes to the nearest."""
        self.assertEqual(second.cents(0), 0)
        for half, cents, under, over in ((5_000_000, 0, 0, 1), (15_000_000, 2, 1, 2), (25_000_000, 2, 2, 3), (35_000_000, 4, 3, 4)):
            for way in (1, -1):
                self.assertEqual(second.cents(way * half), way * cents)
                for step in (1, Fraction(1, 24)):
                    self.assertEqual((second.cents(way * (half - step)), second.cents(way * (half + step))), (way * under, way * over))

    def test_lengths(self):
        longest = hours.full_file(random.Random(1)).encode()
        self.assertEqual(len(longest), 13_312)
        self.assertEqual(answer(longest), (0, 0))
        self.assertEqual(answer(longest + bytes(512)), (1, 0))

    def test_price_at_its_end(self):
        hour = hours.printed_case()
        for price, due in ((1_000_000, (0, 0)), (1_000_001, (4, 12)), (-1_000_000, (0, 0)), (-1_000_001, (4, 12))):
            hour.prices = [price]
            self.assertEqual(answer(hour), due)


class PrintedCase(unittest.TestCase):
    def test_statement(self):
        self.assertEqual(second.statement(hours.printed_case().encode()),
                         b"hour 7 members 2 records 2\n"
                         b"00          +5.00          +5.00\n01          -5.00          -5.00\n")

    def test_settled(self):
        self.assertEqual(second.settled(hours.printed_case().encode(), [2, 3, 4, 4, 3]).decode(),
                         "answer 0 at 0\n"
                         "ufe 300000 0 0 0 0 0 0 0\n"
                         "charges 500 -500 77\n"
                         "finals 500 -500 77 77\n"
                         "shares 0 300000 77 77\n"
                         "deviations 1000000 1300000 77\n"
                         "lines 5000000000:1 -5000000000:1\n"
                         "bodies 32:480 544:480" + " 0:0" * 27 + "\n")

    def test_settled_of_a_refusal(self):
        self.assertEqual(second.settled(b"", [2, 1, 3, 0, 1]).decode(),
                         "answer 1 at 0\nufe 0 0 0 0 0 0 0 0\ncharges 77\nfinals 77 77 77\nshares\ndeviations 77\n"
                         "lines 77:77 77:77\nbodies" + " 0:0" * 29 + "\n")

    def test_as_a_command(self):
        data = hours.printed_case().encode()
        for words, text in ((["statement"], second.statement(data)),
                            (["settled"], second.settled(data)),
                            (["settled", "2", "1"], second.settled(data, [2, 1])),
                            (["explanation"], second.explanation(data)),
                            (["explained"], second.explained(data)),
                            (["explained", "1", "2"], second.explained(data, [1, 2]))):
            ended = subprocess.run([sys.executable, HERE / "second.py", *words], input=data, capture_output=True)
            self.assertEqual((ended.returncode, ended.stdout), (0, text))


class Refusals(unittest.TestCase):
    """Document 01, "Refusal numbers and their order"; document 02, A1 and A6."""

    def test_each_fault_alone_is_refused_with_its_number_and_place(self):
        for fault in hours.FAULTS + hours.LONE_FAULTS:
            for turn in range(25):
                made = hours.damaged(random.Random(f"{fault.__name__} {turn}"), (fault,))
                self.assertEqual(answer(made.data), made.expected, (made.name, turn))

    def test_of_two_faults_the_table_decides(self):
        for one, two in hours.PAIRS:
            made = hours.damaged(random.Random(f"{one.__name__} {two.__name__}"), (one, two))
            self.assertEqual(answer(made.data), made.expected, made.name)

    def test_faults_of_every_number_taken_away_one_by_one(self):
        hour = hours.printed_case()
        hour.areas[0][1] = 5
        hour.records[0]["S"] = 2_001       # 14 at record 0
        hour.records[1]["A"] = 0
        blocks = hour.blocks()
        blocks[0][127] = 1                 # 4 at word 127
        blocks[1][8 + 12 + 8] = 1          # 5 at record 1: a load has no maximum
        blocks[1][6] = 1                   # 3 at block 1
        for block in blocks:
            hours.mend(block)
        blocks[1][7] ^= 1                  # 2 at block 1
        data = hours.to_bytes(blocks)
        short = (1, 1, 1, 1, 1)
        self.assertEqual(answer(data + b"\0", short), (1, 0))
        self.assertEqual(answer(data, short), (2, 1))
        blocks[1][7] ^= 1
        self.assertEqual(answer(hours.to_bytes(blocks), short), (3, 1))
        blocks[1][6] = 0
        hours.mend(blocks[1])
        self.assertEqual(answer(hours.to_bytes(blocks), short), (4, 127))
        blocks[0][127] = 0
        hours.mend(blocks[0])
        self.assertEqual(answer(hours.to_bytes(blocks), short), (5, 1))
        self.assertEqual(answer(hour, short), (14, 0))
        hour.records[0]["S"] = 2_000
        self.assertEqual(answer(hour, short), (6, 0))
        hour.areas[0][2] = 905             # what came in and what was generated leaves
        self.assertEqual(answer(hour, short), (12, 0))
        hour.records[1]["A"] = 870
        self.assertEqual(answer(hour, short), (11, 0))
        self.assertEqual(answer(hour), (0, 0))

    def test_bodies(self):
        """The block reader looks at the length only."""
        self.assertEqual(second.bodies(bytes(1_024), (0, 1, 2)), [(32, 480), (544, 480), (0, 0)])
        self.assertEqual(second.bodies(bytes(13_312), (25, 26, 2**64 - 1)), [(12_832, 480), (0, 0), (0, 0)])
        for length in (0, 511, 1_025, 13_824):
            self.assertEqual(second.bodies(bytes(length), (0, 1)), [(0, 0), (0, 0)])

    def test_known_files(self):
        for name, line, data in known.cases():
            self.assertEqual(second.statement(data).decode().splitlines()[0], line, name)
        for name, wanted, data in known.cases_to_write():
            self.assertEqual(second.written_hour(data), wanted, name)
        for name, text, data in known.cases_to_explain():
            self.assertEqual(second.explanation(data).decode(), text, name)

    def test_first_such_place(self):
        hour = Hour(0, 1, [1], [[0, 5, 5]] * 3 + [[0, 1, 0], [0, 0, 1]], [record(EXPORT, 0, 0)] * 12)
        self.assertEqual(answer(hour), (6, 3))
        blocks = hour.blocks()
        blocks[2][8] = blocks[2][8 + 12] = 6
        hours.mend(blocks[2])
        self.assertEqual(answer(hours.to_bytes(blocks)), (5, 10))
        for place in (7, 11):
            hour.records[place] = record(GENERATOR, 0, 0, S=2, M=1, F=1, H=1)
        self.assertEqual(answer(hour), (14, 7))

    def test_short_buffers(self):
        data = Hour(1, 3, [1], [[0, 0, 0]], [record(EXPORT, 0, 0)] * 5).encode()
        self.assertEqual(answer(data, (3, 3, 3, 5, 5)), (0, 0))
        for short in ((2, 3, 3, 5, 5), (3, 2, 3, 5, 5), (3, 3, 2, 5, 5), (3, 3, 3, 4, 5), (3, 3, 3, 5, 4), (0, 0, 0, 0, 0)):
            settled = second.settle(data, short)
            self.assertEqual(settled[:3], (11, 0, [0] * 8))
            self.assertEqual([settled.charges, settled.finals, settled.shares, settled.deviations],
                             [[77] * length for length in short[1:]])
            self.assertEqual(settled.lines, [(77, 77)] * short[0])

    def test_a_refusal_changes_nothing(self):
        for index in range(200):
            made = hours.made("refused", index)
            settled = second.settle(made.data)
            if settled.number:
                self.assertEqual(settled[2:], ([0] * 8, [77] * 32, [77] * 32, [77] * 250, [77] * 250, [(77, 77)] * 32))

    def test_every_word_of_a_small_file_is_looked_at(self):
        """One more is accepted in the words that hold a figure with room above it, and in no other: of a generator and a load, where the
        generator is scheduled at its maximum, and of an import and a load."""
        at_maximum = hours.printed_case()
        at_maximum.records[0]["M"] = 1_000
        for hour, one, other in ((hours.printed_case(), (1, *range(3, 11)), (0, *range(3, 8))),
                                 (at_maximum, (1, *range(4, 11)), (0, *range(3, 8))),
                                 (known.import_hour(), (1, 3, 5, 6, 9, 10), range(3, 8))):
            figures = {(0, word) for word in (8, 9, 10, 11, 12, 17, 18)}
            figures |= {(1, 8 + word) for word in one} | {(1, 20 + word) for word in other}
            for block in range(2):
                for word in set(range(128)) - {7}:
                    changed = hour.blocks()
                    changed[block][word] += 1
                    hours.mend(changed[block])
                    number = answer(hours.to_bytes(changed))[0]
                    self.assertEqual(number == 0, (block, word) in figures, (block, word))

    def test_seven_cannot_occur(self):
        """The bound that tests/hours.py works out, and the largest amounts that were thought of."""
        self.assertLess(10**6 * (250 * 9 * 10**9 + 8 * 10**11 + 250 * 2 * 10**9), second.MOST_GRAINS)
        for turn in range(8):
            settled = second.settle(hours.largest_amounts(random.Random(turn)).encode())
            self.assertEqual(settled.number, 0)
            self.assertGreater(abs(settled.lines[0][0]), 8 * 10**17)

    def test_seven_by_a_lower_limit(self):
        with mock.patch.object(second_sums, "MOST_GRAINS", 5_000_000_000):
            self.assertEqual(answer(hours.printed_case()), (0, 0))
        with mock.patch.object(second_sums, "MOST_GRAINS", 4_999_999_999):
            self.assertEqual(answer(hours.printed_case()), (7, 0))
        nobody_demands = Hour(1, 2, [1_000], [[0, 0, 0]], [record(EXPORT, 1, 0, A=1)])
        self.assertEqual(answer(nobody_demands), (12, 0))
        with mock.patch.object(second_sums, "MOST_GRAINS", 9_999_999):
            self.assertEqual(answer(nobody_demands), (7, 1))
            for member in (0, 2):
                self.assertEqual(second.explanation(hours.question(member, nobody_demands.encode())), b"refused 7 at 1\n")


class TextAmounts(unittest.TestCase):
    """Document 01, "Text amounts"."""

    def test_figures(self):
        self.assertEqual(second.write_amount(-123, 7), (0, b"  -1.23"))
        self.assertEqual(second.write_amount(-123, 5), (0, b"-1.23"))
        self.assertEqual(second.write_amount(-123, 4), (9, None))
        self.assertEqual(second.write_amount(0, 5), (0, b"+0.00"))
        self.assertEqual(second.write_amount(-5, 5), (0, b"-0.05"))

    def test_range(self):
        self.assertEqual(second.write_amount(999_999_999_999, 14), (0, b"+9999999999.99"))
        self.assertEqual(second.write_amount(-999_999_999_999, 13), (9, None))
        self.assertEqual(second.write_amount(10**12, 99), (8, None))
        self.assertEqual(second.write_amount(-10**12, 0), (8, None))

    def test_good(self):
        for field, amount in ((b"+0.00", 0), (b"   -0.01", -1), (b"+10.00", 1_000), (b"-1.23", -123),
                              (b" +9999999999.99", 999_999_999_999), (b"-9999999999.99", -999_999_999_999)):
            self.assertEqual(second.read_amount(field), (0, amount))

    def test_bad(self):
        for field in (b"", b"   ", b"-0.00", b"0.00", b"1.23", b"+", b"+.50", b"+01.00", b"+00.10", b"+1.2",
                      b"+1.234", b"+1.23 ", b"+1.23\n", b"+1,23", b"+ 1.23", b"\t+1.23", b"+1", b"+1.",
                      b"+10000000000.00", b"+99999999999.99", b"--1.00", b"+1.2x", b"+1.23+1.23", b"\xa0+1.23",
                      b"+\xb2.00", b"-00.00"):
            self.assertEqual(second.read_amount(field), (10, 0), field)

    def test_written_and_read_again(self):
        rng = random.Random(3)
        for _ in range(3_000):
            amount = rng.randint(-10**rng.randint(0, 12), 10**rng.randint(0, 12))
            amount = max(-999_999_999_999, min(999_999_999_999, amount))
            width = rng.randint(0, 20)
            number, field = second.write_amount(amount, width)
            if number == 0:
                self.assertEqual(len(field), width)
                self.assertEqual(second.read_amount(field), (0, amount))
            else:
                self.assertEqual(number, 9)
                self.assertEqual(second.write_amount(amount, width + 14)[0], 0)

    def test_read_and_written_again(self):
        """Whatever is read is exactly what is written at the same width."""
        rng = random.Random(4)
        read = 0
        for _ in range(20_000):
            field = bytearray(second.write_amount(rng.randint(-10**6, 10**6), rng.randint(9, 12))[1])
            for _ in range(rng.randint(0, 2)):
                field[rng.randrange(len(field))] = rng.choice(b" +-.0123456789x")
            number, amount = second.read_amount(bytes(field))
            if number == 0:
                read += 1
                self.assertEqual(second.write_amount(amount, len(field)), (0, bytes(field)))
        self.assertGreater(read, 5_000)


class DemandThree(unittest.TestCase):
    """The three bounds of demand 3, with exact fractions, on 300 accepted hours, with half cents of each sort among them."""

    def test_bounds(self):
        index = accepted = 0
        halves = set()
        while accepted < 300:
            made = hours.made("demand 3", index)
            index += 1
            if second.settle(made.data).number == 0:
                accepted += 1
                hour = second.read_hour(made.data)
                self.check_shares(hour)
                self.check_charges(hour)
                halves |= self.rounded(hour)
        self.assertLessEqual(set(half_cents.NAMES), halves)

    def rounded(self, hour):
        """Each charge is within half a cent of its amount, and even where it is just that far (document 02, A8); which half cents occur."""
        figures = second.work_out(hour)
        for amount, charge in zip(figures["amounts"], figures["charges"]):
            twice = 2 * abs(charge * second.GRAINS_IN_A_CENT - amount)
            self.assertLessEqual(twice, second.GRAINS_IN_A_CENT)
            self.assertTrue(twice < second.GRAINS_IN_A_CENT or charge % 2 == 0)
        return set(map(half_cents.side_of, figures["amounts"]))

    def check_shares(self, hour):
        figures = second.work_out(hour)
        for area, ufe in enumerate(figures["ufe"]):
            own = [(r["A"], share) for r, share in zip(hour["records"], figures["shares"])
                   if r["area"] == area and r["kind"] in second.LOADS]
            self.assertEqual(sum(share for _, share in own), ufe)
            total = sum(demand for demand, _ in own)
            for demand, share in own:
                exact = Fraction(demand * ufe, total) if total else 0
                self.assertLess(abs(share - exact), 1)

    def check_charges(self, hour):
        figures = second.work_out(hour)
        half_cent = Fraction(second.GRAINS_IN_A_CENT, 2)
        charges = [charge * second.GRAINS_IN_A_CENT for charge in figures["charges"]]
        for member, tariff in enumerate(second.tariff_amounts(hour, figures["ufe"])):
            units = sum(abs(second.price_of(hour, r["area"])) for r in hour["records"]
                        if r["member"] == member and r["kind"] in second.LOADS)
            self.assertLessEqual(abs(charges[member] - tariff), half_cent + units)
        self.assertLessEqual(abs(sum(charges) - second.pool_total(hour, figures["ufe"])),
                             half_cent * hour["members"])


if __name__ == "__main__":
    unittest.main()
