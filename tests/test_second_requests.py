"""Tests of the second program's part of document 02: finals, explanations, and hour files that are written.

    python3 -m unittest tests/test_second_requests.py
"""

import random
import struct
import sys
import unittest
from fractions import Fraction
from pathlib import Path

HERE = Path(__file__).resolve().parent
ROOT = HERE.parent
sys.path.insert(0, str(HERE))
import hours  # noqa: E402
import known  # noqa: E402
import questions  # noqa: E402
import second  # noqa: E402
import to_write  # noqa: E402
from answers import answer  # noqa: E402
from hours import EXPORT, GENERATOR, IMPORT, PROFILE_LOAD, REAL_TIME_LOAD, Hour, record  # noqa: E402


class Finals(unittest.TestCase):
    """Document 02, A1."""

    def test_by_hand(self):
        for charges, demands, finals in (
                ([500, -500], [0, 870], [500, -500]),                 # the printed case: N is 0
                ([20, -10, -2, 0], [0, 300, 300, 100], [20, -14, -5, -1]),  # examples/neutrality.md
                ([10, 0, 0], [1, 1, 1], [6, -3, -3]),                 # shares 4, 3, 3: the first of equal remainders
                ([0, 0, -10], [1, 1, 1], [4, 3, -7]),                 # shares -4, -3, -3
                ([5, 0], [2, 1], [2, -2]),                            # shares 3, 2: the larger remainder
                ([7, 0], [0, 5], [7, -7]),                            # who demands nothing gets nothing
                ([1], [9], [0]),
                ([4, -4, 0], [0, 0, 0], [4, -4, 0])):                 # nobody demands anything, and N is 0
            self.assertEqual(second.finals_of(charges, demands), finals)
            self.assertEqual(sum(finals), 0)

    def test_no_demand(self):
        for charges in ([1], [-1], [0, 3], [1, 1, -1]):
            with self.assertRaises(second.Refused) as refused:
                second.finals_of(charges, [0] * len(charges))
            self.assertEqual((refused.exception.number, refused.exception.place), (12, 0))

    def test_demand_is_of_all_loads_in_all_areas(self):
        hour = Hour(1, 3, [1], [[0, 0, 0]] * 3, [
            record(REAL_TIME_LOAD, 1, 0, A=5), record(PROFILE_LOAD, 1, 2, A=7), record(REAL_TIME_LOAD, 0, 1, S=9, A=1, J=4),
            record(GENERATOR, 0, 0, A=100, F=1, H=1), record(IMPORT, 1, 0, S=100, F=1, H=1), record(EXPORT, 2, 0, A=100)])
        self.assertEqual(second.member_demands(second.read_hour(hour.encode())), [1, 12, 0])

    def test_bounds(self):
        """All finals add up to exactly 0, and each share is less than a cent from its fraction; the products stay below 10^19."""
        index = shared = 0
        while shared < 200:
            made = hours.made("finals", index)
            index += 1
            settled = second.settle(made.data)
            if settled.number:
                continue
            hour = second.read_hour(made.data)
            charges, finals = settled.charges[:hour["members"]], settled.finals[:hour["members"]]
            demands, neutrality = second.member_demands(hour), sum(charges)
            self.assertEqual(sum(finals), 0)
            shared += neutrality != 0
            for charge, final, demand in zip(charges, finals, demands):
                exact = Fraction(demand * neutrality, sum(demands)) if neutrality else 0
                self.assertLess(abs(charge - final - exact), 1)
                self.assertLess(demand * abs(neutrality), 10**19)

    def test_the_largest_products(self):
        """The bound on N that tests/hours.py works out, times all the demand there can be; and what was thought of."""
        most = (10**6 * (250 * 9 * 10**9 + 8 * 10**11 + 250 * 2 * 10**9) + 32 * 5 * 10**6) // 10**7
        self.assertLess(25_000_000 * most, 10**19)
        self.assertLess(2 * most, second.MOST_CENTS)
        for turn in range(8):
            hour = second.read_hour(hours.largest_products(random.Random(turn)).encode())
            neutrality = abs(sum(second.work_out(hour)["charges"]))
            self.assertGreater(max(second.member_demands(hour)) * neutrality, 10**18)


class Explained(unittest.TestCase):
    """Document 02, A5."""

    def accepted(self, seed, count):
        """So many accepted hours, with what explaining answers about each member."""
        index = 0
        while count > 0:
            data = hours.made(seed, index).data
            index += 1
            if second.settle(data).number == 0:
                count -= 1
                hour = second.read_hour(data)
                yield second.work_out(hour), second.explain(data, range(hour["members"]))

    def test_heads_add_up_to_the_amount(self):
        for figures, answers in self.accepted("heads", 200):
            self.assertEqual([sum(answer.heads.values()) for answer in answers], figures["amounts"])

    def test_the_head_that_decided(self):
        """It has the charge's sign, none with that sign is larger, and none before it is as large; and there is one where the charge isn't
        0. Said once more, without looking for the largest."""
        for figures, answers in self.accepted("decided", 200):
            for charge, answer in zip(figures["charges"], answers):
                heads = [grains if charge > 0 else -grains for grains in answer.heads.values()]
                fits = [place for place, size in enumerate(heads)
                        if charge != 0 and size > 0 and size >= max(heads) and size not in heads[:place]]
                self.assertEqual([second.HEADS[place] for place in fits] or ["none"], [answer.decided])

    def test_heads_zone_by_zone(self):
        """As D 2.1 writes it: in each zone the deviations, and the shares, are added up and priced once."""
        for name in ("two-zones", "left-over", "neutrality"):
            hour = second.read_hour((ROOT / "examples" / f"{name}.hour").read_bytes())
            figures = second.work_out(hour)
            of_kinds = {"generation": (GENERATOR,), "load": hours.LOADS, "import": (IMPORT,), "export": (EXPORT,)}
            for member, heads in enumerate(second.member_heads(hour, figures["deviations"], figures["shares"])):
                for head, kinds in of_kinds.items():
                    sign = -1 if head in ("load", "export") else 1
                    self.assertEqual(heads[head], sign * self.by_zone(hour, figures["deviations"], member, kinds))
                self.assertEqual(heads["share"], self.by_zone(hour, figures["shares"], member, hours.KINDS))

    @staticmethod
    def by_zone(hour, energies, member, kinds):
        return sum(price * sum(energy for r, energy in zip(hour["records"], energies) if r["member"] == member and r["kind"] in kinds
                               and hour["areas"][r["area"]]["zone"] == zone)
                   for zone, price in enumerate(hour["prices"]))

    def test_decided_by_hand(self):
        for grains, charge, decided in (
                ((5, 0, 0, 0, 0), 1, "generation"), ((0, 0, 0, 0, -5), -1, "share"), ((5, 6, 0, 0, 0), 1, "load"),
                ((5, 5, 0, 0, 0), 1, "generation"), ((0, 5, 0, 5, 5), 1, "load"), ((0, 0, -5, -5, -4), -1, "import"),
                ((4, -9, 6, 5, 0), 1, "import"), ((-4, 9, -6, -6, 0), -1, "import"), ((4, -9, 6, 5, 0), 0, "none"),
                ((0, 0, 0, 0, 0), 0, "none")):
            self.assertEqual(second.head_that_decided(dict(zip(second.HEADS, grains)), charge), decided)

    def test_one_refusal_after_the_other(self):
        """A number that is no member's goes last; the faults are taken away one by one."""
        hour = hours.printed_case()
        hour.areas[0][1] = 5
        hour.records[1]["A"] = 0
        spoiled = known.words(hour.blocks(), (1, 8, 6))
        above = known.words(hour.blocks(), (1, 8 + 3, 2_001))
        for member in (2, 3, 256, 2**32 - 1):
            def explained(data, member=member):
                return second.explanation(hours.question(member, data))
            self.assertEqual(explained(spoiled[:-1]), b"refused 1 at 0\n")
            self.assertEqual(explained(spoiled[:-4] + b"\1\0\0\0"), b"refused 2 at 1\n")
            self.assertEqual(explained(spoiled), b"refused 5 at 0\n")
            self.assertEqual(explained(above), b"refused 14 at 0\n")
            self.assertEqual(explained(hour.encode()), b"refused 6 at 0\n")
            balanced = Hour(7, 2, [5_000], [[0, 5, 905]], hour.records)
            self.assertEqual(explained(balanced.encode()), b"refused 12 at 0\n")
            self.assertEqual(explained(hours.printed_case().encode()), b"refused 13 at 0\n")

    def test_lengths(self):
        for length in (0, 1, 2, 3, 4, 5, 512, 515, 517, 13_317, 13_828):
            self.assertEqual(second.explanation(bytes(length)), b"refused 1 at 0\n")
        longest = hours.full_file(random.Random(1)).encode()
        self.assertEqual(len(second.explanation(bytes(4) + longest).splitlines()), 6)

    def test_what_is_asked(self):
        """The maker says what is due."""
        for index in range(6 * len(questions.ROUND)):
            made = questions.made("due", index)
            words = second.explanation(made.data).decode().split()
            answer = (int(words[1]), int(words[3])) if words[0] == "refused" else words[-1]
            if made.expected is not None:
                self.assertEqual(answer, made.expected, (index, made.name))

    def test_refused_is_all_zeros(self):
        for data, member in ((b"", 0), (hours.printed_case().encode(), 2)):
            self.assertEqual(second.explain(data, [member])[0][2:], (dict.fromkeys(second.HEADS, 0), "none"))


class Written(unittest.TestCase):
    """Document 02, A2."""

    # The printed case, and then records of it, so that any count is right.
    PARTS = to_write.taken_apart(hours.printed_case().blocks())
    HEAD, RECORDS = second.words_in(PARTS[:480]), second.words_in(PARTS[480:])

    def answer(self, head, words, room=13_312):
        """Number and place, or the file."""
        try:
            return second.write_hour(head, words, room)
        except second.Refused as refused:
            return refused.number, refused.place

    def blocks(self, count):
        """The words of the file of so many records."""
        return list(struct.iter_unpack("<128I", self.answer(self.HEAD, self.RECORDS[:12] * count)))

    def changed(self, words, *changes):
        """Words with some changed, each given as its place and its new value."""
        words = list(words)
        for place, value in changes:
            words[place] = value
        return tuple(words)

    def test_the_printed_case(self):
        printed = (ROOT / "examples" / "printed.hour").read_bytes()
        self.assertEqual(self.answer(self.HEAD, self.RECORDS), printed)
        self.assertEqual(second.written_hour(self.PARTS), printed)
        self.assertEqual(second.written(self.PARTS, (120, 1_026)), b"answer 0 at 0 length 1024\n" + printed + b"MM")

    def test_whole_blocks(self):
        """Ten records in all but the last, which has what is left, and no block for none."""
        for count, held in ((0, []), (1, [1]), (9, [9]), (10, [10]), (11, [10, 1]), (250, [10] * 25)):
            first, *others = self.blocks(count)
            self.assertEqual(first[:7], (1, 0, len(held), 0, 0, 0, 0))
            self.assertEqual([block[:7] for block in others], [(2, place, each, 0, 0, 0, 0) for place, each in enumerate(held, 1)])
            self.assertEqual([len(block) - 8 - 12 * each for block, each in zip(others, held)],
                             [block[8 + 12 * each:].count(0) for block, each in zip(others, held)])

    def test_every_sum_is_zero(self):
        """With word 7 in it, which the other words alone decide."""
        for count in (0, 1, 10, 25):
            for block in self.blocks(count):
                self.assertEqual(sum(block) % 2**32, 0)
                self.assertEqual(block[7], -sum(block[:7] + block[8:]) % 2**32)

    def test_lengths(self):
        head, words = self.HEAD, self.RECORDS[:12]
        for length in (0, 119, 121, 108, 132):
            self.assertEqual(self.answer((head * 2)[:length], words), (1, 0))
        for length in (1, 11, 13, 251 * 12, 260 * 12, 251 * 12 - 1):
            self.assertEqual(self.answer(head, (words * 261)[:length]), (1, 0))
        self.assertEqual(len(self.answer(head, words * 250)), 13_312)

    def test_the_first_such_word_and_record(self):
        for places, first in (((1,), 9), ((119,), 127), ((119, 4), 12), ((60, 61), 68)):
            self.assertEqual(self.answer(self.changed(self.HEAD, *((place, 2_000_000) for place in places)), self.RECORDS), (4, first))
        for places, first in (((0,), 0), ((6,), 6), ((12,), 12), ((12, 3), 3)):
            words = self.changed(self.RECORDS[:12] * 13, *((12 * place + 11, 1) for place in places))
            self.assertEqual(self.answer(self.HEAD, words), (5, first))
            words = self.changed(self.RECORDS[:12] * 13, *((12 * place + 3, 2_001) for place in places))
            self.assertEqual(self.answer(self.HEAD, words), (14, first))

    def test_one_refusal_after_the_other(self):
        """Faults of every number, taken away one by one."""
        above = self.changed(self.RECORDS, (3, 2_001))
        head, words = self.changed(self.HEAD, (1, 0)), self.changed(above, (12, 6))
        for split in ((119, 24), (120, 23)):
            self.assertEqual(self.answer(head[:split[0]], words[:split[1]], 0), (1, 0))
        self.assertEqual(self.answer(head, words, 0), (4, 9))
        self.assertEqual(self.answer(self.HEAD, words, 0), (5, 1))
        self.assertEqual(self.answer(self.HEAD, above, 0), (14, 0))
        self.assertEqual(self.answer(self.HEAD, self.RECORDS, 1_023), (11, 0))
        self.assertEqual(len(self.answer(self.HEAD, self.RECORDS, 1_024)), 1_024)

    def test_room(self):
        for count, needed in ((0, 512), (1, 1_024), (10, 1_024), (11, 1_536), (250, 13_312)):
            words = self.RECORDS[:12] * count
            self.assertEqual(len(self.answer(self.HEAD, words, needed)), needed)
            for room in (needed - 1, needed - 512, 0):
                self.assertEqual(self.answer(self.HEAD, words, room), (11, 0))

    def test_the_program_takes_whole_words(self):
        for length in (0, 1, 476, 479, 481, 482, 483, 484, 524, 527, 529):
            self.assertEqual(second.written_hour((self.PARTS + bytes(99))[:length]), b"refused 1 at 0\n")
        self.assertEqual(len(second.written_hour(self.PARTS[:480])), 512)
        self.assertEqual(len(second.written_hour(self.PARTS[:480] + self.PARTS[480:528] * 250)), 13_312)
        self.assertEqual(second.written_hour(self.PARTS[:480] + self.PARTS[480:528] * 251), b"refused 1 at 0\n")

    def test_a_refusal_changes_nothing(self):
        for lengths, number in (((119, 9), 1), ((120, 9), 11)):
            self.assertEqual(second.written(self.PARTS, lengths), b"answer %d at 0 length 0\nMMMMMMMMM" % number)

    def test_read_and_written_again(self):
        """An hour file that keeps rows 1 to 5 and 14, taken apart, gives the same bytes; what is written is read as the same hour. One that
        row 14 refuses is not written."""
        again = refused = 0
        for index in range(3 * len(hours.ROUND)):
            made = hours.made("again", index)
            number, place = answer(made.data)
            if number in (0, 6, 11, 12, 14):
                again, refused = again + (number != 14), refused + (number == 14)
                wanted = b"refused 14 at %d\n" % place if number == 14 else made.data
                self.assertEqual(second.written_hour(to_write.taken_apart(to_write.blocks_of(made.data))), wanted, made.name)
        self.assertGreater(again, 100)
        self.assertGreater(refused, 10)

    def test_what_is_made(self):
        """The maker says what is due, and its hours are read as they were given."""
        for index in range(4 * len(to_write.ROUND)):
            made = to_write.made("due", index)
            wrote = second.written_hour(made.data)
            if made.due:
                self.assertEqual(wrote, b"refused %d at %d\n" % made.due[0], (index, made.name))
            elif made.due is not None:
                second.read_hour(wrote)
                self.assertEqual(to_write.taken_apart(to_write.blocks_of(wrote)), made.data, (index, made.name))


if __name__ == "__main__":
    unittest.main()
