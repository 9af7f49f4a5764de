"""What ten-minute settling answers where the answer is known by hand (tests/known_ten_minutes.py): of the second program, and of the proved
ones; and that each misreading of tests/ten_minute_slips.py is noticed by the cases that are named for it.

    python3 -m unittest tests/test_known_ten_minutes.py     # programs from target/bin; those of tests/archive are made
"""

import sys
import unittest
from pathlib import Path

sys.path.insert(0, str(Path(__file__).resolve().parent))
import known_ten_minutes as known  # noqa: E402
import programs  # noqa: E402
import second  # noqa: E402
from slips import wrong_program  # noqa: E402
from ten_minute_slips import SLIPS  # noqa: E402

REFUSED_BY_HOURLY = b"refused 3 at 0\n"


def lengths(case):
    """How many charges are lent: none, one too few, just enough, and as many as there can be."""
    return sorted({0, max(0, len(case.charges) - 1), len(case.charges), 32})


def answers(program, case):
    """What a program in Python prints of a case."""
    return [program.ten_minutes(case.data), *(program.charged(case.data, [length]) for length in lengths(case))]


def wanted(case):
    return [known.statement(case), *(known.charged(case, length) for length in lengths(case))]


class Answers(unittest.TestCase):
    def test_names(self):
        """Each says one case."""
        names = [case.name for case in known.cases()]
        self.assertEqual(len(names), len(set(names)))

    def test_of_the_second_program(self):
        for case in known.cases():
            with self.subTest(case.name):
                self.assertEqual(answers(second, case), wanted(case))

    def test_hourly_settling_refuses_ten_minute_files(self):
        for case in known.cases():
            if case.number == 0:
                with self.subTest(case.name):
                    self.assertEqual(second.statement(case.data), REFUSED_BY_HOURLY)

    def test_of_the_proved_programs(self):
        ten_minutes, statement = programs.command("ten_minutes"), programs.command("statement")
        charged = programs.command("charged", programs.made("archive"))
        for case in known.cases():
            with self.subTest(case.name):
                calls = (programs.run([*charged, str(length)], case.data) for length in lengths(case))
                self.assertEqual([programs.run(ten_minutes, case.data), *calls], wanted(case))
                if case.number == 0:
                    self.assertEqual(programs.run(statement, case.data), REFUSED_BY_HOURLY)


class Misreadings(unittest.TestCase):
    def test_each_is_noticed_by_each_of_its_cases(self):
        cases = {case.name: case for case in known.cases()}
        for name, slip in SLIPS.items():
            wrong = wrong_program(name, {name: slip.changes})
            self.assertTrue(slip.noticed, name)
            for each in slip.noticed:
                with self.subTest(name, case=each):
                    self.assertNotEqual(answers(wrong, cases[each]), wanted(cases[each]))


if __name__ == "__main__":
    unittest.main()
