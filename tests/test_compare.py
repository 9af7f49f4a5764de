"""Tests of tests/compare: it notices a wrong program, and made hours, questions, hours to write and amounts show every slip of
tests/slips.py.

    python3 -m unittest tests/test_compare.py       # a minute
"""

import sys
import tempfile
import unittest
from pathlib import Path
from unittest import mock

HERE = Path(__file__).resolve().parent
sys.path.insert(0, str(HERE))
import fields  # noqa: E402
import hours  # noqa: E402
import programs  # noqa: E402
import questions  # noqa: E402
import second  # noqa: E402
import to_write  # noqa: E402
from comparing import compare, run_compare, stand_ins, without_starting  # noqa: E402
from slips import (AMOUNT_SLIPS, HOUR_SLIPS, IMPORT_SLIPS, QUESTION_SLIPS, SCHEDULE_SLIPS, SECOND, WRITING_SLIPS, slipped,  # noqa: E402
                   wrong_program)


class Noticing(unittest.TestCase):
    """tests/compare notices a wrong program, and the hours show every slip."""

    @staticmethod
    def two_members():
        """All hours have two members, so that few programs are started for them."""
        return mock.patch.object(hours, "ROUND", [hours.honest(hours.printed_case)])

    def test_right_programs(self):
        with stand_ins() as folder:
            status, said = run_compare("--hours", 3, "--amounts", 2_500, "--programs", folder, "--save", folder / "saved")
            self.assertEqual((status, (folder / "saved").exists()), (0, False), said)
            self.assertIn("3 hours of seed 1 against the second program: every byte agreed", said)
            self.assertIn("3 questions of seed 1 against the second program: every byte agreed", said)
            self.assertIn("3 hours to write of seed 1 against the second program: every byte agreed", said)
            self.assertIn("2500 amounts of seed 1 against the second program: every byte agreed", said)
            self.assertNotIn("passed", said)

    def test_a_wrong_program(self):
        wrong = slipped("loads added")
        for name in ("statement", "settled"):
            with stand_ins(**{name: wrong}) as folder, self.two_members():
                status, said = run_compare("--hours", 3, "--programs", folder, "--save", folder / "saved")
                self.assertEqual(status, 1, said)
                self.assertIn("---- second program wrote:", said)
                saved = sorted((folder / "saved").glob("*.hour"))
                self.assertTrue(saved)
                data = saved[0].read_bytes()
                self.assertEqual(data, hours.made(1, int(saved[0].stem.split("-")[-1])).data)

    def test_a_program_that_explains_wrong(self):
        """It is noticed in the members of an hour, and in a question."""
        tie = "a tie to the later head"
        for name, slip, kind in (("explanation", "minus left out", "explanation"), ("explained", "loads added", "explained"),
                                 ("explanation", tie, "question"), ("explained", tie, "asked")):
            with stand_ins(**{name: slipped(slip, QUESTION_SLIPS)}) as folder, self.two_members(), \
                    mock.patch.object(questions, "ROUND", [questions.tie_of(("load", "import"), 1)]):
                status, said = run_compare("--hours", 1, "--programs", folder, "--save", folder / "saved")
                self.assertEqual(status, 1, said)
                data = min((folder / "saved").glob(f"*.{kind}")).read_bytes()
                self.assertNotEqual(len(data) % 512 == 0, name == "explanation", "a question, or a file")

    def test_a_program_that_writes_hours_wrong(self):
        wrong = slipped("word 2 of the last block ten", WRITING_SLIPS)
        for name in ("write_hour", "written"):
            with stand_ins(**{name: wrong}) as folder, self.two_members():
                status, said = run_compare("--hours", 4, "--programs", folder, "--save", folder / "saved")
                self.assertEqual(status, 1, said)
                self.assertIn("bytes, from byte ", said)
                case = min((folder / "saved").glob("*.writing"))
                self.assertEqual(case.read_bytes(), to_write.made(1, int(case.stem.split("-")[-1])).data)
                self.assertEqual(bool([*(folder / "saved").glob("*.again")]), name == "write_hour")

    def test_a_program_that_writes_amounts_wrong(self):
        for name in ("minus zero is read", "cut off from the left"):
            with stand_ins(amounts=slipped(name, AMOUNT_SLIPS)) as folder:
                status, said = run_compare("--amounts", 1_500, "--programs", folder, "--save", folder / "saved")
                self.assertEqual(status, 1, said)
                saved = sorted((folder / "saved").iterdir())
                self.assertTrue(saved)
                case = fields.made(1, int(saved[0].stem.split("-")[-1]))
                self.assertEqual(saved[0].read_bytes(), fields.encode(case))
                self.assertIn(second.amounts(saved[0].read_bytes()).decode("latin-1"), said)

    def test_a_program_that_ends_badly(self):
        for ending in ("\n    sys.exit(3)\n", "\n    print('oh', file=sys.stderr)\n"):
            wrong = dict.fromkeys(("statement", "explanation", "write_hour", "amounts"), SECOND + ending)
            with stand_ins(**wrong) as folder, self.two_members():
                for what in ("--hours", "--amounts"):
                    status, said = run_compare(what, 2, "--programs", folder, "--save", folder / "saved")
                    self.assertEqual(status, 1, said)

    def test_by_hand_the_programs_are_left_out(self):
        with stand_ins(statement="", write_hour="") as folder:
            status, said = run_compare("--hand", "--hours", 5, "--programs", folder)
            self.assertEqual(status, 0, said)
            self.assertIn("taken apart and written again: 5", said)

    def test_no_programs(self):
        with tempfile.TemporaryDirectory() as folder:
            self.assertEqual(run_compare("--programs", folder)[0], 2)

    def test_every_refusal_that_can_occur_is_seen_in_500_hours(self):
        with stand_ins() as folder, mock.patch.object(programs, "run", without_starting):
            for seed in range(2):
                status, said = run_compare("--hand", "--hours", 500, "--amounts", 500, "--seed", seed, "--programs", folder)
                self.assertEqual(status, 0, said)

    def test_it_says_if_something_never_occurred(self):
        with stand_ins() as folder, mock.patch.object(programs, "run", without_starting), \
                mock.patch.object(hours, "ROUND", [hours.honest(hours.few_records)]), \
                mock.patch.object(questions, "ROUND", [questions.decided_by("export", 1)]), \
                mock.patch.object(to_write, "ROUND", [to_write.honest(10)]):
            status, said = run_compare("--hand", "--hours", 500, "--programs", folder)
            self.assertEqual(status, 1)
            self.assertIn("never occurred in 500 hours: refused 1; refused 2; refused 3; refused 4; refused 5; refused 6; refused 12; "
                          "refused 14; 12, one record; 12, several members charged; 12, exact amounts that cancel; "
                          "12, a buffer too short as well; no demand, ", said)
            self.assertIn("never occurred in 500 questions: refused 1; refused 2; refused 3; refused 4; refused 5; refused 6; refused 12; "
                          "refused 13; refused 14; generation decided, charge above 0; ", said)
            self.assertIn("never occurred in 500 hours to write: refused 4; refused 5; refused 14; written, 0 records; "
                          "written, 1 records; written, 9 records; written, 11 records; written, 250 records; 1, no bytes; ", said)
            imports = "".join(f"5 by an import's word 4 at {place}; " for place in
                              ("the first of some records", "a middle record", "the last of some records"))
            imports += "5 by an import's word 4 that is its word 3; "
            schedules = ("14 at the first of some records; 14 at a middle record; 14 at the last of some records; 14 by a kWh; "
                         "14 at the first of two records; 5 where 14 is due as well, at an earlier record; "
                         "5 where 14 is due as well, at a later record; ")
            self.assertEqual(said.count(imports + schedules), 2)
            self.assertIn(f"{schedules}14 where 6 is due as well; 14 where 12 is due as well; 14 where a buffer is too short as well", said)
            self.assertIn("; 5 where 13 is due as well; 14 where 13 is due as well; 6 where 13 is due as well; ", said)
            self.assertIn("; 14 where the file is too short as well\n", said)

    def test_it_says_if_no_schedule_was_near_a_maximum(self):
        """Nor of another kind: no hour has records."""
        with stand_ins() as folder, mock.patch.object(programs, "run", without_starting), \
                mock.patch.object(hours, "ROUND", [hours.honest(hours.no_records)]), \
                mock.patch.object(to_write, "ROUND", [to_write.honest(0)]):
            status, said = run_compare("--hand", "--hours", 500, "--programs", folder)
        self.assertEqual(status, 1)
        scheduled = ("a load in real time", "a load by profile", "an import", "an export")
        self.assertIn("; a generator scheduled at its maximum; a generator scheduled at the highest maximum; "
                      "a generator scheduled a kWh below its maximum; a generator that made more than its maximum; "
                      "a generator whose obligation is above its maximum; "
                      + "".join(f"{name} scheduled, which has no maximum; " for name in scheduled), said)
        self.assertIn("; written, a generator scheduled at its maximum\n", said)

    def test_the_amounts_show_every_slip(self):
        data = b"".join(fields.encode(fields.made(1, index)) for index in range(2_000))
        for name in AMOUNT_SLIPS:
            with self.subTest(name):
                self.assertNotEqual(wrong_program(name, AMOUNT_SLIPS).amounts(data), second.amounts(data))

    def test_the_questions_show_every_slip(self):
        def answers(program, data):
            """Of program `explanation`, and of the call from C."""
            yield program.explanation(data)
            yield program.explained(data[4:], [int.from_bytes(data[:4], "little")])

        cases = sorted((questions.made(1, index).data for index in range(500)), key=len)
        right = [[*answers(second, data)] for data in cases]
        for name in QUESTION_SLIPS:
            wrong = wrong_program(name, QUESTION_SLIPS)
            with self.subTest(name):
                self.assertTrue(any(got != wanted for data, both in zip(cases, right) for got, wanted in zip(answers(wrong, data), both)))

    def test_the_hours_to_write_show_every_slip(self):
        cases = [compare.writing_of(1, index) for index in range(500)]
        cases.sort(key=lambda case: len(case.made.data))
        for name in (*WRITING_SLIPS, *IMPORT_SLIPS, *SCHEDULE_SLIPS, "last word of the head", "last record"):
            wrong = wrong_program(name, {**HOUR_SLIPS, **WRITING_SLIPS})
            with self.subTest(name):
                self.assertTrue(any(wrong.written_hour(case.made.data) != case.file
                                    or wrong.written(case.made.data, (case.made.split, case.made.room)) != case.called
                                    for case in cases))

    def test_the_hours_show_every_slip(self):
        cases = [compare.case_of(1, index) for index in range(500)]
        cases.sort(key=lambda case: len(case.hour.data))  # most slips show in small hours, which are quick
        for name in HOUR_SLIPS:
            wrong = wrong_program(name)
            with self.subTest(name):
                self.assertTrue(any(wrong.statement(case.hour.data) != case.statement
                                    or wrong.settled(case.hour.data, case.lengths) != case.settled
                                    for case in cases))

    def test_programs_run_as_they_are(self):
        """Built ones and scripts; and one that isn't there is said to be missing."""
        with tempfile.TemporaryDirectory() as folder:
            program = Path(folder).resolve() / "statement"
            for data in (b"\x7fELF", b"#!/bin/sh\n"):
                program.write_bytes(data)
                self.assertEqual(programs.command("statement", Path(folder)), [program])
            with self.assertRaises(programs.Missing):
                programs.command("charged", Path(folder))


if __name__ == "__main__":
    unittest.main()
