"""Ten-minute files and ./sneupelaar: that each verb tells the two kinds of file apart, and what it prints, says and exits with.

    python3 -m unittest tests/test_office_ten_minutes.py       # programs from target/bin
"""

import sys
import tempfile
import unittest
from collections import Counter
from pathlib import Path

sys.path.insert(0, str(Path(__file__).resolve().parent))
import hours  # noqa: E402
import known  # noqa: E402
import ten_minutes  # noqa: E402
import to_write  # noqa: E402
from office_calls import (ANSWERED, EXAMPLES, PRINTED, REFUSED, TEN_MINUTE_SHEET, TEN_MINUTES, Case, answers, checked,  # noqa: E402, F401
                          is_refused, is_ten_minutes, printed_by, settled, setUpModule, under_names, written)
from programs import asked, ended  # noqa: E402

NAMES = ("ten-minutes-1", "ten-minutes-2")

# As examples/ten-minutes.md works them out by hand.
STATEMENTS = (b"hour 1500 members 3 records 4\n00          +0.01\n01          +0.71\n02          +0.02\n",
              b"hour 1501 members 3 records 4\n00          -0.01\n01          +0.03\n02          +0.24\n")


class Examples(Case):
    """Each verb, of files whose answers are known by hand."""

    def test_each_verb(self):
        for name, statement in zip(NAMES, STATEMENTS):
            file, sheet = (EXAMPLES / f"{name}.{kind}" for kind in ("hour", "csv"))
            for verb, given, printed in (("settle", file, statement), ("check", file, b"accepted\n"), ("unpack", file, sheet.read_bytes()),
                                         ("pack", sheet, file.read_bytes())):
                with self.subTest(name, verb=verb):
                    self.assertEqual(asked(verb, given), (ANSWERED, printed, ""))
                    self.assertEqual(asked(verb, data=given.read_bytes()), (ANSWERED, printed, ""))

    def test_semicolons(self):
        sheet = TEN_MINUTE_SHEET.read_bytes().replace(b",", b";")
        self.assertEqual(asked("unpack", "--semicolons", TEN_MINUTES), (ANSWERED, sheet, ""))
        self.assertEqual(asked("pack", data=sheet), (ANSWERED, TEN_MINUTES.read_bytes(), ""))

    def test_one_call_into_the_next(self):
        script = "./sneupelaar unpack examples/ten-minutes-2.hour | ./sneupelaar pack | ./sneupelaar settle"
        self.assertEqual(ended(["bash", "-c", script]), (ANSWERED, STATEMENTS[1], ""))

    def test_both_kinds_in_one_call(self):
        """In whatever order they come."""
        statement = {PRINTED: answers()["settle"], TEN_MINUTES: STATEMENTS[0]}
        for paths in ([PRINTED, TEN_MINUTES], [TEN_MINUTES, PRINTED], [TEN_MINUTES] * 2, [PRINTED, TEN_MINUTES] * 2):
            statements = [statement[path] for path in paths]
            with self.subTest(paths):
                self.assertEqual(asked("settle", *paths), (ANSWERED, under_names(paths, statements), ""))
                self.assertEqual(asked("check", *paths), (ANSWERED, checked(paths, statements), ""))


class WithoutExplanation(Case):
    def test_explain(self):
        """Of a file that is accepted, and of one that is damaged."""
        for data in (TEN_MINUTES.read_bytes(), TEN_MINUTES.read_bytes()[:-1], b"\3\0\0\0"):
            self.assert_not_done(asked("explain", "0", data=data), "standard input: a ten-minute file has no explanation")
        self.assert_not_done(asked("explain", "0", TEN_MINUTES), f"{TEN_MINUTES}: a ten-minute file has no explanation")

    def test_a_member_that_is_no_number(self):
        self.assert_not_done(asked("explain", "one", TEN_MINUTES), "is no member's number")


# ---- Which kind a file is

class ToldApart(Case):
    """By the first word: whatever else is wrong with a file, it is refused as one of that kind."""

    def refused(self, verb, data, line, words):
        self.assertEqual(asked(verb, data=data), (REFUSED, line + b"\n", f"standard input: {line.decode()}: {words}\n"))

    def test_lengths(self):
        hourly, by_ten = "it may have 512 to 13312, in whole blocks of 512", "it may have 512 to 8704, in whole blocks of 512"
        block = TEN_MINUTES.read_bytes()[:512]
        for data, words in ((b"", f"the file has 0 bytes; {hourly}"), (b"\3", f"the file has 1 bytes; {hourly}"),
                            (b"\3\0\0", f"the file has 3 bytes; {hourly}"), (b"\3\0\0\0", f"the file has 4 bytes; {by_ten}"),
                            (b"\3\0\0\1", f"the file has 4 bytes; {hourly}"), (block[:511], f"the file has 511 bytes; {by_ten}"),
                            (block * 17 + b"\0", f"the file has more than 8704 bytes; {by_ten}"),
                            (block * 18, f"the file has more than 8704 bytes; {by_ten}"),
                            (block * 27, f"the file has more than 8704 bytes; {by_ten}")):
            for verb in ("settle", "check", "unpack"):
                with self.subTest(verb, length=len(data)):
                    self.refused(verb, data, b"refused 1 at 0", words)

    def test_marks(self):
        """A file with the first word of the other kind is looked at as that."""
        for path, mark, other, due in ((PRINTED, 3, 2, 4), (TEN_MINUTES, 1, 4, 2)):
            data = known.words(to_write.blocks_of(path.read_bytes()), (0, 0, mark))
            self.refused("settle", data, b"refused 3 at 1", f"block 1: its first word is {other} and must be {due}")

    def test_the_programs_themselves(self):
        """Each refuses the other's files."""
        self.assertEqual(printed_by("statement", TEN_MINUTES.read_bytes()), b"refused 3 at 0\n")
        self.assertEqual(printed_by("ten_minutes", PRINTED.read_bytes()), b"refused 3 at 0\n")
        for count, line in ((160, b"refused 3 at 0\n"), (161, b"refused 1 at 0\n"), (250, b"refused 1 at 0\n")):
            export = hours.record(hours.EXPORT, 0, 0)
            with self.subTest(count):
                self.assertEqual(printed_by("ten_minutes", hours.Hour(7, 1, [0], [[0, 0, 0]], [export] * count).encode()), line)


# ---- Many

class ManyHours(Case):
    """Made files of both kinds, every refusal that a ten-minute file can bring about among them, against the second program."""

    COUNT = 2 * len(ten_minutes.ROUND)

    @classmethod
    def setUpClass(cls):
        folder = tempfile.TemporaryDirectory()
        cls.addClassCleanup(folder.cleanup)
        cls.files = [ten_minutes.made("office", index).data for index in range(cls.COUNT)]
        cls.files += [made.data for made in (hours.made(5, index) for index in range(300)) if is_ten_minutes(made.data)]
        cls.paths, cls.statements = written(folder.name, cls.files), [settled(data) for data in cls.files]
        cls.refusals = [pair for pair in zip(cls.paths, cls.statements) if is_refused(pair[1])]

    def test_what_they_are(self):
        """Both kinds, accepted and refused by each row."""
        reached = Counter((is_ten_minutes(data), int(statement.split()[1]) if is_refused(statement) else 0)
                          for data, statement in zip(self.files, self.statements))
        print("\nfiles of both kinds: " + ", ".join(f"{'ten minutes' if by_ten else 'hourly'}, {number or 'accepted'}: {count}"
                                                    for (by_ten, number), count in sorted(reached.items())))
        self.assertLessEqual({(True, number) for number in range(6)} | {(False, number) for number in (0, 2, 3)}, set(reached))

    def test_settled(self):
        status, printed, said = asked("settle", *self.paths)
        self.assertEqual((status, printed), (REFUSED, under_names(self.paths, self.statements)))
        self.assert_in_words(said, self.refusals)

    def test_checked(self):
        self.assertEqual(asked("check", "-q", *self.paths), (REFUSED, checked(self.paths, self.statements), ""))

    def test_unpacked(self):
        """Of each refusal the first ten-minute file, which has its line and no sheet; of those that are accepted ten, which are packed
        again as the same file."""
        seen = Counter()
        for path, data, statement in zip(self.paths, self.files, self.statements):
            number = statement.split()[1] if is_refused(statement) else 0
            seen[number] += is_ten_minutes(data)
            if not is_ten_minutes(data) or seen[number] > (1 if number else 10):
                continue
            with self.subTest(path):
                status, printed, said = asked("unpack", path)
                self.assert_in_words(said, [(path, statement)] if number else [])
                if number:
                    self.assertEqual((status, printed), (REFUSED, statement))
                else:
                    self.assertEqual(asked("pack", data=printed), (ANSWERED, data, ""))
        self.assertEqual(len(seen), 6)


if __name__ == "__main__":
    unittest.main()
