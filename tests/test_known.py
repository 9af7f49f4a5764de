"""What the built programs answer where the answer is known by hand, without the second program.

    python3 -m unittest tests/test_known.py       # programs from target/bin; those of tests/archive are made

The files of tests/known.py, the printed case, an hour with finals of its own and one with an import in buffers of several lengths, a
schedule above the maximum before a buffer that is too short, members to be explained, hours to be written, and text amounts, document 01's
figures among them.
"""

import struct
import sys
import unittest
from pathlib import Path

HERE = Path(__file__).resolve().parent
sys.path.insert(0, str(HERE))
import known  # noqa: E402
import programs  # noqa: E402

EXAMPLES = HERE.parent / "examples"
PRINTED = (EXAMPLES / "printed.hour").read_bytes()
NEUTRALITY = (EXAMPLES / "neutrality.hour").read_bytes()
COMMANDS = {}


def setUpModule():
    folder = programs.made("archive")
    COMMANDS.update({name: programs.command(name) for name in ("statement", "explanation", "write_hour")})
    COMMANDS.update({name: programs.command(name, folder) for name in ("settled", "explained", "written", "amounts")})


def printed_by(name, data, *words):
    return programs.run([*COMMANDS[name], *map(str, words)], data).decode()


class Files(unittest.TestCase):
    def test_statements(self):
        for name, line, data in known.cases():
            with self.subTest(name):
                first, *members = printed_by("statement", data).splitlines()
                self.assertEqual(first, line)
                self.assertEqual(len(members), 0 if line.startswith("refused") else int(line.split()[3]))

    def test_answers_to_a_caller_in_c(self):
        for name, line, data in known.cases():
            with self.subTest(name):
                answer = line.replace("refused", "answer") if line.startswith("refused") else "answer 0 at 0"
                self.assertEqual(printed_by("settled", data).splitlines()[0], answer)


class Buffers(unittest.TestCase):
    """Places past the hour's members and records, and all where the hour is refused, are what they were."""

    BODIES = "bodies 32:480 544:480" + " 0:0" * 27 + "\n"

    def settled(self, lines, charges, finals, shares, deviations):
        """What must be printed of buffers that hold this."""
        return (f"charges{charges}\nfinals{finals}\nshares{shares}\ndeviations{deviations}\nlines{lines}\n" + self.BODIES)

    def untouched(self, number, lengths):
        lines, *others = lengths
        return f"answer {number} at 0\nufe 0 0 0 0 0 0 0 0\n" + self.settled(" 77:77" * lines, *(" 77" * length for length in others))

    def test_usual_lengths(self):
        self.assertEqual(printed_by("settled", PRINTED), "answer 0 at 0\nufe 300000 0 0 0 0 0 0 0\n" + self.settled(
            " 5000000000:1 -5000000000:1" + " 77:77" * 30, " 500 -500" + " 77" * 30, " 500 -500" + " 77" * 30,
            " 0 300000" + " 77" * 248, " 1000000 1300000" + " 77" * 248))

    def test_just_long_enough(self):
        self.assertEqual(printed_by("settled", PRINTED, 2, 2, 2, 2, 2), "answer 0 at 0\nufe 300000 0 0 0 0 0 0 0\n" + self.settled(
            " 5000000000:1 -5000000000:1", " 500 -500", " 500 -500", " 0 300000", " 1000000 1300000"))

    def test_finals_that_are_not_the_charges(self):
        """Worked by hand in examples/neutrality.md; the finals have two places more than the members."""
        self.assertEqual(printed_by("settled", NEUTRALITY, 4, 4, 6, 5, 5), "answer 0 at 0\nufe 0 0 0 0 0 0 0 0\n" + self.settled(
            " 200000000:1 -100000000:2 -20000000:1 0:1", " 20 -10 -2 0", " 20 -14 -5 -1 77 77", " 0 0 0 0 0",
            " 200000 20000 0 100000 0"))

    def test_an_import(self):
        """Worked by hand in tests/known.py."""
        self.assertEqual(printed_by("settled", known.import_hour().encode(), 2, 2, 2, 2, 2), "answer 0 at 0\nufe 100000 0 0 0 0 0 0 0\n" +
                         self.settled(" 950000000:1 100000000:1", " 95 10", " 95 -95", " 0 100000", " 950000 0"))

    def test_a_place_short(self):
        for short in range(5):
            lengths = [1 if place == short else 2 for place in range(5)]
            with self.subTest(lengths):
                self.assertEqual(printed_by("settled", PRINTED, *lengths), self.untouched(11, lengths))

    def test_a_schedule_above_the_maximum_goes_before_short_buffers(self):
        """The printed case with a schedule of 2,001 kWh, and with one of 2,000, which is the maximum."""
        above, at = (known.words(known.hours.printed_case().blocks(), (*known.field(0, 3), kwh)) for kwh in (2_001, 2_000))
        for lengths in ((32, 32, 32, 250, 250), (2, 2, 2, 2, 2), (1, 2, 2, 2, 2), (2, 2, 2, 2, 1), (0, 0, 0, 0, 0)):
            with self.subTest(lengths):
                self.assertEqual(printed_by("settled", above, *lengths), self.untouched(14, lengths))
                self.assertEqual(printed_by("settled", at, *lengths).splitlines()[0], f"answer {0 if min(lengths) > 1 else 11} at 0")

    def test_no_demand_goes_before_short_buffers(self):
        data = known.idle_hour(1_000, (1, 1)).encode()
        for lengths in ((32, 32, 32, 250, 250), (3, 3, 3, 1, 1), (3, 3, 2, 1, 1), (2, 3, 3, 1, 1), (0, 0, 0, 0, 0)):
            with self.subTest(lengths):
                self.assertEqual(printed_by("settled", data, *lengths), self.untouched(12, lengths))


class Statements(unittest.TestCase):
    """Both columns, of document 02's printed case and of hours that are worked by hand in examples/neutrality.md and tests/known.py."""

    def test_finals(self):
        self.assertEqual(printed_by("statement", PRINTED), "hour 7 members 2 records 2\n"
                         "00          +5.00          +5.00\n01          -5.00          -5.00\n")
        self.assertEqual(printed_by("statement", NEUTRALITY), "hour 1402 members 4 records 5\n"
                         "00          +0.20          +0.20\n01          -0.10          -0.14\n"
                         "02          -0.02          -0.05\n03          +0.00          -0.01\n")

    def test_an_import(self):
        self.assertEqual(printed_by("statement", known.import_hour().encode()), "hour 7 members 2 records 2\n"
                         "00          +0.95          +0.95\n01          +0.10          -0.95\n")


class Explained(unittest.TestCase):
    """Document 02, A5; worked by hand in tests/known.py and on the pages of examples/."""

    NAMES = ("none", "generation", "load", "import", "export", "share")

    def called(self, text, member):
        """The line that program `explained` must print where program `explanation` prints this."""
        words = text.split()
        if words[0] == "refused":
            return f"member {member} answer {words[1]} at {words[3]} heads 0 0 0 0 0 decided 0\n"
        return f"member {member} answer 0 at 0 heads {' '.join(words[1:10:2])} decided {self.NAMES.index(words[-1])}\n"

    def test_explanations(self):
        for name, text, data in known.cases_to_explain():
            with self.subTest(name):
                self.assertEqual(printed_by("explanation", data), text)

    def test_answers_to_a_caller_in_c(self):
        for name, text, data in known.cases_to_explain():
            if len(data) >= 4:
                with self.subTest(name):
                    member = int.from_bytes(data[:4], "little")
                    self.assertEqual(printed_by("explained", data[4:], member), self.called(text, member))

    def test_every_member_in_one_start(self):
        """The two of the printed case, and of all other numbers that are asked about none is a member's."""
        first, second, *others = printed_by("explained", PRINTED).splitlines()
        self.assertEqual(first, "member 0 answer 0 at 0 heads 5000000000 0 0 0 0 decided 1")
        self.assertEqual(second, "member 1 answer 0 at 0 heads 0 -6500000000 0 0 1500000000 decided 2")
        self.assertEqual(others, [f"member {member} answer 13 at 0 heads 0 0 0 0 0 decided 0"
                                  for member in (*range(2, 34), 255, 256, 2_147_483_648, 4_294_967_295)])


class Written(unittest.TestCase):
    """Document 02, A2."""

    # The printed case, word by word: hour 7, two members, a zone at 5,000, an area; a generator of member 0 and a load of member 1.
    HEAD = struct.pack("<120I", 7, 2, 1, 1, 5_000, *[0] * 115)
    RECORDS = struct.pack("<24I", 1, 0, 0, 1_000, 900, 0, 0, 0, 2_000, 10_000, 10_000, 0, 2, 1, 0, 1_000, 870, *[0] * 7)

    def called(self, data, *lengths):
        """What the call from C answers, as the program `written` prints it: a line, and the file buffer."""
        line, buffer = programs.run([*COMMANDS["written"], *map(str, lengths)], data).split(b"\n", 1)
        return line.decode(), buffer

    def test_the_printed_case(self):
        self.assertEqual(programs.run(COMMANDS["write_hour"], self.HEAD + self.RECORDS), PRINTED)
        self.assertEqual(self.called(self.HEAD + self.RECORDS, 120, 1_024), ("answer 0 at 0 length 1024", PRINTED))

    def test_files(self):
        for name, wanted, data in known.cases_to_write():
            with self.subTest(name):
                self.assertEqual(programs.run(COMMANDS["write_hour"], data), wanted)

    def test_answers_to_a_caller_in_c(self):
        """With a buffer that is long enough for any hour; parts of words and inputs for which there is no room are the program's."""
        for name, wanted, data in known.cases_to_write():
            if len(data) % 4 == 0 and len(data) <= 4 * 4_096:
                with self.subTest(name):
                    refused = wanted.decode().strip().replace("refused", "answer") if wanted.startswith(b"refused") else None
                    line, buffer = self.called(data)
                    self.assertEqual(line, f"{refused} length 0" if refused else f"answer 0 at 0 length {len(wanted)}")
                    self.assertEqual(buffer, (b"" if refused else wanted).ljust(13_312, b"M"))

    def test_lengths(self):
        """Bytes past the last block, and all where the hour is refused, are what they were. The head's length goes before the file's."""
        data = self.HEAD + self.RECORDS
        for lengths, answer in (((120, 1_025), 0), ((120, 1_023), 11), ((120, 512), 11), ((120, 0), 11),
                                ((119, 1_024), 1), ((121, 1_024), 1), ((108, 1_024), 1), ((132, 1_024), 1), ((0, 0), 1)):
            with self.subTest(lengths):
                wrote = b"" if answer else PRINTED
                self.assertEqual(self.called(data, *lengths),
                                 (f"answer {answer} at 0 length {len(wrote)}", wrote.ljust(lengths[1], b"M")))

    def test_a_schedule_above_the_maximum(self):
        """It goes before a file that is too short, and after the head's length; at the maximum the printed case is written. A refused file
        is what it was."""
        for kwh, lengths, answer in ((2_001, (120, 1_024), 14), (2_001, (120, 1_023), 14), (2_001, (120, 0), 14), (2_001, (119, 1_024), 1),
                                     (2_000, (120, 1_023), 11), (2_000, (120, 0), 11)):
            data = bytearray(self.HEAD + self.RECORDS)
            struct.pack_into("<I", data, 4 * (120 + 3), kwh)
            with self.subTest((kwh, lengths)):
                self.assertEqual(self.called(bytes(data), *lengths), (f"answer {answer} at 0 length 0", b"M" * lengths[1]))

    def test_what_is_written_is_settled(self):
        wrote = programs.run(COMMANDS["write_hour"], self.HEAD + self.RECORDS)
        self.assertEqual(printed_by("statement", wrote), printed_by("statement", PRINTED))


class Amounts(unittest.TestCase):
    def test_read_and_written(self):
        self.assertEqual(printed_by("amounts", (HERE / "archive" / "amounts.in").read_bytes()),
                         (HERE / "archive" / "amounts.out").read_text())


if __name__ == "__main__":
    unittest.main()
