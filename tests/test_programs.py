"""What the built programs do when they cannot read or write, the longest input, document 01's figures on lengths and prices, and hours one
behind the other.

    python3 -m unittest tests/test_programs.py       # programs from target/bin

A program cannot set its exit status: it says what failed on standard error, once. test_office.py asks what ./sneupelaar makes of that.
"""

import subprocess
import sys
import unittest
from pathlib import Path

HERE = Path(__file__).resolve().parent
ROOT = HERE.parent
PRINTED = ROOT / "examples" / "printed.hour"
NOTHING_DECIDED = b"generation 0\nload 0\nimport 0\nexport 0\nshare 0\ndecided none\n"
sys.path.insert(0, str(HERE))
import hours  # noqa: E402
import known  # noqa: E402
import programs  # noqa: E402
import second  # noqa: E402
import to_write  # noqa: E402
from programs import FULL, ended, given, opened  # noqa: E402


def ended_of(name, data, **streams):
    """What came of a built program whose standard input has these bytes."""
    with given(data) as stdin:
        return ended(programs.command(name), stdin, **streams)


class CannotRead(unittest.TestCase):
    NAMES = ("statement", "explanation", "write_hour", "ten_minutes")

    def test_a_directory_as_standard_input(self):
        for name in self.NAMES:
            with self.subTest(name), opened(ROOT) as (folder,):
                self.assertEqual(ended(programs.command(name), stdin=folder), (0, b"", "standard input: Is a directory\n"))

    def test_standard_input_closed(self):
        for name in self.NAMES:
            with self.subTest(name):
                self.assertEqual(ended(programs.command(name), closing=(0,)), (0, b"", "standard input: Bad file descriptor\n"))


class CannotWrite(unittest.TestCase):
    """It is said once, however much there is to write."""

    NAMES = ("statement", "trial_figures")

    def test_standard_output_full(self):
        for name in self.NAMES:
            with self.subTest(name), opened(PRINTED, FULL) as (stdin, full):
                self.assertEqual(ended(programs.command(name), stdin, full),
                                 (0, None, "standard output: No space left on device\n"))

    def test_standard_output_closed(self):
        for name in self.NAMES:
            with self.subTest(name), opened(PRINTED) as (stdin,):
                self.assertEqual(ended(programs.command(name), stdin, closing=(1,)),
                                 (0, b"", "standard output: Bad file descriptor\n"))


class CannotWriteAnHour(unittest.TestCase):
    """Neither the longest file there is nor the line of a refusal."""

    def inputs(self):
        """250 records, and none of a head's bytes."""
        hour = hours.Hour(7, 1, [5_000], [[0, 0, 0]], [hours.record(hours.EXPORT, 0, 0)] * 250)
        return to_write.taken_apart(hour.blocks()), b""

    def test_standard_output_full(self):
        for data in self.inputs():
            with self.subTest(len(data)), opened(FULL) as (full,):
                self.assertEqual(ended_of("write_hour", data, stdout=full), (0, None, "standard output: No space left on device\n"))

    def test_standard_output_closed(self):
        for data in self.inputs():
            with self.subTest(len(data)):
                self.assertEqual(ended_of("write_hour", data, closing=(1,)), (0, b"", "standard output: Bad file descriptor\n"))


class CannotExplain(unittest.TestCase):
    """Neither six lines nor the line of a refusal."""

    INPUTS = (hours.question(0, PRINTED.read_bytes()), hours.question(2, PRINTED.read_bytes()), b"")

    def test_standard_output_full(self):
        for data in self.INPUTS:
            with self.subTest(len(data)), opened(FULL) as (full,):
                self.assertEqual(ended_of("explanation", data, stdout=full), (0, None, "standard output: No space left on device\n"))

    def test_standard_output_closed(self):
        for data in self.INPUTS:
            with self.subTest(len(data)):
                self.assertEqual(ended_of("explanation", data, closing=(1,)), (0, b"", "standard output: Bad file descriptor\n"))

    def test_the_longest_input(self):
        """13,316 bytes are read; one more, or a block more, is refused."""
        loads = [hours.record(hours.REAL_TIME_LOAD, 0, 0)] * 260
        longest = hours.question(0, hours.Hour(7, 1, [5_000], [[0, 0, 0]], loads[:250]).encode())
        self.assertEqual(len(longest), 13_316)
        self.assertEqual(ended_of("explanation", longest), (0, NOTHING_DECIDED, ""))
        blocks = hours.question(0, hours.Hour(7, 1, [5_000], [[0, 0, 0]], loads).encode())
        for data in (longest + b"\0", longest + bytes(511), blocks, longest * 9):
            with self.subTest(len(data)):
                self.assertEqual(ended_of("explanation", data), (0, b"refused 1 at 0\n", ""))


class TenMinutes(unittest.TestCase):
    """The statement of a ten-minute file, or the line of a refusal; and the longest file that is read."""

    HELD = (ROOT / "crates" / "ten_minutes" / "stdin").read_bytes()  # the file behind a head: one block of four records
    REFUSED = b"refused 1 at 0\n"

    def of_blocks(self, count):
        """That file with its block of records so many times over."""
        head, held = to_write.blocks_of(self.HELD)
        places = range(1, count + 1)
        return known.words([head, *([*held] for _ in places)], (0, 2, count), *((place, 1, place) for place in places))

    def test_standard_output_full(self):
        for data in (self.HELD, b""):
            with self.subTest(len(data)), opened(FULL) as (full,):
                self.assertEqual(ended_of("ten_minutes", data, stdout=full), (0, None, "standard output: No space left on device\n"))

    def test_standard_output_closed(self):
        for data in (self.HELD, b""):
            with self.subTest(len(data)):
                self.assertEqual(ended_of("ten_minutes", data, closing=(1,)), (0, b"", "standard output: Bad file descriptor\n"))

    def test_the_longest_input(self):
        """8,704 bytes are read; one more, or a block more, is refused. Every member's sum is 16 times that of four records: -1.078, 3.4 and
        23.8 cents."""
        longest = self.of_blocks(16)
        self.assertEqual(len(longest), 8_704)
        self.assertEqual(ended_of("ten_minutes", longest),
                         (0, b"hour 1501 members 3 records 64\n00          -0.17\n01          +0.54\n02          +3.81\n", ""))
        for data in (longest + b"\0", longest + bytes(511), self.of_blocks(17), longest * 9):
            with self.subTest(len(data)):
                self.assertEqual(ended_of("ten_minutes", data), (0, self.REFUSED, ""))

    def test_both_kinds_of_file(self):
        """Each program refuses the other's file by its first word."""
        self.assertEqual(ended_of("ten_minutes", PRINTED.read_bytes()), (0, b"refused 3 at 0\n", ""))
        self.assertEqual(ended_of("statement", self.HELD), (0, b"refused 3 at 0\n", ""))


class LengthsAndPrices(unittest.TestCase):
    """Document 01, "Figures to check by": the last of them, settled by the program that people run."""

    NOTHING = "00          +0.00          +0.00\n"

    def statement(self, price, records):
        """What is printed of an hour of one member and so many loads that are all zero, and the hour's length."""
        loads = [hours.record(hours.REAL_TIME_LOAD, 0, 0)] * records
        data = hours.Hour(7, 1, [price], [[0, 0, 0]], loads).encode()
        return len(data), programs.run(programs.command("statement"), data).decode()

    def test_lengths(self):
        self.assertEqual(self.statement(5_000, 250), (13_312, "hour 7 members 1 records 250\n" + self.NOTHING))
        self.assertEqual(self.statement(5_000, 260), (13_824, "refused 1 at 0\n"))

    def test_prices(self):
        self.assertEqual(self.statement(1_000_000, 0), (512, "hour 7 members 1 records 0\n" + self.NOTHING))
        self.assertEqual(self.statement(1_000_001, 0), (512, "refused 4 at 12\n"))


class OneBehindTheOther(unittest.TestCase):
    """Program `statement` with an argument: hours, each with its length in front, so that one start settles a year."""

    LONGEST, LONGER = 13_312, 13_313  # the longest file, and one byte more, which is the longest hour that is read whole
    REFUSED = b"refused 1 at 0\n"
    HOUR = PRINTED.read_bytes()
    ONE_BLOCK = hours.Hour(7, 1, [5_000], [[0, 0, 0]], []).encode()

    def words(self):
        return [*programs.command("statement"), "each"]

    def printed_of(self, data):
        """What is printed of an input, all of it there at once, and nothing said."""
        with given(data) as stdin:
            status, printed, said = ended(self.words(), stdin)
        self.assertEqual((status, said), (0, ""))
        return printed

    def with_length(self, data, length=None):
        return (len(data) if length is None else length).to_bytes(4, "little") + data

    def test_several(self):
        """Accepted and refused, short and long, and the same again: the room that they are read into keeps nothing of one for the next."""
        files = [hours.made(1, index).data for index in range(60)] + [data for _, _, data in known.of_blocks()]
        files = [data for data in files if len(data) <= self.LONGER]
        files += [self.HOUR, b"", known.hour_of(250).encode(), self.ONE_BLOCK, self.HOUR]
        self.assertEqual(self.printed_of(b"".join(map(self.with_length, files))), b"".join(map(second.statement, files)))

    def test_none(self):
        self.assertEqual(self.printed_of(b""), b"")

    def test_whatever_the_argument_is(self):
        for words in ((), ("",), ("x", "y"), ("--help",)):
            with self.subTest(words), given(self.with_length(self.HOUR)) as stdin:
                wanted = second.statement(self.HOUR) if words else self.REFUSED
                self.assertEqual(ended([*programs.command("statement"), *words], stdin), (0, wanted, ""))

    def test_an_hour_is_answered_before_the_next_one_comes(self):
        """Whoever sends an hour may wait for its statement, and may send it in parts."""
        with subprocess.Popen(self.words(), stdin=subprocess.PIPE, stdout=subprocess.PIPE) as program:
            for data in (self.HOUR, self.ONE_BLOCK, b"", self.HOUR):
                sent, wanted = self.with_length(data), second.statement(data)
                for at in range(0, len(sent), 300):
                    program.stdin.write(sent[at:at + 300])
                    program.stdin.flush()
                self.assertEqual(program.stdout.read(len(wanted)), wanted)
            program.stdin.close()
            self.assertEqual((program.stdout.read(), program.wait()), (b"", 0))

    def test_a_length_of_nothing(self):
        """An hour of no bytes, and the next one is behind it."""
        self.assertEqual(self.printed_of(bytes(4)), self.REFUSED)
        self.assertEqual(self.printed_of(bytes(8) + self.with_length(self.HOUR)), 2 * self.REFUSED + second.statement(self.HOUR))

    def test_cut_short(self):
        """What came is the hour, accepted or refused as a file of that length is."""
        for came in (0, 1, 511, 512, 1_000, 1_023):
            with self.subTest(came):
                self.assertEqual(self.printed_of(self.with_length(self.HOUR[:came], 1_024)), second.statement(self.HOUR[:came]))
        for length in (513, 1_024, self.LONGER, self.LONGER + 1, 2**32 - 1):
            with self.subTest(length):
                self.assertEqual(self.printed_of(self.with_length(self.HOUR) + self.with_length(self.ONE_BLOCK, length)),
                                 second.statement(self.HOUR) + second.statement(self.ONE_BLOCK))

    def test_a_part_of_a_length(self):
        """An hour is due behind it, and nothing comes."""
        for part in (b"\0", b"\0\2", b"\0\4\0", b"\377\377\377"):
            with self.subTest(part):
                self.assertEqual(self.printed_of(part), self.REFUSED)
                self.assertEqual(self.printed_of(self.with_length(self.HOUR) + part), second.statement(self.HOUR) + self.REFUSED)

    def test_the_longest(self):
        """Up to a byte more than a file can have the next hour is found behind it."""
        longest = known.hour_of(250).encode()
        self.assertEqual(len(longest), self.LONGEST)
        for data in (longest, longest + bytes(1)):
            with self.subTest(len(data)):
                self.assertEqual(self.printed_of(self.with_length(data) + self.with_length(self.HOUR)),
                                 second.statement(data) + second.statement(self.HOUR))

    def test_too_long(self):
        """It is refused, and where the next hour begins isn't looked for."""
        for length in (self.LONGER + 1, 13_824, 2**16, 2**24):
            with self.subTest(length):
                data = (known.hour_of(250).encode() + bytes(length))[:length]
                before, behind = self.with_length(self.HOUR), self.with_length(self.HOUR)
                self.assertEqual(self.printed_of(before + self.with_length(data) + behind), second.statement(self.HOUR) + self.REFUSED)

    def test_what_cannot_be_read_or_written(self):
        """It is said once, of however many hours."""
        with opened(ROOT) as (folder,):
            self.assertEqual(ended(self.words(), folder), (0, b"", "standard input: Is a directory\n"))
        self.assertEqual(ended(self.words(), closing=(0,)), (0, b"", "standard input: Bad file descriptor\n"))
        with opened(FULL) as (full,), given(3 * self.with_length(self.HOUR)) as stdin:
            self.assertEqual(ended(self.words(), stdin, full), (0, None, "standard output: No space left on device\n"))
        with given(3 * self.with_length(self.HOUR)) as stdin:
            self.assertEqual(ended(self.words(), stdin, closing=(1,)), (0, b"", "standard output: Bad file descriptor\n"))


if __name__ == "__main__":
    unittest.main()
