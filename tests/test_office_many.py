"""Inputs without end, a year in one call, and the line at the terminal that shows how far ./sneupelaar is.

    python3 -m unittest tests/test_office_many.py       # programs from target/bin
"""

import re
import subprocess
import sys
import tempfile
import time
import unittest
from pathlib import Path

sys.path.insert(0, str(Path(__file__).resolve().parent))
import hours  # noqa: E402
import programs  # noqa: E402
import second  # noqa: E402
from office_calls import (ANSWERED, CALLS, MISSING, PRINTED, REFUSED, ROOT, SEVERAL, TROUBLE, Case, answers,  # noqa: E402, F401
                          at_a_terminal, checked, is_refused, measured, screen, setUpModule, under_names, written)
from programs import asked, ended  # noqa: E402


class Bounds(Case):
    """An input without end is answered, and what comes behind the longest file isn't read."""

    # A call takes less than so many calls with an ordinary file, and so many MB.
    TIMES, MEMORY = 50, 200

    def assert_bounded(self, *files, start=None):
        for verb, (words, file) in CALLS.items():
            stdin = start() if start else subprocess.DEVNULL
            with self.subTest(verb):
                got, took, memory = measured(*words, *files, stdin=stdin)
                self.assertLess(took, self.TIMES * measured(*words, file)[1])
                self.assertLess(memory, self.MEMORY)
                if verb == "pack":
                    self.assert_not_done(got, "1048576 bytes")
                else:
                    self.assertEqual((got.status, got.printed), (REFUSED, b"refused 1 at 0\n"))
                    self.assert_in_words(got.said, [(files[0] if files else "standard input", got.printed)])

    def test_a_long_file(self):
        with tempfile.NamedTemporaryFile() as file:
            file.truncate(100_000_000)
            self.assert_bounded(file.name)

    def test_a_file_without_end(self):
        self.assert_bounded("/dev/zero")

    def test_standard_input_without_end(self):
        with open("/dev/zero", "rb") as zeros:
            self.assert_bounded(start=lambda: zeros)

    def test_a_pipe_without_end(self):
        """Whoever writes into it is told that nobody reads any more."""
        writers = []

        def start():
            writers.append(subprocess.Popen(["yes"], stdout=subprocess.PIPE))
            self.addCleanup(writers[-1].kill)
            return writers[-1].stdout

        self.assert_bounded(start=start)
        for writer in writers:
            writer.stdout.close()
            self.assertLess(writer.wait(programs.SECONDS), 0)

    def test_others_are_answered_beside_them(self):
        for verb in SEVERAL:
            with self.subTest(verb):
                got, took, memory = measured(verb, "-q", "/dev/zero", PRINTED, "/dev/zero", PRINTED)
                self.assertLess(took, self.TIMES * measured(verb, PRINTED)[1])
                self.assertLess(memory, self.MEMORY)
                self.assertEqual(got.status, REFUSED)
                self.assertEqual([got.printed.count(line) for line in (b"refused 1 at 0\n", answers()[verb])], [2, 2])


YEAR = 8_760


class Year(Case):
    """A year's hours, each with a number of its own and at a price of its hour of the day, and some that are cut short; in one call."""

    # Runs the command in a Python that writes a line for each program that is started, in whatever way, to the file that is named first.
    STARTS = """if True:
        import runpy, sys
        log, office, *words = sys.argv[1:]
        starting = ("subprocess.Popen", "os.fork", "os.forkpty", "os.posix_spawn", "os.exec", "os.spawn", "os.system", "pty.spawn")
        lines = open(log, "w", buffering=1)
        sys.addaudithook(lambda event, given: event in starting and lines.write(f"{event} {given[:2]}\\n"))
        sys.argv, sys.path[0] = [office, *words], office
        runpy.run_path(office + "/__main__.py", run_name="__main__")
    """

    @classmethod
    def setUpClass(cls):
        folder = tempfile.TemporaryDirectory()
        cls.addClassCleanup(folder.cleanup)
        behind_number = [second.statement(cls.hour(0, of_day)).split(b" ", 2)[2] for of_day in range(24)]
        files = [cls.hour(number, number % 24) for number in range(YEAR)]
        cls.statements = [b"hour %d %s" % (number, behind_number[number % 24]) for number in range(YEAR)]
        for number in range(999, YEAR, 1_000):
            files[number], cls.statements[number] = files[number][:-1], b"refused 1 at 0\n"
        cls.paths = written(folder.name, files)
        cls.printed = under_names(cls.paths, cls.statements)
        cls.refusals = [pair for pair in zip(cls.paths, cls.statements) if is_refused(pair[1])]
        cls.single = [measured("settle", path)[1] for path in cls.paths[:10]]

    @staticmethod
    def hour(number, of_day):
        hour = hours.printed_case()
        hour.number, hour.prices = number, [1_000 * of_day - 5_000]
        return hour.encode()

    def test_seconds(self):
        """At most a tenth of what the hours take one by one."""
        got, took, memory = measured("settle", *self.paths)
        self.assertEqual((got.status, got.printed), (REFUSED, self.printed))
        self.assert_in_words(got.said, self.refusals)
        one_by_one = YEAR * sum(self.single) / len(self.single)
        print(f"\n{YEAR} hours in one call: {took:.2f} s, {memory:.0f} MB; one by one: {one_by_one:.0f} s, "
              f"by the mean of {len(self.single)} calls; the fastest of them {min(self.single):.3f} s", file=sys.stderr)
        self.assertLessEqual(took, one_by_one / 10)

    def test_seconds_of_one(self):
        """Less than ten starts of a Python that does nothing; of each the fastest of ten, by turns."""
        ours, bare = [], []
        for path in self.paths[:10]:
            begun = time.monotonic()
            subprocess.run([sys.executable, "-E", "-S", "-c", ""], check=True)
            bare.append(time.monotonic() - begun)
            ours.append(measured("settle", path)[1])
        print(f"\nan hour in one call: {min(ours):.3f} s; a Python that does nothing: {min(bare):.3f} s", file=sys.stderr)
        self.assertLess(min(ours), 10 * min(bare))

    def test_one_program_is_started(self):
        with tempfile.NamedTemporaryFile() as log:
            words = [sys.executable, "-c", self.STARTS, log.name, str(ROOT / "office"), "settle", "--quiet", *self.paths]
            self.assertEqual(ended(words), (REFUSED, self.printed, ""))
            starts = log.read().decode().splitlines()
        self.assertEqual(len(starts), 1, starts)
        self.assertIn(f"'{ROOT / 'target/bin/statement'}', 'each'", starts[0])

    def test_progress(self):
        """A line at the terminal is written over as the work goes on and is gone in the end; a refusal's words have a line of their own."""
        checks = checked(self.paths, self.statements)
        for verb, what, printed in (("settle", "settled", self.printed), ("check", "checked", checks)):
            with self.subTest(verb):
                got = at_a_terminal(verb, *self.paths)
                self.assertEqual((got.status, got.printed), (REFUSED, printed))
                done = [int(number) for number in re.findall(rf"\r{what} (\d+) of {YEAR}", got.said)]
                self.assertGreater(len(done), 1)
                self.assertEqual(done, sorted(set(done)))
                self.assertLess(done[-1], YEAR)
                *lines, last = screen(got.said)
                self.assertEqual(last, "")
                self.assert_in_words("\n".join(lines), self.refusals)


class Progress(Case):
    MANY = 500

    def test_none_for_a_single_file(self):
        self.assertEqual(at_a_terminal("settle", PRINTED), (ANSWERED, answers()["settle"], ""))

    def test_none_where_nobody_looks(self):
        paths = [PRINTED] * self.MANY
        self.assertEqual(asked("settle", *paths), (ANSWERED, under_names(paths, [answers()["settle"]] * self.MANY), ""))

    def test_statements_at_the_same_terminal(self):
        """Neither they nor what is said has something of the line in it."""
        paths = [PRINTED] * self.MANY + ["/dev/null", MISSING]
        got = at_a_terminal("settle", *paths, output=True)
        self.assertIn(f"settled 1 of {len(paths)}", got.said)
        statements = under_names(paths[:-1], [answers()["settle"]] * self.MANY + [b"refused 1 at 0\n"]).decode()
        *lines, reason, missing, last = screen(got.said)
        self.assertEqual((got.status, lines, last), (TROUBLE, statements.splitlines(), ""))
        self.assert_in_words(reason, [("/dev/null", b"refused 1 at 0\n")])
        self.assertEqual(missing, f"sneupelaar: {MISSING}: No such file or directory")


if __name__ == "__main__":
    unittest.main()
