"""What ./sneupelaar says where a stream or a file can't be read or written.

    python3 -m unittest tests/test_office_streams.py       # programs from target/bin
"""

import os
import subprocess
import sys
import tempfile
import unittest
from pathlib import Path

sys.path.insert(0, str(Path(__file__).resolve().parent))
from office_calls import (ANSWERED, CALLS, EACH_PROGRAM, MISSING, PRINTED, REFUSED, ROOT, SEVERAL, TROUBLE, WORDS,  # noqa: E402, F401
                          Case, answers, refused, setUpModule, under_names)
from programs import COMMAND, FULL, asked, opened  # noqa: E402


class CannotWrite(Case):
    """It is said once, however much there is to write, and the status tells."""

    # Each verb, several hours, and help.
    PRINTING = [*([*words, file] for words, file in CALLS.values()), ["settle", *[PRINTED] * 9], ["check", *[PRINTED] * 9], ["--help"]]

    def assert_said(self, why, calls=PRINTING, **streams):
        for words in calls:
            with self.subTest(words):
                status, _, said = asked(*words, **streams)
                self.assertEqual((status, said), (TROUBLE, f"sneupelaar: standard output: {why}\n"))

    def test_full(self):
        """Neither an answer nor the line of a refusal."""
        with opened(FULL) as (full,), tempfile.NamedTemporaryFile() as file:
            file.write(refused("pack")[0])
            file.flush()
            refusing = [[*words, file.name] for words, _ in CALLS.values()]
            self.assert_said("No space left on device", [*self.PRINTING, *refusing], stdout=full)

    def test_closed(self):
        self.assert_said("Bad file descriptor", closing=(1,))

    def test_nobody_reads(self):
        reading, writing = os.pipe()
        os.close(reading)
        try:
            self.assert_said("Broken pipe", stdout=writing)
        finally:
            os.close(writing)

    def test_the_reader_goes_in_the_midst(self):
        for verb in SEVERAL:
            with self.subTest(verb), tempfile.TemporaryFile() as said:
                with subprocess.Popen([COMMAND, verb, *[PRINTED] * 3_000], stdout=subprocess.PIPE, stderr=said) as command:
                    self.assertTrue(command.stdout.readline().startswith(os.fsencode(PRINTED)))
                    command.stdout.close()
                said.seek(0)
                self.assertEqual((command.returncode, said.read()), (TROUBLE, b"sneupelaar: standard output: Broken pipe\n"))


class CannotSay(Case):
    """What isn't heard on standard error changes neither the status nor what is printed."""

    def assert_the_same(self, **streams):
        for verb, (words, file) in CALLS.items():
            with self.subTest(verb):
                self.assertEqual(asked(*words, file, **streams), (ANSWERED, answers()[verb], ""))
                self.assertEqual(asked(*words, data=refused(verb)[0], **streams), (REFUSED, refused(verb)[1], ""))
                self.assertEqual(asked(*words, MISSING, **streams), (TROUBLE, b"", ""))
        self.assertEqual(asked("frobnicate", **streams), (TROUBLE, b"", ""))

    def test_full(self):
        with opened(FULL) as (full,):
            self.assert_the_same(stderr=full)

    def test_closed(self):
        self.assert_the_same(closing=(2,))

    def test_nothing_is_open(self):
        for words, file in EACH_PROGRAM:
            self.assertEqual(asked(*words, file, closing=(0, 1, 2)), (TROUBLE, b"", ""))


class CannotRead(Case):
    def test_standard_input_closed(self):
        for verb, (words, _) in CALLS.items():
            with self.subTest(verb):
                self.assert_not_done(asked(*words, closing=(0,)), "standard input: Bad file descriptor")
        self.assertEqual(asked("settle", PRINTED, closing=(0,)), (ANSWERED, answers()["settle"], ""))
        self.assertEqual(asked("write", WORDS, closing=(0,)), (ANSWERED, answers()["write"], ""))

    def test_standard_input_and_output_closed(self):
        for verb, (words, _) in CALLS.items():
            with self.subTest(verb):
                self.assert_not_done(asked(*words, closing=(0, 1)), "standard input: Bad file descriptor")
        self.assert_not_done(asked("settle", PRINTED, closing=(0, 1)), "standard output: Bad file descriptor")
        self.assert_not_done(asked("write", WORDS, closing=(0, 1)), "standard output: Bad file descriptor")

    def test_standard_input_closed_among_several(self):
        got = asked("settle", PRINTED, "-", PRINTED, closing=(0,))
        self.assertEqual(got, (TROUBLE, under_names([PRINTED] * 2, [answers()["settle"]] * 2),
                               "sneupelaar: standard input: Bad file descriptor\n"))

    def test_a_directory(self):
        for verb, (words, _) in CALLS.items():
            with self.subTest(verb):
                self.assert_not_done(asked(*words, ROOT), f"{ROOT}: Is a directory")

    def test_a_directory_as_standard_input(self):
        """It is closed, since Python doesn't start with one."""
        for verb, (words, _) in CALLS.items():
            with self.subTest(verb), opened(ROOT) as (folder,):
                self.assert_not_done(asked(*words, stdin=folder), "standard input: Bad file descriptor")

    def test_a_directory_as_standard_input_that_is_not_asked_for(self):
        for verb, (words, file) in CALLS.items():
            with self.subTest(verb), opened(ROOT) as (folder,):
                self.assertEqual(asked(*words, file, stdin=folder), (ANSWERED, answers()[verb], ""))

    def test_a_file_that_is_not_there(self):
        for verb, (words, _) in CALLS.items():
            with self.subTest(verb):
                self.assert_not_done(asked(*words, MISSING), f"{MISSING}: No such file or directory")
        self.assert_not_done(asked("settle", ""), ": No such file or directory")
        self.assert_not_done(asked("settle", PRINTED / "x"), f"{PRINTED / 'x'}: Not a directory")

    @unittest.skipIf(os.geteuid() == 0, "root may read every file")
    def test_a_file_that_may_not_be_read(self):
        with tempfile.NamedTemporaryFile() as file:
            os.chmod(file.name, 0)
            for verb, (words, _) in CALLS.items():
                with self.subTest(verb):
                    self.assert_not_done(asked(*words, file.name), f"{file.name}: Permission denied")


if __name__ == "__main__":
    unittest.main()
