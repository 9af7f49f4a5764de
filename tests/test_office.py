"""What ./sneupelaar, the office's command, prints, says and exits with, and how it is asked: each verb, names, options and members'
numbers.

    python3 -m unittest tests/test_office.py       # programs from target/bin

What is printed is compared with the built programs and with the second program; tests/test_programs.py asks the programs themselves.
"""

import os
import shutil
import sys
import tempfile
import unittest
from pathlib import Path

sys.path.insert(0, str(Path(__file__).resolve().parent))
import hours  # noqa: E402
import second  # noqa: E402
import to_write  # noqa: E402
from office_calls import (ANSWERED, CALLS, EXAMPLES, MISSING, PRINTED, REFUSED, ROOT, SEVERAL, SHEET, TROUBLE, Case,  # noqa: E402, F401
                          answers, checked, is_refused, is_ten_minutes, printed_by, refused, setUpModule, under_names, written)
from programs import COMMAND, asked, ended  # noqa: E402


# ---- What is printed

class Output(Case):
    """Byte for byte what the built programs print, however the file is given."""

    def test_each_verb(self):
        for verb, (words, file) in CALLS.items():
            wanted = (ANSWERED, answers()[verb], "")
            with self.subTest(verb):
                self.assertEqual(asked(*words, file), wanted)
                self.assertEqual(asked(*words, data=file.read_bytes()), wanted)
                self.assertEqual(asked(*words, "-", data=file.read_bytes()), wanted)

    def test_refused(self):
        """The program's line, and words for it unless nobody wants them."""
        for verb, (words, _) in CALLS.items():
            data, line = refused(verb)
            with self.subTest(verb):
                status, printed, said = asked(*words, data=data)
                self.assertEqual((status, printed), (REFUSED, line))
                self.assert_in_words(said, [("standard input", line)])
                self.assertEqual(asked(*words, "--quiet", data=data), (REFUSED, line, ""))

    def test_examples(self):
        paths = sorted(path for path in EXAMPLES.glob("*.hour") if not is_ten_minutes(path.read_bytes()))
        files = [path.read_bytes() for path in paths]
        statements = [printed_by("statement", data) for data in files]
        self.assertEqual(asked("settle", *paths), (ANSWERED, under_names(paths, statements), ""))
        self.assertEqual(asked("check", *paths), (ANSWERED, checked(paths, statements), ""))
        for path, data in zip(paths, files):
            with self.subTest(path.name):
                sheet, words = path.with_suffix(".csv"), to_write.taken_apart(to_write.blocks_of(data))
                self.assertEqual(asked("unpack", path), (ANSWERED, sheet.read_bytes(), ""))
                self.assertEqual(asked("pack", sheet), (ANSWERED, data, ""))
                self.assertEqual(asked("write", data=words), (ANSWERED, data, ""))
                self.assertEqual(asked("explain", "0", path), (ANSWERED, printed_by("explanation", hours.question(0, data)), ""))

    def test_standard_input_among_several(self):
        names, statements = (PRINTED, "standard input", PRINTED), [answers()["settle"]] * 3
        for verb, printed in (("settle", under_names), ("check", checked)):
            with self.subTest(verb):
                self.assertEqual(asked(verb, PRINTED, "-", PRINTED, data=PRINTED.read_bytes()), (ANSWERED, printed(names, statements), ""))

    def test_one_call_into_the_next(self):
        """An hour that is written or packed, and settled at once, by a pipe on standard input and by one that has a name."""
        for script in ("./sneupelaar write examples/printed.words | ./sneupelaar settle",
                       "./sneupelaar unpack examples/printed.hour | ./sneupelaar pack | ./sneupelaar settle -",
                       "./sneupelaar settle <(./sneupelaar pack examples/printed.csv)"):
            with self.subTest(script):
                self.assertEqual(ended(["bash", "-c", script]), (ANSWERED, answers()["settle"], ""))

    def test_from_another_folder_and_by_a_link(self):
        with tempfile.TemporaryDirectory() as folder:
            link = Path(folder, "a link")
            link.symlink_to(COMMAND)
            shutil.copy(PRINTED, folder)
            self.assertEqual(ended([link, "settle", PRINTED.name], cwd=folder), (ANSWERED, answers()["settle"], ""))


class ManyHours(Case):
    """Made hours, every refusal that a file can bring about among them, against the second program. Those that are damaged so that they
    begin as a ten-minute file are left out: tests/test_office_ten_minutes.py has them."""

    @classmethod
    def setUpClass(cls):
        folder = tempfile.TemporaryDirectory()
        cls.addClassCleanup(folder.cleanup)
        cls.files = [made.data for made in (hours.made(5, index) for index in range(300)) if not is_ten_minutes(made.data)]
        cls.paths, cls.statements = written(folder.name, cls.files), [second.statement(data) for data in cls.files]
        cls.refusals = [pair for pair in zip(cls.paths, cls.statements) if is_refused(pair[1])]

    def one_of_each(self, made, *numbers):
        """Of made inputs and what is due of them the first that is accepted, under 0, and the first of each refusal."""
        first = {}
        for each, due in made:
            first.setdefault(int(due.split()[1]) if is_refused(due) else 0, (each, due))
        self.assertEqual(sorted(first), sorted(numbers))
        return [(number, *each) for number, each in first.items()]

    def one_hour_of_each(self):
        """Number, path, bytes and statement."""
        made = zip(zip(self.paths, self.files), self.statements)
        return [(number, *each, due) for number, each, due in self.one_of_each(made, 0, 1, 2, 3, 4, 5, 6, 12, 14)]

    def test_settled(self):
        """In one call."""
        status, printed, said = asked("settle", *self.paths)
        self.assertEqual((status, printed), (REFUSED, under_names(self.paths, self.statements)))
        self.assert_in_words(said, self.refusals)

    def test_settled_quietly(self):
        self.assertEqual(asked("--quiet", "settle", *self.paths), (REFUSED, under_names(self.paths, self.statements), ""))

    def test_checked(self):
        status, printed, said = asked("check", *self.paths)
        self.assertEqual((status, printed), (REFUSED, checked(self.paths, self.statements)))
        self.assert_in_words(said, self.refusals)

    def test_explained(self):
        for number, path, data, statement in self.one_hour_of_each():
            with self.subTest(number):
                status, printed, said = asked("explain", "0", path)
                self.assertEqual((status, printed), (REFUSED if number else ANSWERED, second.explanation(hours.question(0, data))))
                self.assert_in_words(said, [(path, statement)] if number else [])

    def test_unpacked(self):
        """Packed again it is the same file, also where only the sums can't be made; of other refusals the line is printed."""
        for number, path, data, statement in self.one_hour_of_each():
            with self.subTest(number):
                status, printed, said = asked("unpack", path)
                if number in (0, 6, 12):
                    self.assertEqual((status, said), (ANSWERED, ""))
                    self.assertEqual(asked("pack", data=printed), (ANSWERED, data, ""))
                else:
                    self.assertEqual((status, printed), (REFUSED, statement))
                    self.assert_in_words(said, [(path, statement)])

    def test_written(self):
        inputs = [to_write.made(5, index).data for index in range(200)]
        for number, data, wanted in self.one_of_each(zip(inputs, map(second.written_hour, inputs)), 0, 1, 4, 5, 14):
            with self.subTest(number):
                status, printed, said = asked("write", data=data)
                self.assertEqual((status, printed), (REFUSED if number else ANSWERED, wanted))
                self.assert_in_words(said, [("standard input", wanted)] if number else [])


class Statuses(Case):
    """0 all was answered, 1 something was refused, 2 something could not be read, written or understood. Of one file the status of each
    verb is asked above and, where the file is not there, in CannotRead."""

    def test_of_several(self):
        """The worst of them, wherever it stands, and each other file is answered all the same."""
        empty, statement = "/dev/null", {PRINTED: answers()["settle"], "/dev/null": b"refused 1 at 0\n"}
        for status, files in ((ANSWERED, [PRINTED, PRINTED]), (REFUSED, [PRINTED, empty]), (REFUSED, [empty, PRINTED]),
                              (TROUBLE, [PRINTED, empty, MISSING]), (TROUBLE, [MISSING, ROOT, empty]),
                              (TROUBLE, [empty, MISSING, PRINTED])):
            there = [file for file in files if file in statement]
            for verb, printed in (("settle", under_names), ("check", checked)):
                with self.subTest(verb, files=files):
                    got = asked(verb, *files)
                    self.assertEqual((got.status, got.printed), (status, printed(there, [statement[file] for file in there])))
                    self.assertEqual(len(got.said.splitlines()), len(files) - files.count(PRINTED), got.said)


# ---- How it is asked

class Help(Case):
    def test_the_command(self):
        for words in (["--help"], ["-h"]):
            status, printed, said = asked(*words)
            self.assertEqual((status, said), (ANSWERED, ""))
            for verb in CALLS:
                self.assertIn(f"./sneupelaar {verb} ", printed.decode())

    def test_each_verb(self):
        for verb in CALLS:
            for words in ([verb, "--help"], ["-h", verb], [verb, PRINTED, PRINTED, "-h"]):
                with self.subTest(verb, words=words):
                    status, printed, said = asked(*words)
                    self.assertEqual((status, said), (ANSWERED, ""))
                    self.assertTrue(printed.startswith(f"./sneupelaar {verb} ".encode()), printed)
                    self.assertLessEqual(max(map(len, printed.decode().splitlines())), 80)
        self.assertIn(b"--semicolons", asked("unpack", "--help").printed)


class Words(Case):
    """What the command line may say, and what it may not."""

    def test_what_is_not_understood(self):
        for words in ([], ["-q"], ["frobnicate"], ["frobnicate", "--help"], ["Settle", PRINTED], [""], [PRINTED], ["-1"]):
            with self.subTest(words):
                self.assert_not_done(asked(*words), "see ./sneupelaar --help")

    def test_unknown_options(self):
        for verb, (words, file) in CALLS.items():
            for option in ("--loud", "--semicolon" if verb == "unpack" else "--semicolons"):
                with self.subTest(verb, option=option):
                    self.assert_not_done(asked(*words, option, file), repr(option))
        for option in ("-x", "-qq", "--help=settle", "---"):
            with self.subTest(option):
                self.assert_not_done(asked("settle", option, PRINTED), repr(option))
        self.assert_not_done(asked("--semicolons"), "'--semicolons'")

    def test_a_word_too_many_or_too_few(self):
        for verb, (words, file) in CALLS.items():
            if verb not in SEVERAL:
                with self.subTest(verb):
                    self.assert_not_done(asked(*words, file, file), f"./sneupelaar {verb} --help")
        self.assert_not_done(asked("explain"), "./sneupelaar explain --help")

    def test_options_anywhere(self):
        for words in (["-q", "settle", "/dev/null"], ["settle", "--quiet", "/dev/null"], ["settle", "/dev/null", "-q"]):
            with self.subTest(words):
                self.assertEqual(asked(*words), (REFUSED, b"refused 1 at 0\n", ""))
        wanted = SHEET.read_bytes().replace(b",", b";")
        for words in (["--semicolons", "unpack", PRINTED], ["unpack", PRINTED, "--semicolons"]):
            with self.subTest(words):
                self.assertEqual(asked(*words), (ANSWERED, wanted, ""))

    def test_names_that_look_like_options(self):
        """Behind -- every word is a file's name, but for - alone."""
        with tempfile.TemporaryDirectory() as folder:
            for verb, (words, file) in CALLS.items():
                with self.subTest(verb):
                    shutil.copy(file, Path(folder, "-q"))
                    self.assertEqual(asked(*words, "--", "-q", cwd=folder), (ANSWERED, answers()[verb], ""))
            names = ["--help", "--", "-1", "--semicolons"]
            for name in names:
                shutil.copy(PRINTED, Path(folder, name))
            self.assertEqual(asked("settle", "--", *names, cwd=folder), (ANSWERED, under_names(names, [answers()["settle"]] * 4), ""))

    def test_names_of_any_bytes(self):
        """Blanks, letters of a language, and bytes that are no UTF-8, in any locale: the name is printed as it was given."""
        with tempfile.TemporaryDirectory() as folder:
            names = [os.path.join(os.fsencode(folder), name) for name in (b"two  blanks .hour", "één.hour".encode(), b"\xe9 \xff.hour")]
            for name in names:
                shutil.copy(PRINTED, name)
            for locale in ({}, {"LC_ALL": "C"}, {"LC_ALL": "C.UTF-8"}):
                with self.subTest(locale):
                    self.assertEqual(asked("settle", *names, env={**os.environ, **locale}),
                                     (ANSWERED, under_names(names, [answers()["settle"]] * 3), ""))
            last = names[-1]
            for verb, (words, file) in CALLS.items():
                with self.subTest(verb):
                    shutil.copy(file, last)
                    self.assertEqual(asked(*words, last), (ANSWERED, answers()[verb], ""))
                    data, line = refused(verb)
                    Path(os.fsdecode(last)).write_bytes(data)
                    status, printed, said = asked(*words, last)
                    self.assertEqual((status, printed, len(said.splitlines())), (REFUSED, line, 1))
            self.assert_not_done(asked("settle", last + b"?"), "No such file or directory")


class Members(Case):
    """The number of the member to explain, four bytes of the program's input."""

    def test_every_byte_of_the_number(self):
        """A number none of whose bytes may be lost on the way to the program, zeros and line feeds among them."""
        data = hours.Hour(7, 32, [5_000], [[0, 0, 0]], [hours.record(hours.EXPORT, 31, 0)]).encode()
        for member in (0, 10, 13, 31, 32, 2**8, 10 * 2**8, 2**16, 2**24, 10 * 2**24, 2**31, 2**32 - 1):
            with self.subTest(member):
                printed = second.explanation(hours.question(member, data))
                self.assertEqual(printed == b"refused 13 at 0\n", member > 31)
                self.assertEqual(asked("explain", str(member), "-q", data=data), (REFUSED if member > 31 else ANSWERED, printed, ""))

    def test_each_member_has_its_own(self):
        """Thirty-two exports, each a kWh more over its plan than the one before, beside a load that carries what that leaves over."""
        exports = [hours.record(hours.EXPORT, member, 0, A=1 + member) for member in range(32)]
        data = hours.Hour(7, 32, [1_000], [[0, 5, 0]], [*exports, hours.record(hours.PROFILE_LOAD, 0, 0, S=5, A=5)]).encode()
        for member in (0, 1, 9, 30, 31):
            wanted = second.explanation(hours.question(member, data))
            self.assertIn(b"export %d\n" % (10_000_000 * (1 + member)), wanted)
            with self.subTest(member):
                self.assertEqual(asked("explain", str(member), data=data), (ANSWERED, wanted, ""))

    def test_zeros_in_front(self):
        for number in ("01", "0000000000000000001"):
            with self.subTest(number):
                self.assertEqual(asked("explain", number, PRINTED), (ANSWERED, answers()["explain"], ""))

    def test_a_great_many_zeros_in_front(self):
        self.assertEqual(asked("explain", "0" * 5_000 + "1", PRINTED), (ANSWERED, answers()["explain"], ""))

    def test_what_is_no_number(self):
        for word in ("", "-1", "-0", "+1", " 1", "1 ", "1\n", "one", "1x", "0x1", "1.0", "1_0", "²", "١", "-", "4294967296",
                     "18446744073709551616", "99999999999999999999", "1" + "0" * 5_000):
            with self.subTest(word[:20]):
                self.assert_not_done(asked("explain", word, PRINTED), "is no member's number")


if __name__ == "__main__":
    unittest.main()
