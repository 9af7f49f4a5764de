"""The first run of ./sneupelaar, with nothing built.

    python3 -m unittest tests/test_office_first_run.py
"""

import os
import re
import shutil
import subprocess
import sys
import tempfile
import time
import unittest
from pathlib import Path

sys.path.insert(0, str(Path(__file__).resolve().parent))
import programs  # noqa: E402
from office_calls import (ANSWERED, CALLS, EACH_PROGRAM, PRINTED, PROGRAMS, ROOT, TEN_MINUTE_SHEET, TEN_MINUTES, TROUBLE,  # noqa: E402, F401
                          Case, answers, printed_by, setUpModule)
from programs import Ended, ended  # noqa: E402


class FirstRun(Case):
    """A copy of what the command needs, with nothing built, and an rt of the test's own, which notes how it is called."""

    # It is told to prove a program in the crate's folder, as rt wants it, leaves alone a program that is there already, and runs it on its own
    # input. It waits until somebody heard its first line, where that is asked for.
    RT = """#!/bin/sh
        here='{here}'
        echo "$*" >> "$here/calls"
        [ "$PWD" = "$here/a root/crates/$2" ] || {{ echo "rt: no crate here" >&2; exit 2; }}
        echo "rt: amount: begins with what a check kept elsewhere"
        echo "rt: chose --jobs 2 for amount"
        echo "fn amount::write: proved"
        echo "library whole: modules loaded=19 checked=0"
        echo "crate amount: modules loaded=0 checked=37"
        echo "logic=proved functions=1 target=x86_64-unknown-linux-gnu"
        echo "words of the prover's own"
        for _ in $(seq 100); do [ -e "$here/waits" ] && sleep 0.1; done
        [ -e "$here/waits" ] && echo "rt: waiting for somebody who hears it"
        echo "crate $2: modules loaded=0 checked=37" >&2
        [ -e "$here/fails" ] && {{ echo "logic=not-proved functions=1" >&2; exit 1; }}
        echo "logic=proved functions=1 target=x86_64-unknown-linux-gnu" >&2
        mkdir -p out
        [ -e "$here/empty" ] || [ -e "out/$2" ] || cp '{built}'/"$2" out/
        echo "rt: running out/$2; to give it other input, run that file yourself" >&2
        [ ! -e "out/$2" ] || "out/$2"
    """

    def setUp(self):
        folder = tempfile.TemporaryDirectory()
        self.addCleanup(folder.cleanup)
        self.folder = Path(folder.name).resolve()
        self.root = self.folder / "a root"
        without = shutil.ignore_patterns("__pycache__")
        for part in (ROOT / "office", ROOT / "tools", *ROOT.glob("crates/*/src")):
            shutil.copytree(part, self.root / part.relative_to(ROOT), ignore=without)
        for part in ("sneupelaar", "crates.txt"):
            shutil.copy2(ROOT / part, self.root / part)
        self.path = self.folder / "bin"
        self.path.mkdir()
        rt = self.path / "rt"
        rt.write_text(self.RT.format(here=self.folder, built=ROOT / "target/bin"))
        rt.chmod(0o755)

    def start(self, *words, path=None):
        env = {**os.environ, "PATH": path or f"{self.path}:{os.environ['PATH']}"}
        return subprocess.Popen([self.root / "sneupelaar", *words], stdin=subprocess.DEVNULL, stdout=subprocess.PIPE,
                                stderr=subprocess.PIPE, env=env)

    def ended(self, *words, **path):
        with self.start(*words, **path) as command:
            printed, said = command.communicate(timeout=programs.SECONDS)
        return Ended(command.returncode, printed, said.decode())

    def proved(self):
        """What rt was told to prove since this was asked last."""
        calls = self.folder / "calls"
        lines = calls.read_text().splitlines() if calls.exists() else []
        calls.write_text("")
        return lines

    def assert_first(self, ended, name, printed):
        """It is proved, which is said of each crate, and only the answer is printed."""
        self.assertEqual((ended.status, ended.printed), (ANSWERED, printed))
        first, *others = ended.said.splitlines()
        self.assertIn(f"sneupelaar: proving {name} ", first)
        self.assertEqual([re.sub(r"\(\d+ s\)\Z", "(N s)", line) for line in others],
                         ["sneupelaar: amount proved (N s)", f"sneupelaar: {name} proved (N s)"])
        self.assertEqual(self.proved(), [f"run {name}"])

    def assert_not_first(self, ended, printed):
        self.assertEqual(ended, (ANSWERED, printed, ""))
        self.assertEqual(self.proved(), [])

    def test_once(self):
        """Each program when it is needed, and never again."""
        for verb, name in (("settle", "statement"), ("explain", "explanation"), ("write", "write_hour")):
            words, file = CALLS[verb]
            with self.subTest(verb):
                self.assert_first(self.ended(*words, file), name, answers()[verb])
                self.assert_not_first(self.ended(*words, file), answers()[verb])
        for verb in ("check", "unpack", "pack"):
            words, file = CALLS[verb]
            with self.subTest(verb):
                self.assert_not_first(self.ended(*words, file), answers()[verb])

    def test_a_verb_that_needs_two(self):
        got = self.ended("unpack", PRINTED)
        self.assertEqual((got.status, got.printed, self.proved()), (ANSWERED, answers()["unpack"], ["run statement", "run write_hour"]))

    def test_a_ten_minute_file(self):
        """Nothing is proved that is for hourly files alone."""
        statement, sheet, file = printed_by("ten_minutes", TEN_MINUTES.read_bytes()), TEN_MINUTE_SHEET.read_bytes(), TEN_MINUTES.read_bytes()
        self.assert_first(self.ended("settle", TEN_MINUTES), "ten_minutes", statement)
        for verb, given, printed in (("settle", TEN_MINUTES, statement), ("check", TEN_MINUTES, b"accepted\n"),
                                     ("unpack", TEN_MINUTES, sheet), ("pack", TEN_MINUTE_SHEET, file)):
            with self.subTest(verb):
                self.assert_not_first(self.ended(verb, given), printed)
        self.assert_not_done(self.ended("explain", "0", TEN_MINUTES), "no explanation")
        self.assertEqual(self.proved(), [])

    def test_both_kinds_in_one_call(self):
        got = self.ended("check", TEN_MINUTES, PRINTED)
        self.assertEqual((got.status, self.proved()), (ANSWERED, ["run ten_minutes", "run statement"]))

    def test_nothing_is_proved_for_what_is_not_understood(self):
        self.assertEqual(self.ended("--help").status, ANSWERED)
        self.assert_not_done(self.ended("frobnicate"))
        self.assertEqual(self.proved(), [])

    def test_lines_are_shown_as_they_come(self):
        """rt goes on when its first line was heard."""
        (self.folder / "waits").touch()
        with self.start("settle", PRINTED) as command:
            heard = [command.stderr.readline(), command.stderr.readline()]
            (self.folder / "waits").unlink()
            printed, said = command.communicate(timeout=programs.SECONDS)
        self.assert_first(Ended(command.returncode, printed, (b"".join(heard) + said).decode()), "statement", answers()["settle"])

    def test_a_source_that_was_changed(self):
        """Also where the program comes out the same, and rt leaves it alone, and where a file was added."""
        self.ended("settle", PRINTED)
        self.proved()
        for source in ("crates/amount/src/lib.rt", "crates.txt", "crates/amount/src/new/more.rt"):
            with self.subTest(source):
                (self.root / source).parent.mkdir(exist_ok=True)
                (self.root / source).touch()
                self.assert_first(self.ended("settle", PRINTED), "statement", answers()["settle"])
                self.assert_not_first(self.ended("settle", PRINTED), answers()["settle"])

    def test_a_source_that_was_changed_while_it_was_proved(self):
        (self.folder / "waits").touch()
        with self.start("settle", PRINTED) as command:
            command.stderr.readline()
            command.stderr.readline()
            time.sleep(0.05)  # a file's time may be some milliseconds behind the clock
            (self.root / "crates/amount/src/lib.rt").touch()
            (self.folder / "waits").unlink()
            command.communicate(timeout=programs.SECONDS)
        self.proved()
        self.assert_first(self.ended("settle", PRINTED), "statement", answers()["settle"])

    def test_a_program_that_was_removed(self):
        self.ended("settle", PRINTED)
        self.proved()
        (self.root / "target/bin/statement").unlink()
        self.assert_first(self.ended("settle", PRINTED), "statement", answers()["settle"])

    def assert_not_proved(self, name):
        """What rt said is all there, nothing is printed, and the next call proves again."""
        for _ in range(2):
            status, printed, said = self.ended(*next(words for words, _ in CALLS.values()), PRINTED)
            self.assertEqual((status, printed), (TROUBLE, b""), said)
            self.assertIn("words of the prover's own\n", said)
            self.assertEqual(said.splitlines()[-1], f"{name} could not be proved and built")
            self.assertEqual(self.proved(), [f"run {name}"])

    def test_what_is_not_proved(self):
        (self.folder / "fails").touch()
        self.assert_not_proved("statement")

    def test_what_is_not_proved_any_more(self):
        """A program from before isn't used."""
        self.ended("settle", PRINTED)
        self.proved()
        (self.folder / "fails").touch()
        (self.root / "crates/amount/src/lib.rt").touch()
        self.assert_not_proved("statement")
        (self.folder / "fails").unlink()
        self.assert_first(self.ended("settle", PRINTED), "statement", answers()["settle"])

    def test_what_is_proved_and_not_there(self):
        (self.folder / "empty").touch()
        self.assert_not_proved("statement")

    def test_a_program_that_does_not_run(self):
        (self.root / "target/bin").mkdir(parents=True)
        for name in PROGRAMS:
            (self.root / "target/bin" / name).write_text("no program\n")
            (self.root / "target/bin" / name).chmod(0o755)
        for words, file in EACH_PROGRAM:
            with self.subTest(words):
                status, printed, said = self.ended(*words, file)
                self.assertEqual((status, printed), (TROUBLE, b""))
                self.assertRegex(said.splitlines()[-1], "sneupelaar: [a-z_]+ (could not be started: |ended without an answer)")

    def test_without_rt(self):
        """A path that has what the command's first lines need, and no more."""
        (self.path / "rt").unlink()
        for name in ("readlink", "python3"):
            (self.path / name).symlink_to(shutil.which(name))
        for words, file in EACH_PROGRAM:
            with self.subTest(words):
                status, printed, said = self.ended(*words, file, path=str(self.path))
                self.assertEqual((status, printed), (TROUBLE, b""))
                self.assertRegex(said, "\nsneupelaar: rt, the Rattle toolchain, could not be started: No such file or directory\n\\Z")


if __name__ == "__main__":
    unittest.main()
