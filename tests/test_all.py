"""Tests of tests/all, the runner of all tests, with parts of their own; and of the gate, with an rt and tests of its own.

    python3 -m unittest tests/test_all.py
"""

import contextlib
import io
import os
import shutil
import signal
import subprocess
import sys
import tempfile
import time
import unittest
from pathlib import Path

HERE = Path(__file__).resolve().parent
sys.path.insert(0, str(HERE))
from scripts import load_script  # noqa: E402

all_tests = load_script(HERE / "all")
GUARD = 60  # seconds after which a wait is given up


def shell(name, text):
    return all_tests.Part(name, ["/bin/sh", "-c", text])


def is_running(process):
    """Whether a process is there and has not ended."""
    try:
        return Path(f"/proc/{process}/stat").read_text().rpartition(")")[2].split()[0] != "Z"
    except OSError:
        return False


def until(true):
    """Waits for something to become true."""
    begun = time.monotonic()
    while not true() and time.monotonic() - begun < GUARD:
        time.sleep(0.01)
    return true()


class Parts(unittest.TestCase):
    def run_parts(self, *parts):
        """What all parts come to, and what is printed."""
        said = io.StringIO()
        with contextlib.redirect_stdout(said):
            passed = all_tests.sum_up(all_tests.run_all(parts, dict(os.environ)))
        return passed, said.getvalue()

    def test_every_test_file_is_found(self):
        named = {part.name.split()[-1] for part in all_tests.parts()}
        files = {f"tests/{file}" for file in os.listdir(HERE) if file.startswith("test_") and file.endswith(".py")}
        self.assertGreater(len(files), 8)
        self.assertLessEqual(files, named)

    def test_all_passed(self):
        passed, said = self.run_parts(shell("one", "echo hello"), shell("two", "exit 0"))
        self.assertTrue(passed)
        self.assertRegex(said, r"---- one: passed, \d+ s\nhello\n")
        self.assertTrue(said.endswith("---- 2 parts, 0 fell short; 0 tests skipped\n"), said)

    def test_one_fell_short(self):
        """The others are run all the same."""
        passed, said = self.run_parts(shell("one", "echo why; exit 3"), *(shell(f"part {part}", "exit 0") for part in range(5)))
        self.assertFalse(passed)
        self.assertRegex(said, r"---- one: FELL SHORT, \d+ s\nwhy\n")
        self.assertEqual(said.count(": passed, "), 5)
        self.assertTrue(said.endswith("---- 6 parts, 1 fell short; 0 tests skipped\nfell short: one\n"), said)

    def test_one_that_is_killed_fell_short(self):
        self.assertFalse(self.run_parts(shell("one", "kill -9 $$"))[0])

    def test_skipped_tests_are_counted_over_all_parts(self):
        passed, said = self.run_parts(shell("one", "echo skipped: a: why"), shell("two", "echo skipped: b: reason >&2"))
        self.assertTrue(passed)
        self.assertIn("---- 2 parts, 0 fell short; 2 tests skipped\n", said)
        self.assertIn("\nskipped: a: why\n", said.split("----")[-1])

    # Runs a part whose text is the argument, until it is ended.
    RUNNER = """if True:
        import os, pathlib, signal, sys
        sys.path.insert(0, sys.argv[1])
        from scripts import load_script
        all_tests = load_script(pathlib.Path(sys.argv[1], "all"))
        signal.signal(signal.SIGTERM, all_tests.stopped)
        all_tests.run_all([all_tests.Part("long", ["/bin/sh", "-c", sys.argv[2]])], dict(os.environ))
    """

    def test_ended_early_it_takes_everything_with_it(self):
        with tempfile.TemporaryDirectory() as folder:
            text = f"cd '{folder}'; sleep 600 & echo $! > begun; mv begun process; wait"
            runner = subprocess.Popen([sys.executable, "-c", self.RUNNER, HERE, text], stdout=subprocess.DEVNULL, stderr=subprocess.DEVNULL)
            self.addCleanup(runner.kill)
            self.assertTrue(until(Path(folder, "process").exists))
            process = int(Path(folder, "process").read_text())
            self.assertTrue(is_running(process))
            runner.send_signal(signal.SIGTERM)
            self.assertNotEqual(runner.wait(GUARD), 0)
            self.assertTrue(until(lambda: not is_running(process)))


class Files(unittest.TestCase):
    def run_file(self, text):
        """The status of a test file with this text, and what is printed."""
        with tempfile.TemporaryDirectory() as folder:
            file = Path(folder, "test_of_its_own.py")
            file.write_text(text)
            ended = subprocess.run([sys.executable, HERE / "all", file], capture_output=True, text=True, timeout=GUARD)
            return ended.returncode, ended.stdout + ended.stderr

    CASE = "import unittest\nclass Case(unittest.TestCase):\n"

    def test_passed(self):
        self.assertEqual(self.run_file(f"{self.CASE}    def test(self):\n        pass\n")[0], 0)

    def test_failed(self):
        self.assertEqual(self.run_file(f"{self.CASE}    def test(self):\n        self.fail()\n")[0], 1)

    def test_not_to_be_read(self):
        self.assertEqual(self.run_file("import nothing_of_the_sort\n")[0], 1)

    def test_without_a_test(self):
        status, said = self.run_file(f"{self.CASE}    pass\n")
        self.assertEqual(status, 1)
        self.assertIn("has no test", said)

    def test_skipped(self):
        status, said = self.run_file(f"{self.CASE}    @unittest.skip('the reason')\n    def test(self):\n        pass\n"
                                     "    def test_that_runs(self):\n        pass\n")
        self.assertEqual(status, 0)
        self.assertIn("\nskipped: test_of_its_own.Case.test: the reason\n", said)


class Gate(unittest.TestCase):
    """.ci/run in a folder of its own."""

    def setUp(self):
        folder = tempfile.TemporaryDirectory()
        self.addCleanup(folder.cleanup)
        self.folder = Path(folder.name)
        for file in (".ci/run", "tools/python.sh"):
            (self.folder / file).parent.mkdir()
            shutil.copy(HERE.parent / file, self.folder / file)

    def started(self, rt, tests):
        """The gate with these commands in place of `rt ci` and of tests/all."""
        programs = self.folder / "programs"
        programs.mkdir()
        (programs / "rt").write_text(f"#!/bin/sh\n{rt}\n")
        (programs / "rt").chmod(0o755)
        (self.folder / "tests").mkdir()
        (self.folder / "tests" / "all").write_text(f"import os, sys\nsys.stdout.flush()\nos.execv('/bin/sh', ['sh', '-c', {tests!r}])\n")
        environment = {**os.environ, "PATH": f"{programs}{os.pathsep}{os.environ['PATH']}"}
        return subprocess.Popen([self.folder / ".ci" / "run"], stdout=subprocess.PIPE, stderr=subprocess.STDOUT, env=environment, text=True)

    def ended(self, rt, tests):
        gate = self.started(rt, tests)
        printed, _ = gate.communicate(timeout=GUARD)
        return gate.returncode, printed.splitlines()

    def test_all_is_well(self):
        self.assertEqual(self.ended("echo crates; echo count", "echo tests"), (0, ["crates", "count", "tests", "count"]))

    def test_tests_fell_short(self):
        self.assertEqual(self.ended("echo crates; echo count", "echo tests; exit 1"), (1, ["crates", "count", "tests", "count"]))

    def test_rt_fell_short(self):
        status, printed = self.ended("echo crates; echo count; exit 1", "echo tests")
        self.assertNotEqual(status, 0)
        self.assertEqual(printed, ["crates", "count"])

    def test_a_must_fail_edit_is_bad(self):
        """rt ci passes it; the tests are run all the same."""
        for edits, status in (("8 refused, 2 bad", 1), ("8 refused", 0)):
            with self.subTest(edits):
                self.setUp()
                ok = f"rt: ok; handles allowed: none; must-fail edits: {edits}; every proof and must-fail edit was done in this run"
                ended, printed = self.ended(f"echo '{ok}'; echo count", "echo tests")
                self.assertEqual((ended, printed[-2:]), (status, ["tests", "count"]))

    def test_ended_early_no_test_outlives_it(self):
        gate = self.started("echo count", f"cd '{self.folder}'; echo $$ > begun; mv begun process; exec sleep 600")
        self.addCleanup(gate.stdout.close)
        self.addCleanup(gate.kill)
        self.assertTrue(until((self.folder / "process").exists))
        process = int((self.folder / "process").read_text())
        self.assertTrue(is_running(process))
        gate.send_signal(signal.SIGTERM)
        self.assertNotEqual(gate.wait(GUARD), 0)
        self.assertTrue(until(lambda: not is_running(process)))


if __name__ == "__main__":
    unittest.main()
