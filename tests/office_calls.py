"""Calls of ./sneupelaar, the office's command, for its tests: what each verb prints of its file, what a call takes, and what a terminal
shows."""

import functools
import os
import pty
import re
import resource
import subprocess
import sys
import tempfile
import threading
import time
import unittest
from pathlib import Path

HERE = Path(__file__).resolve().parent
ROOT = HERE.parent
sys.path.insert(0, str(HERE))
import hours  # noqa: E402
import programs  # noqa: E402
import proved  # noqa: E402
import second  # noqa: E402
from programs import COMMAND, Ended  # noqa: E402

EXAMPLES = ROOT / "examples"
PRINTED, SHEET, WORDS = (EXAMPLES / f"printed.{kind}" for kind in ("hour", "csv", "words"))
TEN_MINUTES, TEN_MINUTE_SHEET = (EXAMPLES / f"ten-minutes-1.{kind}" for kind in ("hour", "csv"))
MISSING = EXAMPLES / "nothing.hour"
PROGRAMS = ("statement", "explanation", "write_hour", "ten_minutes")

ANSWERED, REFUSED, TROUBLE = 0, 1, 2

# Each verb's words before its file, and a file for it.
CALLS = {"settle": (["settle"], PRINTED), "check": (["check"], PRINTED), "explain": (["explain", "1"], PRINTED),
         "pack": (["pack"], SHEET), "unpack": (["unpack"], PRINTED), "write": (["write"], WORDS)}
SEVERAL = ("settle", "check")  # the verbs that take several files
EACH_PROGRAM = [*(CALLS[verb] for verb in ("settle", "explain", "write")), (["settle"], TEN_MINUTES)]  # a call for each program


def setUpModule():
    """What isn't built from the sources that are here is proved and built now, and not in the midst of a test."""
    for name in PROGRAMS:
        proved.command(name)


def printed_by(name, data):
    """What a built program prints."""
    return programs.run(programs.command(name), data)


@functools.lru_cache(maxsize=None)
def answers():
    """What each verb prints of its file. A sheet is no program's: the example is written out by hand."""
    hour, file = PRINTED.read_bytes(), printed_by("write_hour", WORDS.read_bytes())
    return {"settle": printed_by("statement", hour), "check": b"accepted\n", "explain": printed_by("explanation", hours.question(1, hour)),
            "pack": file, "unpack": SHEET.read_bytes(), "write": file}


def is_ten_minutes(file):
    """What a user expects the command to take for a ten-minute file: one that begins with that file's first word."""
    return file[:4] == b"\3\0\0\0"


def settled(file):
    """What the command must print of a file of either kind, by the second program."""
    return second.ten_minutes(file) if is_ten_minutes(file) else second.statement(file)


def refused(verb):
    """An input that a verb's program refuses, and the line that it prints: no bytes at all, and in a sheet a member too many."""
    if verb == "pack":
        return SHEET.read_bytes().replace(b"members,2", b"members,33"), b"refused 4 at 9\n"
    return b"", b"refused 1 at 0\n"


def written(folder, files):
    """The paths of these bytes, written to a folder in their order."""
    paths = [os.path.join(folder, f"{place:04}.hour") for place in range(len(files))]
    for path, data in zip(paths, files):
        Path(path).write_bytes(data)
    return paths


def under_names(paths, statements):
    """Statements of several files as settling prints them."""
    return b"".join(b"%s:\n%s" % (os.fsencode(path), statement) for path, statement in zip(paths, statements))


def is_refused(statement):
    return statement.startswith(b"refused ")


def checked(paths, statements):
    """What checking prints of several files where settling prints these statements."""
    return b"".join(b"%s: %s" % (os.fsencode(path), statement if is_refused(statement) else b"accepted\n")
                    for path, statement in zip(paths, statements))


ROOM = 2**31  # bytes of addresses: far above what a call may take, and too few to bring the machine down


def measured(*words, stdin=subprocess.DEVNULL):
    """What comes of a call, its seconds, and the most memory in MB that it or a program that it started took. A call that goes on and on is
    ended."""
    def hold():
        resource.setrlimit(resource.RLIMIT_AS, (ROOM, ROOM))

    with tempfile.TemporaryFile() as printed, tempfile.TemporaryFile() as said:
        begun = time.monotonic()
        command = subprocess.Popen([COMMAND, *words], stdin=stdin, stdout=printed, stderr=said, preexec_fn=hold)
        timer = threading.Timer(programs.SECONDS, command.kill)
        timer.start()
        _, status, usage = os.wait4(command.pid, 0)
        timer.cancel()
        command.returncode = os.waitstatus_to_exitcode(status)
        took = time.monotonic() - begun
        printed.seek(0)
        said.seek(0)
        return Ended(command.returncode, printed.read(), said.read().decode()), took, usage.ru_maxrss / 1_024


def at_a_terminal(*words, output=False):
    """What comes of a call with a terminal as its standard error, and as its standard output too if that is asked for."""
    own, other = pty.openpty()
    parts = []
    with tempfile.TemporaryFile() as printed:
        command = subprocess.Popen([COMMAND, *words], stdin=subprocess.DEVNULL, stdout=other if output else printed, stderr=other)
        os.close(other)
        timer = threading.Timer(programs.SECONDS, command.kill)
        timer.start()
        try:
            while part := os.read(own, 2**16):
                parts.append(part)
        except OSError:
            pass  # nobody has it open any more
        status = command.wait()
        timer.cancel()
        os.close(own)
        printed.seek(0)
        return Ended(status, printed.read(), b"".join(parts).decode())


def screen(text):
    """The lines that a terminal shows of this in the end."""
    lines, at = [""], 0
    for part in re.findall("\r|\n|\033\\[K|[^\r\n\033]+|\033", text):
        if part == "\r":
            at = 0
        elif part == "\n":
            lines.append("")
        elif part == "\033[K":
            lines[-1] = lines[-1][:at]
        else:
            lines[-1] = lines[-1][:at].ljust(at) + part + lines[-1][at + len(part):]
            at += len(part)
    return lines


class Case(unittest.TestCase):
    def assert_not_done(self, ended, *words):
        """Nothing is printed, and one line says why, with these words in it."""
        self.assertEqual((ended.status, ended.printed or b""), (TROUBLE, b""), ended.said)
        self.assertRegex(ended.said, r"\Asneupelaar: [^\n]+\n\Z")
        for word in words:
            self.assertIn(word, ended.said)

    def assert_in_words(self, said, refusals):
        """Of each refusal, given as path and statement, one line says in words what it is, and nothing else is said."""
        lines = said.splitlines()
        self.assertEqual(len(lines), len(refusals), said)
        for line, (path, statement) in zip(lines, refusals):
            begins = f"{path}: {statement.decode().rstrip()}: "
            self.assertEqual(line[:len(begins)], begins)
            self.assertRegex(line[len(begins):], "[a-z]")
