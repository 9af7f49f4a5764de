"""Starts the built programs, for the tests that look at what they write: those of target/bin, and the C programs of tests/archive. And
starts them, or ./sneupelaar, with streams that let them fail."""

import contextlib
import os
import subprocess
import sys
import tempfile
from collections import namedtuple
from pathlib import Path

HERE = Path(__file__).resolve().parent
BUILT = HERE.parent / "target" / "bin"
COMMAND = HERE.parent / "sneupelaar"
SECONDS = 60
FULL = "/dev/full"
sys.path.insert(0, str(HERE.parent / "office"))
import proved  # noqa: E402
from streams import Trouble  # noqa: E402


class Missing(Exception):
    """There is no such program, and none could be made."""


def made(functions):
    """The folder of the C programs of tests/archive, made anew; `functions`, which they call, are "archive" or
    "hand"."""
    try:
        subprocess.run([HERE / "archive" / "build", functions], check=True)
    except (OSError, subprocess.CalledProcessError) as error:
        raise Missing("the programs of tests/archive could not be made") from error
    return BUILT.parent / functions


def command(name, folder=BUILT):
    """The words that start a program. One of target/bin is proved and built first, where that is still to be done."""
    program = folder.resolve() / name
    if folder == BUILT:
        try:
            proved.command(name)
        except Trouble as trouble:
            raise Missing(str(trouble)) from trouble
    if not program.is_file():
        raise Missing(f"there is no program {program}")
    return [program]


def run(words, data):
    """What a program wrote; anything but a quiet end with status 0 counts as a difference."""
    try:
        ended = subprocess.run(words, input=data, capture_output=True, timeout=SECONDS)
    except subprocess.TimeoutExpired:
        return f"not ended after {SECONDS} s\n".encode()
    except OSError as error:
        return f"not started: {error}\n".encode()
    if ended.returncode != 0 or ended.stderr:
        return ended.stdout + b"status %d, on standard error: %s\n" % (ended.returncode, ended.stderr)
    return ended.stdout


# ---- Streams that fail

# The exit status, the bytes on standard output (None where that was no pipe), and the text on standard error.
Ended = namedtuple("Ended", "status printed said")


def ended(words, stdin=subprocess.DEVNULL, stdout=subprocess.PIPE, stderr=subprocess.PIPE, closing=(), env=None, cwd=HERE.parent):
    """What came of a program that is started with some of its descriptors closed, or none."""
    def close():
        for descriptor in closing:
            os.close(descriptor)

    run = subprocess.run(words, stdin=stdin, stdout=stdout, stderr=stderr, env=env, timeout=SECONDS,
                         preexec_fn=close if closing else None, cwd=cwd)
    return Ended(run.returncode, run.stdout, (run.stderr or b"").decode())


def asked(*words, data=None, **streams):
    """What came of a call of the office's command, whose standard input has these bytes where there are any."""
    if data is None:
        return ended([COMMAND, *words], **streams)
    with given(data) as stdin:
        return asked(*words, stdin=stdin, **streams)


@contextlib.contextmanager
def opened(*paths):
    """Descriptors that are open for reading, or for writing where the path is a device that is full."""
    descriptors = [os.open(path, os.O_WRONLY if str(path) == FULL else os.O_RDONLY) for path in paths]
    try:
        yield descriptors
    finally:
        for descriptor in descriptors:
            os.close(descriptor)


@contextlib.contextmanager
def given(data):
    """A file with these bytes, to be read from its start."""
    with tempfile.TemporaryFile() as file:
        file.write(data)
        file.seek(0)
        yield file
