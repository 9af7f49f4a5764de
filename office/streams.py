"""What the command reads and writes with. Input is read up to a bound, output is written whole and at once, and what fails is said."""

import os
import time

STANDARD_INPUT = "-"


class Trouble(Exception):
    """Something could not be read, written or understood."""


def hold_standard_streams():
    """Sees to it that 0, 1 and 2 are no other file's descriptors, where one was closed: it can be used for nothing then, as before."""
    for descriptor in (0, 1, 2):
        try:
            os.fstat(descriptor)
        except OSError:
            os.open(os.devnull, os.O_WRONLY if descriptor == 0 else os.O_RDONLY)


# ---- Reading

def read(path, most):
    """At most so many bytes of a file, or of standard input; whatever comes behind them is left alone."""
    try:
        if path == STANDARD_INPUT:
            return read_from(0, most)
        descriptor = os.open(path, os.O_RDONLY)
        try:
            return read_from(descriptor, most)
        finally:
            os.close(descriptor)
    except OSError as error:
        raise Trouble(f"{name_of(path)}: {error.strerror}") from error


def read_from(descriptor, most):
    parts, left = [], most
    while left > 0 and (part := os.read(descriptor, left)):
        parts.append(part)
        left -= len(part)
    return b"".join(parts)


def name_of(path):
    return "standard input" if path == STANDARD_INPUT else path


# ---- Writing

def write(data):
    """On standard output."""
    if PROGRESS.in_its_way:
        PROGRESS.clear()
    try:
        write_to(1, data)
    except OSError as error:
        raise Trouble(f"standard output: {error.strerror}") from error


def say(text):
    """A line on standard error. Where that cannot be written either, the exit status still tells."""
    PROGRESS.clear()
    say_bytes(f"{text}\n".encode("utf-8", "backslashreplace"))


def say_bytes(data):
    try:
        write_to(2, data)
    except OSError:
        pass


def write_to(descriptor, data):
    while data:
        data = data[os.write(descriptor, data):]


class Progress:
    """A line on standard error, where that is a terminal, that is written over as the work goes on and makes way for every other line."""

    EVERY = 0.1  # seconds

    def __init__(self):
        self.wanted, self.in_its_way = os.isatty(2), os.isatty(1)
        self.shown, self.due = False, 0

    def show(self, text):
        now = time.monotonic()
        if self.wanted and now >= self.due:
            say_bytes(f"\r{text}\033[K".encode())
            self.shown, self.due = True, now + self.EVERY

    def clear(self):
        if self.shown:
            say_bytes(b"\r\033[K")
            self.shown = False


PROGRESS = Progress()
