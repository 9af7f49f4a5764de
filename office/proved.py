"""Builds and starts the proved programs of target/bin, and reads what they print."""

import functools
import os
import re
import select
import shutil
import subprocess
import time

from streams import PROGRESS, Trouble, say
from ten_minute_hour import TenMinuteHour, form_of

ROOT = os.path.dirname(os.path.dirname(os.path.abspath(__file__)))


def path_of(name):
    return os.path.join(ROOT, "target", "bin", name)


# ---- Building

# What rt says of all that is well, and what it is about to do.
WELL = re.compile(r"fn \S+: proved|(?:logic|statements|library|crate|axioms) \S|logic=proved |linked |rt: (?:\w+: begins|chose|running) ")


def is_built(name):
    """Whether the program is there, and was proved and built since a source was changed."""
    return os.path.exists(path_of(name)) and os.path.getmtime(path_of(name)) >= newest_source()


@functools.lru_cache(maxsize=None)
def newest_source():
    """When what the programs are made of was changed last."""
    crates = os.path.join(ROOT, "crates")
    sources = [os.path.join(ROOT, "crates.txt")]
    for crate in os.listdir(crates):
        for folder, _, files in os.walk(os.path.join(crates, crate, "src")):
            sources += [os.path.join(folder, file) for file in files]
    return max(map(os.path.getmtime, sources))


def build(name):
    """Proves a program and all that it rests on, and puts it in place. Each crate that is done is said, and on a terminal the seconds are shown,
    so that people see that something happens. rt runs what it built, on no input, which does no harm."""
    say(f"sneupelaar: proving {name} and all that it rests on, once; this takes some minutes")
    said, proved, began = [], Proved(), time.time()
    folder = os.path.join(ROOT, "crates", name)
    try:
        with subprocess.Popen(["rt", "run", name], cwd=folder, stdin=subprocess.DEVNULL, stdout=subprocess.PIPE,
                              stderr=subprocess.STDOUT) as proving:
            for line in lines_from(proving.stdout.fileno(), lambda: PROGRESS.show(f"at work for {time.time() - began:.0f} s")):
                if not WELL.match(line):
                    said.append(line)
                for done in proved.shown(line):
                    say(f"sneupelaar: {done}")
    except OSError as error:
        raise Trouble(f"rt, the Rattle toolchain, could not be started: {error.strerror}") from error
    PROGRESS.clear()
    made = os.path.join(folder, "out", name)
    if proving.returncode != 0 or not os.path.exists(made):
        raise Trouble("\n".join([*said, f"{name} could not be proved and built"]))
    # A source that was changed in the meantime must be the newer one.
    put(made, path_of(name), began)


def put(made, path, began):
    """Copies a program to its place, whole or not at all: others may start it meanwhile."""
    os.makedirs(os.path.dirname(path), exist_ok=True)
    beside = f"{path}.{os.getpid()}"
    try:
        shutil.copy(made, beside)
        os.utime(beside, (began, began))
        os.replace(beside, path)
    except OSError as error:
        raise Trouble(f"{path} could not be written: {error.strerror}") from error


class Proved:
    """What is shown of rt's lines: that a crate is proved, with the seconds since the one before it; and that rt waits for another."""

    def __init__(self):
        self.crate, self.began = None, time.time()

    def shown(self, line):
        if match := re.match(r"crate (\w+): modules ", line):
            self.crate = match[1]
        elif self.crate and line.startswith("logic=proved "):
            yield f"{self.crate} proved ({time.time() - self.began:.0f} s)"
            self.crate, self.began = None, time.time()
        elif line.startswith("rt: ") and "waiting" in line:
            yield line[4:]


def lines_from(descriptor, waiting):
    """The lines of a pipe as they come; `waiting` is called in each second in which none does."""
    rest = b""
    while True:
        if not select.select([descriptor], [], [], 1)[0]:
            waiting()
            continue
        part = os.read(descriptor, 65536)
        *lines, rest = (rest + part).split(b"\n")
        yield from (line.decode(errors="replace") for line in lines)
        if not part:
            return


# ---- Starting

def command(name):
    """The words that start a program, which is proved and built first where that is still to be done."""
    if not is_built(name):
        build(name)
    return [path_of(name)]


def printed_by(name, data):
    """What a program prints of these bytes."""
    try:
        ended = subprocess.run(command(name), input=data, stdout=subprocess.PIPE)
    except OSError as error:
        raise Trouble(f"{name} could not be started: {error.strerror}") from error
    if ended.returncode != 0 or not ended.stdout:
        raise without_answer(name)
    return ended.stdout


class Statements:
    """The program `statement`, started once for any number of hourly files, with the first of them. It reads an hour, with its length in
    front, to its end before it prints, and the statement's first line says how many follow: so neither waits for the other. The program
    `ten_minutes` takes one file, and is started for each."""

    def __init__(self):
        self.program = None

    def start(self):
        try:
            self.program = subprocess.Popen([*command("statement"), "each"], stdin=subprocess.PIPE, stdout=subprocess.PIPE)
        except OSError as error:
            raise Trouble(f"statement could not be started: {error.strerror}") from error

    def __enter__(self):
        return self

    def __exit__(self, *_):
        if self.program is None:
            return
        try:
            self.program.stdin.close()
        except OSError:
            pass  # it has ended already, which `of` has said
        self.program.stdout.close()
        self.program.wait()

    def of(self, data):
        """The statement of an hour file of either kind."""
        if form_of(data) is TenMinuteHour:
            return printed_by("ten_minutes", data)
        if self.program is None:
            self.start()
        try:
            self.program.stdin.write(len(data).to_bytes(4, "little") + data)
            self.program.stdin.flush()
        except OSError as error:
            raise without_answer("statement") from error
        first = self.line()
        return first if is_refused(first) else b"".join([first, *(self.line() for _ in range(members_in(first)))])

    def line(self):
        line = self.program.stdout.readline()
        if not line.endswith(b"\n"):
            raise without_answer("statement")
        return line


def without_answer(name):
    return Trouble(f"{name} ended without an answer")


# ---- What is printed

def is_refused(printed):
    return printed.startswith(b"refused ")


def members_in(line):
    """How many members the first line of a statement says that the hour has."""
    return int(line.split()[3])


def refusal_in(line):
    """Number and place of a refusal's line."""
    _, number, _, place = line.split()
    return int(number), int(place)
