"""tests/compare, run within a test: with programs that stand in for the built ones."""

import contextlib
import io
import sys
import tempfile
from pathlib import Path
from unittest import mock

import second
from scripts import load_script
from slips import SECOND

compare = load_script(Path(__file__).resolve().parent / "compare")


def run_compare(*words):
    """tests/compare within this process: its status and what it printed."""
    said = io.StringIO()
    with mock.patch.object(sys, "argv", ["compare", *map(str, words)]), contextlib.redirect_stdout(said), contextlib.redirect_stderr(said):
        status = compare.main()
    return status, said.getvalue()


@contextlib.contextmanager
def stand_ins(**texts):
    """A folder with the programs, each of which is the Python text under its name, or the second program."""
    with tempfile.TemporaryDirectory() as folder:
        for name in second.PRINTED:
            program, text = Path(folder, name), texts.get(name, SECOND)
            Path(folder, name + ".py").write_text(text)
            program.write_text(f'#!/bin/sh\nexec "{sys.executable}" "$0.py" {name} "$@"\n')
            program.chmod(0o755)
        yield Path(folder)


def without_starting(command, data):
    """What a right program writes, for tests of many hours."""
    program, *lengths = command
    return second.PRINTED[program.name](data, *([[int(length) for length in lengths]] if lengths else []))
