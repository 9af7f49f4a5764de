"""Makes the derivations of functions that lend a struct; README.md, beside this folder, says how and why.

    python3 tools/walk CRATE [FN...]    some functions of a crate, or all that walked.txt has of it
    python3 tools/walk --all            all of walked.txt
    python3 tools/walk --check          makes all in a temporary folder; changes nothing, and exits with 1 where a file stands otherwise
"""

import argparse
import os
import shutil
import sys
import tempfile
import time
from concurrent.futures import ThreadPoolExecutor
from pathlib import Path

import beginning
import making
import standing
from deriving import NotDerived, write
from repository import Repository

ROOT = Path(__file__).resolve().parent.parent.parent
NOT_CARRIED = "SInt Syntax.w16"


def at_a_time():
    """As many as rt: RT_JOBS, or the processors, at most 4."""
    return int(os.environ.get("RT_JOBS", 0)) or min(os.cpu_count() or 1, 4)


def make(repository, wanted):
    """The files of the functions wanted, by path. Where Rattle doesn't derive, the folder with the twin is left for a look at it."""
    folder = Path(tempfile.mkdtemp(prefix="walk-"))
    found = {}
    with ThreadPoolExecutor(at_a_time()) as crates:
        # The last crate first: the higher a crate stands, the longer it takes.
        for files in crates.map(lambda crate: making.made(repository, crate, wanted[crate], folder / crate), reversed(list(wanted))):
            found.update(files)
    found = making.formatted(found, folder / "formatted")
    shutil.rmtree(folder)
    return found


def put(repository, wanted, files):
    """Writes what was made, and begins the proofs that are missing."""
    changed = standing.unlike(ROOT, files)
    for path in changed:
        write(ROOT / path, files[path])
        print(f"walk: wrote {path}")
        if NOT_CARRIED in files[path]:
            print(f"walk: {path}: something is not carried over: look for `{NOT_CARRIED}`", file=sys.stderr)
    for crate, names in wanted.items():
        for name in names:
            proof = ROOT / "crates" / crate / "proofs" / name / "Proof.antt"
            if not proof.exists():
                write(proof, beginning.proof(crate, name, files[making.walk_path(crate, name, "Tie")]))
                print(f"walk: began {proof.relative_to(ROOT)}")
    print(f"walk: {len(files)} files made, {len(changed)} of them changed")


def check(files):
    """Says which files stand otherwise than they are made."""
    unlike, left_over = standing.unlike(ROOT, files), standing.left_over(ROOT, files)
    for path in unlike:
        print(f"walk: {path} is not what {making.COMMAND} makes")
    for path in left_over:
        print(f"walk: {path} says that it's made, and nothing makes it")
    return 1 if unlike or left_over else 0


def main():
    read = argparse.ArgumentParser(prog=making.COMMAND, description=__doc__, formatter_class=argparse.RawDescriptionHelpFormatter)
    read.add_argument("crate", nargs="?")
    read.add_argument("functions", nargs="*")
    read.add_argument("--all", action="store_true")
    read.add_argument("--check", action="store_true")
    words, repository, began = read.parse_args(), Repository(ROOT), time.monotonic()
    if bool(words.crate) + words.all + words.check != 1:
        read.error("a crate, --all or --check")
    if words.crate and words.crate not in repository.walked:
        read.error(f"walked.txt has no crate {words.crate}")
    wanted = {words.crate: words.functions or repository.walked[words.crate]} if words.crate else repository.walked
    for crate, names in wanted.items():
        for name in names:
            if name not in repository.walked[crate] or name not in repository.functions(crate):
                read.error(f"{crate} has no function {name}, or walked.txt doesn't have it")
    try:
        files = make(repository, wanted)
    except NotDerived as reason:
        sys.exit(f"walk: {reason}")
    if not words.check:
        return put(repository, wanted, files)
    status = check(files)
    if status == 0:
        print(f"walk: {len(files)} files stand as they are made ({time.monotonic() - began:.0f} s)")
    return status


if __name__ == "__main__":
    sys.exit(main())
