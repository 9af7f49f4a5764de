"""Lets Rattle derive a twin's functions, in a folder of its own.

The crates below are handed over as text, in the same run: a stub proves in no time, and a run's start costs more than all of them. Nothing
of target/ is used, so that what is made doesn't hang on what was proved when.
"""

import subprocess
from pathlib import Path

PARTS = ("Kinds", "Reads", "Lts", "Tie")


class NotDerived(Exception):
    """Rattle made no derivation: the twin is no program, or has a form that the borrow checker doesn't cover."""


def write(path, text):
    path.parent.mkdir(parents=True, exist_ok=True)
    path.write_text(text)


def words(twin, files):
    """The command, in the twin's folder."""
    repository, crate = twin.repository, twin.crate
    below = [name for name in repository.below(crate) if f"{name}/src/lib.rt" in files]
    of_kit = {name for each in [crate, *below] for name in repository.rests[each]} - set(repository.rests)
    found = ["rt", "check", f"crates/{crate}"]
    found += ["--deps", ",".join(sorted(of_kit))] if of_kit else []
    for name in below:
        found += ["--lib", f"{name}=crates/{name}/src/lib.rt"]
    return [*found, "--generated", "generated"]


def derive(twin, folder):
    """What Rattle wrote of each function asked for: of each its parts, by name."""
    folder, files = Path(folder), twin.files()
    for path, text in files.items():
        write(folder / "crates" / path, text)
    # Its status says nothing: no function in hand has a proof.
    ended = subprocess.run(words(twin, files), cwd=folder, stdout=subprocess.PIPE, stderr=subprocess.STDOUT, text=True)
    made = folder / "generated" / f"Rattle·{twin.crate}·proofs" / "proofs"
    found = {name: {part: made / name / f"{part}.antt" for part in PARTS} for name in twin.asked}
    missing = [name for name in twin.asked if not all(path.exists() for path in found[name].values())]
    if missing:
        raise NotDerived(f"{twin.crate}: no derivation of {' '.join(missing)} in {folder}, where rt said:\n{ended.stdout[:3000]}")
    return {name: {part: path.read_text() for part, path in paths.items()} for name, paths in found.items()}
