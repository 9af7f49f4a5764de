"""Makes a crate's files: derives, carries over, and gives each text its path and its first line, which says what makes it."""

import subprocess
from pathlib import PurePosixPath

import deriving
from carrying import Carrier
from kits import kits
from twin import Twin

COMMAND = "python3 tools/walk"
MADE_BY = f"-- Made by `{COMMAND} "
CONTRACT = ("Kinds", "Reads")
WALK = ("Lts", "Tie")
SAYS = {
    "Kinds": "the function's contract as its callers and the derivation read it.",
    "Reads": "the function's contract as its callers and the derivation read it.",
    "Lts": "the derivation of the function's body.",
    "Tie": "the needs that the derivation of the function's body leaves.",
}


def contract_path(crate, name, part):
    """In Port, apart from what Rattle itself makes of the function."""
    return f"crates/{crate}/proofs/Port/{name}/{part}.antt"


def walk_path(crate, name, part):
    """Below the proof that people write, which answers the needs."""
    return f"crates/{crate}/proofs/{name}/Proof/{part}.antt"


def kit_path(crate, struct):
    return f"crates/{crate}/proofs/Port/{struct}Kit.antt"


def nodes(crate, paths):
    """The files that declare what stands in Port and in each folder of it."""
    top, declared = PurePosixPath(f"crates/{crate}/proofs/Port"), {}
    for path in map(PurePosixPath, paths):
        while path != top:
            declared.setdefault(path.parent, set()).add(path.stem)
            path = path.parent
    return {f"{folder}.antt": f"{MADE_BY}{crate}`.\n" + "".join(f"pub mod {name}\n" for name in sorted(names))
            for folder, names in declared.items()}


def of_crate(repository, crate):
    """What stands in Port beside the functions' contracts: the kits, and the files that declare all of it."""
    found = {kit_path(crate, struct): text for struct, text in kits(repository, crate).items()}
    lending = [name for name in repository.walked[crate] if repository.lends(crate, name)]
    return {**found, **nodes(crate, [*found, *(contract_path(crate, name, part) for name in lending for part in CONTRACT)])}


def made(repository, crate, names, folder):
    """The text of every file of these functions and of their crate, by path; the twin stands in the folder."""
    twin, carrier, found = Twin(repository, crate, names), Carrier(repository, crate), of_crate(repository, crate)
    for name, derived in deriving.derive(twin, folder).items():
        paths = {part: contract_path(crate, name, part) for part in CONTRACT if repository.lends(crate, name)}
        paths.update({part: walk_path(crate, name, part) for part in WALK if name in twin.in_hand})
        for part, path in paths.items():
            found[path] = f"{MADE_BY}{crate} {name}`: {SAYS[part]}\n{carrier.carried(derived[part])}"
    return found


def formatted(files, folder):
    """The files in the layout of the repository's: `rt fmt` in a folder that has nothing else."""
    for path, text in files.items():
        deriving.write(folder / path, text)
    (folder / "crates.txt").write_text("")
    subprocess.run(["rt", "fmt"], cwd=folder, check=True, stdout=subprocess.DEVNULL)
    return {path: (folder / path).read_text() for path in files}
