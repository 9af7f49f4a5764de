"""What stands in the repository: its crates, their functions and types, the structs that are lent, the functions that are walked.

Everything else here asks this, so that a test can hand over a small repository of its own.
"""

import functools
import re
from dataclasses import dataclass
from pathlib import Path

import reading

HERE = Path(__file__).resolve().parent
WALK_OF_TWIN = re.compile(r"^mod Lts$", re.M)


@dataclass(frozen=True)
class Lent:
    """A struct that is lent. Its twin is an array of i16 of the same size: no code here uses that type, so that whatever a derivation
    says of it is said of the struct."""

    name: str
    crate: str
    count: int  # how many i16 stand in its place: half its bytes
    module: str = ""

    @property
    def kit(self):
        """The module that has what the rules ask of the struct."""
        return self.name + "Kit"


def lent_structs(text):
    """Of structs.txt, by name."""
    lines = (line.split("#")[0].split() for line in text.splitlines())
    found = [Lent(words[1], words[0], int(words[2]) // 2, *words[3:]) for words in lines if words]
    if len({struct.count for struct in found}) < len(found):
        raise ValueError("structs.txt: two lent structs of one size, whose twins could not be told apart")
    return {struct.name: struct for struct in found}


class Repository:
    def __init__(self, root, lists=HERE):
        self.root = Path(root)
        self.rests = reading.listed((self.root / "crates.txt").read_text())
        self.walked = reading.listed((lists / "walked.txt").read_text())
        self.lent = lent_structs((lists / "structs.txt").read_text())
        self.reference = re.compile(rf"&\s*('\w+\s+)?(mut\s+)?(\[\s*)*(\w+::)*({'|'.join(self.lent)})\b")

    def below(self, crate):
        """The crates of the repository that a crate rests on, all the way down."""
        found = []
        for name in self.rests[crate]:
            if name in self.rests:
                found += [each for each in [*self.below(name), name] if each not in found]
        return found

    @functools.lru_cache(maxsize=None)
    def sources(self, crate):
        """The text of each module; the crate's own is called by nothing."""
        folder, found = self.root / "crates" / crate / "src", {}
        for path in sorted(folder.rglob("*.rt")):
            module = path.relative_to(folder).with_suffix("").as_posix()
            found["" if module in ("lib", "main") else module] = path.read_text()
        return found

    @functools.lru_cache(maxsize=None)
    def functions(self, crate):
        """By name, `f` or `m/f`."""
        return {within(module, each.name): each for module, text in self.sources(crate).items() for each in reading.functions(text)}

    @functools.lru_cache(maxsize=None)
    def types(self, crate):
        """The structs and enums that a crate and those below it declare, by name."""
        found = {}
        for each in [*self.below(crate), crate]:
            for module, text in self.sources(each).items():
                found.update(reading.declared(text, each, module))
        return found

    def lends(self, crate, name):
        """Whether a struct is lent in the function's signature."""
        return bool(self.reference.search(self.functions(crate)[name].signature))

    def by_hand(self, crate, name):
        """Whether people wrote the walk of this function, so that its contract alone is carried over, for its callers."""
        proof = self.root / "crates" / crate / "proofs" / name / "Proof.antt"
        return proof.exists() and not WALK_OF_TWIN.search(proof.read_text())


def within(module, name):
    return f"{module}/{name}" if module else name
