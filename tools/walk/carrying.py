"""Carries a twin's derivation over to the real crate: from arrays to structs, and to where its modules stand there.

Nothing of this is trusted: the prover checks what comes out against the real function, line by line.
"""

import re

import laying_out
import renaming

ARRAY_READ = re.compile(r"\w+'?\.(?:k|t)-[\w-]*copy-out\b.*?\(λ x\. Unit\)", re.S)
WHOLE_CONTRACT_READ = re.compile(r"^( *(?:pre|post)-read =(?:(?!\n\n).)*?)search Read\.reads", re.M | re.S)
REMARK = re.compile(r"^ *-- antt refused .*\n|^-- the `use` lines.*\n", re.M)


class Carrier:
    """Of one crate: what it lends, and where its modules stand, is its own."""

    def __init__(self, repository, crate):
        self.repository, self.crate = repository, crate
        self.own = f"Rattle·{crate}·proofs.proofs"
        self.in_crate = re.compile(re.escape(self.own) + r"\.([\w.]+)\.(Kinds|Reads|Lts|Tie)\b")
        self.in_others = re.compile(r"Rattle·(\w+)\.proofs\.([\w.]+)\.(Kinds|Reads)\b")

    def carried(self, text):
        text = renaming.with_known_modules(text)
        for struct in self.repository.lent.values():
            text = renaming.of_struct(text, struct.count, struct.kit)
        text = ARRAY_READ.sub(past_the_end, text)
        text = self.in_others.sub(self.moved_there, self.in_crate.sub(self.moved_here, text))
        text = REMARK.sub("", with_readings(text))
        kits = [f"{self.own}.Port.{struct.kit}" for struct in self.repository.lent.values() if struct.kit + "." in text]
        return laying_out.one_line_each(laying_out.with_imports(text, kits))

    def moved_here(self, module):
        """A walk stands below the proof that answers its needs."""
        path, part = module.groups()
        if part in ("Lts", "Tie"):
            return f"{self.own}.{path}.Proof.{part}"
        return f"{self.own}.{self.port(self.crate, path)}{path}.{part}"

    def moved_there(self, module):
        crate, path, part = module.groups()
        return f"Rattle·{crate}.proofs.{self.port(crate, path)}{path}.{part}"

    def port(self, crate, path):
        """Of a contract that lends a struct Rattle makes no kinds and no readings: the made ones stand in Port."""
        name = path.replace(".", "/")
        covered = crate not in self.repository.rests or name not in self.repository.functions(crate)
        return "" if covered or not self.repository.lends(crate, name) else "Port."


def past_the_end(read):
    """What stands past the end of a slice or an array: of an array the empty list, of a struct the one with zeros."""
    kit = re.search(r"\b(\w+Kit)\.R", read.group(0))
    return re.sub(r"List\.\[\](\s+\(λ x\. Unit\))", kit.group(1) + r".dv\1", read.group(0)) if kit else read.group(0)


def with_readings(text):
    """A twin's clauses are all the same, and Rattle searches for how they are read. The real ones are read as they stand: a clause is one
    fact, and where there is none, there is nothing to read."""
    return re.sub(r"search Read\.reads", "Read.r-last _", WHOLE_CONTRACT_READ.sub(r"\1Read.r-top", text))
