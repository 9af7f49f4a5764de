"""Writes the kit of a lent struct: what the rules of the borrow checker ask of a value, said of the struct, from Kit.template."""

import re
from pathlib import Path

TEMPLATE = Path(__file__).resolve().parent / "Kit.template"


def kits(repository, crate):
    """The text of each kit that a crate needs, by the struct's name: a crate's derivations name no other crate's private modules, so that
    every crate that says a lent struct's name has a kit of its own."""
    whole = "\n".join(repository.sources(crate).values())
    needed = [struct for struct in repository.lent.values() if re.search(rf"\b{struct.name}\b", whole)]
    return {struct.name: kit(struct, crate, repository.types(crate)[struct.name].parts) for struct in needed}


def kit(struct, crate, fields):
    """A kit's text, from the struct's fields."""
    home = f"Rattle·{crate}·proofs.proofs" if struct.crate == crate else f"Rattle·{struct.crate}.proofs"
    at = ".".join([home, *filter(None, struct.module.split("/")), struct.name])
    values = [zero(field.split(":", 1)[1].strip()) for field in fields]
    zeros = "".join(f"({value}, " for value in values) + "tt" + ")" * len(values) + " tt"
    text = TEMPLATE.read_text().replace("@AT", at).replace("@ZEROS", zeros).replace("@S", struct.name).replace("@CRATE", crate)
    for word, line in (("pos", "use lib.IntN.{pos}\n"), ("false", "use mathlib.Core.Bool.{false}\n")):
        text = text if word in zeros else text.replace(line, "")
    return text


def zero(kind):
    """The zero of a field's type, in the logic."""
    if kind.startswith("["):
        return "[]"
    return "pos 0" if kind.startswith("i") else "false" if kind == "bool" else "0"
