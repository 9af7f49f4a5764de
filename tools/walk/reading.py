"""Reads Rattle's text: as much of it as a twin needs, which is where functions, their clauses and declared types begin and end.

The text has been through `rt fmt`, so that what stands at the left margin can be told by patterns.
"""

import re
from dataclasses import dataclass

FUNCTION = re.compile(r'^ *(?:#\[no_mangle\]\n)?(?:pub )?(?:extern "C" )?fn (\w+)', re.M)
CLAUSE = re.compile(r"\s*(requires|ensures)(\s+\w+)?\s*\{")
CLAUSES_OR_BODY = re.compile(r"\b(?:requires|ensures)\b|\{")
RESULT = re.compile(r"->\s*(.*)$", re.S)
DECLARED = re.compile(r"^(?:pub )?(struct|enum) (\w+)\s*\{(.*?)^\}", re.M | re.S)
LISTED = re.compile(r"\s*(\w+)\s*:(.*)")


@dataclass(frozen=True)
class Function:
    name: str
    signature: str  # from its first word to its result
    clauses: tuple  # of each its kind, and its label or nothing
    body: str  # with its braces
    start: int  # where it stands in the text
    end: int

    @property
    def result(self):
        """Its result's type, or nothing."""
        found = RESULT.search(self.signature)
        return found.group(1) if found else ""


@dataclass(frozen=True)
class Declared:
    kind: str  # struct or enum
    parts: tuple  # its fields or its cases
    crate: str
    module: str


def parts(text):
    """What stands between the commas that are in no bracket."""
    found, depth = [""], 0
    for character in text:
        depth += (character in "([{<") - (character in ")]}>")
        if character == "," and depth == 0:
            found.append("")
        else:
            found[-1] += character
    return tuple(part.strip() for part in found if part.strip())


def past_brace(text, start):
    """Where the text goes on after the brace that opens at `start`."""
    depth = 0
    for at in range(start, len(text)):
        depth += {"{": 1, "}": -1}.get(text[at], 0)
        if depth == 0:
            return at + 1
    raise ValueError("a brace is not closed: " + text[start : start + 60])


def functions(text):
    """The functions of a file, in their order."""
    found = []
    for match in FUNCTION.finditer(text):
        at = CLAUSES_OR_BODY.search(text, match.end()).start()
        signature, clauses = text[match.start() : at].rstrip(), []
        clause = CLAUSE.match(text, at)
        while clause:
            clauses.append((clause.group(1), (clause.group(2) or "").strip()))
            at = past_brace(text, clause.end() - 1)
            clause = CLAUSE.match(text, at)
        body = text.index("{", at)
        end = past_brace(text, body)
        found.append(Function(match.group(1), signature, tuple(clauses), text[body:end], match.start(), end))
    return found


def declared(text, crate, module):
    """The structs and enums of a file, by name."""
    return {name: Declared(kind, parts(re.sub(r"//.*", "", inside)), crate, module) for kind, name, inside in DECLARED.findall(text)}


def listed(text):
    """A list of `name: word word`, a name a line, as crates.txt is; `#` starts a comment."""
    found = (LISTED.match(line.split("#")[0]) for line in text.splitlines())
    return {match.group(1): match.group(2).split() for match in found if match}
