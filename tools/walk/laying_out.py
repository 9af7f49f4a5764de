"""Lays a carried derivation out: the imports that it needs, and one line for each signature and each definition, as far as `rt fmt` leaves
it. Rattle prints a derivation over four times as many lines."""

import re

import renaming

STARTS = re.compile(r"\s*(abbrev |pub |module |use |mod |open |unfolding |unfoldable |--|[^\s()]+ (:|=)( |$))")


def with_imports(text, kits):
    """With the kits imported, and what is used no more imported no more."""
    lines = text.splitlines()
    body = "\n".join(line for line in lines if not line.startswith("use "))
    imports = [f"use {kit}" for kit in kits]
    if "Value." in text and not re.search(r"^use borrow\.Kind\.Value\b", text, re.M):
        imports.append("use borrow.Kind.Value")

    def is_used(line):
        _, name = renaming.called(line) or (None, None)
        qualifier = re.escape(f"{name}.")
        # What stands before it is looked at last: a pattern that begins with plain letters is found ten times as quickly.
        return not name or re.search(rf"{qualifier}(?<![\w'·]{qualifier})", body)

    return "".join(line + "\n" for line in imports + [line for line in lines if is_used(line)])


def one_line_each(text):
    """A line that begins nothing goes on with the one before it, and so does all that stands in brackets."""
    out, depth = [], 0
    for line in text.splitlines():
        if not line.strip():
            if depth == 0:
                out.append("")
            continue
        if depth == 0 and (not out or out[-1] == "" or STARTS.match(line)):
            out.append(line.rstrip())
        else:
            out[-1] += " " + line.strip()
        code = re.sub(r'"[^"]*"', '""', line)
        depth += sum(code.count(bracket) for bracket in "([{") - sum(code.count(bracket) for bracket in ")]}")
    return "".join(without_gaps(line) + "\n" for line in out)


def without_gaps(line):
    """No space and no comma at the inner side of a bracket, where lines were joined."""
    indent = line[: len(line) - len(line.lstrip(" "))]
    return indent + re.sub(r",? \)", ")", line.strip().replace("( ", "("))
