"""What a derivation says of an array, and what it has to say of the struct instead.

The rules of the borrow checker take a value by what is known of it: its row, how it's read, that it's lawful. The struct's kit
(Kit.template) has all of that under the names that an array has, so that carrying a derivation over is putting one phrase for another.
"""

import re

HERE = "𝓤 H A W"  # the model that every law is about

# How the phrases below call the modules of the logic. A derivation calls them so that no two names in it are the same.
MODULES = {
    "borrow.Kind.Array": "Array",
    "borrow.Kind.Value": "Value",
    "borrow.Rule.Array.Init": "Init",
    "borrow.Rule.Array.Rows": "Rows",
    "borrow.Rule.Array.Whole": "ArrayWhole",
    "borrow.Rule.Yields": "Yields",
    "borrow.Table.Copies": "Copies",
    "borrow.Table.Rows": "Rows'",
    "denote.Array": "Array'",
    "denote.Signed": "DenSigned",
    "mathlib.Core.Path": "Path'",
    "mir.Syntax": "Syntax",
}
IMPORT = re.compile(r"use (\S+?)(?: as (\S+))?$")
QUALIFIER = re.compile(r"(?<![\w'·.\-])([A-Z]\w*'*)\.(?=[\w\[_])")


def called(line):
    """The module of an import, and what it's called there; nothing for any other line."""
    found = IMPORT.match(line)
    return found and (found.group(1), found.group(2) or found.group(1).split(".")[-1])


def with_known_modules(text):
    """The derivation with the modules of the logic called as the phrases call them."""
    lines, other = text.splitlines(), {}
    for at, line in enumerate(lines):
        module, name = called(line) or (None, None)
        if module in MODULES:
            other[name] = MODULES[module]
            lines[at] = f"use {module} as {MODULES[module]}"

    def known(qualifier):
        return other.get(qualifier.group(1), qualifier.group(1)) + "."

    return "".join((line if line.startswith("use ") else QUALIFIER.sub(known, line)) + "\n" for line in lines)


def phrases(count, kit):
    """Of an array of so many i16 and of the struct, in this order: a phrase stands before those that are part of it."""
    number, kind = "(DenSigned.SInt Syntax.w16)", f"Syntax.tyArray (Syntax.tyInt Syntax.w16) {count}"
    element = f"(Array.eSInt Syntax.w16) (Array.eSInt-laws Syntax.w16) {count}"
    return [
        (f"Array.arr-yields {HERE} {element}", f"{kit}.yields {HERE}"),
        (f"Array.arr-reads {HERE} {element}", f"{kit}.reads {HERE}"),
        (f"Array.pArr {element}", f"Value.pVal {kit}.valued {kit}.valued-laws"),
        (f"Array.rArr {element}", f"Value.rVal {kit}.valued {kit}.valued-laws"),
        (f"Array'.array-lawful {HERE} {number} (DenSigned.sint-lawful {HERE} Syntax.w16) {count}", f"{kit}.lawful {HERE}"),
        (f"Copies.cArr {number} (Copies.cSInt Syntax.w16) {count}", f"{kit}.cp"),
        (f"Init.room-arr {HERE} {number} {count} 0 {count} Path'.refl", f"{kit}.room {HERE}"),
        (f"ArrayWhole.mem-arr {HERE} {number} {count}", f"{kit}.mem {HERE}"),
        (f"ArrayWhole.arr-mem {HERE} {number} {count} tt", f"{kit}.of-mem {HERE}"),
        (f"Rows.arrF {number} {count} 0", f"{kit}.row"),
        (f"Array'.Array {number} {count}", f"{kit}.R"),
        # Behind a reference a struct's type is written otherwise than by value; an array's is not.
        (f"Syntax.mut ({kind})", f"Syntax.mut {kit}.behind"),
        (f"Syntax.imm ({kind})", f"Syntax.imm {kit}.behind"),
        (kind, f"{kit}.plain-ty"),
    ]


def of_struct(text, count, kit):
    """The derivation, of the struct where it was of the array. A phrase may run over several lines."""
    for array, struct in phrases(count, kit):
        text = re.sub(re.escape(array).replace(r"\ ", r"\s+"), struct, text)
    lent_array = rf"Syntax\.(mut|imm)\s+\(Syntax\.tyArray\s+\(?{kit}\.plain-ty\)?\s+(\d+)\)"
    return re.sub(lent_array, rf"Syntax.\1 (Syntax.tyArray {kit}.behind \2)", text)
