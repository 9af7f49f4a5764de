"""Writes the twin of a crate: the text in which every lent struct is an array, for which Rattle makes the derivation that it does not make
for a struct.

Only the functions in hand keep their bodies. What they call is a stub with some result, since a caller's derivation rests on a callee's
signature alone; nothing else is left in, since Rattle would derive that too. Every clause says the same: a derivation doesn't hold what
the contract says, only how many clauses it has.
"""

import re

import reading
from repository import within

CLAUSES = {"requires": "⌜ 0 ≤ 0 ⌝", "ensures": "λ _. ⌜ 0 ≤ 0 ⌝"}
IMPORT = re.compile(r"^(pub )?use (?:[\w:]+::)?(\w+)(?: as (\w+))?;\n", re.M)
ITEM = re.compile(r"\b(?:fn|struct|enum|const|type) \w")
ALONE = "\npub fn nothing() -> u32 {\n    0\n}\n"  # a crate must hold a function
NO_PROOF = "-- The twin is derived and not proved. Where this file is missing, what calls the function is not derived.\n"


class Twin:
    def __init__(self, repository, crate, asked):
        """Of the functions asked for, those in hand are the ones whose walk is to be made."""
        self.repository, self.crate, self.asked = repository, crate, asked
        self.in_hand = [name for name in asked if not repository.by_hand(crate, name)]
        self.bodies = "\n".join(repository.functions(crate)[name].body for name in self.in_hand)

    def files(self):
        """The text of each file, by its path below the folder `crates`."""
        found = {f"{self.crate}/proofs/{name}/Proof.antt": NO_PROOF for name in self.in_hand}
        for crate in [*self.repository.below(self.crate), self.crate]:
            texts = {module: self.module(crate, module) for module in self.repository.sources(crate)}
            whole = "".join(texts.values())
            if ITEM.search(whole):
                texts[""] += "" if re.search(r"\bfn \w", whole) else ALONE
                found.update({f"{crate}/src/{module or 'lib'}.rt": text for module, text in texts.items()})
        return found

    def module(self, crate, module):
        """A module's twin."""
        text, out, at = self.repository.sources(crate)[module], [], 0
        for function in reading.functions(text):
            out += [text[at : function.start], self.function(crate, module, function)]
            at = function.end
        text = re.sub(r"^ *//.*\n|^ghost use .*\n", "", "".join(out) + text[at:], flags=re.M)
        for struct in self.repository.lent.values():
            if (struct.crate, struct.module) == (crate, module):
                declared = rf"^(#\[repr\(C\)\]\n)?(pub )?struct {struct.name}\s*\{{.*?^\}}\n"
                text = re.sub(declared, f"pub type {struct.name} = [i16; {struct.count}];\n", text, flags=re.S | re.M)
        return "ghost use Prim.Native.Nat.{_≤_};\n" + self.with_imports_in_use(text)

    def with_imports_in_use(self, text):
        rest = IMPORT.sub("", text)

        def kept(line):
            passed_on, name = line.group(1), line.group(3) or line.group(2)
            used = passed_on and (name[0].isupper() or self.is_called(name)) or re.search(rf"\b{name}\b", rest)
            return line.group(0) if used else ""

        return IMPORT.sub(kept, text)

    def function(self, crate, module, function):
        """Its text in the twin: whole, a stub, or nothing. A result that is a reference has no stub."""
        name = within(module, function.name)
        mine = crate == self.crate
        if mine and name in self.in_hand:
            body = function.body
        elif (mine and name in self.asked or self.is_called(function.name)) and not function.result.startswith("&"):
            body = f"{{\n    {self.value(function.result, crate)}\n}}" if function.result else "{\n}"
        else:
            return ""
        clauses = "".join(f"\n    {kind}{label and ' ' + label} {{ {CLAUSES[kind]} }}" for kind, label in function.clauses)
        return f"{function.signature}{clauses}\n{body}"

    def is_called(self, name):
        return re.search(rf"\b{name}\(", self.bodies)

    def value(self, kind, crate):
        """Some value of a type, as the crate writes it."""
        kind = kind.strip()
        name = kind.split("::")[-1]
        if kind.startswith("["):
            element, count = kind[1:-1].rsplit(";", 1)
            return f"[{self.value(element, crate)}; {count.strip()}]"
        if name in self.repository.lent:
            return f"[0; {self.repository.lent[name].count}]"
        found = self.repository.types(self.crate).get(name)
        if not found:
            return "false" if name == "bool" else "0"
        home = "crate" if found.crate == crate else found.crate
        path = "::".join([home, *filter(None, found.module.split("/")), name])
        if found.kind == "enum":
            return f"{path}::{self.case(min(found.parts, key=len), crate)}"
        fields = (part.replace("pub ", "").split(":", 1) for part in found.parts)
        return f"{path} {{ " + ", ".join(f"{field.strip()}: {self.value(of, crate)}" for field, of in fields) + " }"

    def case(self, text, crate):
        """Some value of an enum's case."""
        name, _, held = text.partition("(")
        values = (self.value(part, crate) for part in reading.parts(held[:-1]))
        return f"{name}({', '.join(values)})" if held else name
