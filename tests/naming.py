"""What the pages of docs/ name, looked up in the code: functions and their proof files, definitions, laws, must-fail edits; and a page's
tables as rows of cells. For the tests that hold the pages to the code."""

import re
from functools import lru_cache
from pathlib import Path
from typing import NamedTuple

ROOT = Path(__file__).resolve().parent.parent
CRATES = ROOT / "crates"

# A definition as specs/ has it: its name stands after these words.
DEFINED = r"^ *(?:(?:abbrev|unfoldable) pub|pub record|pub data) "


# ---- pages

def sections(page):
    """The page's parts under `## `, by their titles."""
    return dict(re.findall(r"^## (.*?)\n(.*?)(?=^## |\Z)", page, re.M | re.S))


def rows(text):
    """Every row of the tables in a text, as {column: cell}. A bar in a cell is written `\\|`."""
    found, columns = [], None
    for line in text.splitlines():
        if not line.startswith("|"):
            columns = None
            continue
        cells = [cell.strip() for cell in re.split(r"(?<!\\)\|", line)[1:-1]]
        if columns is None:
            columns = cells
        elif set(line) - set("|-"):
            assert len(cells) == len(columns), line
            found.append(dict(zip(columns, cells)))
    return found


def names(cell):
    """What stands in backticks."""
    return re.findall(r"`([^`]+)`", cell)


# ---- code

def source_of(path):
    """The text of the file that `crate::module::function` or `crate::function` says."""
    crate, *between = path.split("::")[:-1] or [""]
    files = [f"{between[0]}.rt"] if between and between[0].islower() else ["lib.rt", "main.rt"]
    return next((file.read_text() for file in (CRATES / crate / "src" / name for name in files) if file.exists()), "")


class Method(NamedTuple):
    """A function of a type or of a trait."""

    module: str  # that declares its type or trait, or that has the `impl` for another crate's type; "" for the crate's own file
    holder: str  # the type or the trait; "" for a type without a name of its own
    trait: str  # whose `impl` it stands in, or that declares it; "" in a type's own `impl`
    folder: str  # where its proofs stand in those of the module
    name: str
    called: str  # "pub " for every crate, "pub(crate) " for its own, "" for its module alone
    text: str

    def has_body(self):
        return not self.text.endswith(";")


# The heads of an `impl` and of a trait's declaration.
IMPL = r"impl(?:<[^>\n]*>)? (?:(?P<of>\w+)(?:<(?P<arguments>[^\n]*)>)? for )?(?P<type>[^\s<]+)(?:<[^>\n]*>)?"
TRAIT = r"pub trait (?P<trait>\w+)(?:<[^>\n]*>)?(?:: [^{\n]*)?"


@lru_cache(maxsize=None)
def methods(crate):
    """Every function of a crate's types and traits."""
    texts = {"" if file.stem in ("lib", "main") else file.stem: file.read_text() for file in sorted((CRATES / crate / "src").glob("*.rt"))}
    declared = {name: module for module, text in texts.items() for name in re.findall(r"^(?:pub )?(?:struct|enum|trait) (\w+)", text, re.M)}
    found = []
    for module, text in texts.items():
        for block in re.finditer(rf"^(?:{IMPL}|{TRAIT}) \{{\n(?P<body>.*?)^\}}$", text, re.M | re.S):
            holder = block["trait"] or (block["type"] if block["type"].isidentifier() else "")
            # A folder's name says `()` as Unit, and an array as Array, its type and its length.
            said = (block["arguments"] or "").replace("()", "unit").replace("[", "array ")
            arguments = [word[0].upper() + word[1:] for word in re.findall(r"\w+", said)]
            for start in re.finditer(r"^    (pub |pub\(crate\) |)(?:final )?fn (\w+)", block["body"], re.M):
                rest = block["body"][start.start():]
                declaration = rest[:re.search(r"[;{]$", rest, re.M).end()]
                whole = declaration if declaration.endswith(";") else rest[:re.search(r"^    \}$", rest, re.M).end()]
                found.append(Method(declared.get(holder, module), holder, block["trait"] or block["of"] or "",
                                    "".join([holder, block["of"] or "", *arguments]), start[2],
                                    start[1] if not (block["trait"] or block["of"]) else "pub ", whole))
    return found


def method(path):
    """The method that `crate::Type::name` or `crate::module::Type::name` says, the same of a trait; or None."""
    crate, *between, name = path.split("::")
    if not between or not between[-1][:1].isupper():
        return None
    return next((each for each in methods(crate) if (each.holder, each.name) == (between[-1], name)
                 and between[:-1] in ([], [each.module])), None)


def function(path):
    """A function's own text, or None where there is no such function."""
    *_, holder, name = ["", *path.split("::")]
    if holder[:1].isupper():
        return method(path).text if method(path) else None
    found = re.search(rf'^(?:pub )?(?:extern "C" )?fn {re.escape(name)}(?:<[^()]*>)?\(.*?^\}}$', source_of(path), re.M | re.S)
    return found.group() if found else None


def in_proofs(path):
    """Where a function's proofs stand, as its folders under `proofs`."""
    crate, *between, name = path.split("::")
    said = method(path)
    return [part for part in (said.module, said.folder, name) if part] if said else [*between, name]


def parameters(path):
    """A function's parameters, as {name: type}, in their order."""
    between = re.search(r"\((.*?)\)", function(path), re.S).group(1)
    return dict(re.findall(r"(\w+): ([^,\n]+)", between))


def declared_type(path):
    """Whether `crate::Type` is a struct or an enum of that crate."""
    return bool(re.search(rf"^pub (?:struct|enum) {re.escape(path.split('::')[-1])} ", source_of(path), re.M))


# What is written of the proof of a function; where none of them stands, the prover finds the whole proof by itself.
OWN_FILES = ("Invariants.antt", "Answers.antt", "Proof.antt")


def has_proof_file(path):
    """Whether a function has a proof file at its own path; a recursive function's folder begins with `+`."""
    *between, name = in_proofs(path)
    folder = CRATES.joinpath(path.split("::")[0], "proofs", *between)
    return any((folder / own / file).exists() for own in (name, f"+{name}") for file in OWN_FILES)


def clauses(text):
    """A function's clauses, each with its runs of blanks as one."""
    head = re.split(r"^ *\{$", text, maxsplit=1, flags=re.M)[0]
    return [" ".join(clause.split()) for clause in re.findall(r"^ +((?:requires|ensures) (?:.|\n(?! *(?:requires|ensures) ))*)", head, re.M)]


def edits():
    """Every must-fail edit, as `crate/edit`."""
    return {f"{edit.parent.parent.name}/{edit.stem}" for edit in CRATES.glob("*/must-fail/*.edit")}


def texts_edited():
    """(crate/edit, old text, how often it stands in its file, once the changes before it are made) for every change of every edit."""
    for edit in sorted(CRATES.glob("*/must-fail/*.edit")):
        crate, text, old = edit.parent.parent, "", ""
        for line in edit.read_text().splitlines():
            key, _, value = line.partition(": ")
            if key == "file":
                text = (crate / value).read_text()
            elif key == "old":
                old = value
                yield f"{crate.name}/{edit.stem}", old, text.count(old)
            elif key == "new":
                text = text.replace(old, value)


def edits_named(page):
    """Every `crate/edit` that a page names, as often as it does, whether there is one or not."""
    named = [name for line in page.splitlines() for name in names(line) if re.fullmatch(r"\w+/\w+", name)]
    return [name for name in named if (CRATES / name.split("/")[0]).is_dir()]


# ---- definitions and laws: `FILE.name` of `rules`, or `crate/FILE.name`; `Folder/FILE.name` says the folder under specs/ or proofs/

def parts(name):
    """The crate that a name says, its folders, its file, and what it names in that."""
    *folders, rest = name.split("/")
    crate = folders.pop(0) if folders and folders[0].islower() else "rules"
    file, _, last = rest.partition(".")
    return crate, folders, file, last


def file_of(name, kept_in):
    """The one file that a name says, under specs/ or proofs/. Without a folder it is the file at the top, or the only one in a folder; None
    where there is no such file or there are several."""
    crate, folders, file, _ = parts(name)
    top = CRATES / crate / kept_in
    said = top.joinpath(*folders, f"{file}.antt")
    found = [said] if said.is_file() else [] if folders else sorted(top.rglob(f"{file}.antt"))
    return found[0] if len(found) == 1 else None


def definition(name):
    """Whether there is such a definition, or, of `FILE.Record.field`, such a field."""
    file, last = file_of(name, "specs"), parts(name)[3]
    if file is None or not last:
        return False
    record, _, field = last.partition(".")
    if field:
        return field in records_in(file).get(record, [])
    return bool(re.search(rf"{DEFINED}{re.escape(last)}(?= )", file.read_text(), re.M))


def law(name):
    file, last = file_of(name, "proofs"), parts(name)[3]
    return bool(file and last and re.search(rf"^ *pub {re.escape(last)} :", file.read_text(), re.M))


def records_in(file):
    """The records of a file of specs/, each with its fields in their order."""
    found = re.findall(r"^( *)pub record (\S+) .*\n((?:\1  .*\n|\n(?=\1  ))*)", file.read_text(), re.M)
    return {name: re.findall(rf"^{indent}  pub (\S+) :", body, re.M) for indent, name, body in found}


def in_folders(name):
    """A definition's name with its folders, as `public_definitions` has it; as it is where it says no file."""
    file = file_of(name, "specs")
    crate, _, _, last = parts(name)
    return f"{file.relative_to(CRATES / crate / 'specs').with_suffix('')}.{last}" if file else name


def public_definitions(crate):
    """Every public definition of a crate's specs/, as `FILE.name` or `Folder/FILE.name`; a record's fields are part of it."""
    top = CRATES / crate / "specs"
    return {f"{file.relative_to(top).with_suffix('')}.{name}" for file in top.rglob("*.antt")
            for name in re.findall(rf"{DEFINED}(\S+)", file.read_text(), re.M)}
