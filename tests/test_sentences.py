"""That docs/SENTENCES.md is true of the code: every definition, function, law, edit and check that it names is there and of the kind
that its column says, every definition has its sentence, every part of a statement its place, and every edit its one. Run from the project's
root:
    python3 -m unittest tests/test_sentences.py"""

import re
import sys
import unittest
from pathlib import Path

sys.path.insert(0, str(Path(__file__).resolve().parent))
import known  # noqa: E402
import naming  # noqa: E402

PAGE = (naming.ROOT / "docs" / "SENTENCES.md").read_text()
SECTIONS = naming.sections(PAGE)

# Document 01's sections, the demands that it cites, and the requests of document 02, by the letter of their rows.
LETTERS = {
    "C": "What the first release covers", "U": "Units and ranges", "F": "The hour file", "S": "The sums", "T": "Text amounts",
    "R": "Refusal numbers and their order", "P": "The printed statement", "G": "Figures to check by", "L": "Slips to catch",
    "W": "How to write each place", "Q": "Strength of the promises", "D": "The three demands", "N": "The neutrality amount",
    "H": "Writing hour files", "I": "Imports as deemed", "K": "Less stack for the shares", "E": "Why is this my charge?",
    "M": "No schedule above the engine", "V": "Ten-minute settlement", "B": "Halves to the even cent",
}

KINDS = {
    "definition": naming.definition,
    "type": naming.declared_type,
    "function": naming.function,
    "law": naming.law,
    "edit": naming.edits().__contains__,
    "crate": lambda name: (naming.CRATES / name / "src").is_dir(),
    "path": lambda name: (naming.ROOT / name).is_file(),
}


def rows_of(letter):
    return naming.rows(SECTIONS[LETTERS[letter]])


def number(row):
    """A row's own number: `F4`."""
    return re.match(r"\*\*([A-Z]\d+)\*\* ", next(iter(row.values()))).group(1)


def named_as(cell, kind):
    """What a cell names of one kind."""
    return [name for name in naming.names(cell) if KINDS[kind](name)]


# The rows with the five columns that the page's opening explains, and those of them that a definition renders.
SENTENCES = [row for letter in LETTERS for row in rows_of(letter) if "proved" in row]
RENDERED = [row for row in SENTENCES if not row["definition"].startswith("nothing")]
HELPERS = naming.rows(SECTIONS["Definitions that render no sentence"])
# The rows that name an edit, those of the slips among them.
WITH_AN_EDIT = {number(row) for row in RENDERED + rows_of("L") if any(named_as(cell, "edit") for cell in row.values())}


def under_headings(text):
    """The lines of a program's output; one that is set in stands behind the heading above it, a line without a figure."""
    heading = ""
    for line in text.splitlines():
        if line.replace(" ", "").isalpha():
            heading = line
        yield heading + line if line.startswith(" ") else line


class PageTest(unittest.TestCase):
    def assert_named(self, cell, *kinds):
        """Everything that a cell names is there, as one of these kinds."""
        for name in naming.names(cell):
            self.assertTrue(any(KINDS[kind](name) for kind in kinds), f"{name}: no {' or '.join(kinds)}")


class Names(unittest.TestCase):
    """A name says one file."""

    def test_a_folder_may_be_said(self):
        for name in ("Tariff.gen_dev", "Promised/Tariff.gen_dev", "rules/Promised/Tariff.gen_dev", "Demands.ByFormula.ufe_is"):
            self.assertTrue(naming.definition(name), name)
        for name in ("Inner/Tariff.gen_dev", "Settling.gen_dev", "theorems/Tariff.gen_dev", "Demands.ByFormula.ufe", "Demands.ufe_is"):
            self.assertFalse(naming.definition(name), name)

    def test_a_file_that_is_there_twice_is_not_said_by_its_name(self):
        several = [*(naming.CRATES / "share" / "proofs").rglob("Answers.antt")]
        self.assertGreater(len(several), 1)
        self.assertIsNone(naming.file_of("share/Answers.anything", "proofs"))


class Sentences(PageTest):
    def test_rows_are_seen(self):
        self.assertGreater(len(RENDERED), 120)

    def test_rows_are_numbered(self):
        for letter in LETTERS:
            numbers = [number(row) for row in rows_of(letter)]
            self.assertEqual(numbers, [f"{letter}{place}" for place in range(1, len(numbers) + 1)])

    def test_numbers_cited_are_there(self):
        numbers = {number(row) for letter in LETTERS for row in rows_of(letter)}
        for cited in re.findall(r"(?<![`\w])(?<!Document 02, )[A-Z]\d+\b", PAGE):
            with self.subTest(cited):
                self.assertIn(cited, numbers)

    def test_what_nothing_renders_has_its_reason(self):
        for row in SENTENCES:
            with self.subTest(number(row)):
                if row not in RENDERED:
                    self.assertRegex(row["definition"], r"^nothing[^:]*: \S")
                    self.assertEqual([row["promised by"], row["proved"], row["edits"]], ["—"] * 3)
                    self.assert_named(row["definition"], "definition", "function", "path")

    def test_definitions(self):
        for row in RENDERED:
            with self.subTest(number(row)):
                self.assertTrue(naming.names(row["definition"]))
                self.assert_named(row["definition"], "definition", "type")

    def test_promises(self):
        for row in RENDERED:
            with self.subTest(number(row)):
                self.assertTrue(named_as(row["promised by"], "function") or named_as(row["promised by"], "law"))
                self.assert_named(row["promised by"], "function", "law", "crate")

    def test_proofs(self):
        for row in RENDERED:
            with self.subTest(number(row)):
                functions, (own, laws) = named_as(row["promised by"], "function"), self.own_files(row)
                self.assertEqual(bool(functions), own is not None)
                self.assertTrue(functions or naming.names(laws) or laws == "computed by the prover")
                self.assert_named(laws, "law")
                self.assertEqual([name for name in functions if naming.has_proof_file(name)], own or [])

    @staticmethod
    def own_files(row):
        """The functions of a row of which the page says that they have a file of their own, in their order, None where it speaks of no
        function; and what else it says of the proof."""
        said = re.match(r"own file(?: of (?P<some>`[^`]+`(?:, `[^`]+`)*))?|(?P<none>prover alone)", row["proved"])
        if said is None:
            return None, row["proved"]
        functions = named_as(row["promised by"], "function")
        own = [] if said["none"] else naming.names(said["some"]) if said["some"] else functions
        return own, row["proved"][said.end():]

    def test_edits(self):
        for row in RENDERED:
            with self.subTest(number(row)):
                edits, seen = row["edits"], re.match(r"see ((?:[A-Z]\d+(?:, )?)+)", row["edits"])
                self.assertEqual(bool(named_as(edits, "edit")) + bool(seen) + edits.startswith("none: "), 1)
                self.assert_named(edits, "edit", "definition", "crate", "path")
                for other in seen.group(1).split(", ") if seen else []:
                    self.assertIn(other, WITH_AN_EDIT)


class Whole(PageTest):
    def test_every_definition_has_its_place(self):
        rendering = {naming.in_folders(name) for row in RENDERED for name in naming.names(row["definition"])}
        helping = {naming.in_folders(name) for row in HELPERS for name in naming.names(row["definition"])}
        public = naming.public_definitions("rules")
        self.assertGreater(len(public), 150)
        self.assertEqual(public - rendering - helping, set())
        self.assertEqual(helping - public, set())
        self.assertEqual(helping & rendering, set())

    def test_every_edit_is_named_once(self):
        self.assertTrue(naming.edits())
        self.assertEqual(sorted(naming.edits_named(PAGE)), sorted(naming.edits()))

    def test_slips_in_the_definitions(self):
        """Each row names definitions, and what holds a slip of them: statements and laws, or why it means the same."""
        slips = naming.rows(SECTIONS["Slips in the definitions"])
        self.assertTrue(slips)
        for row in slips:
            with self.subTest(row["definition"], slip=row["slip"]):
                self.assert_named(row["definition"], "definition")
                held = naming.names(row["what holds it"])
                self.assertTrue(held or row["what holds it"].startswith("means the same"))
                self.assert_named(row["what holds it"], "definition", "law")


class Statements(PageTest):
    """The table of statements that are records, and fields that other parts of the page name."""

    FOLDERS = (naming.CRATES / "rules" / "specs" / "Promised", naming.CRATES / "theorems" / "specs")
    ROWS = naming.rows(SECTIONS["Statements, part by part"])

    def test_every_field_has_its_place(self):
        there = {f"{file.relative_to(naming.CRATES)}: {record}": fields for folder in self.FOLDERS
                 for file in sorted(folder.rglob("*.antt")) for record, fields in naming.records_in(file).items()}
        self.assertGreater(len(there), 20)
        told = {}
        for row in self.ROWS:
            (name,) = naming.names(row["record"])
            file = naming.file_of(name, "specs")
            self.assertTrue(file and any(folder in file.parents for folder in self.FOLDERS), name)
            record = f"{file.relative_to(naming.CRATES)}: {naming.parts(name)[3]}"
            self.assertNotIn(record, told)
            told[record] = naming.names(row["fields"])
        here, there_too = ({f"{record}.{field}" for record, fields in each.items() for field in fields} for each in (told, there))
        self.assertEqual(there_too - here, set(), "the page leaves these out")
        self.assertEqual(here - there_too, set(), "the code doesn't have these")
        self.assertEqual(told, there)  # in the order of the code

    def test_every_record_has_its_sentence(self):
        for row in self.ROWS:
            with self.subTest(row["record"]):
                self.assertRegex(row["says"], r"^[A-Z0-9].+\.$")

    def test_fields_named_elsewhere_are_there(self):
        for name in naming.names(PAGE):
            if re.fullmatch(r"(?:\w+/)*[A-Z]\w*\.[A-Z]\w*\.[\w-]+", name) and not name.startswith("FILE."):
                with self.subTest(name):
                    self.assertTrue(naming.definition(name))


class OtherTables(PageTest):
    def test_figures(self):
        shown = [*under_headings((naming.CRATES / "trial_figures" / "stdout").read_text()),
                 *(naming.ROOT / "tests" / "archive" / "amounts.out").read_text().splitlines(),
                 *(f"{name}: {line}" for name, line, _ in known.cases())]
        starred = (naming.CRATES / "rules" / "specs" / "Figures" / "Starred.antt").read_text().split("\nstarred =")[1]
        cases = []
        for row in rows_of("G"):
            with self.subTest(number(row)):
                case, lines = row["case of the list"], naming.names(row["line of `trial_figures`, `amounts.out` or `known.py`"])
                self.assertEqual(case != "—", "** * " in row["figure"])
                cases += [case] if case != "—" else []
                self.assertTrue(lines)
                for line in lines:
                    self.assertIn(line, shown)
        self.assertEqual(cases, [str(place + 1) for place in range(starred.count(") is "))])

    def test_slips(self):
        for row in rows_of("L"):
            with self.subTest(number(row)):
                for column, crates in (("edit at the definition", "rules/"), ("edit in the code", "(?!rules/)")):
                    self.assertTrue(naming.names(row[column]))
                    for name in naming.names(row[column]):
                        self.assertTrue(KINDS["edit"](name) and re.match(crates, name), name)

    def test_forms(self):
        for row in rows_of("W"):
            with self.subTest(number(row)):
                self.assertEqual(row["where"] == "—", row["in the code"] == "—")
                for name in naming.names(row["where"]):
                    self.assertIn(row["in the code"].strip("`"), naming.function(name) or "")
                for name in naming.names(row["form"]):
                    if "." in name:
                        self.assertTrue(naming.definition(name), name)


if __name__ == "__main__":
    unittest.main()
