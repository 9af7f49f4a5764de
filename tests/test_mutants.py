"""That tools/mutants makes the slips that it says, each in its place: python3 -m unittest tests/test_mutants.py. What notices them is the
prover's to say, and takes hours; docs/TESTING.md tells how often it was asked."""

import importlib.machinery
import importlib.util
import re
import unittest
from pathlib import Path

ROOT = Path(__file__).resolve().parent.parent


def loaded():
    loader = importlib.machinery.SourceFileLoader("mutants", str(ROOT / "tools" / "mutants"))
    module = importlib.util.module_from_spec(importlib.util.spec_from_loader("mutants", loader))
    loader.exec_module(module)
    return module


mutants = loaded()


def changed(code):
    """What a line of a definition becomes, slip by slip."""
    found = [*mutants.words_changed(code), *mutants.places_exchanged(code)]
    return [code[:start] + new + code[end:] for start, end, new in found]


class Slips(unittest.TestCase):
    def test_numbers_are_one_higher_and_one_lower(self):
        self.assertEqual(changed("k = 0x1_0000_0000"), ["k = 4294967297", "k = 4294967295"])
        self.assertEqual(changed("k = 0"), ["k = 1"])

    def test_a_sign_of_whole_numbers_is_one_word(self):
        self.assertEqual(changed("d = S -ℤ J"), ["d = A -ℤ J", "d = S +ℤ J", "d = S -ℤ N"])

    def test_what_is_defined_keeps_its_name(self):
        self.assertEqual(changed("areas = size"), [])

    def test_neighbours_branches_and_tests(self):
        self.assertIn("l = b ∷ a ∷ c", changed("l = a ∷ b ∷ c"))
        self.assertIn("l = cond p y x", changed("l = cond p x y"))
        self.assertIn("l = (p)", changed("l = not (p)"))

    def test_a_text_differs_in_its_first_and_last_character(self):
        self.assertEqual(sorted(changed('t = "ab"')), ['t = "ax"', 't = "xb"'])
        self.assertEqual(changed(r't = "\n"'), ['t = "x"'])

    def test_types_and_comments_are_left_alone(self):
        for path in sorted((ROOT / mutants.SPECS).glob("*.antt")):
            lines = path.read_text().split("\n")
            for slip in mutants.slips(path):
                with self.subTest(file=slip.file, slip=slip.number):
                    self.assertEqual(lines[slip.line][slip.start:slip.end], slip.old)
                    self.assertNotEqual(slip.old, slip.new)
                    self.assertNotIn("--", lines[slip.line][:slip.start])

    def test_copies_have_the_types_and_no_code(self):
        """What a copy keeps of `rules` cites no definition, so that a slip in one changes nothing but what is asked."""
        types = mutants.types_of(ROOT / "crates" / "rules" / "src" / "lib.rt")
        self.assertEqual(re.findall(r"^pub (?:enum|struct) (\w+)", types, re.M), ["Kind", "Line", "Tally", "Rule", "Layout", "Explained", "Refusal"])
        self.assertNotRegex(types, r"\bfn \b|\bghost\b|\bensures\b|\bimpl\b")

    def test_every_definition_has_slips(self):
        names = {path.stem for path in (ROOT / mutants.SPECS).glob("*.antt") if not path.with_suffix("").is_dir()} - {"Lib"}
        self.assertEqual({path.stem for path in (ROOT / mutants.SPECS).glob("*.antt") if mutants.slips(path)} - {"Lib"}, names)

    def test_a_name_that_the_file_does_not_use_is_brought_in(self):
        text = "use Rattle.std.specs.Prelude.{eqb}\n\nabbrev pub half : ℕ\nhalf = size / 2\n"
        slip = mutants.Slip("File", 0, 3, 12, 13, "/", "%")
        self.assertEqual(mutants.with_slip(text, slip), "use Rattle.std.specs.Prelude.{eqb}\nuse Rattle.std.specs.Prelude.{◌%◌}\n\n"
                         "abbrev pub half : ℕ\nhalf = size % 2\n")
        known = text.replace("{eqb}", "{◌/◌, ◌%◌}")
        self.assertEqual(mutants.with_slip(known, slip).count("use "), 1)


if __name__ == "__main__":
    unittest.main()
