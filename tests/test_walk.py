"""Tests of tools/walk: reading Rattle, the twin, carrying a derivation over, and that a changed made file is noticed. Nothing is derived:
today's check derives by itself.

    python3 -m unittest tests/test_walk.py
"""

import contextlib
import fnmatch
import io
import sys
import tempfile
import unittest
from pathlib import Path
from types import SimpleNamespace
from unittest import mock

ROOT = Path(__file__).resolve().parent.parent
WALK = ROOT / "tools" / "walk"
sys.path[:0] = [str(WALK), str(ROOT / "tests")]
import beginning  # noqa: E402
import carrying  # noqa: E402
import deriving  # noqa: E402
import kits  # noqa: E402
import laying_out  # noqa: E402
import making  # noqa: E402
import reading  # noqa: E402
import renaming  # noqa: E402
import repository  # noqa: E402
import standing  # noqa: E402
import twin  # noqa: E402
from scripts import load_script  # noqa: E402
from small_crates import LOW, MIDDLE, TOP, TWIN_OF_LOW, TWIN_OF_MIDDLE, TWIN_OF_TOP  # noqa: E402


def lay(root, files):
    for path, text in files.items():
        deriving.write(Path(root) / path, text)


class Small(unittest.TestCase):
    """Over three crates, of which the last lends lines: `post_line` is walked by hand."""

    def setUp(self):
        folder = tempfile.TemporaryDirectory()
        self.addCleanup(folder.cleanup)
        self.root = Path(folder.name)
        lay(self.root, {
            "crates.txt": "low: # types\nmiddle: low\ntop: middle low io libc\nlaws:\n",
            "structs.txt": "# crate, name, bytes\nlow Line 16\n",
            "walked.txt": "top: post_line settle\n",
            "crates/low/src/lib.rt": LOW,
            "crates/middle/src/lib.rt": MIDDLE,
            "crates/middle/src/text.rt": "pub fn column() -> u32 {\n    14\n}\n",
            "crates/top/src/lib.rt": TOP,
            "crates/top/proofs/post_line/Proof.antt": "post-line-spec = walked\n",
        })
        self.repository = repository.Repository(self.root, self.root)


class Reading(unittest.TestCase):
    def test_parts(self):
        self.assertEqual(reading.parts("a: u8, b: [u8; 4], c: F(u8, u8),\n"), ("a: u8", "b: [u8; 4]", "c: F(u8, u8)"))

    def test_signature(self):
        post_line, settle, at, found = reading.functions(TOP)
        self.assertEqual([each.name for each in (post_line, settle, at, found)], ["post_line", "settle", "at", "found"])
        self.assertEqual(post_line.signature, "fn post_line(lines: &mut [Line], member: usize)")
        self.assertEqual(post_line.clauses, (("requires", ""),))
        self.assertEqual(settle.clauses, (("ensures", "first"), ("ensures", "second")))
        self.assertTrue(settle.signature.startswith('#[no_mangle]\npub extern "C" fn settle('))
        self.assertEqual([each.result for each in (post_line, settle, at, found)], ["", "Settled", "usize", "Found"])

    def test_body_ends_at_its_brace(self):
        line_with = reading.functions(MIDDLE)[0]
        self.assertEqual(line_with.body, "{\n    if grains == 0 { return line; }\n    line\n}")
        self.assertEqual(MIDDLE[line_with.start:line_with.end].count("fn "), 1)
        with self.assertRaises(ValueError):
            reading.past_brace("{ {}", 0)

    def test_declared(self):
        found = reading.declared(LOW, "low", "")
        self.assertEqual(found["Line"].parts, ("pub amount: i64", "pub records: u32"))
        self.assertEqual((found["Found"].kind, found["Found"].parts), ("enum", ("At(usize)", "Nothing")))

    def test_listed(self):
        self.assertEqual(reading.listed("# all\na: b m/c # both\nd:\n"), {"a": ["b", "m/c"], "d": []})


class Crates(Small):
    def test_below(self):
        self.assertEqual(self.repository.below("top"), ["low", "middle"])

    def test_modules(self):
        self.assertEqual(list(self.repository.functions("middle")), ["line_with", "settled", "part", "unused", "text/column"])

    def test_lends(self):
        lends = {name: self.repository.lends("top", name) for name in self.repository.functions("top")}
        self.assertEqual(lends, {"post_line": True, "settle": True, "at": False, "found": False})
        self.assertFalse(self.repository.lends("middle", "line_with"))
        for lent in ("&mut Line", "& [Line]", "&'a mut [Line; 4]", "&mut [low::Line]"):
            self.assertRegex(lent, self.repository.reference)
        self.assertNotRegex("&mut [Lines]", self.repository.reference)

    def test_by_hand(self):
        self.assertTrue(self.repository.by_hand("top", "post_line"))
        self.assertFalse(self.repository.by_hand("top", "settle"))
        lay(self.root, {"crates/top/proofs/post_line/Proof.antt": "mod Lts\nmod Tie\n"})
        self.assertFalse(self.repository.by_hand("top", "post_line"))

    def test_structs_of_one_size(self):
        with self.assertRaises(ValueError):
            repository.lent_structs("low Line 16\nlow Other 16\n")


class Twins(Small):
    def files(self, *asked):
        return twin.Twin(self.repository, "top", list(asked)).files()

    def test_texts(self):
        files = self.files("post_line", "settle")
        self.assertEqual(files["low/src/lib.rt"], TWIN_OF_LOW)
        self.assertEqual(files["middle/src/lib.rt"], TWIN_OF_MIDDLE)
        self.assertEqual(files["top/src/lib.rt"], TWIN_OF_TOP)

    def test_what_is_asked_for_is_there(self):
        self.assertIn("fn post_line(", self.files("post_line")["top/src/lib.rt"])
        self.assertNotIn("fn settle(", self.files("post_line")["top/src/lib.rt"])

    def test_a_reference_has_no_stub(self):
        of_top = twin.Twin(self.repository, "top", ["settle"])
        of_top.bodies = "column() + part(file).len()"
        self.assertNotIn("fn part(", of_top.module("middle", ""))
        self.assertIn("pub fn column() -> u32\n{\n    0\n}\n", of_top.module("middle", "text"))

    def test_a_proof_for_each_function_in_hand(self):
        self.assertEqual([path for path in self.files("post_line", "settle") if path.endswith(".antt")], ["top/proofs/settle/Proof.antt"])

    def test_values(self):
        of_top = twin.Twin(self.repository, "top", ["settle"])
        for kind, value in {"usize": "0", "bool": "false", "Line": "[0; 8]", "[low::Line; 32]": "[[0; 8]; 32]",
                            "Found": "low::Found::Nothing"}.items():
            self.assertEqual(of_top.value(kind, "top"), value)
        self.assertEqual(of_top.value("Found", "low"), "crate::Found::Nothing")
        self.assertEqual(of_top.case("At([u8; 2], bool)", "low"), "At([0; 2], false)")


class Deriving(Small):
    def derive(self, written):
        """With a stand-in for rt that writes so much, and says why it wrote no more."""
        def run(words, cwd, **_):
            self.words = words
            lay(cwd / "generated" / "Rattle·top·proofs" / "proofs", {path: path for path in written})
            return SimpleNamespace(stdout="error: a form that is not covered")

        with mock.patch.object(deriving.subprocess, "run", run):
            return deriving.derive(twin.Twin(self.repository, "top", ["post_line", "settle"]), self.root / "twin")

    def test_command(self):
        paths = [f"{name}/{part}.antt" for name in ("post_line", "settle") for part in deriving.PARTS]
        self.assertEqual(self.derive(paths)["settle"]["Tie"], "settle/Tie.antt")
        self.assertEqual(self.words[2:5], ["crates/top", "--deps", "io,libc"])
        self.assertEqual(self.words[5:], ["--lib", "low=crates/low/src/lib.rt", "--lib", "middle=crates/middle/src/lib.rt",
                                          "--generated", "generated"])

    def test_what_is_not_derived_is_said(self):
        with self.assertRaisesRegex(deriving.NotDerived, "(?s)no derivation of settle in .*a form that is not covered"):
            self.derive([f"post_line/{part}.antt" for part in deriving.PARTS])


class Renaming(unittest.TestCase):
    def test_modules_are_called_as_the_phrases_call_them(self):
        text = "use denote.Array as A2\nuse denote.Signed\nuse lib.Dec\n\nx = A2.Array (Signed.SInt Syntax.w16) Dec.no a.Signed.b\n"
        self.assertEqual(renaming.with_known_modules(text),
                         "use denote.Array as Array'\nuse denote.Signed as DenSigned\nuse lib.Dec\n\n"
                         "x = Array'.Array (DenSigned.SInt Syntax.w16) Dec.no a.Signed.b\n")

    def test_phrases(self):
        def struct(text):
            return renaming.of_struct(text, 8, "LineKit")

        self.assertEqual(struct("(Array'.Array (DenSigned.SInt\n    Syntax.w16) 8)"), "(LineKit.R)")
        self.assertEqual(struct("Array'.Array (DenSigned.SInt Syntax.w16) 9"), "Array'.Array (DenSigned.SInt Syntax.w16) 9")
        kind = "Syntax.tyArray (Syntax.tyInt Syntax.w16) 8"
        self.assertEqual(struct(f"Syntax.tyRef Syntax.mut ({kind}) ({kind})"), "Syntax.tyRef Syntax.mut LineKit.behind (LineKit.plain-ty)")
        self.assertEqual(struct(f"Syntax.imm (Syntax.tyArray ({kind}) 32)"), "Syntax.imm (Syntax.tyArray LineKit.behind 32)")
        self.assertEqual(struct("Init.room-arr 𝓤 H A W (DenSigned.SInt Syntax.w16) 8 0 8 Path'.refl"), "LineKit.room 𝓤 H A W")


class Carrying(Small):
    def test_derivation(self):
        text = """-- the `use` lines below are this print's own
use Rattle·top·proofs.proofs.post_line.Kinds as Kinds'
use Rattle·top·proofs.proofs.settle.Lts
use Rattle·top·proofs.proofs.at.Reads
use Rattle·middle.proofs.settled.Reads as Reads'
use Rattle·middle.proofs.line_with.Reads as Reads''
use denote.Array
use denote.Signed
use mathlib.Core.List

-- antt refused `close` as it was built: the module's report says why
abbrev pub one :
  Lts.T (Array.Array
    (Signed.SInt Syntax.w16)
    8
  )
one = Kinds'.ps Reads.Pre Reads'.Pre Reads''.Pre
"""
        self.assertEqual(carrying.Carrier(self.repository, "top").carried(text), """use Rattle·top·proofs.proofs.Port.LineKit
use Rattle·top·proofs.proofs.Port.post_line.Kinds as Kinds'
use Rattle·top·proofs.proofs.settle.Proof.Lts
use Rattle·top·proofs.proofs.at.Reads
use Rattle·middle.proofs.Port.settled.Reads as Reads'
use Rattle·middle.proofs.line_with.Reads as Reads''

abbrev pub one : Lts.T (LineKit.R)
one = Kinds'.ps Reads.Pre Reads'.Pre Reads''.Pre
""")

    def test_readings(self):
        text = "  requires-1·read = λ a. f (search Read.reads)\n\n  pre-read =\n    g (search Read.reads)\n"
        self.assertEqual(carrying.with_readings(text), "  requires-1·read = λ a. f (Read.r-last _)\n\n  pre-read =\n    g (Read.r-top)\n")

    def test_past_the_end(self):
        def read(kind):
            return carrying.ARRAY_READ.sub(carrying.past_the_end, f"Shared.k-slice-copy-out {kind} List.[] (λ x. Unit)")

        self.assertEqual(read("LineKit.R"), "Shared.k-slice-copy-out LineKit.R LineKit.dv (λ x. Unit)")
        self.assertEqual(read("Array'.Array n"), "Shared.k-slice-copy-out Array'.Array n List.[] (λ x. Unit)")


class LayingOut(unittest.TestCase):
    def test_one_line_each(self):
        text = 'f :\n  ℕ →\n  ℕ\nf = g (\n  1,\n  "(",\n\n  2,\n)\n\n  pub h : ℕ\n'
        self.assertEqual(laying_out.one_line_each(text), 'f : ℕ → ℕ\nf = g (1, "(", 2)\n\n  pub h : ℕ\n')

    def test_imports(self):
        text = "use a.List\nuse b.Nat as Nat'\nuse c.Kind\nuse d.Unit\n\nx = List.[] Nat'.one MyKind.y Unit'.z Value.v\n"
        self.assertEqual(laying_out.with_imports(text, ["k.LineKit"]),
                         "use k.LineKit\nuse borrow.Kind.Value\nuse a.List\nuse b.Nat as Nat'\n\n"
                         "x = List.[] Nat'.one MyKind.y Unit'.z Value.v\n")


class Making(Small):
    def test_kit(self):
        kit = kits.kits(self.repository, "top")["Line"]
        self.assertTrue(kit.startswith(f"{making.MADE_BY}top`: "))
        self.assertIn("\nuse Rattle·low.proofs.Line as S\nuse Rattle·low.proofs.Line.Laws as S′\n", kit)
        self.assertIn("\ndv = S.struct .make (pos 0, (0, tt)) tt\n", kit)
        self.assertIn("use lib.IntN.{pos}\n", kit)
        self.assertNotIn("false", kit)
        self.assertNotIn("@", kit)
        self.assertEqual(kits.kits(self.repository, "laws"), {})

    def test_zeros(self):
        self.assertEqual([kits.zero(kind) for kind in ("u64", "i64", "bool", "[i64; 8]")], ["0", "pos 0", "false", "[]"])

    def test_nodes(self):
        port = "crates/top/proofs/Port"
        made = making.nodes("top", [f"{port}/LineKit.antt", f"{port}/post/Kinds.antt", f"{port}/post/Reads.antt", f"{port}/m/f/Kinds.antt"])
        first = "-- Made by `python3 tools/walk top`.\n"
        self.assertEqual(made, {
            f"{port}.antt": first + "pub mod LineKit\npub mod m\npub mod post\n",
            f"{port}/post.antt": first + "pub mod Kinds\npub mod Reads\n",
            f"{port}/m.antt": first + "pub mod f\n",
            f"{port}/m/f.antt": first + "pub mod Kinds\n",
        })

    def test_files_of_a_crate(self):
        names = ["post_line", "settle", "at"]
        derived = {name: {part: f"{part} = {name}\n" for part in deriving.PARTS} for name in names}
        with mock.patch.object(deriving, "derive", return_value=derived):
            files = making.made(self.repository, "top", names, self.root)
        self.assertEqual(sorted(path.replace("crates/top/proofs/", "") for path in files), [
            "Port.antt", "Port/LineKit.antt", "Port/post_line.antt", "Port/post_line/Kinds.antt", "Port/post_line/Reads.antt",
            "Port/settle.antt", "Port/settle/Kinds.antt", "Port/settle/Reads.antt", "at/Proof/Lts.antt", "at/Proof/Tie.antt",
            "settle/Proof/Lts.antt", "settle/Proof/Tie.antt"])
        self.assertEqual(files["crates/top/proofs/settle/Proof/Lts.antt"],
                         "-- Made by `python3 tools/walk top settle`: the derivation of the function's body.\nLts = settle\n")

    def test_a_proof_is_begun(self):
        tie = ("  abbrev pub InvT-loop1 : Type 1\n  pub Need-returns : Type\n"
               "  pub spec : Need-add-requires Inv-loop1 → Need-returns → Lts.Closed x\n  spec = y\n")
        proof = beginning.proof("top", "m/put_lines", tie)
        self.assertIn("use Rattle·top·proofs.proofs.m.put_lines.Proof.Tie as tie\n", proof)
        self.assertIn("\nabbrev Inv-loop1 : tie.InvT-loop1\nInv-loop1 = ?\n", proof)
        self.assertIn("\nadd-requires : tie.Need-add-requires Inv-loop1 μ-loop1\nadd-requires c κs = search needs\n", proof)
        self.assertIn("\nreturns : tie.Need-returns Inv-loop1 μ-loop1\nreturns c = search needs\n", proof)
        self.assertTrue(proof.endswith("\nput-lines-spec = tie.close (tie.spec Inv-loop1 μ-loop1 add-requires returns)\n"))


class Comparing(unittest.TestCase):
    FILES = {"crates/top/proofs/Port.antt": f"{making.MADE_BY}top`.\npub mod LineKit\n",
             "crates/top/proofs/settle/Proof/Lts.antt": f"{making.MADE_BY}top settle`: x\nm = 1\n"}

    def setUp(self):
        folder = tempfile.TemporaryDirectory()
        self.addCleanup(folder.cleanup)
        self.root = Path(folder.name)
        lay(self.root, {**self.FILES, "crates/top/proofs/settle/Proof.antt": "-- Written by people.\n"})
        self.command = load_script(WALK / "__main__.py")

    def check(self):
        said = io.StringIO()
        with contextlib.redirect_stdout(said), mock.patch.object(self.command, "ROOT", self.root):
            return self.command.check(self.FILES), said.getvalue()

    def test_as_made(self):
        self.assertEqual(self.check(), (0, ""))

    def test_changed(self):
        for path, text in self.FILES.items():
            for changed in (text[:-1], text + "\n", text.replace("m", "n", 1)):
                with self.subTest(path=path):
                    lay(self.root, {path: changed})
                    status, said = self.check()
                    self.assertEqual((status, said.count("\n")), (1, 1))
                    self.assertIn(path, said)
                    self.assertEqual((self.root / path).read_text(), changed)
            lay(self.root, {path: text})

    def test_missing(self):
        (self.root / "crates/top/proofs/Port.antt").unlink()
        status, said = self.check()
        self.assertEqual(status, 1)
        self.assertIn("crates/top/proofs/Port.antt", said)

    def test_left_over(self):
        old = "crates/low/proofs/Port/gone/Kinds.antt"
        lay(self.root, {old: f"{making.MADE_BY}low gone`: x\n"})
        self.assertEqual(standing.left_over(self.root, self.FILES), [old])
        self.assertEqual(self.check()[0], 1)


class InTheRepository(unittest.TestCase):
    def made(self):
        """The files of the walked crates that stand where made ones do."""
        of = repository.Repository(ROOT)
        return {path: of for crate in of.walked for path in (ROOT / "crates" / crate / "proofs").rglob("*.antt")
                if "Port" in path.parts or path.name == "Port.antt" or path.parent.name == "Proof" and path.stem in making.WALK}

    def test_the_walked_functions_are_there(self):
        of = repository.Repository(ROOT)
        for crate, names in of.walked.items():
            self.assertLessEqual(set(names), set(of.functions(crate)))

    def test_every_made_file_says_what_makes_it(self):
        # today's check derives these functions by itself: nothing that was made is left
        self.assertEqual(self.made(), {})
        for path, of in self.made().items():
            with self.subTest(path=path):
                first = path.read_text().split("\n")[0]
                self.assertTrue(first.startswith(making.MADE_BY), first)
                crate, *names = first[len(making.MADE_BY):].split("`")[0].split()
                self.assertEqual(crate, path.relative_to(ROOT).parts[1])
                self.assertLessEqual(set(names), set(of.walked[crate]))

    def test_every_made_file_is_marked_as_generated(self):
        lines = [line.split() for line in (ROOT / ".gitattributes").read_text().splitlines()]
        patterns = [words[0].lstrip("/") for words in lines if "linguist-generated" in words]
        for path in self.made():
            name = path.relative_to(ROOT).as_posix()
            self.assertTrue(any(fnmatch.fnmatchcase(name, pattern) for pattern in patterns), name)


if __name__ == "__main__":
    unittest.main()
