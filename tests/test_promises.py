"""That docs/PROMISES.md and the crate `theorems` are whole: every public function stands in both but for those that the page excepts, its
law determines every buffer that it is lent, every `requires` is explained, every definition that the page names is there, and the page
names each must-fail edit once, and none that is gone; and that each edit can still be made. Run from the project's root:
python3 -m unittest tests/test_promises.py"""

import re
import sys
import unittest
from pathlib import Path

sys.path.insert(0, str(Path(__file__).resolve().parent))
from naming import CRATES, ROOT, clauses, definition, edits, edits_named, function, in_proofs, law, method, methods, names  # noqa: E402
from naming import parameters, rows, sections, texts_edited  # noqa: E402

PROMISES = (ROOT / "docs" / "PROMISES.md").read_text()
EXCEPTIONS, REQUIRES = sections(PROMISES)["Exceptions"].split("### Functions with a requires")

# The page's own exceptions: functions without a row and a law (its first table), and functions that don't take every input.
WITHOUT_A_LAW = {name for row in rows("| excepted" + EXCEPTIONS.split("| excepted")[1]) for name in names(row["excepted"])}
WITH_A_REQUIRES = {name for name in re.findall(r"`(\w+(?:::\w+)+)`", REQUIRES.split("\n\n- ", 1)[1])}


# Traits that are not ours, of which a type of ours has an `impl`.
STD_TRAITS = ("From",)


def public_modules(lib):
    return {name for name in re.findall(r"^pub mod (\w+);", lib, re.M)}


def handed_on(lib):
    """The types and traits of private modules that the crate hands on: `pub use form::Form;`."""
    return set(re.findall(r"^pub use \w+::(\w+);", lib, re.M))


def public_functions(private_modules=False):
    """(crate, module or '', function) for every function that another crate can call, or that is `pub` in a private module. Of a type or a
    trait it is `Type::function`. What an `impl` gives a trait of ours is the trait's, and so here once; of another's trait it is the type's."""
    found = []
    for lib in sorted(CRATES.glob("*/src/lib.rt")):
        crate = lib.parent.parent.name
        open_modules, open_types = {"", *public_modules(lib.read_text())}, handed_on(lib.read_text())
        for source in sorted(lib.parent.glob("*.rt")):
            module = "" if source == lib else source.stem
            if module in open_modules or private_modules:
                found += [(crate, module, name) for name in re.findall(r'^pub (?:extern "C" )?fn (\w+)', source.read_text(), re.M)]
        for each in methods(crate):
            seen = each.called == "pub " and (each.module in open_modules or each.holder in open_types)
            if each.trait in ("", each.holder, *STD_TRAITS) and (seen or private_modules and each.called):
                found.append((crate, each.module, f"{each.holder}::{each.name}"))
    return found


def implementations(crate, module, name):
    """Where what a function does is written: in the function, or, where a trait's has no body, in that of each type that has the trait."""
    own = method(path_of(crate, module, name))
    if own is None or own.has_body():
        return [(crate, module, name)]
    return [(crate, each.module, f"{each.holder}::{each.name}") for each in methods(crate)
            if (each.trait, each.name) == (own.trait, own.name) and each.holder != own.holder]


def promising_functions():
    """Those with a row and a law; a function that C links is one call of such a function, with the same clauses."""
    for_c = functions_for_c()
    return [(crate, module, name) for crate, module, name in public_functions()
            if f"{crate}::{name}" not in WITHOUT_A_LAW and (crate, module, name) not in for_c]


def path_of(crate, module, name):
    return "::".join(part for part in (crate, module, name) if part)


# ---- laws

LAWS = [path.read_text() for path in sorted((CRATES / "theorems" / "proofs").glob("*.antt"))]


def laws_of(crate, module, name, laws=LAWS):
    """What the laws `one_…` say of a function: each one's statement, of a file that has the function's reading under a name."""
    stated = []
    for text in laws:
        for alias in readings_of(crate, module, name, text):
            for law in re.findall(r"^pub one_\S+ :(?:.|\n    )*", text, re.M):
                stated += [law] if f"({alias}.Learnt " in law else []
    return stated


def readings_of(crate, module, name, text):
    """The names under which a file of laws has a function's contract as its callers read it."""
    path = re.escape(".".join([crate, "proofs", *in_proofs(path_of(crate, module, name))]))
    return re.findall(rf"^use Rattle\.{path}\.Reads as (\S+)$", text, re.M)


# Where callers enter: besides the functions for C these, of which nothing is asked either.
ENTRY_POINTS = [("pool", "", "settle"), ("pool", "", "settle_unlined"), ("writer", "", "write_hour"), ("amount", "", "write"),
                ("amount", "", "read"), ("hour", "", "body"), ("examine", "", "examine"), ("explain", "", "explain"),
                ("report", "statement", "put_statement"), ("report", "explanation", "put_explanation"),
                ("report", "written", "put_written_hour"), ("report", "ten_minutes", "put_ten_minutes_statement")]


def functions_for_c():
    """(crate, module or '', function) for every function that C can call."""
    return [(source.parent.parent.name, "" if source.stem == "lib" else source.stem, name)
            for source in sorted(CRATES.glob("*/src/*.rt"))
            for name in re.findall(r'^#\[unsafe\(no_mangle\)\]\npub extern "C" fn (\w+)', source.read_text(), re.M)]


def called_for_c(crate, module, name):
    """(crate, module or '', function) of the function that a function for C calls, which is all that it does."""
    body = re.search(r"^\{\n    ((?:\w+::)+)(\w+)\(([\w, ]*)\)\n\}\Z", function(path_of(crate, module, name)), re.M)
    behind, between = body.group(1).rstrip(":").split("::")[0], body.group(1).rstrip(":").split("::")[1:]
    return body.group(3).split(", "), (behind, "::".join(between), body.group(2))


def asks_nothing(crate, module, name, laws=LAWS):
    """Whether a law says of a function's own contract that it asks nothing of its caller."""
    return any(re.search(rf"^pub asks_nothing_{name} :(?:.|\n    )*AsksNothing \({re.escape(alias)}\.Asked ", text, re.M)
               for text in laws for alias in readings_of(crate, module, name, text))


def at_exit(law):
    """The parameters whose state at exit a law determines, as their places, in the order of its text."""
    return [place.count(".1") for place in re.findall(r"\bs((?:\.1)*\.0)\.now\b", law)]


def fields_of(builder):
    """The names of what makes up a caller's buffers, in the order in which a definition takes them."""
    texts = "".join(path.read_text() for path in CRATES.glob("*/specs/**/*.antt"))
    return re.search(rf"^{builder} ((?:\w+ )+)=", texts, re.M).group(1).split()


def lent_places(path, law):
    """The places of a function's `&mut` parameters: in their order, or in that of the definition by which the law puts them together."""
    places = {name: place for place, (name, kind) in enumerate(parameters(path).items()) if kind.startswith("&mut ")}
    builder = re.search(r"λ s\.\s+(\w+) s\.", law)
    order = fields_of(builder.group(1)) if builder else places
    assert set(order) == set(places), f"{path}: {order} are not the buffers that it is lent"
    return [places[name] for name in order]


class Promises(unittest.TestCase):
    def test_functions_are_seen(self):
        self.assertGreater(len(public_functions()), 50)

    def test_every_public_function_has_its_row(self):
        parts = sections(PROMISES)
        for crate, module, name in promising_functions():
            with self.subTest(crate=crate, function=name):
                own = "".join(text for title, text in parts.items() if f"`{crate}`" in title)
                self.assertRegex(own, rf"(?m)^\| .*\b{name}`")

    def test_every_public_function_is_determined(self):
        for crate, module, name in promising_functions():
            with self.subTest(crate=crate, function=name):
                self.assertTrue(implementations(crate, module, name))
                for each in implementations(crate, module, name):
                    self.assertEqual(len(laws_of(*each)), 1, each)

    def test_every_lent_buffer_is_determined(self):
        """A law has its own `….now` of the state at exit for each `&mut` parameter, and for no other."""
        lending = 0
        for crate, module, name in promising_functions():
            with self.subTest(crate=crate, function=name):
                for each in implementations(crate, module, name):
                    for law in laws_of(*each):
                        places = lent_places(path_of(*each), law)
                        self.assertEqual(at_exit(law), places)
                        self.assertEqual("OneOutcome " in law, bool(places))
                        lending += len(places)
        self.assertGreater(lending, 30)

    def test_a_law_without_a_buffer_is_noticed(self):
        """Each law of settling with one `….now` taken out, or two exchanged, is another list of places."""
        (law,) = laws_of("pool", "", "settle")
        places = re.findall(r" s(?:\.1)*\.0\.now", law)
        self.assertEqual(len(places), 5)
        for place in places:
            self.assertNotEqual(at_exit(law.replace(place, "")), lent_places("pool::settle", law))
        exchanged = law.replace(places[0], " (x)").replace(places[1], places[0]).replace(" (x)", places[1])
        self.assertNotEqual(at_exit(exchanged), lent_places("pool::settle", law))

    def test_nothing_is_asked_of_callers(self):
        for_c = functions_for_c()
        self.assertGreater(len(for_c), 5)
        for crate, module, name in [called_for_c(*each)[1] for each in for_c] + ENTRY_POINTS:
            with self.subTest(crate=crate, function=name):
                self.assertIsNotNone(function(path_of(crate, module, name)))
                self.assertTrue(asks_nothing(crate, module, name))

    def test_functions_for_c_promise_what_they_call(self):
        """Each is the call of a function with its name, of its own parameters in their order, and has that function's clauses."""
        promising = promising_functions()
        for each in functions_for_c():
            with self.subTest(each):
                given, called = called_for_c(*each)
                own, other = function(path_of(*each)), function(path_of(*called))
                self.assertEqual((given, called[2]), ([*parameters(path_of(*each))], each[2]))
                self.assertEqual(parameters(path_of(*each)), parameters(path_of(*called)))
                self.assertTrue(clauses(own))
                self.assertEqual(clauses(own), clauses(other))
                self.assertIn(called, promising)

    def test_functions_for_c_ask_nothing(self):
        """Each has the law that says so, in its own crate."""
        for crate, module, name in functions_for_c():
            with self.subTest(crate=crate, name=name):
                laws = (CRATES / crate / "proofs" / "Asked.antt").read_text()
                self.assertIn(f"use Rattle.{crate}.proofs.{name}.Reads as {name}\n", laws)
                self.assertRegex(laws, rf"\npub asks_nothing_{name} : \(κs : Lfts \d+\) → AsksNothing \({name}\.Asked κs\)\n")

    def test_every_exception_is_a_function(self):
        there = {f"{crate}::{name}" for crate, module, name in public_functions()}
        self.assertEqual(WITHOUT_A_LAW - there, set())

    def test_every_requires_is_explained(self):
        asking = set()
        for crate, module, name in public_functions(private_modules=True):
            text = function(path_of(crate, module, name))
            if re.search(r"^ +requires ", text, re.M):
                asking.add(f"{crate}::{name}")
        self.assertEqual(WITH_A_REQUIRES, asking)

    def test_definitions_named_are_there(self):
        """`FILE.name` is of `rules`, or of a crate that the section is about."""
        for title, text in sections(PROMISES).items():
            crates = ["rules", *names(title)]
            for name in re.findall(r"`((?:\w+/)*[A-Z]\w*\.[a-zA-Z][\w-]*)`", text):
                if not name.endswith((".antt", ".md")):
                    with self.subTest(name, section=title):
                        said = [name] if name[0].islower() else [f"{crate}/{name}" for crate in crates]
                        self.assertTrue(any(definition(each) or law(each) for each in said))

    def test_every_edit_is_named_once(self):
        self.assertTrue(edits())
        self.assertEqual(sorted(edits_named(PROMISES)), sorted(edits()))

    def test_every_edit_can_be_made(self):
        for edit, old, times in texts_edited():
            with self.subTest(edit):
                self.assertEqual(times, 1, old)


if __name__ == "__main__":
    unittest.main()
