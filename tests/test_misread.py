"""That the answers of tests/misread.py are given, and that each misreading would be noticed by the cases that are named for it.

    python3 -m unittest tests/test_misread.py     # programs from target/bin; those of tests/archive are made
"""

import sys
import unittest
from pathlib import Path

sys.path.insert(0, str(Path(__file__).resolve().parent))
import misread  # noqa: E402
import programs  # noqa: E402
import second  # noqa: E402
from slips import EXACT, HEAD_GIVEN, HOUR_SLIPS, ROUNDED, ROUNDING_SLIPS, SCHEDULE_SLIPS, WRITING_SLIPS, wrong_program  # noqa: E402

# Each misreading, as changes of the second program; where it can be made in several places, each of them.
LOADS_USE = 'REAL_TIME_LOAD: "SAJNO", PROFILE_LOAD: "SAJNO"'
DELIVERED = 'delivered = (r["A"] - r["J"]) * multiplier(r["H"])'
LAYOUT_CHECKED = "    check_layout(blocks, layout)\n"
HEAD_READ = "    hour = read_head(blocks[0])\n"
MISREAD = {
    "a load without O": [(LOADS_USE, LOADS_USE.replace('L_TIME_LOAD: "SAJNO"', 'L_TIME_LOAD: "SAJN"')),
                         (LOADS_USE, LOADS_USE.replace('PROFILE_LOAD: "SAJNO"', 'PROFILE_LOAD: "SAJN"'))],
    "a load with M let through": [(LOADS_USE, LOADS_USE.replace('L_TIME_LOAD: "SAJNO"', 'L_TIME_LOAD: "SAJNOM"')),
                                  (LOADS_USE, LOADS_USE.replace('PROFILE_LOAD: "SAJNO"', 'PROFILE_LOAD: "SAJNOM"'))],
    "an import without N": [('IMPORT: "SJNFH"', 'IMPORT: "SJFH"')],
    "word 11 used": [(' or record["last"] != 0', "")],
    "an area's fourth word anything": [("        word(at + 3, ZERO)\n", ""),
                                       ("word(at + 3, ZERO)", "word(at + 3, WORD if counted else ZERO)"),
                                       ("word(at + 3, ZERO)", "word(at + 3, ZERO if counted else WORD)")],
    "prices counted by areas": [("PRICE if zone < zones", "PRICE if zone < areas")],
    "areas counted by zones": [("counted = area < areas", "counted = area < zones")],
    "an area's zone below the areas": [("range(zones) if counted", "range(areas) if counted")],
    "row 3 before row 2": [HOUR_SLIPS["layout before sums"]],
    "row 4 before row 3": [(LAYOUT_CHECKED, f"    read_head(blocks[0])\n{LAYOUT_CHECKED}")],
    "row 5 before row 4": [(HEAD_READ, f"    read_records(records_held(blocks), 32, 8)\n{HEAD_READ}"), WRITING_SLIPS["5 before 4"]],
    "row 14 before row 5": [SCHEDULE_SLIPS["14 before 5, over all records"], SCHEDULE_SLIPS["14 before 5, record by record"]],
    "row 6 before row 14": [HOUR_SLIPS["14 after 6"]],
    "row 12 before row 6": [HOUR_SLIPS["12 before 6"]],
    "row 11 before row 12": [HOUR_SLIPS["12 after 11"]],
    "row 2 at its last place": [HOUR_SLIPS["last block whose sum isn't zero"]],
    "row 3 at its last place": [HOUR_SLIPS["last block that breaks the layout"]],
    "row 4 at its last place": [HOUR_SLIPS["last word of the head"]],
    "row 5 at its last place": [HOUR_SLIPS["last record"]],
    "row 14 at its last place": [SCHEDULE_SLIPS["the last schedule"]],
    "row 6 at its last place": [HOUR_SLIPS["last area"]],
    "a head of 119 words": [("HEAD_WORDS = 120", "HEAD_WORDS = 119", "+ tuple(head))", "+ tuple(head) + (0,))"),
                            WRITING_SLIPS["a head too short filled with zeros"]],
    "a load's A + J": [('((r["A"] - r["J"]) + r["N"])', '((r["A"] + r["J"]) + r["N"])')],
    "a generator's A + J": [(DELIVERED, DELIVERED.replace("-", "+"))],
    "a generator's F and H exchanged": [
        (DELIVERED, DELIVERED.replace("H", "F"), 'r["S"] * multiplier(r["F"]) - delivered', 'r["S"] * multiplier(r["H"]) - delivered')],
    "a generator's J outside the multiplier": [HOUR_SLIPS["adjustment outside the multiplier"]],
    "min for a load's unavailable energy": [HOUR_SLIPS["min for the load's unavailable energy"]],
    "loads added": [HOUR_SLIPS["loads added"]],
    "exports added": [HOUR_SLIPS["exports added"]],
    "units left to the last load": [HOUR_SLIPS["leftover units to the last load"]],
    "a unit to the later of equals": [HOUR_SLIPS["later of equal remainders"]],
    "a unit to the smallest remainder": [HOUR_SLIPS["smallest remainders"]],
    "negative grains towards minus infinity": [HOUR_SLIPS["negative grains towards minus infinity"]],
    "negative grains towards zero": [(ROUNDED, f"return int({EXACT}) if grains < 0 else round({EXACT})")],
    **{name: [slip] for name, slip in ROUNDING_SLIPS.items()},
    "losses by F": [('sum(actual(r) * (1 - multiplier(r["H"]))', 'sum(actual(r) * (1 - multiplier(r["F"]))')],
    "a generator's N times H": [HOUR_SLIPS["ancillary energy times H"]],
    "an import's \u2212 N": [HOUR_SLIPS["import's ancillary energy subtracted"]],
    "ties in and out exchanged": [('ties["in"] - ties["out"]', 'ties["out"] - ties["in"]'),
                                  ('"in": word(at + 1,', '"in": word(at + 2,', '"out": word(at + 2,', '"out": word(at + 1,')],
    "D by the scheduled energy": [('demands = [hour["records"][i]["A"]', 'demands = [hour["records"][i]["S"]')],
    "a member's demand by the scheduled energy": [HOUR_SLIPS["demand as scheduled"]],
    "an area's zone from word 19": [("        word(at + 3, ZERO)\n", '        rows[-1]["zone"] = word(at + 3, ZERO)\n')],
    "prices reversed": [(HEAD_GIVEN, HEAD_GIVEN.replace("[:zones]", "[:zones][::-1]"))],
    "an area's own number as its zone": [('["prices"][hour["areas"][area]["zone"]]', '["prices"][area]')],
    "a member's demand from the next member": [
        ('r["member"] == member and r["kind"] in LOADS', 'r["member"] == (member + 1) % hour["members"] and r["kind"] in LOADS'),
        ("shares_of(demands, neutrality)", "shares_of(demands[1:] + demands[:1], neutrality)")],
    "12 by the last member's demand alone": [("not any(demands)", "not demands[-1]")],
    "12 by the first member's demand alone": [("not any(demands)", "not demands[0]")],
    "12 where N is 0 and charges aren't": [HOUR_SLIPS["12 where N is 0"]],
    "nobody for none": [('NO_HEAD = "none"', 'NO_HEAD = "nobody"')],
}

# Each end of each range: one too narrow, and one too wide.
RANGES = {**dict.fromkeys("SANOM", ("ENERGY", 0, 100_000)), "J": ("ADJUSTMENT", -100_000, 100_000),
          **dict.fromkeys("FH", ("MULTIPLIER", 1, 20_000))}
for letter, (allowed, low, high) in RANGES.items():
    for down, up in ((0, -1), (0, 1), (1, 0), (-1, 0)):
        if low != 0 or down == 0:  # no word is below 0, and 0 has no case: it is the usual value
            name = misread.end_misread(letter, *((high, up) if up else (low, down)))
            MISREAD[name] = [(f'"{letter}": {allowed}', f'"{letter}": range({low + down}, {high + up + 1})')]
ALL_PRICES = "PRICE = range(-1_000_000, 1_000_001)"
MISREAD.update({
    "prices up to 999,999": [(ALL_PRICES, ALL_PRICES.replace("1_000_001", "1_000_000"))],
    "prices up to 1,000,001": [(ALL_PRICES, ALL_PRICES.replace("1_000_001", "1_000_002"))],
    "prices from \u2212999,999": [(ALL_PRICES, ALL_PRICES.replace("-1_000_000", "-999_999"))],
    "prices from \u22121,000,001": [(ALL_PRICES, ALL_PRICES.replace("-1_000_000", "-1_000_001"))],
})
for word, at in (("in", 1), ("out", 2)):
    for most in (1_000_000, 9_999_999, 10_000_001):
        MISREAD[f"tie {word} up to {most:,}"] = [(f'"{word}": word(at + {at}, ties', f'"{word}": word(at + {at}, range({most + 1})')]
for counted, most in (("members", 32), ("zones", 4), ("areas", 8)):
    for name, narrowed in (("no", f"range({most + 1})"), (str(most - 1), f"range(1, {most})"), (str(most + 1), f"range(1, {most + 2})")):
        MISREAD[f"{name} {counted}"] = [(f"range(1, {most + 1})", narrowed)]


def misreading(name):
    return name.split(":")[0]


def answer(program, name, numbers, data):
    """What a program prints that is written in Python."""
    return program.PRINTED[name](data, *([numbers] if numbers else []))


class Answers(unittest.TestCase):
    def test_of_the_second_program(self):
        for case, name, numbers, data, wanted in misread.runs():
            with self.subTest(case, program=name):
                self.assertEqual(answer(second, name, numbers, data), wanted)

    def test_of_the_proved_programs(self):
        folder = programs.made("archive")
        commands = {name: programs.command(name) for name in ("statement", "explanation", "write_hour")}
        commands.update({name: programs.command(name, folder) for name in ("settled", "written")})
        for case, name, numbers, data, wanted in misread.runs():
            with self.subTest(case, program=name):
                self.assertEqual(programs.run([*commands[name], *map(str, numbers)], data), wanted)


class Misreadings(unittest.TestCase):
    def test_each_is_noticed_by_its_own_cases(self):
        runs = [*misread.runs()]
        for name, variants in MISREAD.items():
            own = [run for run in runs if misreading(run[0]) == name]
            for at, changes in enumerate(variants):
                wrong = wrong_program(name, {name: changes})
                with self.subTest(name, variant=at):
                    self.assertTrue(any(answer(wrong, *run[1:4]) != run[4] for run in own))

    def test_every_case_notices_its_misreading(self):
        """One of its ways at least; a case that notices none would be there for nothing."""
        wrong = {name: [wrong_program(name, {name: changes}) for changes in variants] for name, variants in MISREAD.items()}
        noticed = {}
        for case, name, numbers, data, wanted in misread.runs():
            differs = any(answer(each, name, numbers, data) != wanted for each in wrong[misreading(case)])
            noticed[case] = noticed.get(case, False) or differs
        self.assertEqual([case for case, differs in noticed.items() if not differs], [])
        self.assertEqual({misreading(case) for case in noticed}, set(MISREAD))


if __name__ == "__main__":
    unittest.main()
