"""That the examples, docs/FORMAT.md and the stored amounts say what the second program does.

    python3 -m unittest tests/test_pages.py
"""

import re
import sys
import unittest
from pathlib import Path

HERE = Path(__file__).resolve().parent
ROOT = HERE.parent
sys.path.insert(0, str(HERE))
import hours  # noqa: E402
import naming  # noqa: E402
import second  # noqa: E402
import ten_minutes  # noqa: E402
from answers import answer  # noqa: E402
from scripts import load_script  # noqa: E402


class Pages(unittest.TestCase):
    """The examples, docs/FORMAT.md and the stored amounts say what the programs do."""

    @staticmethod
    def printed(number):
        """A number as the pages write it."""
        return f"{number:,}".replace("-", "\u2212")

    def test_examples(self):
        make = load_script(ROOT / "examples" / "make.py")
        for name, hour in make.EXAMPLES.items():
            data = (ROOT / "examples" / f"{name}.hour").read_bytes()
            page = (ROOT / "examples" / f"{name}.md").read_text()
            self.assertEqual(data, hour().encode(), "python3 examples/make.py writes the hours")
            self.assertTrue(page.endswith(f"```\n{second.statement(data).decode()}```\n"), name)
            settled = second.settle(data, (5, 5, 5, 8, 8))
            amounts = [amount for amount, _ in settled.lines]
            for figure in settled.ufe + settled.deviations + settled.shares + amounts + settled.charges + settled.finals:
                if figure != second.UNTOUCHED:
                    self.assertIn(self.printed(figure), page, name)

    def test_the_ten_minute_examples(self):
        """What each record deviates by, each net, what it costs and what a member's come to, in the 24ths that the page counts in."""
        make = load_script(ROOT / "examples" / "make.py")
        page = (ROOT / "examples" / "ten-minutes.md").read_text()
        for name, made in make.TEN_MINUTES.items():
            data = (ROOT / "examples" / f"{name}.hour").read_bytes()
            self.assertEqual(data, made().encode(), "python3 examples/make.py writes the hours")
            self.assertIn(f"```\n{second.ten_minutes(data).decode()}```\n", page, name)
            figures = self.ten_minute_figures(second.read_ten_minute_hour(data))
            self.assertEqual([each for each in figures if self.printed(each) not in page], [], name)
        self.assertTrue(page.endswith("```\n"))

    @staticmethod
    def ten_minute_figures(hour):
        records, intervals = hour["records"], second.INTERVALS
        figures = [24 * second.interval_schedule(r, interval) for r in records for interval in intervals]
        figures += [24 * second.interval_actual(r, interval) for r in records for interval in intervals]
        figures += [240_000 * second.interval_deviation(r, interval) for r in records for interval in intervals]
        for member in range(hour["members"]):
            for zone, prices in enumerate(hour["prices"]):
                own = [r for r in records if r["member"] == member and hour["areas"][r["area"]]["zone"] == zone]
                nets = [240_000 * second.net_deviation(own, interval) for interval in intervals]
                figures += [*nets, *(net * second.interval_price(prices, net, interval) for net, interval in zip(nets, intervals))]
            figures.append(24 * second.unrounded_amount(hour, member))
        assert all(figure.denominator == 1 for figure in figures)
        return [int(figure) for figure in figures] + second.ten_minute_charges(hour)

    def test_the_ramps_of_the_ten_minute_examples(self):
        """A record's neighbouring schedules agree, so that what the ramps add is what is left of the two ends."""
        page = (ROOT / "examples" / "ten-minutes.md").read_text()
        first, then = (second.read_ten_minute_hour((ROOT / "examples" / f"ten-minutes-{number}.hour").read_bytes())["records"]
                       for number in (1, 2))
        for one, two in zip(first[:2], then[:2]):
            self.assertEqual((one["next"], two["before"]), (two["S"], one["S"]))
            added = [int(24 * second.interval_schedule(r, interval) - 4 * r["S"]) for r in (one, two) for interval in (1, 6)]
            together = (two["next"] - two["S"]) - (one["S"] - one["before"])
            self.assertEqual(sum(added), together)
            cells = " | ".join(self.printed(each) if each <= 0 else f"+{each}" for each in added)
            self.assertIn(f" | {cells} | {self.printed(together)} | ", page)

    def test_the_example_to_write(self):
        words = (ROOT / "examples" / "printed.words").read_bytes()
        self.assertEqual(words, load_script(ROOT / "examples" / "make.py").printed_words())
        self.assertEqual(second.written_hour(words), (ROOT / "examples" / "printed.hour").read_bytes())

    def test_the_example_in_c(self):
        """What examples/c/check expects, and the example's page."""
        folder = ROOT / "examples" / "c"
        for name in load_script(ROOT / "examples" / "make.py").EXAMPLES:
            settled = second.settle((ROOT / "examples" / f"{name}.hour").read_bytes())
            text = f"answer {settled.number} at {settled.place}\n"
            for member, ((amount, records), *cents) in enumerate(zip(settled.lines, settled.charges, settled.finals)):
                if (amount, records) != (second.UNTOUCHED, second.UNTOUCHED):
                    charge, final = (second.column(each).decode() for each in cents)
                    text += f"member {member} records {records} grains {amount} charge {charge} final {final}\n"
            self.assertEqual((folder / "expected" / f"{name}.txt").read_text(), text)
        for name in ("printed", "explain", "write"):
            printed = (folder / "expected" / f"{name}.txt").read_text()
            self.assertIn("".join(f"    {line}\n" for line in printed.splitlines()), (folder / "README.md").read_text())
        charges = "".join(f"member {member} charge {charge}\n" for member, charge in enumerate(
            second.settle((ROOT / "examples" / "printed.hour").read_bytes()).charges[:2]))
        self.assertEqual((folder / "expected" / "write.txt").read_text(), "answer 0 at 0 length 1024\nsettled 0 at 0\n" + charges)

    def test_the_example_in_c_that_explains(self):
        for name, hour, member in (("explain", "printed", 1), ("explain-two-zones", "two-zones", 3), ("explain-nothing", "two-zones", 4)):
            answer = second.explain((ROOT / "examples" / f"{hour}.hour").read_bytes(), [member])[0]
            *lines, decided = second.explanation_text(answer).splitlines(True)
            self.assertEqual((ROOT / "examples" / "c" / "expected" / f"{name}.txt").read_bytes(),
                             b"".join([b"answer 0 at 0\n", *lines, b"amount %d\n" % sum(answer.heads.values()), decided]))

    def test_the_refusals_that_examples_tell_of(self):
        make = load_script(ROOT / "examples" / "make.py")
        hour = make.two_zones()
        hour.areas[2] = [1, 700, 699]
        self.assertEqual(answer(hour), (6, 2))
        hour = make.neutrality()
        hour.areas = [[0, 0, 700], [0, 0, 0]]
        for load in hour.records[1:]:
            load["A"] = 0
        self.assertEqual(answer(hour), (12, 0))
        self.assertEqual(second.work_out_charges(second.read_hour(hour.encode()))["charges"], [20, -310, -302, -100])

    def test_change_a_byte(self):
        """Each row of the table in examples/printed.md, done to a copy in turn."""
        page = (ROOT / "examples" / "printed.md").read_text()
        data = bytearray((ROOT / "examples" / "printed.hour").read_bytes())
        rows = re.findall(r"\| `printf '\\(\d+)' \\\| dd of=my.hour bs=1 seek=(\d+) .*\| `([^`]*)`", page)
        self.assertEqual(len(rows), 4)
        for byte, place, statement in rows:
            data[int(place)] = int(byte, 8)
            self.assertEqual(second.statement(bytes(data)).decode().splitlines()[0], statement)

    def test_the_hex_dump(self):
        page = (ROOT / "docs" / "FORMAT.md").read_text()
        data = bytearray(int(re.findall(r"^([0-9a-f]{8})$", page, re.M)[0], 16))
        for place, line in re.findall(r"^([0-9a-f]{8})  (.+)$", page, re.M):
            at = int(place, 16)
            data[at:at + 16] = bytes.fromhex(line)
        self.assertEqual(bytes(data), (ROOT / "examples" / "printed.hour").read_bytes())

    def test_the_statement_of_the_format(self):
        statement = second.statement((ROOT / "examples" / "neutrality.hour").read_bytes()).decode()
        self.assertIn(f"```\n{statement}```\n", (ROOT / "docs" / "FORMAT.md").read_text())

    def test_the_ten_minute_statement_of_the_format(self):
        statement = second.ten_minutes((ROOT / "examples" / "ten-minutes-1.hour").read_bytes()).decode()
        self.assertIn(f"```\n{statement}```\n", (ROOT / "docs" / "FORMAT.md").read_text())

    def test_the_ten_minute_records_of_the_format(self):
        """Each word of a record stands in one row, and each kind has a mark there or a zero as the maker of hours has it."""
        section = naming.sections((ROOT / "docs" / "FORMAT.md").read_text())["The ten-minute file"]
        table = [row for row in naming.rows(section) if "1 generator" in row]
        spans = [[int(number) for number in row["word"].split(" to ")] for row in table]
        words = [range(span[0], span[-1] + 1) for span in spans]
        self.assertEqual([word for span in words for word in span], [*range(30)])
        for kind, column in zip(ten_minutes.USED_WORDS, list(table[0])[3:]):
            self.assertEqual(column[0], str(kind))
            marked = [word for row, span in zip(table, words) for word in span if row[column] == "✓"]
            self.assertEqual(marked, [0, 1, 2, *sorted(ten_minutes.USED_WORDS[kind])], column)
            self.assertLessEqual({row[column] for row in table}, {"✓", "0"})

    def test_the_explanation_of_the_format(self):
        data = (ROOT / "examples" / "two-zones.hour").read_bytes()
        page = (ROOT / "docs" / "FORMAT.md").read_text()
        self.assertIn(f"```\n{second.explanation(hours.question(3, data)).decode()}```\n", page)
        settled = second.settle(data)
        self.assertIn(f"{self.printed(settled.lines[3][0])} grains, which is a charge of {self.printed(settled.charges[3])} cents", page)

    def test_stored_amounts(self):
        folder = HERE / "archive"
        self.assertEqual(second.amounts((folder / "amounts.in").read_bytes()), (folder / "amounts.out").read_bytes())

    def test_text_amounts_of_the_format(self):
        page = (ROOT / "docs" / "FORMAT.md").read_text().replace("\u2212", "-")
        written = re.findall(r"^\| (-?\d+) \| (\d+) \| (?:`(.*?)` )?\| (?:refused (\d+))?", page, re.M)
        self.assertEqual(len(written), 7)
        for cents, width, field, refused in written:
            due = (int(refused), None) if refused else (0, field.encode())
            self.assertEqual(second.write_amount(int(cents), int(width)), due)
        read = re.findall(r"^\| `(.*?)` \| (refused 10|-?\d+) \| ", page, re.M)
        self.assertEqual(len(read), 15)
        for field, cents in read:
            due = (10, 0) if cents == "refused 10" else (0, int(cents))
            self.assertEqual(second.read_amount(field.encode()), due, field)


if __name__ == "__main__":
    unittest.main()
