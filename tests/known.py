"""Hour files whose answers are known by hand, from document 01's table: refusals 1 to 5 at a first, a middle and a last place, the ends of
several ranges, the longest file, the highest price, and two faults of which the table's order or the first place decides; from document
02, A1 and A8: hours in which nobody takes anything, with refusal 12 and without, of half cents too; from A3: imports whose word 4 isn't
zero, and an hour with losses of one; and from A6: generators that are scheduled above their maximum, at it and below it. And heads and
records to be written (document 02, A2): those of these files, and inputs of lengths that are right and wrong. And members to be explained
(A5): of the printed case and other hours that are worked by hand, and of these files.

`cases()` gives each file's name, the first line of its statement, and its bytes; `cases_to_write()` each input's name, what program
`write_hour` must write, and the input; `cases_to_explain()` the same of program `explanation`. No program had a part in those lines, and
nothing here is left to chance, so that the files come out the same each time.
"""

import itertools
from pathlib import Path

import hours
import to_write

EXAMPLES = Path(__file__).resolve().parent.parent / "examples"


# ---- Hours that keep every rule

def value(letter, place):
    """A letter's least, greatest or middle value, by turns."""
    low, high = hours.LOWEST[letter], hours.HIGHEST[letter]
    return (low, high, (low + high) // 2 + place)[(place + hours.LETTERS.index(letter)) % 3]


def hour_of(count):
    """So many records, of all kinds by turns, with the largest head that there is."""
    records = []
    for place in range(count):
        kind = hours.KINDS[place % 5]
        letters = {letter: value(letter, place) for letter in hours.USED[kind]}
        if kind == hours.GENERATOR:
            letters["M"] = max(letters["M"], letters["S"])  # in some places both are the greatest
        records.append(hours.record(kind, place % 32, place % 8, **letters))
    areas = [[area % 4, 10_000_000 - 1_000_000 * area, 10_000_000] for area in range(8)]
    return hours.Hour(4_000_000_000, 32, [1_000_000, -1_000_000, 0, 12_345], areas, records)


def five_blocks():
    """A head and 35 records, five in the last block."""
    return hour_of(35).blocks()


# ---- What is damaged

def changed(blocks, *changes):
    """The blocks with these words changed, given as block, word, value; the sums mended."""
    for block, word, new in changes:
        blocks[block][word] = new % 2**32
    for block in blocks:
        hours.mend(block)
    return blocks


def words(blocks, *changes):
    return hours.to_bytes(changed(blocks, *changes))


def sums(blocks, *places):
    """The bytes of the blocks with a bit turned over in each of these blocks."""
    for place in places:
        blocks[place][100] ^= 2**31
    return hours.to_bytes(blocks)


def field(place, word):
    """The block and the word in it at which a word of a record stands."""
    return place // 10 + 1, 8 + 12 * (place % 10) + word


# ---- The files: name, first line of the statement, bytes

def of_lengths():
    full = hour_of(250).encode()
    yield "printed", "hour 7 members 2 records 2", hours.printed_case().encode()
    # every area but the first has UFE, and nobody takes anything
    yield "head-alone", "refused 6 at 1", hour_of(0).encode()
    yield "bytes-13312", "hour 4000000000 members 32 records 250", full
    yield "bytes-13824", "refused 1 at 0", full + full[-512:]
    yield "bytes-0", "refused 1 at 0", b""
    yield "bytes-511", "refused 1 at 0", full[:511]
    yield "bytes-513", "refused 1 at 0", full[:513]


def of_blocks():
    yield "sum-first", "refused 2 at 0", sums(five_blocks(), 0)
    yield "sum-middle", "refused 2 at 2", sums(five_blocks(), 2)
    yield "sum-last", "refused 2 at 4", sums(five_blocks(), 4)
    yield "block-first", "refused 3 at 0", words(five_blocks(), (0, 2, 5))
    yield "block-middle", "refused 3 at 2", words(five_blocks(), (2, 3, 1))
    yield "block-last", "refused 3 at 4", words(five_blocks(), (4, 127, 1))
    yield "block-marked-first", "refused 3 at 3", words(five_blocks(), (3, 0, 1))
    yield "block-displaced", "refused 3 at 1", words(five_blocks(), (1, 1, 2))
    yield "block-not-full", "refused 3 at 1", words(five_blocks(), (1, 2, 9))
    yield "block-of-nine", "refused 3 at 1", words(five_blocks(), (1, 2, 9), *((1, word, 0) for word in range(116, 128)))
    yield "last-block-empty", "refused 3 at 4", words(five_blocks(), (4, 2, 0), *((4, word, 0) for word in range(8, 68)))
    yield "last-block-eleven", "refused 3 at 4", words(hour_of(40).blocks(), (4, 2, 11))


def of_heads():
    yield "head-first", "refused 4 at 9", words(five_blocks(), (0, 9, 33))
    yield "head-middle", "refused 4 at 29", words(five_blocks(), (0, 29, 10_000_001))
    yield "head-last", "refused 4 at 127", words(five_blocks(), (0, 127, 1))
    yield "no-members", "refused 4 at 9", words(five_blocks(), (0, 9, 0))
    # record 2 gives area 2 its only demand
    yield "price-1000000", "hour 4000000000 members 32 records 35", words(five_blocks(), (0, 15, 1_000_000), (*field(2, 4), 1))
    yield "price-1000001", "refused 4 at 15", words(five_blocks(), (0, 15, 1_000_001))
    yield "price-minus-1000001", "refused 4 at 15", words(five_blocks(), (0, 15, -1_000_001))
    yield "price-past-zones", "refused 4 at 15", words(five_blocks(), (0, 10, 3), (0, 28, 0), (0, 44, 0))
    yield "zone-past-zones", "refused 4 at 20", words(five_blocks(), (0, 20, 4))
    yield "area-past-areas", "refused 4 at 44", words(five_blocks(), (0, 11, 7), (0, 45, 0), (0, 46, 0))


def of_records():
    yield "record-first", "refused 5 at 0", words(five_blocks(), (*field(0, 0), 0))
    yield "record-middle", "refused 5 at 17", words(five_blocks(), (*field(17, 5), -100_001))
    yield "record-last", "refused 5 at 34", words(five_blocks(), (*field(34, 11), 1))
    yield "kind-six", "refused 5 at 9", words(five_blocks(), (*field(9, 0), 6))
    yield "member-past-members", "refused 5 at 12", words(five_blocks(), (*field(12, 1), 32))
    yield "area-number-past-areas", "refused 5 at 10", words(five_blocks(), (*field(10, 2), 8))
    yield "energy-100001", "refused 5 at 30", words(five_blocks(), (*field(30, 4), 100_001))
    yield "export-with-ancillary", "refused 5 at 24", words(five_blocks(), (*field(24, 6), 1))
    yield "multiplier-0", "refused 5 at 3", words(five_blocks(), (*field(3, 10), 0))
    yield "multiplier-20001", "refused 5 at 5", words(five_blocks(), (*field(5, 9), 20_001))


def of_two_faults():
    """The order of the table decides, and in a row the first place."""
    yield "length-before-sum", "refused 1 at 0", sums(five_blocks(), 0)[:-1]
    yield "sum-before-layout", "refused 2 at 4", sums(changed(five_blocks(), (0, 3, 1)), 4)
    yield "layout-before-head", "refused 3 at 4", words(five_blocks(), (0, 9, 0), (4, 3, 1))
    yield "head-before-record", "refused 4 at 127", words(five_blocks(), (0, 127, 1), (*field(0, 0), 0))
    yield "first-of-two-sums", "refused 2 at 1", sums(five_blocks(), 3, 1)
    yield "first-of-two-blocks", "refused 3 at 1", words(five_blocks(), (3, 3, 1), (1, 6, 1))
    yield "first-of-two-words", "refused 4 at 12", words(five_blocks(), (0, 127, 1), (0, 12, 1_000_001))
    yield "first-of-two-records", "refused 5 at 20", words(five_blocks(), (*field(33, 0), 0), (*field(20, 11), 1))


# ---- Hours in which nobody takes anything: which are accepted hangs on N, the sum of all charges

def idle_hour(price, *exported, ties=(0, 0), loads=()):
    """Three members and one area; an export for each member and kWh over its plan, negative if under, and these loads. At 1,000 cents a MWh
    a kWh over the plan is charged a cent."""
    exports = [hours.record(hours.EXPORT, member, 0, S=max(0, -kwh), A=max(0, kwh)) for member, kwh in exported]
    return hours.Hour(7, 3, [price], [[0, *ties]], [*exports, *loads])


def of_no_demand():
    """Refusal 12, with N in the comment; without N, or with a kWh of demand, the hour is accepted."""
    refused, of_records = "refused 12 at 0", "hour 7 members 3 records {}".format
    idle_load = hours.record(hours.PROFILE_LOAD, 0, 0)
    short_load = hours.record(hours.REAL_TIME_LOAD, 2, 0, S=1)
    one_kwh = hours.record(hours.PROFILE_LOAD, 0, 0, S=1, A=1)
    yield "no-demand-a-cent", refused, idle_hour(1_000, (1, 1)).encode()  # 1
    yield "no-demand-minus-a-cent", refused, idle_hour(1_000, (2, -1), loads=[idle_load]).encode()  # -1
    yield "no-demand-load-that-took-nothing", refused, idle_hour(1_000, loads=[short_load]).encode()  # -1
    yield "no-demand-over-half-a-cent", refused, idle_hour(501, (0, 1)).encode()  # 1
    yield "no-demand-one-and-a-half", refused, idle_hour(500, (0, 3)).encode()  # 2, the even cent
    yield "no-demand-grains-cancel", refused, idle_hour(500, (0, 1), (1, 1), (2, -2)).encode()  # 0 + 0 - 1, of 0.5 + 0.5 - 1
    yield "no-demand-three-halves", refused, idle_hour(500, (0, 3), (1, -1), (2, -1)).encode()  # 2 + 0 + 0, of 1.5 - 0.5 - 0.5
    yield "no-demand-both-directions", refused, idle_hour(1_000, (0, 30), (1, -10), (2, -19)).encode()  # 30 - 10 - 19
    yield "no-demand-no-records", of_records(0), idle_hour(1_000).encode()
    yield "no-demand-as-planned", of_records(2), idle_hour(1_000_000, (1, 0), loads=[idle_load]).encode()
    yield "no-demand-under-half-a-cent", of_records(1), idle_hour(499, (0, 1)).encode()
    yield "no-demand-half-a-cent", of_records(1), idle_hour(500, (0, 1)).encode()  # 0, the even cent
    yield "no-demand-minus-half-a-cent", of_records(1), idle_hour(500, (0, -1)).encode()
    yield "no-demand-price-0", of_records(2), idle_hour(0, (0, 99), (1, 3)).encode()
    yield "no-demand-charges-cancel", of_records(3), idle_hour(-1_000, (0, 30), (1, -10), (2, -20)).encode()
    yield "no-demand-cents-cancel", of_records(2), idle_hour(500, (0, 3), (1, -5)).encode()  # 2 - 2, of 1.5 - 2.5
    yield "one-kwh-of-demand", of_records(2), idle_hour(1_000, (1, 1), ties=(1, 0), loads=[one_kwh]).encode()
    yield "area-before-no-demand", "refused 6 at 0", idle_hour(1_000, (1, 1), ties=(1, 0)).encode()
    yield "record-before-no-demand", "refused 5 at 1", words(idle_hour(1_000, (1, 1), (1, 1)).blocks(), (*field(1, 11), 1))


# ---- Imports, whose actual energy is deemed to be the scheduled one (document 02, A3)

def import_hour():
    """An import of member 0 and a load of member 1 in an area with 300 kWh of tie in, at a cent a kWh.
    Deviation of the import: 300 x 10,000 - (300 - 50) x 9,000 + 10,000 x 20 = 3,000,000 - 2,250,000 + 200,000 = 950,000; of the load: 0.
    Losses: 300 x (10,000 - 9,000) = 300,000. UFE: 10,000 x (300 - 260) - 300,000 = 100,000, all to the load.
    Charges: 95 and 10 cents. N is 105, and all of it the load's: finals 95 and -95."""
    return hours.Hour(7, 2, [1_000], [[0, 300, 0]], [
        hours.record(hours.IMPORT, 0, 0, S=300, J=50, N=20, F=10_000, H=9_000), hours.record(hours.PROFILE_LOAD, 1, 0, S=260, A=260)])


def thirteen_imports():
    """Three blocks, with three imports in the last."""
    return hours.Hour(7, 1, [1_000], [[0, 0, 0]], [hours.record(hours.IMPORT, 0, 0, S=300, F=10_000, H=10_000)] * 13).blocks()


def of_imports():
    """Word 4 of an import is zero, whatever its word 3 is."""
    yield "import-as-scheduled", "hour 7 members 2 records 2", import_hour().encode()
    yield "imports-as-scheduled", "hour 7 members 1 records 13", hours.to_bytes(thirteen_imports())
    yield "import-word-4-first", "refused 5 at 0", words(thirteen_imports(), (*field(0, 4), 1))
    yield "import-word-4-middle", "refused 5 at 6", words(thirteen_imports(), (*field(6, 4), 100_000))
    yield "import-word-4-last", "refused 5 at 12", words(thirteen_imports(), (*field(12, 4), 299))
    yield "import-word-4-is-word-3", "refused 5 at 9", words(thirteen_imports(), (*field(9, 4), 300))
    yield "first-import-of-two", "refused 5 at 2", words(thirteen_imports(), (*field(11, 4), 300), (*field(2, 4), 1))


# ---- Generators, which may not be scheduled above their maximum (document 02, A6)

def thirteen_records():
    """Three blocks. Twelve generators, each of which made the 300 kWh that are scheduled and are its maximum; record 5 is a load that took
    the 3,600 kWh. So nothing deviates, there is no UFE, and whatever is charged, there is demand to carry N."""
    generator = hours.record(hours.GENERATOR, 0, 0, S=300, A=300, M=300, F=10_000, H=10_000)
    load = hours.record(hours.REAL_TIME_LOAD, 1, 0, S=3_600, A=3_600)
    return hours.Hour(7, 2, [1_000], [[0, 0, 0]], [generator] * 5 + [load] + [generator] * 7).blocks()


def of_schedules():
    """Row 14, at words 3 and 8 of a generator."""
    accepted = "hour 7 members 2 records 13"
    yield "schedules-at-maximum", accepted, hours.to_bytes(thirteen_records())
    yield "schedule-a-kwh-below", accepted, words(thirteen_records(), (*field(0, 3), 299))
    yield "maximum-a-kwh-higher", accepted, words(thirteen_records(), (*field(12, 8), 301))
    yield "schedule-above-first", "refused 14 at 0", words(thirteen_records(), (*field(0, 3), 301))
    yield "schedule-above-tenfold", "refused 14 at 6", words(thirteen_records(), (*field(6, 3), 3_000))
    yield "schedule-above-last", "refused 14 at 12", words(thirteen_records(), (*field(12, 3), 301))
    yield "maximum-below-first", "refused 14 at 0", words(thirteen_records(), (*field(0, 8), 299))
    yield "maximum-below-middle", "refused 14 at 9", words(thirteen_records(), (*field(9, 8), 0))
    yield "maximum-below-last", "refused 14 at 12", words(thirteen_records(), (*field(12, 8), 299))
    yield "first-schedule-of-two", "refused 14 at 2", words(thirteen_records(), (*field(11, 3), 3_000), (*field(2, 3), 301))
    yield "schedule-and-maximum-100000", accepted, words(thirteen_records(), (*field(4, 3), 100_000), (*field(4, 8), 100_000))
    yield "schedule-100000-maximum-99999", "refused 14 at 4", words(thirteen_records(), (*field(4, 3), 100_000), (*field(4, 8), 99_999))
    yield "schedule-and-maximum-0", accepted, words(thirteen_records(), (*field(10, 3), 0), (*field(10, 8), 0))
    yield "schedule-1-maximum-0", "refused 14 at 10", words(thirteen_records(), (*field(10, 3), 1), (*field(10, 8), 0))
    # the clerk's schedule, in the printed case: the engine's size is 2,000
    yield "printed-at-maximum", "hour 7 members 2 records 2", words(hours.printed_case().blocks(), (*field(0, 3), 2_000))
    yield "printed-above-maximum", "refused 14 at 0", words(hours.printed_case().blocks(), (*field(0, 3), 20_000))


def of_nothing_else_judged():
    """What was metered, the obligation and the ancillary energy may be above the maximum, and other kinds have none: loads, an import and
    an export that are scheduled as they were metered, 200 kWh by the tie in for the loads."""
    accepted = "hour 7 members 2 records 13"
    yield "actual-above-maximum", accepted, words(thirteen_records(), (*field(0, 4), 301))
    yield "obligation-above-maximum", accepted, words(thirteen_records(), (*field(0, 7), 301))
    yield "ancillary-above-maximum", accepted, words(thirteen_records(), (*field(0, 6), 301))
    others = [hours.record(hours.REAL_TIME_LOAD, 0, 0, S=100, A=100), hours.record(hours.PROFILE_LOAD, 0, 0, S=100, A=100),
              hours.record(hours.IMPORT, 0, 0, S=100, F=10_000, H=10_000), hours.record(hours.EXPORT, 0, 0, S=100, A=100)]
    yield "kinds-without-a-maximum", "hour 7 members 1 records 4", hours.Hour(7, 1, [1_000], [[0, 200, 0]], others).encode()


def of_schedules_beside_other_rows():
    """Row 5 goes first, over all records; rows 6 and 12 come after. Where the load took nothing, what was made is UFE that nobody can
    carry. A generator that is scheduled a kWh more than it made and sent out is charged a cent, which is N, and nobody's demand carries
    that."""
    above = (*field(2, 3), 301)
    yield "record-after-schedule", "refused 5 at 12", words(thirteen_records(), above, (*field(12, 11), 1))
    yield "record-before-schedule", "refused 5 at 1", words(thirteen_records(), above, (*field(1, 0), 6))
    yield "record-of-the-schedule", "refused 5 at 2", words(thirteen_records(), (*field(2, 3), 100_001))
    yield "head-before-schedule", "refused 4 at 127", words(thirteen_records(), above, (0, 127, 1))
    no_demand = (*field(5, 4), 0)
    yield "area-without-demand", "refused 6 at 0", words(thirteen_records(), no_demand)
    yield "schedule-before-area", "refused 14 at 2", words(thirteen_records(), no_demand, above)
    for name, most, line in (("no-demand-below-maximum", 301, "refused 12 at 0"), ("schedule-before-no-demand", 300, "refused 14 at 0")):
        generator = hours.record(hours.GENERATOR, 1, 0, S=301, A=300, M=most, F=10_000, H=10_000)
        yield name, line, hours.Hour(7, 3, [1_000], [[0, 0, 300]], [generator]).encode()


def cases():
    return itertools.chain(of_lengths(), of_blocks(), of_heads(), of_records(), of_two_faults(), of_no_demand(), of_imports(),
                           of_schedules(), of_nothing_else_judged(), of_schedules_beside_other_rows())


# ---- Heads and records to be written: name, what must be written, input

def of_files():
    """The files above, taken apart. Rows 4, 5 and 14 are the reader's, and a file that passes rows 1 to 5 and 14 is written as the same
    bytes."""
    for name, line, data in cases():
        if line.startswith(("refused 4", "refused 5", "refused 14")):
            yield name, f"{line}\n".encode(), to_write.taken_apart(to_write.blocks_of(data))
        elif line.startswith(("hour", "refused 6", "refused 12")):
            yield name, data, to_write.taken_apart(to_write.blocks_of(data))


def of_counts():
    """Whole blocks, and a last one that is not; the longest input is 480 bytes and 250 times 48."""
    for count in (0, 1, 9, 10, 11, 249, 250):
        yield f"records-{count}", hour_of(count).encode(), to_write.taken_apart(hour_of(count).blocks())


def of_inputs():
    """Each is refused for its length, also where the head is wrong in its first word or the first record in its kind."""
    data = to_write.taken_apart(hour_of(250).blocks())
    for length in (0, 1, 4, 479, 476, 432, 481, 484, 527, 524, 529, 532, 12_479, 12_476, 12_481, 12_484, 12_528, 24_960):
        yield f"input-{length}", b"refused 1 at 0\n", (2 * data)[:length]
    wrong = to_write.taken_apart(changed(five_blocks(), (0, 9, 33), (*field(0, 0), 6)))
    yield "input-before-head", b"refused 1 at 0\n", wrong[:-4]
    yield "head-before-first-record", b"refused 4 at 9\n", wrong


def cases_to_write():
    return itertools.chain(of_files(), of_counts(), of_inputs())


# ---- Members to be explained (document 02, A5): name, what must be printed, input

def explanation(decided, generation=0, load=0, imported=0, exported=0, share=0):
    """The six lines; a head that is left out is 0."""
    return f"generation {generation}\nload {load}\nimport {imported}\nexport {exported}\nshare {share}\ndecided {decided}\n"


def heads_hour():
    """Ten members and an area at a cent a kWh, so that a kWh is 10,000,000 grains and a unit 1,000.
    UFE: 10,000 x (160 - 130) = 300,000 units, all to member 1's load, since nothing is generated and nothing imported is lost."""
    def imported(member, j, h=10_000):
        """Deviation: 0 - (0 - J) x H."""
        return hours.record(hours.IMPORT, member, 0, J=j, F=10_000, H=h)

    return hours.Hour(7, 10, [1_000], [[0, 160, 0]], [
        hours.record(hours.EXPORT, 0, 0, A=30), imported(0, 30),
        hours.record(hours.PROFILE_LOAD, 1, 0, S=100, A=130),
        hours.record(hours.EXPORT, 2, 0, S=90), hours.record(hours.GENERATOR, 2, 0, S=40, M=40, F=10_000, H=10_000), imported(2, 60),
        *(imported(3 + at, *each) for at, each in enumerate(((1, 4_999), (1, 5_000), (-1, 5_000), (1, 5_001), (-1, 5_001), (1, 15_000))))])


def of_members():
    """Each member of that hour."""
    data = heads_hour().encode()
    texts = {
        # 30 kWh of import and 30 of export over the plan: the first of equals
        "tie-of-import-and-export": explanation("import", imported=300_000_000, exported=300_000_000),
        # 30 kWh over the plan, and 30 of UFE
        "tie-of-load-and-share": explanation("load", load=300_000_000, share=300_000_000),
        # 40 and 60 kWh against 90 of export under the plan: 10 cents to pay, and the largest head is on the other side
        "larger-with-the-other-sign": explanation("import", generation=400_000_000, imported=600_000_000, exported=-900_000_000),
        # 4,999 units are under half a cent: charged as nothing
        "none-with-an-amount": explanation("none", imported=4_999_000),
        # so is half a cent, since 0 is the even cent; a unit more is charged
        "half-a-cent": explanation("none", imported=5_000_000),
        "minus-half-a-cent": explanation("none", imported=-5_000_000),
        "over-half-a-cent": explanation("import", imported=5_001_000),
        "minus-over-half-a-cent": explanation("import", imported=-5_001_000),
        # two cents
        "one-and-a-half": explanation("import", imported=15_000_000),
        "none-without-records": explanation("none"),
    }
    for member, (name, text) in enumerate(texts.items()):
        yield name, text, hours.question(member, data)


def of_digits():
    """As many digits as a head can have: 249 generators that each deviate by 100,000 x 20,000 + 100,000 x 20,000 + 10,000 x 100,000 units,
    which are 5,000,000,000, at 1,000,000 cents a MWh; the load took what was planned. And as few: at a cent a MWh a unit is a grain, and an
    import that was scheduled nothing deviates by J x H, here by 9, -9, 10 and -10 units."""
    generator = hours.record(hours.GENERATOR, 0, 0, S=100_000, J=100_000, N=100_000, M=100_000, F=20_000, H=20_000)
    load = hours.record(hours.PROFILE_LOAD, 0, 0, S=1, A=1)
    for price, grains in ((1_000_000, 1_245_000_000_000_000_000), (-1_000_000, -1_245_000_000_000_000_000)):
        hour = hours.Hour(7, 1, [price], [[0, 1, 0]], [generator] * 249 + [load])
        yield f"grains-{grains}", explanation("generation", generation=grains), hours.question(0, hour.encode())
    few = ((1, 9), (-1, 9), (1, 10), (-1, 10))
    hour = hours.Hour(7, 4, [1], [[0, 0, 0]], [hours.record(hours.IMPORT, member, 0, J=j, F=1, H=h) for member, (j, h) in enumerate(few)])
    for member, (j, h) in enumerate(few):
        yield f"grains-{j * h}", explanation("none", imported=j * h), hours.question(member, hour.encode())


def of_examples():
    """Both members of the printed case, at 5,000 cents a MWh. The generator of member 0 deviates by 10,000 x (1,000 - 900) = 1,000,000
    units, the load of member 1 by 10,000 x (1,000 - 870) = 1,300,000, which are taken off; its share is all of the UFE, 300,000 units.
    And of two-zones and neutrality, whose pages in examples/ work the amounts out record by record."""
    printed, two_zones, neutrality = ((EXAMPLES / f"{name}.hour").read_bytes() for name in ("printed", "two-zones", "neutrality"))
    texts = {printed: [explanation("generation", generation=5_000_000_000),
                       explanation("load", load=-6_500_000_000, share=1_500_000_000)],
             two_zones: [explanation("generation", generation=4_515_000_000, load=1_775_000_000, share=137_825_200),
                         explanation("generation", generation=4_260_000_000, load=4_200_000_000, share=63_487_200),
                         explanation("load", load=2_100_000_000, exported=355_000_000, share=41_512_800),
                         explanation("load", load=-710_000_000, imported=528_950_000, share=75_174_800),
                         explanation("none")],
             neutrality: [explanation("generation", generation=200_000_000), explanation("load", load=-100_000_000),
                          explanation("load", load=-20_000_000), explanation("none")]}
    for data, each in texts.items():
        for member, text in enumerate(each):
            yield f"{len(each)}-members-{member}", text, hours.question(member, data)


def of_maximum():
    """The printed case with a schedule of 2,000 kWh, which is the maximum: the generator deviates by 10,000 x (2,000 - 900) = 11,000,000
    units."""
    data = words(hours.printed_case().blocks(), (*field(0, 3), 2_000))
    yield "printed-at-maximum-0", explanation("generation", generation=55_000_000_000), hours.question(0, data)
    yield "printed-at-maximum-1", explanation("load", load=-6_500_000_000, share=1_500_000_000), hours.question(1, data)


def of_numbers():
    """Of the printed case, which has two members: any other number is no member's, also where some of its bytes are."""
    for member in (2, 3, 32, 255, 256, 2**16, 2**24, 2**24 + 1, 2**31, 2**32 - 1):
        yield f"no-member-{member}", "refused 13 at 0\n", hours.question(member, hours.printed_case().encode())


def of_refused():
    """The files above that are refused, for a member and for no member: 13 comes last. And inputs too short or too long."""
    for name, line, data in cases():
        if line.startswith("refused"):
            for member in (0, 40, 2**32 - 1):
                yield f"{name}-{member}", f"{line}\n", hours.question(member, data)
    longest = hours.question(0, hour_of(250).encode())
    for length in (0, 1, 2, 3, 4, 5, 512, 515, 517, 13_315, 13_317, 13_828):
        yield f"question-{length}", "refused 1 at 0\n", (2 * longest)[:length]


def cases_to_explain():
    return itertools.chain(of_members(), of_digits(), of_examples(), of_maximum(), of_numbers(), of_refused())
