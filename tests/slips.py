"""Wrong programs: the second program with one slip in it. The tests that show how much made hours and known answers notice take these."""

import types
from pathlib import Path


def in_one_file(*files):
    """A program of several files as one text, without the lines by which they take from each other."""
    texts = [(Path(__file__).resolve().parent / file).read_text() for file in files]
    return "".join(line for text in texts for line in text.splitlines(True) if not line.startswith("from second_"))


SECOND = in_one_file("second_file.py", "second_sums.py", "second_ten_minutes.py", "second.py")

# Roundings that aren't document 02, A8's, as expressions: {0} is an exact number of cents, {1} the smallest part of a cent that occurs.
ROUNDINGS = {
    "halves away from zero": "int(abs({0}) + Fraction(1, 2)) * (1 if {0} > 0 else -1)",
    "halves towards zero": "-int((Fraction(1, 2) - abs({0})) // 1) * (1 if {0} > 0 else -1)",
    "halves to the odd cent": "round({0} + 1) - 1",
    "halves upwards": "int(({0} + Fraction(1, 2)) // 1)",
    "halves downwards": "-int((Fraction(1, 2) - {0}) // 1)",
    "outwards from just under a half": "int(abs({0}) + Fraction(1, 2) + {1}) * (1 if {0} > 0 else -1)",
    "inwards up to just over a half": "-int((Fraction(1, 2) + {1} - abs({0})) // 1) * (1 if {0} > 0 else -1)",
}
EXACT, GRAIN = "Fraction(grains, GRAINS_IN_A_CENT)", "Fraction(1, GRAINS_IN_A_CENT)"
ROUNDED = f"return round({EXACT})"
ROUNDING_SLIPS = {name: (ROUNDED, f"return {form.format(EXACT, GRAIN)}") for name, form in ROUNDINGS.items()}

# A slip is one text changed, or several, an old one before each new one. Document 01's "Slips to catch" come first; the hours must show
# every one.
HOUR_SLIPS = {
    "ancillary energy times H": (
        'multiplier(r["H"]) - r["N"]', 'multiplier(r["H"]) - r["N"] * multiplier(r["H"])'),
    "adjustment outside the multiplier": (
        'delivered = (r["A"] - r["J"]) * multiplier(r["H"])', 'delivered = r["A"] * multiplier(r["H"]) - r["J"]'),
    "loads added": ("REAL_TIME_LOAD: -1, PROFILE_LOAD: -1", "REAL_TIME_LOAD: 1, PROFILE_LOAD: 1"),
    "exports added": ("EXPORT: -1}", "EXPORT: 1}"),
    "leftover units to the last load": ("by_remainder[:left]", "[len(sizes) - 1] * left"),
    "negative grains towards minus infinity": (ROUNDED, f"return {EXACT} // 1 if grains < 0 else round({EXACT})"),
    "min for the load's unavailable energy": ('unavailable = max(0, (r["O"]', 'unavailable = min(0, (r["O"]'),
    "later of equal remainders": (
        "key=remainders.__getitem__, reverse=True", "key=lambda i: (remainders[i], i), reverse=True"),
    "smallest remainders": ("key=remainders.__getitem__, reverse=True", "key=remainders.__getitem__"),
    "losses of imports left out": ("records_of(hour, area, GENERATOR, IMPORT)", "records_of(hour, area, GENERATOR)"),
    "imports counted as generation": (
        'sum(r["A"] for r in records_of(hour, area, GENERATOR))', "sum(actual(r) for r in records_of(hour, area, GENERATOR, IMPORT))"),
    "profile loads left out": ("LOADS = (REAL_TIME_LOAD, PROFILE_LOAD)", "LOADS = (REAL_TIME_LOAD,)"),
    "import's ancillary energy subtracted": ('multiplier(r["H"]) + r["N"]', 'multiplier(r["H"]) - r["N"]'),
    "export's adjustment added": ('r["S"] - r["A"] - r["J"]', 'r["S"] - r["A"] + r["J"]'),
    "price of another zone": ('["areas"][area]["zone"]]', '["areas"][area]["zone"] - 1]'),
    "share of a negative UFE positive": ("[-size if shared < 0 else size for size in sizes]", "sizes"),
    "tie out left out": ('ties["in"] - ties["out"]', 'ties["in"]'),
    "layout before sums": (
        "    check_sums(blocks)\n    check_layout(blocks, layout)", "    check_layout(blocks, layout)\n    check_sums(blocks)"),
    "sums without their highest bit": ("sum(block) % 2**32", "sum(block) % 2**31"),
    "fewer records before the last block": ("range(1 if last else layout.records_in_a_block, ", "range(1, "),
    "no refusal 6": ("energy != 0 and demand(hour, area) == 0", "False"),
    "lines short by one": ("min(len(lines), len(charges)", "min(len(lines) + 1, len(charges)"),
    "charges short by one": ("min(len(lines), len(charges)", "min(len(lines), len(charges) + 1"),
    "finals short by one": ("len(finals)) <", "len(finals) + 1) <"),
    "shares short by one": ("min(len(shares), len(deviations)) <", "min(len(shares) + 1, len(deviations)) <"),
    "deviations short by one": ("min(len(shares), len(deviations)) <", "min(len(shares), len(deviations) + 1) <"),
    "record count of the next member": ('r["member"] == member for r', 'r["member"] == member + 1 for r'),
    "an invented record count": ('hour["members"], len(hour["records"]))', 'hour["members"], 2)'),
    **ROUNDING_SLIPS,
}

# The shares by a bound of document 02, A4, in hours of equal remainders.
HOUR_SLIPS.update({
    "a unit for every remainder at the bound": (
        "by_remainder[:left]", "[i for i in by_remainder if left and remainders[i] >= remainders[by_remainder[left - 1]]]"),
    "no unit for a remainder at the bound": (
        "by_remainder[:left]", "[i for i in by_remainder[:left] if remainders[i] > remainders[by_remainder[left - 1]]]"),
    "one unit for the remainders at the bound": (
        "by_remainder[:left]",
        "[i for at, i in enumerate(by_remainder[:left])"
        " if remainders[i] > remainders[by_remainder[left - 1]] or at == 0 or remainders[by_remainder[at - 1]] > remainders[i]]"),
})

# The finals of document 02, A1.
HOUR_SLIPS.update({
    "share of N added": ("[charge - share for", "[charge + share for"),
    "share of N with the other sign where N is negative": ("shares_of(demands, neutrality)", "shares_of(demands, abs(neutrality))"),
    "demand of area 0 only": (
        'r["member"] == member and r["kind"] in LOADS', 'r["member"] == member and r["kind"] in LOADS and r["area"] == 0'),
    "demand of kind 2 only": (
        'r["member"] == member and r["kind"] in LOADS', 'r["member"] == member and r["kind"] == REAL_TIME_LOAD'),
    "demand of kind 3 only": (
        'r["member"] == member and r["kind"] in LOADS', 'r["member"] == member and r["kind"] == PROFILE_LOAD'),
    "demand of all kinds": ('r["member"] == member and r["kind"] in LOADS', 'r["member"] == member'),
    "demand as scheduled": ('sum(r["A"] for r in hour["records"]', 'sum(r["S"] for r in hour["records"]'),
    "cents left over dropped": (
        "shares_of(demands, neutrality)", "[int(share) for share in exact_shares(demands, neutrality)]"),
    "cents left over to the last member": (
        "shares_of(demands, neutrality)",
        "(lambda s: s[:-1] + [s[-1] + neutrality - sum(s)])([int(share) for share in exact_shares(demands, neutrality)])"),
    "cent to the later of equal members": (
        "shares_of(demands, neutrality)", "reversed(shares_of(demands[::-1], neutrality))"),
    "N shared by head": ("shares_of(demands, neutrality)", "shares_of([1] * len(demands), neutrality)"),
    "N of the exact amounts": (
        'finals_of(figures["charges"], member_demands(hour))',
        'finals_of(figures["charges"], member_demands(hour), cents(sum(figures["amounts"])))',
        "def finals_of(charges, demands):", "def finals_of(charges, demands, neutrality):",
        "    neutrality = sum(charges)\n", ""),
    "12 where N is 0": ("neutrality != 0 and not any(demands)", "any(charges) and not any(demands)"),
    "12 wherever nobody demands": ("neutrality != 0 and not any(demands)", "not any(demands)"),
    "12 where somebody demands nothing": ("not any(demands)", "not all(demands)"),
    "no refusal 12": ("neutrality != 0 and not any(demands)", "False"),
    "12 before 6": ("raise Refused(6, area)", "raise Refused(6, area) if any(member_demands(hour)) else Refused(12)"),
    "12 after 11": (
        "        figures = work_out(hour)\n        members, records", "        members, records",
        "            raise Refused(11)\n    except Refused as refused:\n        return Answer",
        "            raise Refused(11)\n        figures = work_out(hour)\n    except Refused as refused:\n        return Answer"),
    "charges in the second column": ("column(charge), column(final)", "column(charge), column(charge)"),
    "finals in the first column": ("column(charge), column(final)", "column(final), column(charge)"),
    "no blank between the columns": ('b"%02d %s %s', 'b"%02d %s%s'),
})

# The imports of document 02, A3; first what row 5 asks of them, which the hours to write must show too.
RANGES = "for letter, allowed in RECORD_RANGES.items())"
IMPORT_SLIPS = {
    "an import's word 4 ignored": (RANGES, f'{RANGES[:-1]} if (record["kind"], letter) != (IMPORT, "A"))'),
    "an import's word 4 as other kinds have it": ('IMPORT: "SJNFH"', 'IMPORT: "SAJNFH"'),
    "an import's word 4 ignored where it is word 3": (
        RANGES, f'{RANGES[:-1]} if (record["kind"], letter, record["A"]) != (IMPORT, "A", record["S"]))'),
}
HOUR_SLIPS.update({
    **IMPORT_SLIPS,
    "S in an import's deviation, word 4 in its losses": ("sum(actual(r) * (1 -", 'sum(r["A"] * (1 -'),
    "S in an import's losses, word 4 in its deviation": ('(actual(r) - r["J"])', '(r["A"] - r["J"])'),
    "imports as document 01 had them": (
        'IMPORT: "SJNFH"', 'IMPORT: "SAJNFH"', 'return r["S"] if r["kind"] == IMPORT else r["A"]', 'return r["A"]'),
    "the losses of every kind as scheduled": ("sum(actual(r) * (1 -", 'sum(r["S"] * (1 -'),
})

# The schedules of document 02, A6; first what row 14 asks, which the hours to write must show too.
JUDGED = 'if r["kind"] == GENERATOR and r["S"] > r["M"]:'
SCHEDULE_SLIPS = {
    "equal refused": (JUDGED, JUDGED.replace(">", ">=")),
    "a kWh above let through": (JUDGED, JUDGED.replace('r["M"]', 'r["M"] + 1')),
    "every kind judged": (JUDGED, JUDGED.replace('r["kind"] == GENERATOR and ', "")),
    **{f"{name} judged as well": (JUDGED, JUDGED.replace("== GENERATOR", f"in (GENERATOR, {name})"))
       for name in ("REAL_TIME_LOAD", "PROFILE_LOAD", "IMPORT", "EXPORT")},
    "the actual energy judged": (JUDGED, JUDGED.replace('r["S"]', 'r["A"]')),
    "the actual energy judged as well": (JUDGED, JUDGED.replace('r["S"]', 'max(r["S"], r["A"])')),
    "the schedule less the adjustment judged": (JUDGED, JUDGED.replace('r["S"]', 'r["S"] - r["J"]')),
    "the schedule judged against the obligation": (JUDGED, JUDGED.replace('r["M"]', 'r["O"]')),
    "the obligation judged against the maximum": (JUDGED, JUDGED.replace('r["S"]', 'r["O"]')),
    "the last schedule": (
        "for place, r in enumerate(records):\n        if r", "for place, r in reversed([*enumerate(records)]):\n        if r"),
    "14 at 0": ("raise Refused(14, place)", "raise Refused(14)"),
    "no refusal 14": (JUDGED, "if False:"),
    "14 before 5, record by record": (
        "        records.append(record)\n", "        records.append(record)\n"
        '        if record["kind"] == GENERATOR and record["S"] > record["M"]:\n            raise Refused(14, len(records) - 1)\n'),
    "14 before 5, over all records": (
        "    records = []\n    for words in held",
        "    check_schedules([read_record(words) for words in held])\n    records = []\n    for words in held"),
}
LOOKED_FOR = '    check_schedules(hour["records"])\n'
HOUR_SLIPS.update({
    **SCHEDULE_SLIPS,
    "14 not looked for in settling": (LOOKED_FOR, ""),
    "14 after 6": (LOOKED_FOR, "", "    figures = work_out_charges(hour)\n", f"    figures = work_out_charges(hour)\n{LOOKED_FOR}"),
    "14 after 12": (
        LOOKED_FOR, "", '    return {**figures, "finals": finals_of(figures["charges"], member_demands(hour))}\n',
        f'    finals = finals_of(figures["charges"], member_demands(hour))\n{LOOKED_FOR}    return {{**figures, "finals": finals}}\n'),
    "14 after 11": (
        "        figures = work_out(hour)\n        members, records",
        "        try:\n            figures = work_out(hour)\n        except Refused as early:\n"
        '            short = min(lengths[:3]) < hour["members"] or min(lengths[3:]) < len(hour["records"])\n'
        "            raise Refused(11) if early.number == 14 and short else early\n        members, records"),
    "charges cleared where 14 is given": (
        "no_ufe, charges, finals, shares, deviations, lines)\n    posted",
        "no_ufe, [0] * len(charges) if refused.number == 14 else charges, finals, shares, deviations, lines)\n    posted"),
})

# A refusal that names the last such place in place of the first.
HEAD_GIVEN = '    return {"number": number, "members": members, "prices": prices[:zones], "areas": rows}\n\n\ndef read_record('
HOUR_SLIPS.update({
    "last block whose sum isn't zero": (
        "for place, block in enumerate(blocks):\n        if sum", "for place, block in reversed([*enumerate(blocks)]):\n        if sum"),
    "last block that breaks the layout": (
        "for place in range(len(blocks)):\n        if not", "for place in reversed(range(len(blocks))):\n        if not"),
    "last word of the head": (
        "def head_word(block, place, allowed):", "BAD = []\n\n\ndef head_word(block, place, allowed):",
        "        raise Refused(4, place)", "        BAD.append(place)",
        "def read_counts(word):\n", "def read_counts(word):\n    BAD.clear()\n",
        HEAD_GIVEN, f"    if BAD:\n        raise Refused(4, BAD[-1])\n{HEAD_GIVEN}"),
    "last record": (
        "    records = []\n    for words in held", "    records, bad = [], []\n    for words in held",
        "raise Refused(5, len(records))", "bad.append(len(records))",
        "    return records\n", "    if bad:\n        raise Refused(5, bad[-1])\n    return records\n"),
    "last area": ("for area, energy in enumerate(ufe):", "for area, energy in reversed([*enumerate(ufe)]):"),
    "the body of the block before": ("(BLOCK_BYTES * place + before,", "(BLOCK_BYTES * (place - 1) + before,"),
    "a body past the last block": ("if place < there else", "if place <= there else"),
})

# Every end of every range one too wide, and one too narrow.
ENDS = {"PRICE": (-1_000_000, 1_000_000), "TIE": (0, 10_000_000), "ENERGY": (0, 100_000),
        "ADJUSTMENT": (-100_000, 100_000), "MULTIPLIER": (1, 20_000)}
STEPS = ((-1, 0), (1, 0), (0, 1), (0, -1))
for name, (low, high) in ENDS.items():
    line = next(line for line in SECOND.splitlines() if line.startswith(f"{name} = "))
    for down, up in STEPS:
        if low != 0 or down >= 0:  # no word is below 0
            HOUR_SLIPS[f"{name} {down:+} {up:+}"] = (line + "\n", f"{name} = range({low + down}, {high + up + 1})\n")
for most in (32, 4, 8):
    for down, up in STEPS:
        HOUR_SLIPS[f"1 to {most} {down:+} {up:+}"] = (f"range(1, {most + 1})", f"range({1 + down}, {most + up + 1})")

# Explanations otherwise than document 02, A5, says; the made questions must show every one.
DECIDED = "return max(agreeing, key=lambda head: abs(heads[head]))"
POSTED = 'own[HEAD_OF[r["kind"]]] += price * DIRECTION[r["kind"]] * dev'
SHARED = 'own["share"] += price * share'
REFUSED_FIRST = "return [not_explained(refused) for _ in members]"
NO_MEMBER = "not_explained(Refused(13)) for member in members]"
LINE = '{answer.heads[head]}\\n" for head'
UNDER_FOUR = "        return refusal(Refused(1))\n    member"
QUESTION_SLIPS = {
    "a tie to the later head": (DECIDED, DECIDED.replace("agreeing", "reversed(agreeing)")),
    "the smallest head": (DECIDED, DECIDED.replace("max", "min")),
    "the first head with the charge's sign": (DECIDED, "return agreeing[0]"),
    "size in cents": (DECIDED, DECIDED.replace("abs(heads[head])", "abs(cents(heads[head]))")),
    "the largest whatever its sign": (" if heads[head] * charge > 0]", "]"),
    "the largest with the other sign": ("heads[head] * charge > 0]", "heads[head] * charge < 0] or [*HEADS]"),
    "decided by the amount where the charge is 0": (
        'head_that_decided(heads[member], figures["charges"][member])', 'head_that_decided(heads[member], figures["amounts"][member])'),
    "none missing": ("        return NO_HEAD\n    agreeing", "        return max(HEADS, key=lambda head: abs(heads[head]))\n    agreeing"),
    "half a cent charged": ROUNDING_SLIPS["halves away from zero"],
    "a thousandth over half a cent not charged": (ROUNDED, f"return 0 if abs({EXACT}) <= Fraction(501, 1000) else round({EXACT})"),
    "none for under a cent": ("if charge == 0:", "if abs(sum(heads.values())) < GRAINS_IN_A_CENT:"),
    "no sixth line for none": (
        '"".join([*lines, f"decided {answer.decided}\\n"])',
        '"".join([*lines, f"decided {answer.decided}\\n" if answer.decided != NO_HEAD else ""])'),
    "loads added": (POSTED, POSTED.replace("price *", 'price * (-1 if r["kind"] in LOADS else 1) *')),
    "exports added": (POSTED, POSTED.replace("price *", 'price * (-1 if r["kind"] == EXPORT else 1) *')),
    "loads by profile left out": (POSTED, POSTED.replace("price *", 'price * (r["kind"] != PROFILE_LOAD) *')),
    "imports under generation": ('IMPORT: "import", EXPORT: "export"}', 'IMPORT: "generation", EXPORT: "export"}'),
    "the last record of a head alone": (POSTED, POSTED.replace("+=", "="), "max(agreeing,", "max(agreeing or HEADS,"),
    "the price of zone 0": ('heads[r["member"]], price_of(hour, r["area"])', 'heads[r["member"]], hour["prices"][0]'),
    "shares under load": (SHARED, SHARED.replace('"share"]', '"load"]')),
    "shares taken off": (SHARED, SHARED.replace("+=", "-=")),
    "shares of another member": (SHARED, SHARED.replace("own", 'heads[(r["member"] + 1) % len(heads)]')),
    "shares of all members": (SHARED, f"for own in heads:\n            {SHARED}"),
    "13 before the file's refusals": (REFUSED_FIRST, "return [not_explained(Refused(13) if each >= 32 else refused) for each in members]"),
    "13 before 6 and 12": (
        REFUSED_FIRST,
        "return [not_explained(Refused(13) if refused.number > 5 and each >= words_in(data)[9] else refused) for each in members]"),
    "no refusal 12": (
        "figures = work_out(hour)\n    except Refused as refused:\n        return [not",
        "figures = work_out_charges(hour)\n    except Refused as refused:\n        return [not"),
    "14 after 13": (
        REFUSED_FIRST,
        "return [not_explained(Refused(13) if refused.number == 14 and each >= words_in(data)[9] else refused) for each in members]"),
    "14 not looked for": (
        "figures = work_out(hour)\n    except Refused as refused:\n        return [not",
        'figures = work_out_charges(hour)\n        finals_of(figures["charges"], member_demands(hour))\n'
        "    except Refused as refused:\n        return [not"),
    "13 missing for the member count": (NO_MEMBER, NO_MEMBER.replace("13", 'member != hour["members"] and 13')),
    "13 for the last member": ('if member < hour["members"] else', 'if member < hour["members"] - 1 else'),
    "13 at the number": (NO_MEMBER, NO_MEMBER.replace("13", "13, member")),
    "heads on refusal": ("refused.place, dict.fromkeys(HEADS, 0)", "refused.place, dict.fromkeys(HEADS, refused.number == 13)"),
    "the member number big-endian": ('"little")\n    return explanation_text', '"big")\n    return explanation_text'),
    "the member number from one byte": ("data[:MEMBER_BYTES], ", "data[:1], "),
    "the member number from three bytes": ("data[:MEMBER_BYTES], ", "data[:3], "),
    "under four bytes nothing": (UNDER_FOUR, '        return b""\n    member'),
    "under four bytes refused as 13": (UNDER_FOUR, UNDER_FOUR.replace("1)", "13)")),
    "four bytes alone nothing": ("len(data) < MEMBER_BYTES", "len(data) <= MEMBER_BYTES", UNDER_FOUR, '        return b""\n    member'),
    "minus left out": (LINE, LINE.replace("answer.heads[head]", "abs(answer.heads[head])")),
    "plus before what is positive": (LINE, LINE.replace("head]}", "head]:+}")),
    "zero as -0": (LINE, LINE.replace("head]}", "head] or '-0'}")),
    "zero as +0": (LINE, LINE.replace("head]}", "head] or '+0'}")),
    "commas": (LINE, LINE.replace("head]}", "head]:,}")),
    "cents in the place of grains": (LINE, LINE.replace("answer.heads[head]", "cents(answer.heads[head])")),
}

# Hour files written otherwise than document 02, A2, says; the made hours to write must show every one. The slips of heads and records above
# that name the last place in place of the first are the writer's too.
WRITER_READS = 'read_records(records, read["members"], len(read["areas"]))'
WRITER_CHECKS = f"check_schedules({WRITER_READS})"
ROOM_FIRST = "    if room < 512 * (1 + (len(words) + 119) // 120):\n        raise Refused(11)\n"
WRITING_SLIPS = {
    "word 2 of the last block ten": ("sealed(2, position, len(ten),", "sealed(2, position, 10,"),
    "word 7 one too large": ("% 2**32\n    return struct.pack(f", "% 2**32 + 1\n    return struct.pack(f"),
    "word 7 of the body alone": ("-(sum(front) + sum(body))", "-sum(body)"),
    "word 7 left out of its own sum": ("*front, seal, *body)", "*front, 0, *body)"),
    "word 7 without its highest bit": ("sum(body)) % 2**32", "sum(body)) % 2**31"),
    "one other block too many": ("sealed(1, 0, len(tens), head)", "sealed(1, 0, len(tens) + 1, head)"),
    "the blocks counted, not the others": ("sealed(1, 0, len(tens), head)", "sealed(1, 0, len(tens) or 1, head)"),
    "a block for no records": ("range(0, len(records), RECORDS_IN_A_BLOCK)]", "range(0, len(records) or 1, RECORDS_IN_A_BLOCK)]"),
    "a block after full blocks": (
        "range(0, len(records), RECORDS_IN_A_BLOCK)]", "range(0, len(records) + (len(records) > 0), RECORDS_IN_A_BLOCK)]"),
    "positions from 0": ("enumerate(tens, 1)", "enumerate(tens)"),
    "marks as the first block's": ("sealed(2, position,", "sealed(1, position,"),
    "251 records": ("RECORD_WORDS * MOST_RECORDS:", "RECORD_WORDS * MOST_RECORDS + 12:"),
    "249 records": ("RECORD_WORDS * MOST_RECORDS:", "RECORD_WORDS * MOST_RECORDS - 12:"),
    "a part of a record left out": (
        "len(words) % RECORD_WORDS != 0", "False",
        "range(0, len(words), RECORD_WORDS)]\n    check", "range(0, len(words) - 11, RECORD_WORDS)]\n    check"),
    "a head too short filled with zeros": (
        "len(head) != HEAD_WORDS", "len(head) > HEAD_WORDS", "+ tuple(head))", "+ tuple(head) + (0,) * (120 - len(head)))"),
    "a head too long": ("len(head) != HEAD_WORDS", "len(head) < HEAD_WORDS"),
    "a part of a word": ("if len(data) % 4 != 0:", "if False:"),
    "words of the head counted from 0": (
        "    read = read_head((0,) * FIRST_BODY_WORD + tuple(head))\n",
        "    try:\n        read = read_head((0,) * FIRST_BODY_WORD + tuple(head))\n"
        "    except Refused as refused:\n        raise Refused(4, refused.place - FIRST_BODY_WORD)\n"),
    "ten records in all": (
        "range(0, len(words), RECORD_WORDS)]\n    check", "range(0, len(words), RECORD_WORDS)][:10]\n    check"),
    "5 not looked for": (WRITER_CHECKS, "check_schedules(map(read_record, records))"),
    "14 not looked for": (WRITER_CHECKS, WRITER_READS),
    "14 after 11": (
        WRITER_CHECKS, f"kept = {WRITER_READS}",
        "        raise Refused(11)\n    return file", "        raise Refused(11)\n    check_schedules(kept)\n    return file"),
    "5 before 4": (
        "    read = read_head((0,) *",
        "    read_records([words[at:at + 12] for at in range(0, len(words), 12)], 32, 8)\n    read = read_head((0,) *"),
    "4 before 1": (
        "    if len(head) != HEAD_WORDS or", "    if len(head) == HEAD_WORDS:\n        read_head((0,) * 8 + tuple(head))\n"
        "    if len(head) != HEAD_WORDS or"),
    "11 before 4": ("    read = read_head((0,) *", f"{ROOM_FIRST}    read = read_head((0,) *"),
    "11 before 5": ("    records = [words[first", f"{ROOM_FIRST}    records = [words[first"),
    "no refusal 11": ("    if room < len(file):\n        raise Refused(11)\n", ""),
    "a byte too much room asked for": ("if room < len(file)", "if room <= len(file)"),
    "a byte too little": ("if room < len(file)", "if room + 1 < len(file)"),
    "bytes past the last block": ("+ file + buffer[len(file):]", "+ file.ljust(room, b'\\0')"),
    "a length on refusal": ("length 0\\n", "length 512\\n"),
    "a refused file cleared": ("(refused.number, refused.place) + buffer", "(refused.number, refused.place) + bytes(room)"),
}

# What document 01 says of text amounts, each broken; the made amounts must show every one.
AMOUNT_SLIPS = {
    "cut off from the left": ("        return 9, None\n", "        return 0, text[len(text) - width:]\n"),
    "one cent too many written": ("abs(amount) > MOST_CENTS", "abs(amount) > MOST_CENTS + 1"),
    "the last amount refused": ("abs(amount) > MOST_CENTS", "abs(amount) > MOST_CENTS - 1"),
    "too narrow before out of range": ("        return 8, None\n", "        return 8 if width > 14 else 9, None\n"),
    "a blank too many asked for": ("if width < len(text)", "if width <= len(text)"),
    "zero with a minus": ('b"-" if amount < 0', 'b"-" if amount <= 0'),
    "one digit of cents": (".%02d\" % (b", ".%d\" % (b"),
    "blanks after the text": ("text.rjust(", "text.ljust("),
    "zeros for blanks": ('rjust(width, b" ")', 'rjust(width, b"0")'),
    "a refused field blanked": ("field if number else written", 'b" " * len(field) if number else written'),
    "minus zero is read": ('sign == b"-" and size == 0', "False"),
    "amount of a refused reading": ("        return 10, 0\n    return 0,", "        return 10, 1\n    return 0,"),
    "a sign may be missing": ("([+-])", "([+-]?)"),
    "leading zeros are read": ("0|[1-9][0-9]{0,9}", "[0-9]{1,10}"),
    "eleven dollar digits are read": ("{0,9}", "{0,10}"),
    "ten dollar digits are not read": ("{0,9}", "{0,8}"),
    "one digit of cents is read": ("([0-9]{2})", "([0-9]{1,2})"),
    "a comma is read": (r"\.([0-9]{2})", "[.,]([0-9]{2})"),
    "a tab before the sign is read": ('rb" *(', r'rb"[ \t]*('),
    "a blank after the sign is read": ("([+-])(", "([+-]) *("),
    "anything after the cents is read": ("fullmatch", "match"),
    "a line feed after the cents is read": ('{2})")', r'{2})\n?")'),
    "plus read as minus": ('0, -size if sign == b"-"', '0, -size if sign == b"+"'),
}


def slipped(name, slips=HOUR_SLIPS):
    """The second program's text with one slip in it."""
    text, changes = SECOND, slips[name]
    for old, new in zip(changes[::2], changes[1::2]):
        assert text.count(old) == 1, name
        text = text.replace(old, new)
    return text


def wrong_program(name, slips=HOUR_SLIPS):
    """The second program with one slip in it, as a module."""
    wrong = types.ModuleType("wrong")
    exec(compile(slipped(name, slips), name, "exec"), wrong.__dict__)
    return wrong
