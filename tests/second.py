#!/usr/bin/env python3
"""The second program: settles an hour, hourly or by ten minutes, explains a member's charge, writes an hour file, writes and reads amounts
as documents 000, 01, 02 and 003 say, apart from the proved programs.

    python3 tests/second.py statement < hour
    python3 tests/second.py settled [L [C [F [S [D]]]]] < hour
    python3 tests/second.py explanation < member and hour
    python3 tests/second.py explained [MEMBER..] < hour
    python3 tests/second.py write_hour < words
    python3 tests/second.py written [H [R]] < words
    python3 tests/second.py ten_minutes < ten-minute file
    python3 tests/second.py charged [C] < ten-minute file
    python3 tests/second.py amounts < cases

It is the other opinion that the proved programs are compared with, so it takes nothing from them. It
works in another way too: energy in kWh and multipliers as exact fractions, as document 003 writes its
formulas, and units, grains and cents only where document 01 asks for them. The hour file stands in
second_file.py, the sums in second_sums.py, ten-minute settlement in second_ten_minutes.py; a test finds
all of it here, as `second.NAME`.
"""

import re
import struct
import sys
from collections import namedtuple

from second_file import *  # noqa: F401, F403
from second_sums import *  # noqa: F401, F403
from second_ten_minutes import *  # noqa: F401, F403

MOST_CENTS = 999_999_999_999
UFE_FIGURES = 8
AMOUNT_COLUMNS = 14

# The lengths of the lines, charges, finals, shares and deviations that program `settled` lends, if not told
# otherwise; and what it lays in each place before settling, to show which places settling writes.
USUAL_LENGTHS = (32, 32, 32, 250, 250)
UNTOUCHED = 77

# How many words program `written` takes for the head, and how many bytes it lends for the file, if not told otherwise.
USUAL_WRITING = (HEAD_WORDS, MOST_BLOCKS * BLOCK_BYTES)

# The blocks whose bodies it asks for: all that a file can have, the first that none has, and two so far
# that the places of their bytes would go round 2^64.
BLOCKS_ASKED_FOR = (*range(MOST_BLOCKS + 1), 2**55, 2**64 - 1)

# The members that program `explained` asks about, if not told otherwise: all that an hour can have and the two numbers after them, and
# some whose last bytes are a member's.
MEMBERS_ASKED_FOR = (*range(MOST_MEMBERS + 2), 255, 256, 2**31, 2**32 - 1)

Answer = namedtuple("Answer", "number place ufe charges finals shares deviations lines")
Explained = namedtuple("Explained", "number place heads decided")
Charged = namedtuple("Charged", "number place charges")


# ---- Settling into lent buffers (document 01, "The sums" and "Refusal numbers and their order"; document 02, A1)

def written_over(figures, buffer):
    """The figures in the first places of a buffer; the places past them stay as they were."""
    return figures + buffer[len(figures):]


def settle(data, lengths=USUAL_LENGTHS):
    """What settling answers, and every buffer afterwards. `lengths` are those of the lines, charges, finals,
    shares and deviations; every number in them is 77 before."""
    lines = [(UNTOUCHED, UNTOUCHED)] * lengths[0]
    charges, finals, shares, deviations = ([UNTOUCHED] * length for length in lengths[1:])
    no_ufe = [0] * UFE_FIGURES
    try:
        hour = read_hour(data)
        figures = work_out(hour)
        members, records = hour["members"], len(hour["records"])
        if min(len(lines), len(charges), len(finals)) < members or min(len(shares), len(deviations)) < records:
            raise Refused(11)
    except Refused as refused:
        return Answer(refused.number, refused.place, no_ufe, charges, finals, shares, deviations, lines)
    posted = [sum(r["member"] == member for r in hour["records"]) for member in range(members)]
    return Answer(0, 0,
                  written_over(figures["ufe"], no_ufe),
                  written_over(figures["charges"], charges),
                  written_over(figures["finals"], finals),
                  written_over(figures["shares"], shares),
                  written_over(figures["deviations"], deviations),
                  written_over(list(zip(figures["amounts"], posted)), lines))


# ---- Ten-minute settlement into a lent buffer (document 02, A7)

def settle_ten_minutes(data, length=MOST_MEMBERS):
    """What ten-minute settling answers, and `length` charges afterwards, each of which is 77 before."""
    charges = [UNTOUCHED] * length
    try:
        hour = read_ten_minute_hour(data)
        if length < hour["members"]:
            raise Refused(11)
    except Refused as refused:
        return Charged(refused.number, refused.place, charges)
    return Charged(0, 0, written_over(ten_minute_charges(hour), charges))


# ---- Why is this my charge? (document 02, A5)

HEADS = ("generation", "load", "import", "export", "share")
NO_HEAD = "none"
HEAD_OF = {GENERATOR: "generation", REAL_TIME_LOAD: "load", PROFILE_LOAD: "load", IMPORT: "import", EXPORT: "export"}
MEMBER_BYTES = 4


def member_heads(hour, deviations, shares):
    """Each member's grains under each head, as they enter its amount."""
    heads = [dict.fromkeys(HEADS, 0) for _ in range(hour["members"])]
    for r, dev, share in zip(hour["records"], deviations, shares):
        own, price = heads[r["member"]], price_of(hour, r["area"])
        own[HEAD_OF[r["kind"]]] += price * DIRECTION[r["kind"]] * dev
        own["share"] += price * share
    return heads


def head_that_decided(heads, charge):
    """Of the heads with the charge's sign the one largest in size, on a tie the first; none where the charge is 0."""
    if charge == 0:
        return NO_HEAD
    agreeing = [head for head in HEADS if heads[head] * charge > 0]
    return max(agreeing, key=lambda head: abs(heads[head]))  # max gives the first of equals


def not_explained(refused):
    return Explained(refused.number, refused.place, dict.fromkeys(HEADS, 0), NO_HEAD)


def explain(data, members):
    """What explaining answers about each of these members of an hour: settling's refusals, and last of all 13."""
    try:
        hour = read_hour(data)
        figures = work_out(hour)
    except Refused as refused:
        return [not_explained(refused) for _ in members]
    heads = member_heads(hour, figures["deviations"], figures["shares"])
    return [Explained(0, 0, heads[member], head_that_decided(heads[member], figures["charges"][member]))
            if member < hour["members"] else not_explained(Refused(13)) for member in members]


# ---- Text amounts (document 01, "Text amounts")

AMOUNT_TEXT = re.compile(rb" *([+-])(0|[1-9][0-9]{0,9})\.([0-9]{2})")


def write_amount(amount, width):
    """(0, the field), or the refusal's number and nothing."""
    if abs(amount) > MOST_CENTS:
        return 8, None
    dollars, rest = divmod(abs(amount), 100)
    text = b"%c%d.%02d" % (b"-" if amount < 0 else b"+", dollars, rest)
    if width < len(text):
        return 9, None
    return 0, text.rjust(width, b" ")


def read_amount(field):
    """(0, the amount), or refusal 10 and amount 0."""
    parts = AMOUNT_TEXT.fullmatch(field)
    if parts is None:
        return 10, 0
    sign, dollars, rest = parts.groups()
    size = 100 * int(dollars) + int(rest)
    if sign == b"-" and size == 0:
        return 10, 0
    return 0, -size if sign == b"-" else size


# ---- What the programs print

def refusal(refused):
    """A refusal as the programs print it that people run."""
    return b"refused %d at %d\n" % (refused.number, refused.place)


def statement(data):
    """Document 01, "The printed statement"; the second column is document 02's, A1."""
    try:
        hour = read_hour(data)
        figures = work_out(hour)
    except Refused as refused:
        return refusal(refused)
    text = first_line(hour)
    for member, (charge, final) in enumerate(zip(figures["charges"], figures["finals"])):
        text += b"%02d %s %s\n" % (member, column(charge), column(final))
    return text


def first_line(hour):
    return b"hour %d members %d records %d\n" % (hour["number"], hour["members"], len(hour["records"]))


def ten_minutes(data):
    """Program `ten_minutes`: as the hourly statement, with the charges alone (document 02, A7)."""
    try:
        hour = read_ten_minute_hour(data)
    except Refused as refused:
        return refusal(refused)
    lines = (b"%02d %s\n" % (member, column(charge)) for member, charge in enumerate(ten_minute_charges(hour)))
    return first_line(hour) + b"".join(lines)


def column(cents):
    """An amount as the statement has it. All members' amounts together come to less than 4 x 10^18 grains
    (tests/hours.py), so a charge and a share of N are at most 4 x 10^11 cents each, and a final fits 14 columns. A ten-minute charge is
    far smaller (tests/ten_minutes.py)."""
    number, field = write_amount(cents, AMOUNT_COLUMNS)
    assert number == 0
    return field


def settled(data, lengths=()):
    """The answer and every buffer after settling, and the bodies, as program `settled` prints them.
    Lengths that are not given are the usual ones."""
    lengths = tuple(lengths) + USUAL_LENGTHS[len(lengths):]
    answer = settle(data, lengths)
    rows = [["answer", answer.number, "at", answer.place],
            ["ufe", *answer.ufe],
            ["charges", *answer.charges],
            ["finals", *answer.finals],
            ["shares", *answer.shares],
            ["deviations", *answer.deviations],
            ["lines", *(f"{amount}:{records}" for amount, records in answer.lines)],
            ["bodies", *(f"{begins}:{length}" for begins, length in bodies(data, BLOCKS_ASKED_FOR))]]
    return "".join(" ".join(map(str, row)) + "\n" for row in rows).encode()


def charged(data, lengths=(MOST_MEMBERS,)):
    """The answer and the charges after ten-minute settling, as program `charged` prints them."""
    answer = settle_ten_minutes(data, *lengths)
    return " ".join(map(str, ["answer", answer.number, "at", f"{answer.place}\ncharges", *answer.charges])).encode() + b"\n"


def explanation(data):
    """Program `explanation`: four bytes of member number, the lowest first, and an hour file (document 02, A5)."""
    if len(data) < MEMBER_BYTES:
        return refusal(Refused(1))
    member = int.from_bytes(data[:MEMBER_BYTES], "little")
    return explanation_text(explain(data[MEMBER_BYTES:], [member])[0])


def explanation_text(answer):
    if answer.number != 0:
        return refusal(answer)
    lines = [f"{head} {answer.heads[head]}\n" for head in HEADS]
    return "".join([*lines, f"decided {answer.decided}\n"]).encode()


def explained(data, members=MEMBERS_ASKED_FOR):
    """What explaining answers about each of these members, as program `explained` prints it."""
    return explained_text(dict(zip(members, explain(data, members))))


def explained_text(answers):
    """A line for each member: the answer, its heads, and the head that decided as its number from 1, or 0 for none."""
    lines = []
    for member, answer in answers.items():
        heads = " ".join(str(answer.heads[head]) for head in HEADS)
        decided = (NO_HEAD, *HEADS).index(answer.decided)
        lines.append(f"member {member} answer {answer.number} at {answer.place} heads {heads} decided {decided}\n")
    return "".join(lines).encode()


def words_in(data):
    """Bytes as little-endian words; some left over are no word."""
    return struct.unpack(f"<{len(data) // 4}I", data[:len(data) // 4 * 4])


def written_hour(data):
    """Program `write_hour`: the head's words and the records' words to an hour file (document 02, A2). Its own buffer is long enough."""
    try:
        if len(data) % 4 != 0:
            raise Refused(1)
        words = words_in(data)
        return write_hour(words[:HEAD_WORDS], words[HEAD_WORDS:], MOST_BLOCKS * BLOCK_BYTES)
    except Refused as refused:
        return refusal(refused)


def written(data, lengths=()):
    """The answer and the whole file buffer after writing an hour, as program `written` prints them: of so many words as the head and all
    others as records, into so many bytes. Lengths that are not given are the usual ones."""
    split, room = tuple(lengths) + USUAL_WRITING[len(lengths):]
    words, buffer = words_in(data), bytes([UNTOUCHED]) * room
    try:
        file = write_hour(words[:split], words[split:], room)
    except Refused as refused:
        return b"answer %d at %d length 0\n" % (refused.number, refused.place) + buffer
    return b"answer 0 at 0 length %d\n" % len(file) + file + buffer[len(file):]


def answered(number):
    return b"refused %d at 0" % number if number else b"accepted"


def amount_case(field, cents):
    """A field read, and an amount written over it, as program `amounts` prints them."""
    number, amount = read_amount(field)
    text = b"[%s] read: %d %s\n" % (field, amount, answered(number))
    number, written = write_amount(cents, len(field))
    afterwards = field if number else written
    return text + b"%d in %d columns: [%s] %s\n" % (cents, len(field), afterwards, answered(number))


def amounts(data):
    """Case after case: the field's width, the cents, each with a blank after it, the field, and a line feed."""
    text = []
    while data:
        width, cents, rest = data.split(b" ", 2)
        text.append(amount_case(rest[:int(width)], int(cents)))
        data = rest[int(width) + 1:]
    return b"".join(text)


PRINTED = {"statement": statement, "settled": settled, "explanation": explanation, "explained": explained, "write_hour": written_hour,
           "written": written, "ten_minutes": ten_minutes, "charged": charged, "amounts": amounts}
MOST_NUMBERS = {"charged": 1, "settled": len(USUAL_LENGTHS), "explained": len(MEMBERS_ASKED_FOR), "written": len(USUAL_WRITING)}


def main(name="", *numbers):
    if name not in PRINTED or len(numbers) > MOST_NUMBERS.get(name, 0):
        sys.exit(__doc__)
    words = [[int(number) for number in numbers]] if numbers else []
    sys.stdout.buffer.write(PRINTED[name](sys.stdin.buffer.read(), *words))


if __name__ == "__main__":
    main(*sys.argv[1:])
