"""The maker of cases for text amounts: what a field holds, and an amount to write over it.

A seed and an index make a case again. Amounts are any 64-bit numbers, the ends of their range and of
document 01's among them; fields are any bytes, texts of amounts, and texts that nearly are amounts.
"""

import random
from collections import namedtuple

MOST_COLUMNS = 40
MOST_CENTS = 999_999_999_999
NEAR = b" +-.,0123456789x\t\n\0\xa0\xff"

# The field's bytes, and the amount in cents that is written over them.
Case = namedtuple("Case", "field cents")


def text_of(cents):
    """An amount as document 01 writes it, also where it is out of range."""
    return b"%c%d.%02d" % (b"-" if cents < 0 else b"+", abs(cents) // 100, abs(cents) % 100)


# ---- Amounts

def at_an_end(rng):
    end = rng.choice([0, 99, 100, MOST_CENTS, 2**63 - 1, 10**rng.randint(0, 18)])
    return max(-2**63, min(2**63 - 1, rng.choice([-1, 1]) * (end + rng.randint(-1, 1))))


def any_amount(rng):
    return rng.randint(-2**63, 2**63 - 1)


def of_any_size(rng):
    most = 10**rng.randint(0, 13)
    return rng.randint(-most, most)


def in_range(rng):
    return max(-MOST_CENTS, min(MOST_CENTS, of_any_size(rng)))


# ---- Fields

def any_bytes(rng, columns):
    return bytes(rng.randrange(256) for _ in range(columns))


def one_text(rng):
    """An amount's text, with blanks before it or none."""
    text = text_of(in_range(rng))
    return text.rjust(rng.choice([0, rng.randint(len(text), MOST_COLUMNS)]))


def changed(rng, text):
    """A text with a byte put in, taken out or replaced, once or twice."""
    for _ in range(rng.randint(1, 2)):
        at = rng.randrange(len(text) + 1)
        put = rng.choice([b"", bytes([rng.choice(NEAR)])])
        text = text[:at] + put + text[at + rng.randint(0, 1):]
    return text


def no_amount(rng):
    """What document 01 refuses by name, and its likes: each is one step from an amount."""
    sign = rng.choice([b"+", b"-"])
    dollars = b"%d" % rng.randrange(10**rng.randint(1, 10))
    cents = b"%02d" % rng.randrange(100)
    text = rng.choice([
        b"-0.00", b"", b"+", b"-", sign + b"." + cents, dollars + b"." + cents,  # a part is missing
        sign + dollars, sign + dollars + b".", sign + dollars + b"." + cents[:1],
        sign + b"0" + dollars + b"." + cents,                                    # a leading zero
        sign + b"%d" % rng.randrange(10**10, 10**11) + b"." + cents,             # eleven dollar digits
        sign + dollars + b"." + cents + rng.choice([b" ", b"0", b"\n", b"\0"]),  # something after the cents
        sign + b" " + dollars + b"." + cents, sign + sign + dollars + b"." + cents,
        b"\t" + sign + dollars + b"." + cents, sign + dollars + b"," + cents])
    return b" " * rng.choice([0, 0, rng.randint(1, MOST_COLUMNS)]) + text


def about_as_wide(rng, cents):
    """Any bytes, as many as the amount's text needs, one more or one less."""
    return any_bytes(rng, len(text_of(cents)) + rng.randint(-1, 1))


def made(seed, index):
    rng = random.Random(f"field {seed} {index}")
    cents = rng.choice([at_an_end, any_amount, of_any_size, in_range])(rng)
    field = rng.choice([
        lambda: any_bytes(rng, rng.randint(0, MOST_COLUMNS)),
        lambda: one_text(rng),
        lambda: changed(rng, one_text(rng)),
        lambda: no_amount(rng),
        lambda: about_as_wide(rng, cents)])()
    return Case(field[:MOST_COLUMNS], cents)


def encode(case):
    """A case as program `amounts` takes it."""
    return b"%d %d %s\n" % (len(case.field), case.cents, case.field)
