"""The second program's sums: deviations, UFE, shares, charges and finals, with the refusals that look at them; and the unrounded
amounts."""

from fractions import Fraction

from second_file import EXPORT, GENERATOR, IMPORT, LOADS, PROFILE_LOAD, REAL_TIME_LOAD, Refused, check_schedules

UNITS_IN_A_KWH = 10_000
GRAINS_IN_A_CENT = 10_000_000
MOST_GRAINS = 4 * 10**18


# ---- The sums (document 003, D 2.1 and D 2.2; document 01, "The sums"; document 02, A3 and A8)

def multiplier(ten_thousandths):
    return Fraction(ten_thousandths, 10_000)


def units(kwh):
    """An energy in units of 1/10,000 kWh; document 01 says that this is exact."""
    value = kwh * UNITS_IN_A_KWH
    assert value.denominator == 1
    return value.numerator


def actual(r):
    """A, in kWh: the actual import is deemed to be the scheduled one (document 000, D 3.19)."""
    return r["S"] if r["kind"] == IMPORT else r["A"]


def generator_deviation(r):
    """D 2.1, GenDev: losses scale what was metered less the adjustment, not the ancillary energy."""
    unavailable = min(0, r["M"] - r["A"] - (r["O"] - r["N"]))
    delivered = (r["A"] - r["J"]) * multiplier(r["H"]) - r["N"]
    return r["S"] * multiplier(r["F"]) - delivered - unavailable


def load_deviation(r):
    """D 2.1, LoadDev."""
    unavailable = max(0, (r["O"] - r["N"]) - r["A"])
    return r["S"] - ((r["A"] - r["J"]) + r["N"]) - unavailable


def import_deviation(r):
    """D 2.1, ImpDev."""
    return r["S"] * multiplier(r["F"]) - (actual(r) - r["J"]) * multiplier(r["H"]) + r["N"]


def export_deviation(r):
    """D 2.1, ExpDev."""
    return r["S"] - r["A"] - r["J"]


DEVIATIONS = {GENERATOR: generator_deviation, REAL_TIME_LOAD: load_deviation,
              PROFILE_LOAD: load_deviation, IMPORT: import_deviation, EXPORT: export_deviation}

# How a record's deviation enters its member's charge (D 2.1, IEC).
DIRECTION = {GENERATOR: 1, REAL_TIME_LOAD: -1, PROFILE_LOAD: -1, IMPORT: 1, EXPORT: -1}


def deviation(record):
    return units(DEVIATIONS[record["kind"]](record))


def records_of(hour, area, *kinds):
    return [r for r in hour["records"] if r["area"] == area and r["kind"] in kinds]


def demand(hour, area):
    """T: the area's metered demand, in kWh."""
    return sum(r["A"] for r in records_of(hour, area, *LOADS))


def unaccounted_energy(hour, area):
    """D 2.2, UFE of an area, in units."""
    ties = hour["areas"][area]
    generated = sum(r["A"] for r in records_of(hour, area, GENERATOR))
    losses = sum(actual(r) * (1 - multiplier(r["H"])) for r in records_of(hour, area, GENERATOR, IMPORT))
    return units(Fraction(ties["in"] - ties["out"] + generated - demand(hour, area)) - losses)


def exact_shares(demands, shared):
    """Each demand's fraction of what is shared, before any rounding."""
    whole = sum(demands)
    return [Fraction(each * shared, whole) if whole else Fraction(0) for each in demands]


def shares_of(demands, shared):
    """A UFE in whole units, or N in whole cents: what is left after the whole parts goes, one each, to the
    largest remainders, on equal remainders to the earlier demand."""
    exact = [abs(share) for share in exact_shares(demands, shared)]
    sizes = [int(share) for share in exact]
    remainders = [share - size for share, size in zip(exact, sizes)]
    left = abs(shared) - sum(sizes) if sum(demands) else 0
    # sorted keeps the order of equals, and reverse does not change that
    by_remainder = sorted(range(len(demands)), key=remainders.__getitem__, reverse=True)
    for place in by_remainder[:left]:
        sizes[place] += 1
    return [-size if shared < 0 else size for size in sizes]


def share_out(hour, ufe, sharing=shares_of):
    """One share a record, in file order: 0 for what is no load."""
    shares = [0] * len(hour["records"])
    for area in range(len(hour["areas"])):
        places = [i for i, r in enumerate(hour["records"]) if r["area"] == area and r["kind"] in LOADS]
        demands = [hour["records"][i]["A"] for i in places]
        for place, share in zip(places, sharing(demands, ufe[area])):
            shares[place] = share
    return shares


def price_of(hour, area):
    return hour["prices"][hour["areas"][area]["zone"]]


def member_amounts(hour, deviations, shares):
    """Each member's amount in grains; positive means that the member pays."""
    amounts = [0] * hour["members"]
    for r, dev, share in zip(hour["records"], deviations, shares):
        amounts[r["member"]] += price_of(hour, r["area"]) * (DIRECTION[r["kind"]] * dev + share)
    return amounts


def cents(grains):
    """The nearest cent, halves to the even one (document 02, A8), which is how Python rounds a fraction."""
    return round(Fraction(grains, GRAINS_IN_A_CENT))


def member_demands(hour):
    """What each member's loads took, in all areas, in kWh (document 02, A1)."""
    return [sum(r["A"] for r in hour["records"] if r["member"] == member and r["kind"] in LOADS)
            for member in range(hour["members"])]


def finals_of(charges, demands):
    """What each member pays once the sum of all charges is shared out too (document 02, A1); or refusal 12
    where nobody's demand can carry it."""
    neutrality = sum(charges)
    if neutrality != 0 and not any(demands):
        raise Refused(12)
    return [charge - share for charge, share in zip(charges, shares_of(demands, neutrality))]


def work_out_charges(hour):
    """The figures of an hour up to the charges, or refusals 6 and 7."""
    ufe = [unaccounted_energy(hour, area) for area in range(len(hour["areas"]))]
    for area, energy in enumerate(ufe):
        if energy != 0 and demand(hour, area) == 0:
            raise Refused(6, area)
    deviations = [deviation(r) for r in hour["records"]]
    shares = share_out(hour, ufe)
    amounts = member_amounts(hour, deviations, shares)
    for member, amount in enumerate(amounts):
        if abs(amount) > MOST_GRAINS:
            raise Refused(7, member)
    return {"ufe": ufe, "deviations": deviations, "shares": shares, "amounts": amounts,
            "charges": [cents(amount) for amount in amounts]}


def work_out(hour):
    """All figures of an hour that keeps rows 1 to 5, or refusals 14, 6, 7 and 12."""
    check_schedules(hour["records"])
    figures = work_out_charges(hour)
    return {**figures, "finals": finals_of(figures["charges"], member_demands(hour))}


# ---- The unrounded amounts that demand 3 speaks of (document 003, D 2.1 and D 2.2)

def tariff_amounts(hour, ufe):
    """Each member's IEC, zone by zone as D 2.1 writes it, with the exact fractions of the UFE in place
    of the shares; in grains."""
    exact = share_out(hour, ufe, exact_shares)
    posts = [(r["member"], hour["areas"][r["area"]]["zone"], r["kind"], deviation(r), share)
             for r, share in zip(hour["records"], exact)]
    return [sum(imbalance_charge([post[2:] for post in posts if post[:2] == (member, zone)], price)
                for zone, price in enumerate(hour["prices"]))
            for member in range(hour["members"])]


def imbalance_charge(posts, price):
    """IEC of one member in one zone; a post is a kind, a deviation and a share."""

    def deviations(*kinds):
        return sum(dev for kind, dev, _ in posts if kind in kinds)

    ufe_charge = sum(share for _, _, share in posts) * price
    return ((deviations(GENERATOR) - deviations(*LOADS)) * price
            + deviations(IMPORT) * price - deviations(EXPORT) * price + ufe_charge)


def pool_total(hour, ufe):
    """What the whole pool owes, from schedules and meters alone, without any shares; in grains."""
    total = 0
    for area in range(len(hour["areas"])):
        def deviations(*kinds):
            return sum(deviation(r) for r in records_of(hour, area, *kinds))

        total += price_of(hour, area) * (deviations(GENERATOR) - deviations(*LOADS)
                                         + deviations(IMPORT) - deviations(EXPORT) + ufe[area])
    return total
