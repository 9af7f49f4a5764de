"""Half cents, by where the even cent lies (document 02, A8): towards zero behind an even number of whole cents, away from it behind an odd
one. A comparison must reach each, above zero and below."""

CENT = 10_000_000  # grains

NAMES = tuple(f"half a cent {way} zero, behind {before} cent" for way in ("above", "below") for before in ("an even", "an odd"))


def side_of(grains):
    """The name of the half cent that an amount is, or None where it is none."""
    whole, rest = divmod(abs(grains), CENT)
    return NAMES[2 * (grains < 0) + whole % 2] if 2 * rest == CENT else None
