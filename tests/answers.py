"""What the second program answers to an hour, for the tests that look at the answer alone."""

import second


def answer(hour, lengths=second.USUAL_LENGTHS):
    """Number and place, of an Hour or of bytes."""
    data = hour if isinstance(hour, bytes) else hour.encode()
    return second.settle(data, lengths)[:2]
