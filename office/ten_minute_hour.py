"""A ten-minute hour's words by the names that people use (docs/FORMAT.md), the file that they make, and how such a file is told from an
hourly one."""

import struct

from hour import (ACTUAL_ENERGY, ADJUSTMENT, ANCILLARY, BLOCK_BYTES, FIRST_WORD, HOUR, MULTIPLIERS, PRICE, SCHEDULED_ENERGY, ZONE, Hour)

INTERVALS = range(1, 7)
FARTHEST_PRICE = 100_000


def each_interval(field):
    """A field for each interval, with its number behind the name."""
    return tuple(field._replace(name=f"{field.name} {interval}") for interval in INTERVALS)


def prices(name):
    return each_interval(PRICE._replace(name=name, low=-FARTHEST_PRICE, high=FARTHEST_PRICE))


class TenMinuteHour(Hour):
    """The other kind of file (document 02, A7)."""

    NAME, CALLED = HOUR._replace(name="ten-minute hour"), "a ten-minute hour"
    FIRST_MARK, OTHER_MARK = 3, 4
    MOST_BLOCKS, MOST_RECORDS, BLOCK_RECORDS, RECORD_WORDS = 17, 64, 4, 30
    FIRST_PRICE, PRICES = 48, (*prices("incremental price"), *prices("decremental price"))
    AREA_FIELDS = (ZONE,)
    ENERGIES = (SCHEDULED_ENERGY, *(SCHEDULED_ENERGY._replace(name=f"scheduled {when}") for when in ("before", "next")), *MULTIPLIERS,
                *each_interval(ACTUAL_ENERGY), *each_interval(ADJUSTMENT), *each_interval(ANCILLARY))
    USED = (range(3, 26), (*range(3, 6), *range(8, 26)), (3, 8, *range(14, 26)), (3, 6, 7, *range(14, 26)), (3, *range(8, 20)))

    def file(self):
        """The bytes of the file. No proved program writes it: whoever hands it out has it accepted first."""
        held = [self.records[at:at + self.BLOCK_RECORDS] for at in range(0, len(self.records), self.BLOCK_RECORDS)]
        others = (block(self.OTHER_MARK, position, len(records), [word for record in records for word in record])
                  for position, records in enumerate(held, 1))
        return b"".join([block(self.FIRST_MARK, 0, len(held), [*self.head.values()]), *others])


def block(mark, position, count, body):
    """A block's bytes, with the word that makes their sum zero."""
    front = [mark, position, count, 0, 0, 0, 0]
    seal = -(sum(front) + sum(body)) % 2**32
    return struct.pack(f"<{FIRST_WORD + len(body)}I", *front, seal, *body).ljust(BLOCK_BYTES, b"\0")


def form_of(file):
    """Which of the two kinds a file is: its first word says it, so a file that is too short for a word counts as hourly."""
    return TenMinuteHour if file[:4] == struct.pack("<I", TenMinuteHour.FIRST_MARK) else Hour
