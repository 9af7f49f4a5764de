#!/usr/bin/env python3
"""Writes the example hours beside this file, their sheets, and the printed case's head and records as words: python3 examples/make.py

What each hour holds is worked out by hand on the page of its name, and the two ten-minute hours on one page, ten-minutes.md.
"""

import sys
from pathlib import Path

HERE = Path(__file__).resolve().parent
sys.path.insert(0, str(HERE.parent / "tests"))
sys.dont_write_bytecode = True
from hours import EXPORT, GENERATOR, IMPORT, PROFILE_LOAD, REAL_TIME_LOAD, Hour, printed_case, record  # noqa: E402
from ten_minute_hours import TenMinuteHour, interval_record  # noqa: E402
from to_write import taken_apart  # noqa: E402

sys.path.insert(0, str(HERE.parent / "office"))
from sheets import sheet_of  # noqa: E402


def two_zones():
    """Five growers, two zones, three areas, every kind of record."""
    return Hour(
        number=1_400, members=5, prices=[4_200, 3_550],
        areas=[[0, 500, 200], [1, 330, 10], [1, 700, 700]],
        records=[
            record(GENERATOR, 0, 0, S=2_000, A=1_900, M=2_500, F=9_800, H=9_750),
            record(REAL_TIME_LOAD, 1, 0, S=1_200, A=1_300),
            record(PROFILE_LOAD, 2, 0, S=800, A=850),
            record(GENERATOR, 1, 1, S=1_000, A=1_050, J=20, N=50, O=300, M=1_200, F=10_000, H=10_000),
            record(IMPORT, 3, 1, S=400, J=10, N=5, F=9_900, H=9_900),
            record(REAL_TIME_LOAD, 0, 1, S=900, A=880, N=30, O=950),
            record(PROFILE_LOAD, 3, 1, S=500, A=480),
            record(EXPORT, 2, 2, S=200, A=180, J=30),
        ])


def left_over():
    """A negative UFE that does not go into the demands, equal remainders, and half a cent behind an even and an odd number of cents."""
    return Hour(
        number=1_401, members=5, prices=[6_500], areas=[[0, 619, 20]],
        records=[
            record(PROFILE_LOAD, 2, 0, S=420, A=400),
            record(REAL_TIME_LOAD, 1, 0, S=690, A=700),
            record(GENERATOR, 1, 0, S=2_000, A=1_901, M=2_400, F=9_980, H=9_973),
            record(REAL_TIME_LOAD, 2, 0, S=700, A=700),
            record(PROFILE_LOAD, 3, 0, S=700, A=700),
            record(EXPORT, 4, 0, S=40, A=39),
            record(EXPORT, 0, 0, S=37, A=40),
        ])


def neutrality():
    """The pool collects 20 cents and pays 12: a cent of the 8 is left over, and two growers have the same remainder."""
    return Hour(
        number=1_402, members=4, prices=[1_000], areas=[[0, 0, 100], [0, 100, 0]],
        records=[
            record(GENERATOR, 0, 0, S=720, A=700, M=800, F=10_000, H=10_000),
            record(REAL_TIME_LOAD, 2, 0, S=302, A=300),
            record(REAL_TIME_LOAD, 1, 0, S=200, A=200),
            record(PROFILE_LOAD, 1, 1, S=110, A=100),
            record(REAL_TIME_LOAD, 3, 0, S=100, A=100),
        ])


def ten_minutes_1():
    """Every kind of record but an import; the engine and the load in real time ramp."""
    return TenMinuteHour(
        number=1_500, members=3, areas=[0, 1],
        prices=[[3_000, 3_100, 3_200, 3_200, 3_400, 3_400, 2_000, 2_000, 1_900, 1_900, 2_100, 2_100],
                [2_500, 2_500, 2_600, 2_600, 2_700, 2_700, 1_500, 1_500, 1_400, 1_400, 1_600, 1_600]],
        records=[
            interval_record(GENERATOR, 0, 0, S=600, before=480, next=720, F=9_800, H=9_800, A=[95, 98, 103, 100, 102, 105],
                            N=[0, 0, 0, 0, 2, 0]),
            interval_record(REAL_TIME_LOAD, 1, 0, S=720, before=720, next=600, A=[120, 120, 118, 123, 120, 115]),
            interval_record(PROFILE_LOAD, 1, 1, S=300, A=330, J=[0, 5, 0, 0, 0, 0]),
            interval_record(EXPORT, 2, 1, S=240, A=[40, 40, 42, 38, 40, 40]),
        ])


def ten_minutes_2():
    """The hour after it: what each ramped record was scheduled for before is what it was scheduled for then."""
    return TenMinuteHour(
        number=1_501, members=3, areas=[0, 1],
        prices=[[3_400, 3_400, 3_400, 3_400, 3_300, 3_300, 3_000, 3_000, 3_000, 2_900, 2_900, 3_000],
                [2_500, 2_500, -400, 2_600, 2_600, 2_600, 1_500, 1_500, 1_400, 1_400, 1_600, 1_600]],
        records=[
            interval_record(GENERATOR, 0, 0, S=720, before=600, next=660, F=9_800, H=9_800, A=[115, 120, 121, 119, 120, 118]),
            interval_record(REAL_TIME_LOAD, 1, 0, S=600, before=720, next=600, A=[105, 100, 100, 101, 100, 100]),
            interval_record(IMPORT, 2, 1, S=240, F=10_000, H=9_500, J=[0, 0, 10, 0, 0, 0], N=[0, 0, 0, 0, 1, 0]),
            interval_record(EXPORT, 2, 1, S=240, A=[38, 40, 40, 40, 40, 42]),
        ])


EXAMPLES = {"printed": printed_case, "two-zones": two_zones, "left-over": left_over, "neutrality": neutrality}
TEN_MINUTES = {"ten-minutes-1": ten_minutes_1, "ten-minutes-2": ten_minutes_2}


def printed_words():
    return taken_apart(printed_case().blocks())


def main():
    for name, hour in {**EXAMPLES, **TEN_MINUTES}.items():
        file = hour().encode()
        (HERE / f"{name}.hour").write_bytes(file)
        (HERE / f"{name}.csv").write_bytes(sheet_of(file))
    (HERE / "printed.words").write_bytes(printed_words())


if __name__ == "__main__":
    main()
