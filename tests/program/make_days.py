#!/usr/bin/env python3
"""Prints civil days as the C library gives them, for the script of crates/test_values: `make_days.py asked|told`.

The lines end the section `accounts` of that crate's `stdin`, with the word `asked`, or `stdout`, with `told`: there each has its
answer after it.

For each of six zone rules 200 moments: the seconds round the first midnights and the last ones, round the changes of daylight
saving time of three years and the midnights of those days, and moments drawn at random (the seed is fixed). The day of a moment
comes from localtime(3) under the environment variable TZ; `time.localtime` of Python calls it.

Promise: operations
"""
import datetime
import os
import random
import sys
import time

from lib.days import day_of
from lib.transcript import MARK

LAST = 4_102_444_800
COUNT = 200
RULES = [
    "UTC0",
    "CET-1CEST,M3.5.0,M10.5.0/3",
    "EST5EDT,M3.2.0,M11.1.0",
    "IST-5:30",
    "NZST-12NZDT,M9.5.0,M4.1.0/3",
    "<-1130>11:30",
]


def changes(year):
    """The moments of a year at which the offset changes."""
    start = int(datetime.datetime(year, 1, 1, tzinfo=datetime.timezone.utc).timestamp())
    found = []
    for hour in range(0, 366 * 24):
        before, after = start + hour * 3600, start + (hour + 1) * 3600
        if time.localtime(before).tm_gmtoff != time.localtime(after).tm_gmtoff:
            while after - before > 1:
                middle = (before + after) // 2
                if time.localtime(middle).tm_gmtoff == time.localtime(before).tm_gmtoff:
                    before = middle
                else:
                    after = middle
            found.append(after)
    return found


def midnights(moment):
    """The first seconds of the day of a moment and of the next one."""
    first = moment - 90_000
    found = []
    for second in range(first, first + 180_000, 900):
        if day_of(second) != day_of(second + 900):
            low, high = second, second + 900
            while high - low > 1:
                middle = (low + high) // 2
                if day_of(middle) == day_of(low):
                    low = middle
                else:
                    high = middle
            found.append(high)
    return found


def moments(draw):
    special = [0, 1, LAST, LAST - 1]
    for around in (86_400, 951_782_400, LAST - 86_400):
        special += midnights(around)
    for year in (1971, 2000, 2099):
        for change in changes(year):
            special += [change, change + 3600, change - 3600] + midnights(change)
    near = [m + d for m in special for d in (-1, 0)]
    chosen = sorted({m for m in near if 0 <= m <= LAST})
    drawn = set(chosen)
    while len(drawn) < COUNT:
        drawn.add(draw.randrange(LAST + 1))
    return sorted(drawn)[:COUNT] if len(chosen) <= COUNT else sorted(draw.sample(chosen, COUNT))


def main():
    draw = random.Random(1970)
    for rule in RULES:
        os.environ["TZ"] = rule
        time.tzset()
        rows = [(moment, day_of(moment)) for moment in moments(draw)]
        lines = [(f"zone {rule}", "ok"), *((f"at {moment}", str(day) if day >= 0 else "-") for moment, day in rows)]
        for line, answer in lines:
            print(f"{MARK}{line}")
            if sys.argv[1] == "told":
                print(answer)


if __name__ == "__main__":
    main()
