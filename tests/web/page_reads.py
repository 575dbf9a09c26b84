#!/usr/bin/env python3
"""Counts what open pages of an item ask of the house: `page_reads.py PROGRAM [PAGE [WINDOWS [SECONDS]]]`.

Twenty windows of Chromium show items that are open for days, for a minute. First nobody bids, and then somebody bids for one of
them each five seconds. PAGE is a folder in the place of deploy/gateway/page, such as that of an older version. It needs what
page.py needs. The last two lines have the reads a second of a thousand such windows.

Promise: none
"""
import itertools
import shutil
import sys
import time

from lib import browser
from lib.gateway_run import folder_of_nobody
from lib.screen_reader import Reader
from parts.page_house import OPEN, PAST, furnished
from parts.page_truth import Listings

PAUSE = 5
# The words after the program, where they are not given: no other page, 20 windows, 60 seconds.
USUAL = ["", "20", "60"]
# A window of its own is seen, where a tab behind another is not.
OPENS = "window.open(arguments[0], '', 'popup,width=500,height=800')"


def reads_of(gateway):
    """How many reads the gateway has passed on to the house."""
    log = (gateway.folder / "logs" / "access.log").read_text()
    return log.count("GET /api/")


def opens(reader, windows):
    """So many windows, one item after the other."""
    for place in range(windows):
        number = len(PAST) + 1 + place % len(OPEN)
        reader.page.run(OPENS, f"{reader.root}#/item/{number}")


def counts(gateway, seconds, work):
    """The reads of so many seconds in which some work is done each five."""
    before, ends = reads_of(gateway), time.monotonic() + seconds
    while time.monotonic() < ends:
        work()
        time.sleep(PAUSE)
    return reads_of(gateway) - before


def main():
    program, page, windows, seconds = sys.argv[1:] + USUAL[len(sys.argv) - 2:]
    windows, seconds = int(windows), int(seconds)
    with folder_of_nobody() as folder, furnished(program, folder) as gateway, browser.driver() as address:
        if page:
            shutil.copytree(page, gateway.house() / "page", dirs_exist_ok=True)
        listings, maxima, item = Listings(gateway), itertools.count(20_000, 5_000), len(PAST) + 2
        reader = Reader(address, gateway, "ben")
        try:
            opens(reader, windows)
            time.sleep(20)
            still = counts(gateway, seconds, lambda: None)
            moving = counts(gateway, seconds, lambda: listings.bid("cid", item, next(maxima)))
        finally:
            reader.end()
    for name, count in (("nobody bids", still), ("somebody bids", moving)):
        print(f"{name}: {count} reads of {windows} windows in {seconds} s, or {1000 * count / windows / seconds:.0f} a second of 1000")


if __name__ == "__main__":
    sys.exit(main())
