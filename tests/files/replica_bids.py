#!/usr/bin/env python3
"""Bids on a house over one kept connection, and notes each answered bid: `replica_bids.py PORT ACKED SECONDS ITEMS`.

ACKED gets a line `item count member maximum` once the answer 201 has come, and nothing before it. A house without items gets
three members, a category and ITEMS items first. It ends after SECONDS, or at the first fault, and prints one line of JSON: how
many bids were answered, how many a second, the longest answer in milliseconds, and the fault or null. replica.py runs it.

Promise: none
"""
import json
import sys
import time

from lib.noted_bids import House, bid, fill
from lib.sent import read


def main():
    port, seconds, items = int(sys.argv[1]), float(sys.argv[3]), int(sys.argv[4])
    house = House(port)
    if house.ask(read("/house", 0))[1]["items"] == 0:
        fill(house, items)
    begun = time.monotonic()
    with open(sys.argv[2], "a", buffering=1) as acked:
        count, longest, fault = bid(house, acked, seconds, items)
    spent = time.monotonic() - begun
    print(json.dumps({"answered": count, "a second": round(count / spent), "longest": round(longest * 1000), "fault": fault}))


if __name__ == "__main__":
    main()
