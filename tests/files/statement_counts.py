#!/usr/bin/env python3
"""Counts the statements that a message makes of a house in a file: `statement_counts.py PROGRAM`. It needs `valgrind`.

A house is served under callgrind, which counts calls, with messages and with one more of a kind. What is called more often is
called for that one. A statement has its parameters bound once, by the function BINDS of the port of SQLite. No kind may make more
statements than it is listed with. The last line is 'N kinds, M wrong'.

Promise: none
"""
import pathlib
import re
import sys
import tempfile

from lib.checks import check, claim, verdict
from lib.counted import Counted
from lib.serving import message

# A kind of message, and the statements that it makes at most.
KINDS = {
    "an accepted bid": (message("POST", "/items/1/bids", 2, 1002, '{"maximum":900}'), 4),
    "an item page": (message("GET", "/items/1", 2), 1),
    "a list of fifty items": (message("GET", "/categories/1/items/1", 2), 3),
    "a list of fifty own bids": (message("GET", "/me/bids/1", 2), 102),
    "a list of fifty own reserves": (message("GET", "/me/reserves/1", 1), 1),
    "a band table": (message("POST", "/bands", 0, 1002, '{"bands":[{"at":0,"step":5},{"at":100,"step":25}]}'), 4),
}


def main():
    path = str(pathlib.Path(sys.argv[1]).resolve())
    with tempfile.TemporaryDirectory() as folder:
        counted = Counted(path, folder)
        first = message("GET", "/house", 2)
        _, few = counted.statements(first)
        for kind, (asked, most) in KINDS.items():
            answers, many = counted.statements(first + asked)
            check(kind, re.findall(rb"HTTP/1.1 (20[01]) ", answers)[1:] != [], True)
            claim(f"{kind}: over {most} statements", 0 < many - few <= most)
            print(f"{kind}: {many - few} statements, {most} at most")
    return verdict(f"{len(KINDS)} kinds")


if __name__ == "__main__":
    sys.exit(main())
