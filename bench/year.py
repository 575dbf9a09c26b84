"""What becomes of a house in a year: `year.py PROGRAM FOLDER [ITEMS]`.

A house of so many items, a million where none are said, with five bids on each, is made in FOLDER by what members send, over TCP. A
house that is there already is gone on with, so a run may be stopped and begun again. Then it is looked at: how large its file is; how
long a start takes, by the clock and in processor time, and how much memory; how long the page of an item takes; and how long a bid
takes, each answered before the next is sent, among so many that the log is written back many times. The middle and the longest of these
are shown. In /dev/shm no bid waits for a disk; on a disk the house is that of a city.
"""
import pathlib
import statistics
import sys
import time

import serve
from lib.sent import command, compact, read
from lib.serving import Program
from measured import kept, shown
from sizes import BIDS, MEMBERS

ITEMS, PAGES, LATER_BIDS = 1_000_000, 10_000, 50_000
# How long a server may take for all that it is sent.
SECONDS = 24 * 3600


def answer(connection, text):
    """The value of the next answer of a connection on which nothing else is awaited."""
    connection.sendall(text)
    received = connection.recv(1 << 20)
    if not received.startswith(b"HTTP/1.1 20"):
        sys.exit(f"year.py: {received[:200]!r}")
    return received


def number_in(text, name):
    """The number that has a name in an answer."""
    return int(text.partition(b'"%s":' % name)[2].split(b",")[0].rstrip(b"}"))


def found(program):
    """How many items there are, the first that lacks a bid, and how many it has."""
    with program.serving("house", 1, SECONDS) as server, serve.connect(server.port) as connection:
        items = number_in(answer(connection, read("/house", 0).text()), b"items")
        bids = lambda item: number_in(answer(connection, read(f"/items/{item}", 0).text()), b"count")
        low, high = 1, items + 1
        while low < high:
            middle = (low + high) // 2
            low, high = (middle + 1, high) if bids(middle) == BIDS else (low, middle)
        return items, low, bids(low) if low <= items else 0


def in_parts(texts):
    """Messages in parts that one connection may send."""
    part = []
    for text in texts:
        part.append(text)
        if len(part) == serve.MOST:
            yield part
            part = []
    if part:
        yield part


def take(program, count, texts):
    """Has so many commands answered, each of which has to be accepted."""
    if count == 0:
        return
    began = time.monotonic()
    with program.serving("house", -(-count // serve.MOST), SECONDS) as server:
        for place, part in enumerate(in_parts(texts), 1):
            if serve.exchanged(server.port, part).count(b"HTTP/1.1 201 ") != len(part):
                sys.exit("year.py: a command is not accepted")
            print(f"\r{place * serve.MOST:,} of {count:,}, {time.monotonic() - began:,.0f} s ", end="", file=sys.stderr, flush=True)
    print(file=sys.stderr)


def bid(item, place):
    """One of the bids of an item, by a member who doesn't sell it."""
    return command(f"/items/{item}/bids", (item + place % 2 + 1) % MEMBERS + 1, 1_001, compact({"maximum": 1_000 * (place + 1)})).text()


def make(program, items):
    """The house, from where it is on."""
    if not (pathlib.Path(program.folder) / "house").exists():
        serve.new_file("ours", program, "house")
        take(program, serve.CATEGORIES + MEMBERS, serve.house_texts(0)[0])
    there, _, _ = found(program)
    take(program, items - there, (serve.item_text(number) for number in range(there + 1, items + 1)))
    _, first, had = found(program)
    rest = (bid(item, place) for item in range(first, items + 1) for place in range(had if item == first else 0, BIDS))
    take(program, (items + 1 - first) * BIDS - had, rest)


def times(connection, texts):
    """How long each answer takes, in microseconds."""
    found = []
    for text in texts:
        began = time.monotonic()
        answer(connection, text)
        found.append((time.monotonic() - began) * 1e6)
    return found


def look(program, items):
    """What the house is like."""
    file = pathlib.Path(program.folder) / "house"
    shown(f"{items} items with five bids", {"ours": file.stat().st_size / 1e6}, "MB")
    began = time.monotonic()
    later_bids = min(LATER_BIDS, items)
    with program.serving("house", 2 + -(-later_bids // serve.MOST), SECONDS) as server:
        shown("start", {"ours": time.monotonic() - began}, "s", 1)
        shown("start, processor time", {"ours": serve.seconds_of(server.process)}, "s", 1)
        shown("memory after it", {"ours": serve.most_held(server.process)}, "MB")
        spread = [number * 7_919 % items + 1 for number in range(later_bids)]
        with serve.connect(server.port) as connection:
            pages = times(connection, [read(f"/items/{item}", 0).text() for item in spread[:PAGES - 1]])
        later = []
        for part in in_parts(bid(item, BIDS) for item in spread):
            with serve.connect(server.port) as connection:
                later += times(connection, part)
        for what, found in ("page of an item", pages), ("accepted bid", later):
            shown(f"{what}, the middle", {"ours": statistics.median(found)}, "microseconds")
            shown(f"{what}, the longest", {"ours": max(found) / 1e3}, "ms", 1)
        shown("memory at most", {"ours": serve.most_held(server.process)}, "MB")
        # A log that is written back is written over from its beginning, and keeps its size.
        log = pathlib.Path(program.folder) / "house-wal"
        shown("log at most", {"ours": log.stat().st_size / 1e6}, "MB", 1)
        serve.exchanged(server.port, [read("/house", 0).text()])


def main(path, folder, items=ITEMS):
    with kept(f"year of {items} items", "bench/year.py"):
        program = Program(str(pathlib.Path(path).resolve()), folder)
        make(program, int(items))
        look(program, int(items))


if __name__ == "__main__":
    main(*sys.argv[1:])
