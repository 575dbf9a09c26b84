"""What the watches of a house cost a bid: `watched.py PROGRAM`.

A house in a file, in a file system in memory, has 1,000 items. A hundred members watch 200 each of the first 800, and bid on the
others, which nobody watches, so that who looks for a watch of one meets all there are. Bids are sent to copies of the house, each
answered before the next is sent, and each changes who leads its item: of the house without a watch; with them; and with them but
without their index by item, which SQLite drops, as houses lack it that were made before there was one. Every figure is the median of
some rounds in turn, of a bid by its sender's clock.
"""
import contextlib
import pathlib
import shutil
import sqlite3
import statistics
import sys
import tempfile
import time

import serve
from lib.sent import command, compact
from lib.serving import Program
from measured import in_turn, kept, shown_rounds

ITEMS, WATCHED, WATCHERS, EACH, BIDS = 1_000, 800, 100, 200, 200
# The preset has three members, of whom the items are; their sellers don't bid here.
FIRST = 4
WITHOUT_INDEX = "DROP INDEX watch_by_item"


def members():
    return [command("/members", 0, 1_000, compact({"name": f"Watcher {number}"})).text() for number in range(WATCHERS)]


def watches():
    return [command(f"/items/{(place + 7 * watcher) % WATCHED + 1}/watch", FIRST + watcher, 1_000).text()
            for watcher in range(WATCHERS) for place in range(EACH)]


def bids():
    """First bids on items that nobody watches, by members in turn."""
    return [command(f"/items/{WATCHED + place + 1}/bids", FIRST + place % WATCHERS, 1_001, compact({"maximum": 1_000})).text() for place in range(BIDS)]


def accepted(program, file, parts):
    """Sends messages in parts that one connection may send, of which each has to be accepted."""
    with program.serving(file, len(parts), 3_000) as server:
        for part in parts:
            if serve.exchanged(server.port, part).count(b"HTTP/1.1 20") != len(part):
                sys.exit("watched.py: a house is not made")


def changed(path, statement):
    with contextlib.closing(sqlite3.connect(path, isolation_level=None)) as database:
        database.execute(statement)


def bid_of(program, file):
    """How many milliseconds a bid takes on a copy of a house."""
    folder = pathlib.Path(program.folder)
    shutil.copy(folder / file, folder / "copy")
    times = []
    with program.serving("copy", 1, 3_000) as server, serve.connect(server.port) as connection:
        for text in bids():
            began = time.perf_counter()
            connection.sendall(text)
            answer = connection.recv(4096)
            times.append(1e3 * (time.perf_counter() - began))
            if not answer.startswith(b"HTTP/1.1 201 "):
                sys.exit(f"watched.py: {answer!r}")
    for left in folder.glob("copy*"):
        left.unlink()
    return statistics.median(times)


def main(path):
    with kept("watched", "bench/watched.py"), tempfile.TemporaryDirectory(dir="/dev/shm") as name:
        program, folder = Program(str(pathlib.Path(path).resolve()), name), pathlib.Path(name)
        serve.new_file("ours", program, "no watch")
        accepted(program, "no watch", [*serve.house_texts(ITEMS), members()])
        shutil.copy(folder / "no watch", folder / "watched")
        texts = watches()
        accepted(program, "watched", [texts[at:at + serve.MOST] for at in range(0, len(texts), serve.MOST)])
        shutil.copy(folder / "watched", folder / "older")
        changed(folder / "older", WITHOUT_INDEX)
        houses = {"without watches": "no watch", f"among {len(texts)} watches": "watched",
                  f"among {len(texts)} watches without their index": "older"}
        for what, rounds in in_turn(houses, lambda file: bid_of(program, file)).items():
            shown_rounds(f"a bid {what}", {"ours": rounds}, "ms", 3)


if __name__ == "__main__":
    main(*sys.argv[1:])
