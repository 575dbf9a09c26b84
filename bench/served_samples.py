"""Where the time of a served house goes, by samples of the processor's clock: `served_samples.py PROGRAM`.

PROGRAM serves a house in a file. Over one connection bids come, each in its turn, and then the mixed stream of `workload.py`, all at
once, in a new house; and a house of 100,000 items is started. Meanwhile `perf` looks some thousand times a second which function
runs, in some rounds. By its name a function belongs to the kernel, to the kit's SQLite, to the store that shows a house's trees in
its order, moves memory, allocates or frees it, or is another one, of ours or of the kit. Shown is how long a bid, a message and a
start take in each. What a compiler has put into another function counts as that one's. It needs Debian's `linux-perf`, and an idle
machine.
"""
import collections
import pathlib
import re
import subprocess
import sys
import tempfile

import samples
import serve
import workload
from lib.serving import PRESET, Program, held_port
from measured import kept, shown

ROUNDS, ITEMS = 5, 100_000
KINDS = {"the kernel": samples.KINDS["the kernel"], "the kit's SQLite": re.compile(r"^\[.\] sqlite\w*::"),
         "trees in order": re.compile(r"^\[.\] tree_order::"), **{kind: samples.KINDS[kind] for kind in list(samples.KINDS)[:2]}}


def kind_of(symbol):
    return next((kind for kind, names in KINDS.items() if names.search(symbol)), samples.REST)


def bids(program, data):
    serve.new_file("ours", program, "house")
    with program.serving("house", 2, 600) as server:
        serve.exchanged(server.port, PRESET)
        with samples.watched(server.process, data):
            serve.bid_in_turn(server)


def mixed(program, data):
    before, messages = workload.made("mixed", serve.MIXED, serve.MIXED_ITEMS)
    serve.new_file("ours", program, "house")
    with program.serving("house", 2, 600) as server:
        serve.exchanged(server.port, PRESET + before)
        with samples.watched(server.process, data):
            serve.exchanged(server.port, messages)


def make_large(program):
    """A house of many items."""
    serve.new_file("ours", program, "large")
    parts = serve.house_texts(ITEMS)
    with program.serving("large", len(parts), 3_000) as server:
        for part in parts:
            serve.exchanged(server.port, part)


def start(program, data):
    """A server ends after its first connection."""
    with held_port() as port:
        process = subprocess.Popen([*samples.PERF, f"--output={data}", "--", program.path, "serve", "large", "--port", str(port), "--count", "1"],
                                   cwd=program.folder, stdout=subprocess.PIPE, stderr=subprocess.DEVNULL)
        process.stdout.readline()
        serve.connect(port).close()
        process.wait()


# By name, what is done once, how many of it that is, and in which unit one is told, of which a second has so many.
THINGS = {"a bid": (bids, serve.BIDS, "us", 1e6), "a mixed message": (mixed, serve.MIXED, "us", 1e6),
          f"a start with {ITEMS} items": (start, 1, "ms", 1e3)}


def profile(program, data):
    for name, (once, count, unit, second) in THINGS.items():
        found = collections.Counter()
        for _ in range(ROUNDS):
            once(program, data)
            found += samples.counted(data)
        one = second / samples.SAMPLES / ROUNDS / count
        for kind in [*KINDS, samples.REST]:
            shown(f"{name}, {kind}", {"ours": one * sum(number for symbol, number in found.items() if kind_of(symbol) == kind)}, unit, 1)
        for symbol, number in found.most_common(samples.LONGEST):
            print(f"    {one * number:8.1f} {unit} {symbol[:120]}")


def main(path):
    with tempfile.TemporaryDirectory() as name, kept("served samples", "bench/served_samples.py"):
        program = Program(str(pathlib.Path(path).resolve()), name)
        make_large(program)
        profile(program, pathlib.Path(name, "data"))


if __name__ == "__main__":
    main(*sys.argv[1:])
