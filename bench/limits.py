"""How much of a durable bid, of a start and of the memory is the kit's SQLite: `limits.py PROGRAM BENCH`.

BENCH is the program `bench_sqlite` that `make test` leaves: it makes the four statements of a bid and commits, or only connects.
PROGRAM is bid on over one connection, each bid in its turn, as `serve.py` does. Both go over copies of the same houses: a new one,
and of 1,000 and 100,000 items. Each figure is the median of some runs of both in turn, by the clock, by processor time, or of the
most memory held. It needs Debian's `time`.
"""
import os
import pathlib
import shutil
import statistics
import subprocess
import sys
import tempfile
import time

import serve
from lib.serving import PRESET, Program
from measured import in_turn, kept, shown

HOUSE, COPY = "house", "copy"
BOTH = {name: name for name in ("ours", "kit")}


def ran(bench, folder, bids):
    """The milliseconds that a run of BENCH takes, by the clock and by processor time."""
    began = time.monotonic()
    process = subprocess.Popen([bench, COPY, str(bids)], cwd=folder, stdout=subprocess.DEVNULL)
    _, status, used = os.wait4(process.pid, 0)
    if status != 0:
        sys.exit("limits.py: bench_sqlite fails")
    return 1e3 * (time.monotonic() - began), 1e3 * (used.ru_utime + used.ru_stime)


def held(bench, folder):
    """The MB that BENCH holds at most after a start, as `time` tells. This script can't ask for it: of its own child the system also
    counts what this script held when it began the child."""
    words = ["/usr/bin/time", "--format=%M", bench, COPY, "0"]
    told = subprocess.run(words, cwd=folder, stdout=subprocess.DEVNULL, stderr=subprocess.PIPE, check=True).stderr
    return int(told.split()[-1]) / 1024


def copy(folder):
    """A copy of the house, with its log, in the place of the last copy."""
    for path in list(folder.glob(f"{COPY}*")):
        path.unlink()
    for path in list(folder.glob(f"{HOUSE}*")):
        shutil.copy(path, folder / path.name.replace(HOUSE, COPY, 1))


def make_house(program, parts):
    """A house of such messages, whose copies both go over."""
    serve.new_file("ours", program, HOUSE)
    with program.serving(HOUSE, len(parts), 3_000) as server:
        for part in parts:
            serve.exchanged(server.port, part)


def bids(program, bench, folder):
    """The microseconds of a bid, by the clock and by processor time."""
    def once(name):
        copy(folder)
        if name == "kit":
            start = ran(bench, folder, 0)
            copy(folder)
            whole = ran(bench, folder, serve.BIDS)
            return [1e3 * (whole[place] - start[place]) / serve.BIDS for place in (0, 1)]
        with program.serving(COPY, 1, 600) as server:
            a_second, spent = serve.bid_in_turn(server)
        return [1e6 / a_second, spent]
    return in_turn(BOTH, once, serve.RUNS)


def starts(program, bench, folder):
    """The milliseconds of a start by the clock and by processor time, and the MB held after it."""
    def once(name):
        copy(folder)
        if name == "kit":
            return *ran(bench, folder, 0), held(bench, folder)
        began = time.monotonic()
        with program.serving(COPY, 1, 600) as server:
            found = [1e3 * (time.monotonic() - began), 1e3 * serve.seconds_of(server.process), serve.most_held(server.process)]
            serve.exchanged(server.port, PRESET[:1])
        return found
    return in_turn(BOTH, once, serve.RUNS)


def show(what, found):
    for place, (kind, unit) in enumerate(what):
        shown(kind, {name: statistics.median(run[place] for run in found[name]) for name in BOTH}, unit, 1)


def main(path, bench):
    bench = str(pathlib.Path(bench).resolve())
    with kept("kit", "bench/limits.py"), tempfile.TemporaryDirectory() as name:
        folder = pathlib.Path(name)
        program = Program(str(pathlib.Path(path).resolve()), folder)
        make_house(program, [PRESET])
        show((("a bid", "us"), ("a bid, processor time", "us")), bids(program, bench, folder))
        for items in serve.SIZES:
            make_house(program, serve.house_texts(items))
            show([(f"{items} items, to listening", "ms"), (f"{items} items, processor time", "ms"), (f"{items} items, memory", "MB")],
                 starts(program, bench, folder))


if __name__ == "__main__":
    main(*sys.argv[1:])
