"""Where the time of a message goes, by samples of the processor's clock: `samples.py PROGRAM [PLAIN]`.

PROGRAM, and PLAIN, the house in plain Rust, answer the streams of `workload.py` through `replay`, and fifty items again and again,
in houses of 1,000 and 100,000 items; and PROGRAM makes the record of the larger one, beside `bench/plain`, as `pages.py` has them
make it. Meanwhile `perf` looks some thousand times a second which function runs, in rounds of both in turn. By its name a function
moves memory, allocates or frees it, copies rows that a look-up hands out, which plain Rust has none to do, belongs to the kernel,
or does something else. Shown is how many nanoseconds a message, or the record, takes in each, without what sets the house up; and
the functions in which ours is longest. What a compiler has put into another function counts as that one's. It
needs Debian's `linux-perf`, and an idle machine.
"""
import collections
import contextlib
import pathlib
import re
import signal
import subprocess
import sys
import tempfile
import time

import pages
import workload
from measured import Running, kept, paths, shown
from replay import WORDS

SAMPLES, ROUNDS, LONGEST = 4_000, 3, 12
PERF = ["perf", "record", "--quiet", "--event=cpu-clock", f"--freq={SAMPLES}"]
KINDS = {"moving memory": re.compile(r"mem(?:cpy|move|set|cmp)"),
         "allocating and freeing": re.compile(r"\b(?:malloc|c?free|calloc|realloc|_int_\w+|unlink_chunk\w*|malloc_consolidate|sysmalloc"
                                              r"|__r\w+_(?:de|re)?alloc\w*)\b"),
         "copying rows": re.compile(r"list_rows::copies::"),
         "the kernel": re.compile(r"^\[k\]")}
REST = "anything else"
ROW = re.compile(r"^\s*(\d+)\s+(\[.\] .*?)\s*$", re.M)
Stream = collections.namedtuple("Stream", "name before messages count into_pipe", defaults=[False])


def streams():
    """What sets a house up, and the messages that are looked at; those of the mixed stream also as their answers go into a pipe."""
    for name, count in ("bids", 200_000), ("mixed", 100_000):
        before, messages = (b"".join(texts) for texts in workload.made(name, count))
        yield Stream(name, before, messages, count)
    yield Stream("mixed into a pipe", before, messages, count, True)
    for items, name in (1_000, "list of fifty"), (100_000, "list out of 100000 items"):
        kind = pages.kinds(items)["list of fifty"]
        yield Stream(name, pages.made(items), kind.request.text() * kind.timed, kind.timed)


@contextlib.contextmanager
def watched(process, data):
    """Looks which functions of a process run, as long as this goes on."""
    watch = subprocess.Popen([*PERF, f"--output={data}", f"--pid={process.pid}"], stdout=subprocess.DEVNULL, stderr=subprocess.DEVNULL)
    # perf doesn't tell when it has begun.
    time.sleep(0.5)
    try:
        yield
    finally:
        watch.send_signal(signal.SIGINT)
        watch.wait()


def counted(data):
    """How many samples of a record were taken in each function."""
    report = subprocess.run(["perf", "report", "--stdio", "--no-children", "--fields=sample,symbol", f"--input={data}"],
                            stdin=subprocess.DEVNULL, capture_output=True, text=True, check=True).stdout
    return collections.Counter({symbol: int(count) for count, symbol in ROW.findall(report)})


def sampled(words, stream, data):
    """How many samples were taken in each function, while a program that is set up takes a stream."""
    run = Running(words, stream.into_pipe)
    run.send(stream.before)
    with watched(run.process, data):
        run.send(stream.messages)
    run.end()
    return counted(data)


def sampled_record(words, before, last, data):
    """The same while it makes a record, until it writes that."""
    run = Running(words, into_pipe=True)
    run.send(before)
    with watched(run.process, data):
        run.send_last(last)
    return counted(data)


def kind_of(symbol):
    return next((kind for kind, names in KINDS.items() if names.search(symbol)), REST)


def show(name, found, one):
    """What was found in each function, where a sample is so many nanoseconds of one thing."""
    for kind in [*KINDS, REST]:
        times = {whose: one * sum(samples for symbol, samples in counts.items() if kind_of(symbol) == kind)
                 for whose, counts in found.items()}
        shown(f"{name}, {kind}", {whose: time for whose, time in times.items() if time or whose == "ours"}, "ns")
    for symbol, samples in found["ours"].most_common(LONGEST):
        print(f"    {one * samples:8.0f} ns {symbol[:120]}")


def profile(programs, data):
    for stream in streams():
        found = {whose: collections.Counter() for whose in programs}
        for _ in range(ROUNDS):
            for whose, program in programs.items():
                found[whose] += sampled([program, *WORDS], stream, data)
        show(stream.name, found, 1e9 / SAMPLES / ROUNDS / stream.count)


def profile_record(program, data):
    stream = pages.made(pages.SIZES[-1])
    record = pages.record_of(program, stream)
    runs = {"ours": ([program, *WORDS, "--record"], stream, b""),
            "plain": ([pages.PAGES], record + b"\n", pages.order(1, "held", "record"))}
    found = {whose: collections.Counter() for whose in runs}
    for _ in range(ROUNDS):
        for whose, run in runs.items():
            found[whose] += sampled_record(*run, data)
    show("the record", found, 1e9 / SAMPLES / ROUNDS)


def main(*words):
    programs = paths(*words)
    pages.built()
    with tempfile.TemporaryDirectory() as name, kept("samples", "bench/samples.py"):
        profile(programs, pathlib.Path(name, "data"))
        profile_record(programs["ours"], pathlib.Path(name, "data"))


if __name__ == "__main__":
    main(*sys.argv[1:])
