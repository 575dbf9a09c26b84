"""How often a message makes the processor wait, beside plain Rust: `misses.py PROGRAM PLAIN`.

A count of instructions leaves out which of them wait. `cachegrind` plays the processor's caches and its guesses of branches, and
counts data that isn't found in the first cache or in the last, code that isn't found in the first, and branches that were guessed
wrong; the system counts pages of memory that a run touches first, each of which it has to hand out. Shown is so much more by a run
that does something so often than by one that does it never. Done are a message of the mixed stream of `workload.py`, a list of
fifty out of 100,000 items, and the text of a list and the public record, as `pages.py` makes them. PLAIN is the house in plain
Rust; beside the last two stands `bench/plain`, which makes the same text from rows that it has in memory. The counts hold for
machines whose caches are as large, and differ little from run to run.

`bench/plain` also measures how long one of each takes on an idle machine, where nothing else is done meanwhile. So what all take
together is a bound: a processor does other things while it waits. It needs `valgrind`, and `cargo` with Debian's packages, as
`wire.sh` says.
"""
import pathlib
import re
import resource
import statistics
import subprocess
import sys
import tempfile

import pages
import workload
from measured import kept, shown

WORDS = ["replay", "--preset"]
LARGE, SMALL = 100_000, 1_000
MESSAGES, LISTS = 10_000, 1_000
# The events of cachegrind that make up each kind of wait, and the one of the system; and what `waits` of `bench/plain` calls it.
FAULTS = "faults"
WAITS = {"the first cache": ("D1mr", "D1mw"), "the last cache": ("DLmr", "DLmw"), "code": ("I1mr",), "branches": ("Bcm", "Bim"),
         "pages touched first": (FAULTS,)}
KINDS = {"the first cache": "first", "the last cache": "last", "code": "first", "branches": "branch", "pages touched first": "page"}
TIMES = 9


def faults(words, stream):
    """How many pages of memory a run touches first."""
    before = resource.getrusage(resource.RUSAGE_CHILDREN).ru_minflt
    subprocess.run(list(map(str, words)), input=stream, stdout=subprocess.DEVNULL, check=True)
    return resource.getrusage(resource.RUSAGE_CHILDREN).ru_minflt - before


def events(words, stream):
    """What is counted of a run, by the name of the event."""
    with tempfile.TemporaryDirectory() as folder:
        dump = pathlib.Path(folder, "dump")
        subprocess.run(["valgrind", "--tool=cachegrind", "--cache-sim=yes", "--branch-sim=yes", f"--cachegrind-out-file={dump}",
                        *map(str, words)],
                       input=stream, stdout=subprocess.DEVNULL, stderr=subprocess.DEVNULL, check=True)
        names, counts = (re.search(rf"^{line}: (.*)$", dump.read_text(), re.M)[1].split() for line in ("events", "summary"))
        return {**dict(zip(names, map(int, counts))), FAULTS: faults(words, stream)}


def costs():
    """How many nanoseconds one of each kind takes: the median of some runs."""
    program = pages.PAGES.with_name("waits")
    found = {kind: statistics.median(float(subprocess.run([program, kind], capture_output=True, check=True).stdout)
                                     for _ in range(TIMES)) for kind in dict.fromkeys(KINDS.values())}
    return {wait: found[kind] for wait, kind in KINDS.items()}


def mixed(program):
    before, messages = workload.made("mixed", MESSAGES)
    words = [program, *WORDS]
    return pages.More((words, b"".join(before)), (words, b"".join(before + messages)), MESSAGES)


def text_of_list(program, stream):
    """Lists beside as many empty ones."""
    kinds = pages.kinds(SMALL)
    few, many = (([program, *WORDS], stream + kinds[name].request.text() * LISTS) for name in ("empty list", "list of fifty"))
    return pages.More(few, many, LISTS)


def runs(ours, plain):
    """By name, for each program a run that does something, beside one that doesn't."""
    yield "a message of the mixed stream", {whose: mixed(program) for whose, program in (("ours", ours), ("plain", plain))}
    large, small = pages.made(LARGE), pages.made(SMALL)
    kind = pages.kinds(LARGE)["list of fifty"]
    yield f"a list out of {LARGE} items", {
        whose: pages.asked(program, large, kind, LISTS) for whose, program in (("ours", ours), ("plain", plain))}
    what, record = pages.kinds(SMALL)["list of fifty"].what, pages.record_of(ours, small)
    text = text_of_list(ours, small)
    for steps, name in (("held", "the text of a list"), ("handed", "the text of a list by the same steps")):
        yield name, {"ours": text, "plain": pages.by_plain(steps, what, record, LISTS)}
    yield f"the record of {LARGE} items", {
        "ours": pages.with_record(ours, large), "plain": pages.record_by_plain(pages.record_of(ours, large))}


def main(program, plain):
    pages.built()
    with kept("misses", "bench/misses.py"):
        each = costs()
        for wait, cost in each.items():
            shown(f"one of {wait}", {"ours": cost}, "ns", 1)
        for name, both in runs(*(str(pathlib.Path(path).resolve()) for path in (program, plain))):
            found = {whose: (events(*run.few), events(*run.many), run.count) for whose, run in both.items()}
            counts = {wait: {whose: sum(many[kind] - few[kind] for kind in kinds) / count
                             for whose, (few, many, count) in found.items()} for wait, kinds in WAITS.items()}
            for wait, by in counts.items():
                shown(f"{name}, {wait}", by, "waits", 1)
            most = {whose: sum(counts[wait][whose] * cost for wait, cost in each.items()) for whose in both}
            shown(f"{name}, all at most", most, "ns")


if __name__ == "__main__":
    main(*sys.argv[1:])
