"""Measures all that bench/README.md sets beside plain Rust, in one run, and writes it down.

`table.py PROGRAM [counts|times]` builds the house in plain Rust, `bench/plain/house`, and runs `replay.py`, `pages.py` and
`serve.py`, which say what they measure and what they need. Counts of instructions hold whatever else the machine does, and take
half an hour; times and memory take some minutes of a machine that does nothing else. So either can be measured alone, of the same
program: it takes the place of its like in the last run. That run is in `bench/figures.json`, where the pages' figures come from,
and `bench/TABLE.md` shows all of it. Where another page still shows the run before, `tests/documents/figures.py` says so.
"""
import os
import pathlib
import subprocess
import sys

import pages
import published
import replay
import serve
from measured import FIGURES, paths

HOUSE = pathlib.Path(__file__).resolve().parent / "plain" / "house"
PARTS = (("A message, and streams of them", replay), ("Pages", pages), ("A house that is served", serve))
KINDS = ("counts", "times")


def plain_house():
    """The house in plain Rust, as cargo builds it of Debian's packages."""
    subprocess.run(["cargo", "build", "--release", "--offline", "--quiet"], cwd=HOUSE, check=True)
    return pathlib.Path(os.environ.get("CARGO_TARGET_DIR", HOUSE / "target")) / "release" / "house"


def kind_of(found):
    return "counts" if found["unit"] == "instructions" else "times"


def measured(program, kinds):
    """The figures of such kinds, by part, and how many commits a second the disk made, where times were measured."""
    programs, parts, commits = paths(program, plain_house()), {}, None
    for title, part in PARTS:
        FIGURES.clear()
        for kind in kinds:
            if hasattr(part, kind):
                # The last part gives how many commits a second the disk makes.
                commits = getattr(part, kind)(programs)
        parts[title] = [published.figure(*found) for found in FIGURES]
    return parts, commits


def main(program, *kinds):
    machine, last = published.machine(), published.read()["table"]
    kinds = kinds or KINDS
    parts, commits = measured(program, kinds)
    for title, found in parts.items():
        kept = [figure for figure in last["parts"][title] if kind_of(figure) not in kinds]
        parts[title] = sorted(found + kept, key=lambda figure: KINDS.index(kind_of(figure)))
    of_times = {"machine": machine, "commits": round(commits)} if "times" in kinds else {key: last[key] for key in ("machine", "commits")}
    published.keep("table", {"by": "bench/table.py", "commit": published.commit(), **of_times, "parts": parts})
    published.TABLE.write_text(published.table(published.read()["table"]))


if __name__ == "__main__":
    main(*sys.argv[1:])
