#!/usr/bin/env python3
"""Keeps what a gate from nothing took: `gate.py NAME MACHINE`, as `gate.py "gate, four cores" "4 processors, beside other work"`.

`make test` leaves in out/rt-ci.times the processor minutes by crate and step, and the minutes on the clock. Where that run proved
everything, this keeps the whole as the run NAME of figures.json, with the processor minutes of the proofs and builds that `make
auction` does. With --log, the file into which `make test` printed, it also keeps after how many minutes the program was proved.
Copy out/rt-ci.times to tests/kit/rt-ci.times too: `make test` and `make auction` say by it how far they are.
"""
import argparse
import pathlib
import re
import sys

import published

ROOT = pathlib.Path(__file__).resolve().parent.parent
sys.path.insert(0, str(ROOT / "tests"))
from lib import crates, progress  # noqa: E402

OF_PROGRAM = ("proof", "build")
WHOLE = re.compile(r"the whole run ([0-9.]+)$", re.M)
ON_CLOCK = re.compile(r"^minutes on the clock ([0-9.]+)$", re.M)
PROVED = re.compile(r"^\[.*?, ([0-9.]+) min, .*\] auction proved$", re.M)


def figures(times, log):
    """What a run took: the whole, and the program with all that it stands on."""
    text, minutes = times.read_text(), progress.minutes_in(times)
    below = crates.crates_of(["rt", "ci", "auction"], ROOT)
    program = sum(minutes[crate].get(step, 0.0) for crate in below for step in OF_PROGRAM)
    found = [("make test", float(WHOLE.search(text)[1]), "processor minutes"),
             ("make test", float(ON_CLOCK.search(text)[1]), "minutes"),
             ("make auction", program, "processor minutes")]
    if log:
        found.append(("until auction is proved", float(PROVED.search(log.read_text())[1]), "minutes"))
    return [published.figure(what, {"ours": value}, unit) for what, value, unit in found]


def main():
    parser = argparse.ArgumentParser(description=__doc__, formatter_class=argparse.RawDescriptionHelpFormatter)
    parser.add_argument("name")
    parser.add_argument("machine")
    parser.add_argument("--times", type=pathlib.Path, default=ROOT / "out" / "rt-ci.times")
    parser.add_argument("--log", type=pathlib.Path)
    parser.add_argument("--commit", default=published.commit())
    words = parser.parse_args()
    published.keep(words.name, {"by": "make test", "commit": words.commit, "machine": words.machine,
                                "parts": {"From nothing": figures(words.times, words.log)}})


if __name__ == "__main__":
    main()
