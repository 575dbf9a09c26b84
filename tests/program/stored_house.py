#!/usr/bin/env python3
"""Plays the section `houses` of a stored run on houses in memory alone: `stored_house.py PROGRAM`.

The program is that of the crate `test_store`, with the word `memory`. Each line has to be the one that is in that crate's stdout.
The last line is 'N lines, M wrong'.

Promise: operations
"""
import itertools
import pathlib
import subprocess
import sys

from lib.places import ROOT
from lib.sent import PATIENCE
from lib.transcript import lines, section

CRATE = ROOT / "crates" / "test_store"


def main():
    script, transcript = (section((CRATE / name).read_bytes().decode(), "houses") for name in ("stdin", "stdout"))
    program = str(pathlib.Path(sys.argv[1]).resolve())
    result = subprocess.run([program, "memory"], input=script.encode(), capture_output=True, timeout=PATIENCE)
    both = list(itertools.zip_longest(lines(transcript), lines(result.stdout.decode())))
    wrong = [pair for pair in both if pair[0] != pair[1]]
    for expected, printed in wrong[:5]:
        print(f"expected {expected}\nprinted  {printed}")
    print(f"{len(both)} lines, {len(wrong)} wrong")
    return 1 if wrong or result.returncode != 0 else 0


if __name__ == "__main__":
    sys.exit(main())
