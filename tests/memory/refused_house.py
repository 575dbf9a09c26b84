#!/usr/bin/env python3
"""Refuses each allocation of a house's run in turn, or one in so many: `refused_house.py PROGRAM [EVERY [WORD]]`.

The program is that of the crate `test_store`, with the word `memory` for a house in memory and `sqlite`, or none here, for one in
SQLite. Its script has every command and every question. With a refusal one line is answered `Memory`, and every other line as in
the run without that line: the refused command has changed nothing. Or the run ends before the first line, with status 1; or all
lines are answered as ever, where the memory was not needed. It needs a C compiler, `cc`. The last line is 'N runs, M wrong'.

Promise: safe and total
"""
import pathlib
import sys

from lib.house_lines import SCRIPT
from lib.refusal import built_library, ended, refused_runs, report, run

# How a run ends that is refused memory before the first line, but for the program's name.
BEFORE = [(1, b"", b": the script can't be read\n"), (1, b"", b": memory is wanted\n")]


def played(command, lines):
    return run(command, "\n".join(lines).encode())


def without(command, place):
    """How a run ends in which the line at a place is answered `Memory` and does nothing."""
    status, answers, fault = ended(played(command, SCRIPT[:place] + SCRIPT[place + 1:]))
    lines = answers.splitlines(keepends=True)
    before = len([line for line in SCRIPT[:place] if line != "record"])
    return status, b"".join([*lines[:before], b"Memory\n", *lines[before:]]), fault


def before(program):
    """How a run may end before the first line."""
    name = pathlib.Path(program).name.encode()
    return [(status, answers, name + fault) for status, answers, fault in BEFORE]


def main():
    program = str(pathlib.Path(sys.argv[1]).resolve())
    every = int(sys.argv[2]) if len(sys.argv) > 2 else 1
    command = [program, *(sys.argv[3:] or ["sqlite"])]
    refusals = {without(command, place): line for place, line in enumerate(SCRIPT)}
    allowed = [*refusals, *before(program), ended(played(command, SCRIPT))]
    with built_library() as library:
        refused = list(refused_runs(command, library, "\n".join(SCRIPT).encode(), every))
    lines = {refusals[ended(result)] for _, result in refused if ended(result) in refusals}
    wrong = [(number, result) for number, result in refused if ended(result) not in allowed]
    print(f"{len(lines)} of {len(SCRIPT)} lines were answered Memory")
    return report(len(refused), wrong) or len(lines) < 40


if __name__ == "__main__":
    sys.exit(main())
