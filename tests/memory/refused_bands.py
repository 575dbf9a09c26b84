#!/usr/bin/env python3
"""Refuses each allocation of the making of band tables in turn: `refused_bands.py PROGRAM`.

The program is that of the crate `test_values`. A run that is refused memory ends before its next answer, with status 1 and
`test_values: memory is wanted`; or a table was being made, and then the answer to its line is `Memory`, and every other line is
answered as ever, as all are where the memory was not needed. It needs a C compiler, `cc`. The last line is 'N runs, M wrong'.

Promise: safe and total
"""
import pathlib
import sys

from lib.refusal import built_library, ended, refused_runs, report, run

SCRIPT = r"""
section bands
rows 0 5 100 25
rows 0 5 100 25 500 50 1000 75
rows 0 5 100 3
read at,step\n0,5\n100,25\n
read at,step\n0,5\n100,3\n
example
""".lstrip()
# Rows that are no table are reported before memory is asked for.
TABLES = 5
WANTED = b"test_values: memory is wanted\n"
UNREAD = b"test_values: a line is no part of a script\n"


def refused_lines(result, whole):
    """The lines that are answered `Memory` where all others are answered as ever; else None."""
    status, answers, fault = result
    lines, expected = answers.splitlines(), whole.splitlines()
    if (status, fault) != (0, b"") or len(lines) != len(expected):
        return None
    differing = [place for place, answer in enumerate(lines) if answer != expected[place]]
    return differing if all(lines[place] == b"Memory" for place in differing) else None


def is_right(result, whole):
    status, answers, fault = result
    if fault == UNREAD:
        return (status, answers) == (1, b"")
    if fault == WANTED:
        return status == 1 and whole.startswith(answers)
    lines = refused_lines(result, whole)
    return lines is not None and len(lines) <= 1


def main():
    program = str(pathlib.Path(sys.argv[1]).resolve())
    whole = run([program], SCRIPT.encode()).stdout
    with built_library() as library:
        refused = list(refused_runs([program], library, SCRIPT.encode()))
    wrong = [(number, result) for number, result in refused if not is_right(ended(result), whole)]
    lines = {place for _, result in refused for place in refused_lines(ended(result), whole) or []}
    print(f"{len(lines)} of {TABLES} tables were refused memory")
    return report(len(refused), wrong) or len(lines) != TABLES


if __name__ == "__main__":
    sys.exit(main())
