#!/usr/bin/env python3
"""Refuses each allocation of a run that makes and writes a statement: `refused_statement.py PROGRAM`.

The run is that of `bench_settle 240`: 24 lines, for a sort of more than 20 takes memory too. Without refusals it writes the
statement of tests/lib/statement.py. With one it ends with status 1, tells that there was no memory, and has written nothing. It
needs a C compiler, `cc`. The last line is 'N runs, M wrong'.

Promise: safe and total
"""
import pathlib
import sys

from lib.refusal import built_library, ended, refused_runs, report, run
from lib.statement import statement

REFUSED = (1, b"", b"bench_settle: out of memory\n")


def main():
    command = [str(pathlib.Path(sys.argv[1]).resolve()), "240"]
    with built_library() as library:
        whole = run(command, LD_PRELOAD=library, REFUSE="0")
        refused = list(refused_runs(command, library))
    wrong = [(number, result) for number, result in refused if ended(result) != REFUSED]
    if ended(whole) != (0, statement(240).encode(), b""):
        wrong.append(("none", whole))
    return report(len(refused) + 1, wrong)


if __name__ == "__main__":
    sys.exit(main())
