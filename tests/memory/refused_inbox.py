#!/usr/bin/env python3
"""Refuses the buffer of an inbox, and each allocation of a run over one: `refused_inbox.py PROGRAM`.

The run is that of `bench_wire frames 1`, which takes 16 messages through one inbox. Where the inbox is refused its 24576 bytes,
the run has to end with `bench_wire: memory` and status 1, and has written nothing else. Where another allocation is refused it
ends so too, or as if none were. It needs a C compiler, `cc`. The last line is 'N runs, M wrong'.

Promise: safe and total
"""
import pathlib
import sys

from lib.refusal import built_library, ended, refused_runs, report, run

DONE = (0, b"512\n", b"")
STOPPED = (1, b"", b"bench_wire: memory\n")


def main():
    command = [str(pathlib.Path(sys.argv[1]).resolve()), "frames", "1"]
    with built_library() as library:
        whole = run(command, LD_PRELOAD=library, REFUSE="0")
        without_buffer = run(command, LD_PRELOAD=library, REFUSE="0", REFUSE_SIZE="24576")
        refused = list(refused_runs(command, library))
    wrong = [(number, result) for number, result in refused if ended(result) not in (STOPPED, DONE)]
    for name, result, outcome in [("none", whole, DONE), ("its buffer", without_buffer, STOPPED)]:
        if ended(result) != outcome:
            wrong.append((name, result))
    return report(len(refused) + 2, wrong)


if __name__ == "__main__":
    sys.exit(main())
