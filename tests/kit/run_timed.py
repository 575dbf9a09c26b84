#!/usr/bin/env python3
"""Runs a command of `rt` and tells what it took by crate and by step: `run_timed.py COMMAND..`.

As `run_timed.py rt ci --anew`. The command's output passes. Each second all processes that it has started are looked at in /proc,
and the last that was seen of each counts. A step is the proof of a crate, that of its tests, the proof that its edits begin with
(the seed), the edits, the build of a program or of tests, or a run of one. What short processes took that no look has met is
known from the whole run alone, and has a line of its own. The table is in out/COMMAND.times too, each minute anew. The script
ends as the command does.

Promise: none
"""
import subprocess
import sys

from lib.times import Times, file_of, minutes_of_children, start_command, status_of


def main():
    words = sys.argv[1:]
    kept, command = file_of(words, "times"), start_command(words)
    times, looks = Times(command.pid), 0
    while command.returncode is None:
        times.look()
        looks += 1
        if looks % 60 == 0:
            kept.write_text(times.table())
        try:
            command.wait(1)
        except subprocess.TimeoutExpired:
            pass
        except KeyboardInterrupt:
            # The command was told to end too, and says what it has to.
            pass
    table = times.table(minutes_of_children())
    kept.write_text(table)
    print(table, end="", flush=True)
    return status_of(command.returncode)


if __name__ == "__main__":
    sys.exit(main())
