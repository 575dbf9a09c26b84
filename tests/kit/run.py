#!/usr/bin/env python3
"""Runs a command of `rt` and says how far it is: `run.py COMMAND..`, as `run.py rt ci`.

Of what the command writes the lines pass that matter: one for each crate; each failure whole; what is run in the end; and the
last line, alone. Where nothing has come for a minute a line says what is worked on. In front of each stands how much of the work
is done, the minutes since the start, and when it should end. Work is counted in the processor minutes that an earlier run took by
crate and step: tests/kit/rt-ci.times, a copy of what a run of `rt ci` from nothing has left. A crate that is not in it counts as
much as the others on average, and one that an earlier run here has proved for nothing. All that the command writes is in
out/COMMAND.log, whose end is shown where it fails, and what it took by crate and step in out/COMMAND.times. The script ends as
the command does.

Promise: none
"""
import sys

from lib.progress import run

if __name__ == "__main__":
    sys.exit(run(sys.argv[1:]))
