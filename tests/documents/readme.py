#!/usr/bin/env python3
"""Runs the sessions of README.md and compares what they print: `readme.py PROGRAM`.

A session is a block of which the first line begins with `$ `; each such line is a command, and the lines after it are what it has
to print. All commands of a session run in one shell, in a folder of their own that has `deploy/` and `examples/`, with PROGRAM
as `auction`. A command that ends with `&` has printed its first line before the next begins; what else it prints comes after the
command that waits for it, whichever of the two was the faster. In the place of the port 8080 is one that nobody else takes. The
block that begins with an answer is what `make demo` prints: the first answer, and the body of each further one. The last line is
'N commands, M wrong'.

Promise: none
"""
import itertools
import re
import subprocess
import sys

from lib.places import ROOT
from lib.sessions import played

# What stands in place of the rest of a line.
CUT = " ..}"


def demo(text, program):
    """The command of the demo, what it printed in the form of the page, and what the page has."""
    command = [program, "replay", "--preset"]
    with (ROOT / "examples" / "bids.http").open() as messages:
        answers = subprocess.run(command, stdin=messages, capture_output=True, text=True, timeout=60, check=True).stdout
    first, *others = re.split(r"(?<=\})(?=HTTP/1\.1 )", answers)
    printed = [*first.splitlines(), *(answer.splitlines()[-1] for answer in others)]
    wanted = re.search(r"^```text\n(HTTP/1\.1 .*?)\n```$", text, re.M | re.S)[1].splitlines()
    for at, line in enumerate(wanted):
        if line.endswith(CUT) and printed[at:at + 1] and printed[at].startswith(line.removesuffix(CUT)):
            printed[at] = line
    return "auction replay --preset < examples/bids.http", "\n".join(printed), "\n".join(wanted)


def main():
    commands = wrong = 0
    text = (ROOT / "README.md").read_text()
    for command, printed, wanted in itertools.chain([demo(text, sys.argv[1])], played(text, sys.argv[1])):
        print(f"$ {command}\n{printed}".rstrip("\n"))
        commands += 1
        if printed != wanted:
            wrong += 1
            print(f"README.md has:\n{wanted}")
    print(f"{commands} commands, {wrong} wrong")
    return 1 if wrong or not commands else 0


if __name__ == "__main__":
    sys.exit(main())
