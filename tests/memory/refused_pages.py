#!/usr/bin/env python3
"""Refuses each allocation of a run that shows every page in turn: `refused_pages.py PROGRAM`.

The program is that of the crate `test_site`. With a refusal one line is `memory`, of a page or the record whose text or tree was
refused it, and every other line is as ever: the house and the text before it are left. Or the run ends before the refused house
or command is made, with status 1; or all lines are as ever, where the memory was not needed. It needs a C compiler, `cc`. The
last line is 'N runs, M wrong'.

Promise: safe and total
"""
import pathlib
import sys

from lib.refusal import built_library, ended, refused_runs, report, run

# Each page, and the record.
SCRIPT = """\
> section pages
house UTC0
post 0 1000 /members {"name":"Ana"}
post 0 1000 /members {"name":"\\"Ben\\""}
post 0 1000 /categories {"name":"Books"}
each 2 1 1000 /items {"category":1,"end":5000,"lot":"A#","reserve":60#,"start":500,"text":"An atlas","title":"Atlas"}
each 2 2 1001 /items/#/bids {"maximum":700}
post 2 1001 /items/1/watch
each 2 2 1001 /items/1/questions {"text":"Is it \\"#\\" years old?"}
get 1 /me/waiting
post 1 1002 /items/1/questions/2/1/answer {"text":"No"}
post 0 5000 /close
post 2 5000 /items/1/feedback {"rating":1,"text":"Good"}
get 0 /house
get 0 /bands
get 0 /categories
get 0 /categories/1/items/1
get 0 /items/1
get 0 /items/1/questions/1
get 0 /members/2
get 0 /members/1/feedback/1
get 2 /me/bids/1
get 1 /me/reserves/1
get 2 /me/watches
get 2 /me/questions/1
get 1 /me/statement/1970-01-01/1970-01-01
get 1 /me/statement/1970-01-02/1970-01-01
get 3 /me/watches
get 0 /items/3
record
"""
UNDONE = (b"test_site: memory is wanted\n", b"test_site: the script can't be read\n")


def refused_line(result, lines):
    """Which line is `memory` in place of what it shows, or None where the run isn't so."""
    status, answers, fault = ended(result)
    found = answers.splitlines()
    apart = [place for place, line in enumerate(lines) if found[place:place + 1] != [line]]
    if (status, fault, len(found), len(apart)) == (0, b"", len(lines), 1) and found[apart[0]] == b"memory":
        return apart[0]
    return None


def is_undone(result, lines):
    """Whether the run ends out of memory, after the lines that came first."""
    status, answers, fault = ended(result)
    found = answers.splitlines()
    return status == 1 and fault in UNDONE and found == lines[:len(found)]


def main():
    program = str(pathlib.Path(sys.argv[1]).resolve())
    whole = run([program], SCRIPT.encode())
    lines = whole.stdout.splitlines()
    # All but the line of the section.
    count = len(lines) - 1
    with built_library() as library:
        runs = [result for _, result in refused_runs([program], library, SCRIPT.encode())]
    places = {refused_line(result, lines) for result in runs} - {None}
    wrong = [(number, result) for number, result in enumerate(runs, 1)
             if refused_line(result, lines) is None and not is_undone(result, lines) and ended(result) != ended(whole)]
    print(f"{len(places)} of {count} lines were refused memory")
    return report(len(runs), wrong) or whole.returncode or len(places) < count


if __name__ == "__main__":
    sys.exit(main())
