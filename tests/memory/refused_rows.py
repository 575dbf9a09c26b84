#!/usr/bin/env python3
"""Refuses allocations of lists of messages in every form: `refused_rows.py PROGRAM [EVERY]`.

The program is that of the crate `test_store`. The list makes the first house and bids on its item; it is played message by
message and as one list, over a house in memory, with each allocation refused in turn, and over one in a database, with one in
EVERY, 1 without it. Making the house and the site then answers `Memory`, and so does the run, before the first message, or the
record; what is asked once more is as ever. Or one message is answered 503, and every other, and the record, is that of the list
without it. Or the program itself had no memory, and printed nothing. It needs a C compiler, `cc`. The last line is 'N runs, M
wrong'.

Promise: safe and total, bytes to bytes
"""
import collections
import pathlib
import sys

from lib.plain_site import Site
from lib.refusal import built_library, ended, refused_runs, report
from lib.worked import bids, block, is_new, steps

LIST = next(bids())
REFUSED = (b"HTTP/1.1 503 Service Unavailable\r\ncontent-type: application/json\r\n"
           b'content-length: 18\r\n\r\n{"error":"memory"}')
# How a run ends in which the program itself had no memory.
STOPPED = [(1, b"", f"test_store: {fault}\n".encode()) for fault in ("the script can't be read", "memory is wanted")]
FORMS = ("answers lists", "run lists", "answers database", "run database")
MESSAGES = [given for given, _ in steps(LIST)[1]]


def outputs(form):
    """What may be printed, and what was refused where it is printed."""
    found = {}
    for place in (None, *range(len(MESSAGES))):
        site = Site()
        texts = [REFUSED if at == place else site.answer(request).text() for at, request in enumerate(MESSAGES)]
        lines = [b"new", *texts, b"new" if is_new(site) else b"not new", site.record()]
        found[b"".join(line + b"\n" for line in lines)] = f"message {place}" if place is not None else "nothing"
        if place is None:
            whole = lines
    for at, call in [(0, "site"), (len(whole) - 1, "record"), *([(1, "run")] if "run" in form else [])]:
        refused = [*whole[:at], f"{call}: Memory".encode(), *whole[at:]]
        found[b"".join(line + b"\n" for line in refused)] = call
    return found


class Runs:
    """Runs that were refused an allocation, and which of them were wrong."""

    def __init__(self, program, library):
        self.program, self.library, self.count, self.wrong = program, library, 0, []

    def play(self, form, every):
        """Refuses allocations of a form: whether every call and every message was refused in some run."""
        script = b"house 1000 UTC0\n" + b"".join(map(block, MESSAGES)) + form.encode() + b"\n"
        expected, seen = outputs(form), collections.Counter()
        for number, refused in refused_runs([self.program, "runs"], self.library, script, every):
            result = ended(refused)
            self.count += 1
            what = "itself" if result in STOPPED else result[0] == 0 and not result[2] and expected.get(result[1])
            seen[what or "wrong"] += 1
            if not what:
                self.wrong.append((f"{number} of {form}", result))
        # Where some allocations are passed over, no message need be refused.
        needed = ["site", "record"] if every > 1 else [*expected.values()][1:]
        missing = [what for what in needed if what not in seen]
        print(f"{form}: {', '.join(f'{what} {count}' for what, count in sorted(seen.items()))}"
              + "".join(f"; never {what}" for what in missing))
        return not missing


def main():
    program = str(pathlib.Path(sys.argv[1]).resolve())
    every = int(sys.argv[2]) if len(sys.argv) > 2 else 1
    with built_library() as library:
        runs = Runs(program, library)
        whole = [runs.play(form, every if "database" in form else 1) for form in FORMS]
    return report(runs.count, runs.wrong) or not all(whole)


if __name__ == "__main__":
    sys.exit(main())
