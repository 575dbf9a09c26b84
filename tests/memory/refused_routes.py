#!/usr/bin/env python3
"""Refuses allocations of runs over every route, one in so many: `refused_routes.py PROGRAM [REPLAY [SERVE [INIT]]]`.

The messages are those of tests/lib/routes.py: each command accepted, each page read, each refusal and fault answered. With a
refusal each has to be answered 503, or as the plain site answers it in the list without the messages that were answered 503; and
the house is that list's. In memory the record, which follows, tells so; of a house in a file, which is served over one
connection, each page and its rows, which have to be sound. Or the run ends with `auction: memory`, and has written nothing, or
answers without a record; a house that was to be opened is then as it was. A refused `init` leaves a new house, or a place where
one can be made. REPLAY, SERVE and INIT are how many allocations are passed over for each that is refused: 1, 1 and 1 without
them. It needs a C compiler, `cc`. The last line is 'N runs, M wrong'.

Promise: safe and total, bytes to bytes
"""
import collections
import functools
import pathlib
import shutil
import sqlite3
import sys
import tempfile

from lib.checks import check
from lib.plain_house import BANDS
from lib.plain_site import Site, setup
from lib.refusal import allocations, built_library, ended, in_turn, refused_runs, report, run
from lib.routes import lacking, messages, reads
from lib.sent import Malformed, answers_in
from lib.serving import Program, exchange, served

MESSAGES = messages()
SIGHTS = list(reads())
STREAM = b"".join(request.text() for request in MESSAGES)
STOPPED = (1, b"", b"auction: memory\n")


def is_refusal(text):
    return text.startswith(b"HTTP/1.1 503 ") and text.endswith(b'{"error":"memory"}')


@functools.cache
def without(refused):
    """What the plain site answers where the messages at these places are answered 503; its record, and its pages."""
    site = Site(preset=True)
    answers = [None if at in refused else site.answer(request).text() for at, request in enumerate(MESSAGES)]
    record = site.record() + b"\n"
    return answers, record, [site.answer(request).text() for request in SIGHTS]


def judged(texts):
    """The places of the messages that were answered 503, and whether the others were answered as without these."""
    refused = frozenset(at for at, text in enumerate(texts) if is_refusal(text))
    answers, _, _ = without(refused)
    wrong = [at for at, (text, answer) in enumerate(zip(texts, answers)) if answer not in (None, text)]
    return refused, not wrong and len(texts) == len(MESSAGES)


class Runs:
    """Runs that were refused an allocation: what they were answered, and which were wrong."""

    def __init__(self, program, library, folder):
        self.program, self.library, self.folder = program, library, folder
        self.count, self.wrong, self.places, self.ends = 0, [], set(), collections.Counter()

    def judge(self, number, right, end, what):
        self.count += 1
        self.ends[end] += 1
        if not right:
            self.wrong.append((number, what))

    def tell(self, name):
        ends = ", ".join(f"{end} {count}" for end, count in sorted(self.ends.items()))
        print(f"{name}: {ends}; {len(self.places)} of {len(MESSAGES)} messages were answered 503")
        self.places, self.ends = set(), collections.Counter()

    def refusing(self, number):
        """The environment in which the allocation of a number is refused."""
        return {"LD_PRELOAD": self.library, "REFUSE": str(number)}

    # In memory.

    def replay(self, every):
        """Refuses allocations of a replay."""
        command = [self.program, "replay", "--preset", "--record"]
        for number, result in refused_runs(command, self.library, STREAM, every):
            right, end = self.replayed(*ended(result))
            self.judge(number, right, end, result)
        self.tell("replay")

    def replayed(self, status, output, error):
        if (status, output, error) == STOPPED:
            return True, "stopped at once"
        try:
            texts, record = answers_in(output)
        except Malformed:
            return False, "no answers"
        refused, right = judged(texts)
        self.places |= refused
        if (status, record, error) == (1, b"", STOPPED[2]):
            return right and not refused, "no record"
        return right and (status, record, error) == (0, without(refused)[1], b""), "503" if refused else "as ever"

    # In a file.

    def serve(self, every):
        """Refuses allocations of serving a house in a file."""
        self.make("whole")
        self.serve_once(0, REFUSE_COUNT=f"{self.folder}/count")
        numbers = range(1, int(pathlib.Path(self.folder, "count").read_text()) + 1, every)
        for number, end in zip(numbers, in_turn(self.serve_once, numbers)):
            self.judge(number, *end)
        self.tell("serve")

    def make(self, file):
        """The preset house in a file."""
        program = Program(self.program, self.folder)
        program.ended("init", file, "--bands", "bands.csv", "--rate", "1000", "--zone", "UTC0")
        program.answers(file, [b"".join(request.text() for request in setup())])

    def serve_once(self, number, **more):
        """Serves a copy of the house: whether that was as it has to be, how it ended, and what was seen."""
        with tempfile.TemporaryDirectory(dir=self.folder) as folder:
            shutil.copy(f"{self.folder}/whole", f"{folder}/refused")
            program = Program(self.program, folder, environment={**self.refusing(number), **more})
            with program.serving("refused", 1) as server:
                # A connection that finds no memory is ended before anything is read, and so may be reset.
                output = exchange(server.port, STREAM, may_reset=True) if server.is_listening else b""
            if server.ending == STOPPED:
                return self.is_whole(folder), "stopped at once", server.ending
            right, end = self.served(folder, output)
            return right and server.ending == served(1), end, (server.ending, output)

    def is_whole(self, folder):
        """Whether the house in a folder is as it was, and can be served."""
        return self.seen(folder) == (without(frozenset(range(len(MESSAGES))))[2], True)

    def served(self, folder, output):
        try:
            texts, rest = answers_in(output)
        except Malformed:
            return False, "no answers"
        if output == b"":
            return self.is_whole(folder), "no answer"
        refused, right = judged(texts)
        self.places |= refused
        return right and rest == b"" and self.seen(folder) == (without(refused)[2], True), "503" if refused else "as ever"

    def seen(self, folder):
        """The pages of the house in a folder, and whether SQLite finds no fault in it."""
        output, _ = Program(self.program, folder).answers("refused", [b"".join(request.text() for request in SIGHTS)])
        database = sqlite3.connect(f"{folder}/refused")
        faults = [database.execute(f"PRAGMA {check}").fetchall() for check in ("integrity_check", "foreign_key_check")]
        database.close()
        return answers_in(output[0])[0], faults == [[("ok",)], []]

    def init(self, every):
        """Refuses allocations of making a house."""
        words = ["--bands", f"{self.folder}/bands.csv", "--rate", "1000", "--zone", "UTC0"]
        count = allocations([self.program, "init", f"{self.folder}/counted", *words], self.library)
        numbers = range(1, count + 1, every)
        for number, end in zip(numbers, in_turn(lambda number: self.init_once(number, words), numbers)):
            self.judge(number, *end)
        self.tell("init")

    def init_once(self, number, words):
        """Makes a house, and again without a refusal: whether that was as it has to be, how it ended, and what was printed."""
        with tempfile.TemporaryDirectory(dir=self.folder) as folder:
            command = [self.program, "init", f"{folder}/made", *words]
            ends = [ended(run(command, **self.refusing(number))), ended(run(command))]
            end = "there" if ends[1] == THERE else "made again" if ends[1] == CREATED else "neither"
            return ends in MADE and self.is_new(folder), end, ends

    def is_new(self, folder):
        """Whether the house in a folder is a new one."""
        output, _ = Program(self.program, folder).answers("made", [b"".join(request.text() for request in SIGHTS)])
        site = Site()
        return answers_in(output[0])[0] == [site.answer(request).text() for request in SIGHTS]


CREATED, THERE = (0, b"created\n", b""), (1, b"", b"auction: file: Damaged\n")
# How two runs of `init` may end of which the first is refused memory.
MADE = [[CREATED, THERE], [STOPPED, CREATED], [STOPPED, THERE]]


def main():
    program = str(pathlib.Path(sys.argv[1]).resolve())
    replay, serve, init = (int(word) for word in [*sys.argv[2:], "1", "1", "1"][:3])
    with built_library() as library, tempfile.TemporaryDirectory() as folder:
        rows = "".join(f"{at},{step}\n" for at, step in BANDS)
        pathlib.Path(folder, "bands.csv").write_text("at,step\n" + rows)
        runs = Runs(program, library, folder)
        runs.replay(replay)
        runs.serve(serve)
        runs.init(init)
    return report(runs.count, [*runs.wrong, *(("nothing is answered", name) for name in lacking())])


if __name__ == "__main__":
    sys.exit(main())
