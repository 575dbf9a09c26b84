#!/usr/bin/env python3
"""Refuses allocations of `import`, `statement`, `audit` and `upgrade`: `refused_office.py PROGRAM [EVERY..]`.

Each run ends as one that finds memory, or with `auction: memory` and 1. What was printed before remains: of an import the lines
of its first rows, of a statement its beginning, of an audit nothing. The house's file then has the items that were printed and
those that it had, every other table is as it was, and SQLite finds no fault in it. Of an upgrade every row is as it was, and the
house of version 2 where that was printed, else of version 1 or 2. The EVERYs are how many allocations of each are passed over for
each that is refused, 1 without them. It needs a C compiler, `cc`. The last line is 'N runs, M wrong'.

Promise: safe and total, operations
"""
import collections
import contextlib
import pathlib
import shutil
import sqlite3
import sys
import tempfile

from lib.checks import check
from lib.first_version import KEPT, found, upgraded
from lib.refusal import allocations, built_library, ended, in_turn, report, run
from lib.sales import AS_CSV, BOTH_DAYS, BY_ANA, HEAD, SALES, house, run as audited
from lib.serving import EXAMPLE, PRESET, Program

# What stands for the path of the house in the words of a run.
HOUSE = "HOUSE"
MEMORY = b"auction: memory\n"
ROWS = ["A1,1,Atlas,,5.00,,5000", "B2,1,Globe,,7.50,20.00,6000", "C3,2,Chart,,5.00,,6000", "D4,1,Novel,,1,,6000",
        "E5,1,Map,,x,,6000"]
LINES = [b"row 1: there already\n", b"row 2: item 2\n", b"row 3: refused Unknown\n", b"row 4: item 3\n",
         b"row 5: fault start\n", b"2 listed, 1 there already, 2 refused\n"]
# The items that the house has, and those that are listed, each after the line that tells so.
ITEMS = [(1, "A1", "Atlas", 500, None, 5000), (2, "B2", "Globe", 750, 2000, 6000), (3, "D4", "Novel", 100, None, 6000)]
OTHER_TABLES = ["house", "band", "member", "category", "bid", "watch", "question", "feedback"]
PERIOD = ["--member", "1", "--from", "1970-01-01", "--to", "1970-01-02"]


def content(path):
    """What a house's file has, with its log: the items, the other tables, and the faults that SQLite finds."""
    database = sqlite3.connect(path)
    items = database.execute("SELECT id, lot, title, start, buy_now, ending FROM item ORDER BY id").fetchall()
    others = [database.execute(f"SELECT * FROM {table} ORDER BY 1, 2").fetchall() for table in OTHER_TABLES]
    faults = [database.execute(f"PRAGMA {check}").fetchall() for check in ("integrity_check", "foreign_key_check")]
    database.close()
    return items, others, faults


class Refusals:
    """Runs that were refused an allocation: how many, how they ended, and which were wrong."""

    def __init__(self, program, library, folder):
        self.program, self.library, self.folder = program, library, pathlib.Path(folder)
        self.count, self.wrong, self.ends = 0, [], collections.Counter()

    def each(self, name, words, every, judge, file=None):
        """Refuses allocations of a run, over a copy of a house where it has one, whose path the words then have as `HOUSE`."""
        self.ends.clear()

        def refused(number):
            with self.copy(file) as path:
                command = [self.program, *(path if word == HOUSE else word for word in words)]
                if number == 0:
                    return allocations(command, self.library)
                result = run(command, LD_PRELOAD=self.library, REFUSE=str(number))
                return number, result, judge(path, *ended(result))

        count = refused(0)
        for number, result, end in in_turn(refused, range(1, count + 1, every)):
            self.count += 1
            self.ends[end or "wrong"] += 1
            if end is None:
                self.wrong.append((f"{number} of {name}", result))
        print(f"{name}: {count} allocations;", ", ".join(f"{end} {runs}" for end, runs in sorted(self.ends.items())))
        # Each run has a first allocation, which it can't do without.
        if not any(end.startswith("stopped") for end in self.ends):
            self.wrong.append((f"none of {name}", self.ends))

    @contextlib.contextmanager
    def copy(self, file):
        """The path of a copy of a house, which goes again; of no house that is no path."""
        with tempfile.TemporaryDirectory(dir=self.folder) as folder:
            yield file and shutil.copy(self.folder / file, folder)

    def imports(self, every):
        before = content(self.folder / "whole")

        def judge(path, status, output, error):
            lines = output.splitlines(keepends=True)
            count = 1 + (LINES[1] in lines) + (LINES[3] in lines)
            right = lines == LINES[:len(lines)] and content(path) == (ITEMS[:count], *before[1:])
            if right and (status, error) == (1, MEMORY):
                return f"stopped after {len(lines)} lines"
            return "as ever" if right and (status, lines, error) == (1, LINES, b"") else None

        (self.folder / "lots.csv").write_text(HEAD + "".join(row + "\n" for row in ROWS))
        self.each("import", ["import", HOUSE, f"{self.folder}/lots.csv", *BY_ANA], every, judge,
                  "whole")

    def statements(self, every):
        before = content(self.folder / "sales")
        for text, more in ((BOTH_DAYS, []), (AS_CSV, ["--csv"])):
            def judge(path, status, output, error):
                if content(path) != before or not text.startswith(output):
                    return None
                if (status, error) == (1, MEMORY):
                    return "stopped after some of it" if output else "stopped"
                return "as ever" if (status, output, error) == (0, text, b"") else None

            self.each(" ".join(["statement", *more]), ["statement", HOUSE, *PERIOD, *more], every, judge, "sales")

    def audits(self, every):
        for name, third, whole in (("equal", 8000, (0, b"equal, 2 replies\n", b"")),
                                   ("apart", 1040, (1, b"apart at step 7\n", b""))):
            def judge(_, *ending):
                return {(1, b"", MEMORY): "stopped", whole: "as ever"}.get(ending)

            files = [self.folder / name for name in ("left", "right")]
            for file, bid in zip(files, (3000, third)):
                file.write_bytes(audited(bid))
            bands = ["--bands", f"{self.folder}/bands.csv"]
            self.each(f"audit, {name}", ["audit", *map(str, files), "--member", "2", *bands], every, judge)

    def upgrades(self, every):
        shutil.copy(KEPT / "house", self.folder / "kept")
        before = found(self.folder / "kept")[1]
        after = upgraded(before)

        def judge(path, *ending):
            rows = found(pathlib.Path(path))[1]
            version = {repr(before): 1, repr(after): 2}.get(repr(rows))
            if ending == (1, b"", MEMORY) and version:
                return f"stopped at version {version}"
            return "as ever" if (ending, version) == ((0, b"upgraded\n", b""), 2) else None

        self.each("upgrade", ["upgrade", HOUSE], every, judge, "kept")


def main():
    path = str(pathlib.Path(sys.argv[1]).resolve())
    every = [int(word) for word in [*sys.argv[2:], "1", "1", "1", "1"][:4]]
    with built_library() as library, tempfile.TemporaryDirectory() as folder:
        rows = "".join(f"{at},{step}\n" for at, step in EXAMPLE)
        pathlib.Path(folder, "bands.csv").write_text("at,step\n" + rows)
        program = Program(path, folder)
        house(program, "whole", ["--bands", "bands.csv", "--rate", "1000", "--zone", "UTC0"], PRESET)
        house(program, "sales", ["--bands", "bands.csv", "--rate", "1000", "--zone", "CET-1"], SALES)
        refusals = Refusals(path, library, folder)
        refusals.imports(every[0])
        refusals.statements(every[1])
        refusals.audits(every[2])
        refusals.upgrades(every[3])
    return report(refusals.count, refusals.wrong)


if __name__ == "__main__":
    sys.exit(main())
