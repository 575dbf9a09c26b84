#!/usr/bin/env python3
"""Upgrades houses of version 1: `upgrades.py PROGRAM`.

The houses are those that tests/lib/version-1 keeps, which a program of version 1 has made: one that is alone in its file, and one
whose log belongs to it. What other commands on a file tell of them is that they are damaged, and they stay as they are. SQLite
reads each before and after its upgrade: the rows are those of the rules in Python, and stay, but that the row of the house has
version 2; the tables that are new are empty, the texts of the schema are those of a new house, in their order, and SQLite keeps
the keys and references of the new tables. Then the house answers every page, and further commands, some with a reserve, as the
plain site does. Upgraded again it is of version 2, and stays byte for byte what it was.

What is no house of version 1 is reported as damaged, byte for byte as it was: another version, a table more or less, a row of the
house or a band that doesn't fit, a number over the count. An upgrade looks at no other row: a house with a spoiled one is
upgraded, keeps it as it is, and tells it as damaged where it is read, as tests/lib/spoiled_rows.py has it. So it does with a zone
that is no rule. Where files may not grow the house is of one version or the other, and nothing of it is lost; where the output is
full it is upgraded. The last line is 'N checks, M wrong'.

Promise: bytes to bytes
"""
import contextlib
import pathlib
import sqlite3
import sys
import tempfile

from lib.checks import check, verdict
from lib.confined import limited, on_full_device
from lib.first_version import IS_VERSION_2, LATER, TABLES, UPGRADED, by_key, found, laid, plain_rows, upgraded
from lib.house_files import commands as words_on, is_small_log
from lib.plain_house import BANDS
from lib.routes import commands, sealed
from lib.sent import answers_in
from lib.serving import Program, fault, served
from lib.spoiled_rows import MESSAGES, SPOILED, Houses, answering

STORE, DAMAGED = fault("file: Store"), fault("file: Damaged")
INIT = ["--bands", "bands.csv", "--rate", "1000", "--zone", "UTC0"]
RESERVE = "CREATE TABLE reserve (item INTEGER PRIMARY KEY REFERENCES item (id), amount INTEGER NOT NULL) STRICT"

# What makes of the kept house one that no upgrade takes.
NO_HOUSES = [
    "UPDATE house SET version = 0",
    "UPDATE house SET version = 2",
    "UPDATE house SET version = 3",
    "UPDATE house SET version = -1",
    "CREATE TABLE more (id INTEGER PRIMARY KEY) STRICT",
    "CREATE VIEW more AS SELECT id FROM item",
    "CREATE INDEX more ON item (start)",
    RESERVE,
    "DROP TABLE watch",
    "DROP INDEX item_by_end",
    "DELETE FROM house",
    "UPDATE house SET id = 2",
    "UPDATE house SET clock = 4102444801",
    "UPDATE house SET clock = -1",
    "UPDATE house SET rate = 2001",
    "UPDATE house SET zone = zone || char(10)",
    "DELETE FROM band",
    "DELETE FROM band WHERE at = 0",
    "UPDATE band SET at = 1000000001 WHERE at = 500000",
    "UPDATE band SET step = 0 WHERE at = 0",
    "UPDATE band SET step = 4 WHERE at = 100",
    "DELETE FROM member WHERE id = 3",
    "UPDATE member SET id = 0 WHERE id = 4",
    "UPDATE category SET id = 3 WHERE id = 2",
    "DELETE FROM item WHERE id = 2",
    "UPDATE item SET id = 6 WHERE id = 3",
]
# What SQLite refuses in the new tables.
REFUSED = [
    "INSERT INTO reserve VALUES (6, 900)",
    "INSERT INTO reserve VALUES (3, 900), (3, 800)",
    "INSERT INTO reserve VALUES (3, NULL)",
    "INSERT INTO reserve VALUES (3, 'much')",
    "INSERT INTO edition VALUES (2, 6), (2, 7)",
    "INSERT INTO edition VALUES (2, NULL)",
    "INSERT INTO later_band VALUES (2, 0, 5)",
    "INSERT INTO edition VALUES (2, 6); INSERT INTO later_band VALUES (2, 0, 5), (2, 0, 9)",
    "INSERT INTO edition VALUES (2, 6); INSERT INTO later_band VALUES (2, 0, NULL)",
]
TAKEN = ("INSERT INTO reserve VALUES (3, 900); INSERT INTO edition VALUES (2, 6);"
         "INSERT INTO later_band VALUES (2, 0, 5), (2, 100, 25)")


def change(path, statement):
    with contextlib.closing(sqlite3.connect(path)) as tables:
        tables.execute(statement)
        tables.commit()


def files(path):
    """What lies at a path and beside it, but for a small log."""
    return {each.name: each.read_bytes() for each in sorted(path.parent.glob(f"{path.name}*")) if not is_small_log(each)}


def in_any_order(schema, rows):
    """A house whose schema is a set: a new house has all tables before its indexes, and an upgraded one has the new tables last."""
    return sorted(map(str, schema)), rows


class Upgrades:
    """A program, and a folder with a new house."""

    def __init__(self, path, folder):
        self.program, self.folder = Program(path, folder), pathlib.Path(folder)
        (self.folder / "bands.csv").write_text("at,step\n" + "".join(f"{at},{step}\n" for at, step in BANDS))
        (self.folder / "lots.csv").write_text("lot,category,title,text,start,buy_now,end\nB2,1,Globe,,7.50,,6000\n")
        check("made", self.program.ended("init", "new", *INIT), (0, b"created\n", b""))
        self.new = found(self.folder / "new")
        check("its version", self.new[1]["house"], [(1, 2, 0, 1000, "UTC0")])

    def upgrade(self, what, path, ending=UPGRADED):
        check(f"{what}: upgrade", self.program.ended("upgrade", path.name), ending)

    def stays(self, what, path, words, ending):
        """Checks how a command ends that leaves all as it is."""
        before = files(path)
        check(f"{what}: {words[0]}", self.program.ended(*words), ending)
        check(f"{what}: {words[0]}, the file", files(path), before)

    def kept(self, name):
        """A kept house, before and after."""
        path = laid(name, self.folder / name)
        schema, before = found(path)
        check(f"{name}: the schema", [text for text in self.new[0] if text in schema], schema)
        check(f"{name}: the rows", by_key(before), plain_rows())
        check(f"{name}: a row of every kind", all(before[table] for table in TABLES), True)
        after = upgraded(before)
        for words in words_on(name):
            if words[0] != "upgrade":
                self.stays(name, path, words, DAMAGED)
        self.stays(name, path, ["init", name, *INIT], DAMAGED)
        self.upgrade(name, path)
        check(f"{name}: alone", list(files(path)), [name])
        check(f"{name}: upgraded", in_any_order(*found(path)), in_any_order(self.new[0], after))
        self.keys(name, path)
        self.stays(f"{name}, again", path, ["upgrade", name], IS_VERSION_2)
        self.answers(name)

    def keys(self, name, path):
        """What SQLite takes and refuses in the new tables."""
        with contextlib.closing(sqlite3.connect(path)) as tables:
            for table, columns in LATER.items():
                found = tables.execute(f"SELECT name, pk FROM pragma_table_info('{table}') ORDER BY cid").fetchall()
                check(f"{name}: {table}", found, list(columns))
            tables.execute("PRAGMA foreign_keys = ON")
            for statements in (*REFUSED, TAKEN):
                refused = False
                try:
                    for statement in statements.split(";"):
                        tables.execute(statement)
                except sqlite3.IntegrityError:
                    refused = True
                check(f"{name}: {statements}", refused, statements != TAKEN)
                tables.rollback()

    def answers(self, name):
        """Every page and further commands, beside the plain site."""
        site, messages = answering(commands()), [*sealed(), *MESSAGES]
        replies, ending = self.program.answers(name, [b"".join(request.text() for request in messages)])
        check(f"{name}: served", ending, served(1))
        texts, rest = answers_in(replies[0])
        check(f"{name}: answers", (len(texts), rest), (len(messages), b""))
        for request, text in zip(messages, texts):
            check(f"{name}: {request.text()}", text, site.answer(request).text())

    def no_houses(self):
        for statement in NO_HOUSES:
            path = laid("house", self.folder / "bad")
            change(path, statement)
            self.stays(statement, path, ["upgrade", "bad"], DAMAGED)
        path = laid("house", self.folder / "bad")
        path.write_bytes(path.read_bytes()[:-4096])
        self.stays("cut short", path, ["upgrade", "bad"], DAMAGED)

    def zone(self):
        """A zone that is no rule is reported by who goes by it."""
        path = laid("house", self.folder / "nowhere")
        change(path, "UPDATE house SET zone = 'nowhere'")
        after = upgraded(found(path)[1])
        self.upgrade("no zone", path)
        check("no zone, upgraded", in_any_order(*found(path)), in_any_order(self.new[0], after))
        for words in words_on("nowhere"):
            self.stays("no zone", path, words, IS_VERSION_2 if words[0] == "upgrade" else DAMAGED)

    def full(self):
        """No file may grow over a size; and no output may."""
        for size in (0, 4096, 98_304, 200_000, 270_000, 300_000, 1_000_000):
            path = laid("house", self.folder / "full")
            rows = found(path)[1]
            tight = Program(self.program.path, self.folder, limited(size))
            ending = tight.ended("upgrade", "full")
            check(f"within {size}", ending in (UPGRADED, STORE) or ending, True)
            now = found(path)[1]
            check(f"within {size}, the rows", now in ([upgraded(rows)] if ending == UPGRADED else [rows, upgraded(rows)]),
                  True)
            self.upgrade(f"within {size}", path, UPGRADED if now == rows else IS_VERSION_2)
            check(f"within {size}, upgraded", in_any_order(*found(path)), in_any_order(self.new[0], upgraded(rows)))
        path = laid("house", self.folder / "untold")
        after = upgraded(found(path)[1])
        check("full", on_full_device(self.program, "upgrade", "untold"), (1, b"auction: output: Write\n"))
        check("full, the rows", found(path)[1], after)
        check("full again", on_full_device(self.program, "upgrade", "untold"), (1, b"auction: output: Write\n"))


class SpoiledHouses(Houses):
    """Houses with a spoiled row, which are upgraded before they are served."""

    taken = (*commands(),)

    def change(self, name, change):
        super().change(name, change)
        path = self.folder / "spoiled"
        path.with_name("spoiled-wal").unlink(missing_ok=True)
        after = upgraded(found(path)[1])
        check(f"{change}: upgrade", self.program.ended("upgrade", "spoiled"), UPGRADED)
        check(f"{change}: the rows", found(path)[1], after)


def spoiled(program, folder):
    houses = SpoiledHouses(program, folder)
    laid("house", houses.folder / "whole")
    for each in SPOILED:
        houses.spoil(each)
    check("spoiled houses", (houses.wrong, houses.damaged > 0), (0, True))
    return houses.count


def main():
    with tempfile.TemporaryDirectory() as folder:
        upgrades = Upgrades(str(pathlib.Path(sys.argv[1]).resolve()), folder)
        for name in ("house", "stopped"):
            upgrades.kept(name)
        upgrades.no_houses()
        upgrades.zone()
        upgrades.full()
        count = spoiled(upgrades.program, folder)
    print(f"{len(NO_HOUSES)} that are no house, {len(SPOILED)} with a spoiled row, {count} answers of these")
    return verdict()


if __name__ == "__main__":
    sys.exit(main())
