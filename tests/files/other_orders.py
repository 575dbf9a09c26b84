#!/usr/bin/env python3
"""Has SQLite write houses anew, and the program take them: `other_orders.py PROGRAM [SEED]`.

What SQLite writes anew has the same rows, and its tables and indexes in another order: by `VACUUM`, `VACUUM INTO`, the dump of
Python, `.dump` and `.recover` of the command `sqlite3`, and by hand in orders that SEED draws, rows too, but for those of later
bands; and once only the list of tables has another order, so that automatic indexes lie apart from their tables. A house of
version 2 and two of version 1, one of them with a log, which have rows of every kind, are each written anew in each way. Every
house of version 2 is then stated and audited as the one before; it answers every page, and each command once more, as the plain
site does; a copy of file and log that was made while it was served is the house too, and so is one whose server was killed; it
ends with the rows that the house before has after the same commands, for SQLite too, in the order that it had; and it opens
again. So is one that lacks the index of watches by item, as older houses do, and one to which SQLite gave it later. One of version 1
is damaged for all commands but `upgrade`, which makes it such a house.

A table, a column or an index more or less, or another name or column, is damaged still, of either version and in whatever order,
and stays as it was, byte for byte. So is a house whose list of tables has a gap, as it has after an index was made again, until
`VACUUM` closes it.

`.dump` and `.recover` are left out, with a line, where the command is not there or can't. A program that looks for each table at
its place takes all houses of version 2 here for damaged, and one that doesn't compare what it finds by a name takes what is none.
The last line is 'N checks, M wrong'.

Promise: bytes to bytes
"""
import pathlib
import random
import sys
import tempfile

from lib.checks import check, verdict
from lib.first_version import IS_VERSION_2, LATER, UPGRADED, by_key, found, laid
from lib.house_files import commands as words_on
from lib.house_files import is_small_log
from lib.plain_house import BANDS
from lib.plain_site import COMMANDS, setup
from lib.routes import answered, asked, bid, commands, listed, rated, reads, sealed
from lib.sent import answers_in, command, compact, read
from lib.serving import Program, exchange, fault, served
from lib.spoiled_rows import answering
from lib.written_anew import KEEP_THE_LIST, changed, copied, ways

DAMAGED = fault("file: Damaged")
INIT = ["--bands", "bands.csv", "--rate", "1000", "--zone", "UTC0"]
PERIOD = ["--from", "1970-01-01", "--to", "1970-01-31"]
MEMBERS = ("1", "2", "3", "4")
# Houses of version 1 that are kept, the second with a log that belongs to it.
FIRST = ("house", "stopped")
BY_END = "CREATE INDEX item_by_end ON item (state, ending)"
# The index that older houses lack, and what makes and drops it.
NEWER = "watch_by_item"
BY_ITEM, NOT_BY_ITEM = f"CREATE INDEX IF NOT EXISTS {NEWER} ON watch (item, member)", f"DROP INDEX {NEWER}"
# What makes another database of a house of version 2.
NO_HOUSES = [
    ("DROP INDEX item_by_end",),
    ("DROP INDEX feedback_by_receiver",),
    ("DROP TABLE later_band",),
    ("DROP TABLE reserve",),
    ("CREATE TABLE more (id INTEGER PRIMARY KEY) STRICT",),
    ("CREATE INDEX more ON item (start)",),
    ("CREATE VIEW more AS SELECT name FROM member",),
    ("ALTER TABLE item RENAME COLUMN body TO words",),
    ("ALTER TABLE watch RENAME TO watched",),
    ("ALTER TABLE member ADD COLUMN born INTEGER",),
    ("DROP INDEX item_by_end", "CREATE INDEX item_by_end ON item (ending, state)"),
    ("DROP INDEX item_by_end", "CREATE INDEX item_by_end ON item (state)"),
    ("DROP INDEX item_by_end", "CREATE INDEX item_by_close ON item (state, ending)"),
    ("DROP INDEX item_by_end", "CREATE INDEX item_by_end ON bid (member, item)"),
    (NOT_BY_ITEM, "CREATE INDEX watch_by_item ON watch (member, item)"),
    (NOT_BY_ITEM, "CREATE UNIQUE INDEX watch_by_item ON watch (item, member)"),
    (NOT_BY_ITEM, "CREATE INDEX watch_by_watcher ON watch (item, member)"),
    (NOT_BY_ITEM, BY_ITEM, "CREATE INDEX watch_by_watcher ON watch (item, member)"),
    ("DROP TABLE band", "CREATE TABLE band (at INTEGER PRIMARY KEY, step INTEGER) STRICT"),
    ("DROP TABLE watch", "CREATE TABLE watch (member INTEGER NOT NULL REFERENCES member (id),"
                         " item INTEGER NOT NULL REFERENCES item (id)) STRICT"),
]


def later():
    """Each command once more, accepted in the house that `commands` and `sealed` leave."""
    moment = 5002
    yield command("/members", 0, moment, compact({"name": "Eve"}))
    yield command("/categories", 0, moment, compact({"name": "Toys"}))
    yield command("/bands", 0, moment, compact({"bands": [{"at": 0, "step": 9}, {"at": 700, "step": 90}]}))
    yield listed(2, moment, "S10", 7000, category=3, reserve=900, buy_now=2000)
    yield bid(4, 4, moment, 5000)
    yield command("/items/4/watch", 5, moment)
    yield command("/items/3/unwatch", 2, moment)
    yield asked(4, 4, moment)
    yield answered(4, 2, moment, 4)
    yield command("/items/10/purchase", 5, moment)
    yield command("/items/2/settle", 0, moment)
    yield rated(2, 3, moment, 1)
    yield command("/close", 0, 7000)


def audited():
    """Two lists that differ in what a member has sealed."""
    return [[bid(4, 4, 5002, maximum), read("/items/4", 2)] for maximum in (5000, 8000)]


def audits(name, member):
    """The words of an audit over a house, and of a raised bid."""
    over = ["--member", member, "--house", name]
    return ["audit", "left", "right", *over], ["surplus", "left", "--place", "1", "--maximum", "8000", *over]


def text_of(requests):
    return b"".join(request.text() for request in requests)


def names(path):
    """What a database lists, in its order."""
    return [name for _, name, *_ in found(path)[0]]


def files(path):
    """What lies at a path and beside it, but for a small log."""
    there = [each for each in path.parent.iterdir() if each.name == path.name or each.name.startswith(f"{path.name}-")]
    return {each.name: each.read_bytes() for each in sorted(there) if not is_small_log(each)}


def unaccepted():
    """The commands that are not accepted once more."""
    site = answering([*commands(), *sealed()])
    site.accepted.clear()
    for request in later():
        site.answer(request)
    return [name for name in COMMANDS if name not in site.accepted]


def no_first_houses():
    """What makes another database of a house of version 1 too."""
    return [statements for statements in NO_HOUSES if not any(name in " ".join(statements) for name in (*LATER, NEWER))]


class Orders:
    """A program, and a folder with houses."""

    def __init__(self, path, folder, seed):
        self.program, self.folder, self.chance = Program(path, folder), pathlib.Path(folder), random.Random(seed)
        self.ways, self.left_out = ways()
        (self.folder / "bands.csv").write_text("at,step\n" + "".join(f"{at},{step}\n" for at, step in BANDS))
        (self.folder / "lots.csv").write_text("lot,category,title,text,start,buy_now,end\n")
        for name, requests in zip(("left", "right"), audited()):
            (self.folder / name).write_bytes(text_of(requests))
        self.orders = set()

    def house(self):
        """A house of version 2 with rows of every kind."""
        check("made", self.program.ended("init", "house", *INIT), (0, b"created\n", b""))
        _, ending = self.program.answers("house", [text_of((*setup(), *commands(), *sealed()))])
        check("filled", ending, served(1))
        path = self.folder / "house"
        check("a row of every kind", all(found(path)[1].values()), True)
        return path

    def answers(self, what, name, site, streams):
        """Serves a house, which has to answer as the plain site does, each stream over a connection of its own."""
        wanted = [[site.answer(request).text() for request in stream] for stream in streams]
        replies, ending = self.program.answers(name, [text_of(stream) for stream in streams])
        check(f"{what}: served", ending, served(len(streams)))
        for stream, reply, texts in zip(streams, replies, wanted):
            got, rest = answers_in(reply)
            check(f"{what}: answers", (len(got), rest), (len(texts), b""))
            for request, text, its in zip(stream, got, texts):
                check(f"{what}: {request.text()}", text, its)

    def told(self, name):
        """What is printed of a house that nobody serves."""
        before = files(self.folder / name)
        printed = [self.program.ended(*words) for member in ("2", "3") for words in audits(name, member)]
        check(f"{name}: audits leave it", files(self.folder / name), before)
        return printed + [self.program.ended("statement", name, "--member", member, *PERIOD) for member in MEMBERS]

    def anew(self, house, way):
        """A house written anew, and that it is."""
        path = self.folder / f"{house.name}, {way}"
        self.ways[way](house, path, self.chance)
        (schema, rows), (old_schema, old_rows) = found(path), found(house)
        check(f"{path.name}: the same tables", sorted(map(str, schema)), sorted(map(str, old_schema)))
        check(f"{path.name}: the same rows", by_key(rows), by_key(old_rows))
        self.orders.add(tuple(names(path)))
        return path

    def goes_on(self, path, before, requests, wanted):
        """A house that took some messages is served, takes others, and ends with these rows in the order that it had."""
        order = names(path)
        self.answers(path.name, path.name, answering(before), [[*reads()], requests])
        check(f"{path.name}: alone", list(files(path)), [path.name])
        check(f"{path.name}: the rows", by_key(found(path)[1]), wanted)
        check(f"{path.name}: the order stays", names(path), order)

    def caught(self, path):
        """A house is copied while it is served, and then its server is killed; tells what the copy had taken, and what not."""
        requests, copy = [*later()], path.with_name(f"{path.name}, copied")
        first, rest = requests[:len(requests) // 2], requests[len(requests) // 2:]
        with self.program.serving(path.name, 3) as server:
            exchange(server.port, text_of(first))
            copied(path, copy)
            exchange(server.port, text_of(rest))
            server.process.kill()
        for each in (path, copy):
            check(f"{each.name}: a log is left", is_small_log(each.with_name(f"{each.name}-wal")), False)
        return copy, first, rest

    def taken(self, path, before, wanted):
        """A house of version 2 is served and ended, and opened again; and another of it is copied and killed."""
        stopped = copied(path, path.with_name(f"{path.name}, stopped"))
        self.goes_on(path, before, [*later()], wanted)
        self.goes_on(path, [*before, *later()], [], wanted)
        copy, first, rest = self.caught(stopped)
        self.goes_on(copy, [*before, *first], rest, wanted)
        self.goes_on(stopped, [*before, *later()], [], wanted)

    def second(self, house):
        """A house of version 2, written anew in each way."""
        before = [*commands(), *sealed()]
        told = self.told(house.name)
        check("what is told", [(status, error) for status, _, error in told], [(0, b"")] * len(told))
        same = copied(house, self.folder / "same")
        self.answers("same", "same", answering(before), [[*later()]])
        wanted = by_key(found(same)[1])
        for way in self.ways:
            path = self.anew(house, way)
            check(f"{path.name}: the order of the house", names(path) == names(house), way in KEEP_THE_LIST)
            if self.upgraded(path, IS_VERSION_2):
                check(f"{path.name}: what is told", self.told(path.name), told)
                self.taken(path, before, wanted)
        return wanted

    def older(self, house, wanted):
        """A house of version 2 without the index of watches by item, one to which SQLite gave it, and one written anew without."""
        before, told = [*commands(), *sealed()], self.told(house.name)
        older = changed(copied(house, self.folder / "older"), NOT_BY_ITEM)
        check("older: one index less", names(older), [name for name in names(house) if name != NEWER])
        newer = changed(copied(older, self.folder / "older, given the index"), BY_ITEM)
        check("newer: the index is back", names(newer), names(house))
        for path in (*[self.anew(older, way) for way in self.ways], older, newer):
            if self.upgraded(path, IS_VERSION_2):
                check(f"{path.name}: what is told", self.told(path.name), told)
                self.taken(path, before, wanted)

    def first(self, name, wanted):
        """A house of version 1, written anew in each way, and upgraded."""
        house = laid(name, self.folder / f"{name} of version 1")
        for way in self.ways:
            path = self.anew(house, way)
            order = names(path)
            self.stays(path, (*self.commands(path.name)[:-1], ["init", path.name, *INIT]))
            if self.upgraded(path, UPGRADED) and self.upgraded(path, IS_VERSION_2):
                check(f"{path.name}: the order stays", names(path)[:len(order)], order)
                self.answers(path.name, path.name, answering(commands()), [[*reads()], [*sealed()]])
                self.taken(path, [*commands(), *sealed()], wanted)

    def upgraded(self, path, ending):
        """Whether an upgrade ends so, as it has to."""
        got = self.program.ended("upgrade", path.name)
        check(f"{path.name}: upgrade", got, ending)
        return got == ending

    def commands(self, name):
        """The words of each command on a file, the upgrade last."""
        *others, upgrade = words_on(name)
        return [*others, *audits(name, "2"), upgrade]

    def stays(self, path, commands):
        """A file is damaged for some commands, and stays as it was."""
        before = files(path)
        for words in commands:
            check(f"{path.name}: {words[0]}", self.program.ended(*words), DAMAGED)
            check(f"{path.name}: {words[0]}, the file", files(path), before)

    def no_houses(self, house, changes, ending):
        """What is no house in any order, though its list has no gap; and a gap."""
        for place, statements in enumerate(changes):
            path = changed(copied(house, self.folder / f"{house.name}, changed {place}"), *statements, "VACUUM")
            self.stays(path, self.commands(path.name))
        path = changed(copied(house, self.folder / f"{house.name}, gap"), "DROP INDEX item_by_end", BY_END)
        self.stays(path, self.commands(path.name))
        self.upgraded(changed(path, "VACUUM"), ending)


def main():
    seed = int(sys.argv[2]) if len(sys.argv) > 2 else 2026
    with tempfile.TemporaryDirectory() as folder:
        orders = Orders(str(pathlib.Path(sys.argv[1]).resolve()), folder, seed)
        check("every command once more", unaccepted(), [])
        house = orders.house()
        wanted = orders.second(house)
        orders.older(house, wanted)
        for name in FIRST:
            orders.first(name, wanted)
        orders.no_houses(house, NO_HOUSES, IS_VERSION_2)
        orders.no_houses(laid("house", orders.folder / "first"), no_first_houses(), UPGRADED)
    for name in orders.left_out:
        print(f"left out, since the command sqlite3 isn't there or can't: {name}")
    print(f"{len(orders.ways)} ways, {len(orders.orders)} orders, {len(NO_HOUSES)} that are no house")
    return verdict()


if __name__ == "__main__":
    sys.exit(main())
