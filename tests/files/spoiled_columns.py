#!/usr/bin/env python3
"""Spoils each column of each table, and asks everything of each such house: `spoiled_columns.py PROGRAM [EVERY]`.

A house has four members, and items in every state, with and without a reserve, by three editions of the band table. Python's
sqlite3 gives one column of one row another value: a number out of its range or of other bids, a text with a control character, of
no UTF-8 or too long, NULL, a row that isn't there. tests/lib/fitting_rows.py, which takes the rows as they are stored, then says
by the definitions whether the house is opened, and tests/lib/taken_rows.py of each message whether the rows that it takes fit. If
they do, it isn't answered `damaged`; where a row that it shows or goes by can't fit, it is; and any other answer has to be the
one that the definitions give by the spoiled rows. A house that isn't opened is reported as `Damaged`, and stays as it is. Of the
house before anything is spoiled everything is foretold as the plain site answers it.

Every read and every command is sent, by everybody, on each item, member, category and edition and on some that aren't there.
Those that aren't to be accepted go over one connection, and leave the rows as they were. Each other meets a fresh copy of the
house, where it makes its own change and no more, or nothing if it is answered `damaged`: for each house those that are foretold
otherwise than of a house that isn't spoiled, and one in ROTATION of the others, by one caller each. With EVERY only one in so
many values is put; it should be no multiple of ROWS_EACH. The last lines tell how often rows didn't fit, and 'N checks, M wrong'.

Some 940 values are taken, 320 of which leave no house that is opened; 620 houses get 1,250 messages and more each, and some 3,600
commands a house of their own.

Promise: safe and total, operations
"""
import collections
import contextlib
import copy
import dataclasses
import itertools
import multiprocessing
import pathlib
import shutil
import sqlite3
import sys
import tempfile

from lib.fitting_rows import Rows, opens, stored
from lib.plain_house import BANDS
from lib.plain_site import READS, Site, setup
from lib.routes import answered, asked, bid, listed, rated
from lib.sent import answers_in, command, compact, read
from lib.serving import Program, exchange, fault, served
from lib.spoiled_rows import DAMAGED
from lib.taken_rows import foretell, parse

INIT = ["--bands", "bands.csv", "--rate", "1000", "--zone", "UTC0"]
NOT_OPENED = fault("file: Damaged")
# In how many rows each value is put, and of how many commands that are foretold as ever one is sent.
ROWS_EACH, ROTATION = 3, 12
# How many faults are told.
MOST_LINES = 30
MEMBERS, ITEMS, CATEGORIES, EDITIONS = range(6), range(1, 15), range(1, 5), range(1, 5)
# By item, asker and number: all that there are, and one that isn't there.
QUESTIONS = ((1, 2, 1), (1, 3, 1), (3, 3, 1), (3, 3, 2), (3, 4, 1), (6, 3, 1), (8, 2, 1), (11, 1, 1), (4, 3, 1))

# What a column is set to, in SQL. A value that a row has already, and one that SQLite refuses, is left out.
OVER, NO_UTF8 = "4294967296", "CAST(x'ff' AS TEXT)"
NUMBER = ("-1", OVER, "9223372036854775807")
KEY = ("-1", "0", "99", OVER)
NEXT_BID = "(SELECT count + 1 FROM item WHERE id = bid.item)"
TEXT = ("''", "'a' || char(10)", "char(127)", NO_UTF8, "'a' || char(0)", "'Other'")
MOMENT, AMOUNT = ("4102444801", *NUMBER), ("1000000001", *NUMBER)
VALUES = {
    "house": {"id": KEY, "version": ("1", "3", "-1"), "clock": ("0", "4102444800", *MOMENT),
              "rate": ("0", "2000", "2001", *NUMBER), "zone": (*TEXT, "'UTC0' || char(10)", "'EST5'")},
    "band": {"at": ("at + 1", "1", *AMOUNT), "step": ("0", "step + 1", *AMOUNT)},
    "member": {"id": KEY, "name": (*TEXT, "printf('%.41c', 'x')")},
    "category": {"id": KEY, "name": (*TEXT, "printf('%.41c', 'x')")},
    "item": {
        "id": KEY, "seller": (*KEY, "leader", "1 + seller % 4"), "category": (*KEY, "3 - category", "3"),
        "lot": (*TEXT, "'A 1'", "'A1'", "printf('%.21c', 'x')"), "title": (*TEXT, "printf('%.81c', 'x')"),
        "body": (*TEXT, "printf('%.2001c', 'x')"),
        "start": (*AMOUNT, "0", "1", "start - 1", "price + 1", "buy_now + 1"),
        "buy_now": (*AMOUNT, "NULL", "0", "start - 1", "start", "price + 1", "700"),
        "ending": (*MOMENT, "0", "5001", "9000"),
        "state": (*NUMBER, "0", "1", "2", "3", "4", "9"), "closed": (*MOMENT, "NULL", "0", "7000"),
        "price": (*AMOUNT, "0", "price + 1", "price - 1", "start", "top", "second"),
        "leader": (*KEY, "NULL", "seller", "1 + leader % 4", "2"),
        "top": (*AMOUNT, "NULL", "0", "top + 1", "second - 1", "price", "900", "10000"),
        "second": (*AMOUNT, "NULL", "0", "second + 1", "top", "top + 1", "start", "500"),
        "count": (*NUMBER, "0", "1", "2", "3", "10000", "10001")},
    "bid": {"item": (*KEY, "3", "11"), "no": (*NUMBER, "0", NEXT_BID, "no + 9", "10001"), "member": (*KEY, "1", "4"),
            "maximum": (*AMOUNT, "0", "maximum + 1", "1000000000")},
    "watch": {"member": (*KEY, "1", "4"), "item": (*KEY, "5", "12")},
    "question": {"item": (*KEY, "4", "5"), "asker": (*KEY, "1", "4"), "n": (*NUMBER, "0", "2", "n + 1", "20", "21"),
                 "body": (*TEXT, "printf('%.501c', 'x')"), "answer": (*TEXT, "NULL", "printf('%.501c', 'x')")},
    "feedback": {"item": (*KEY, "3", "9"), "giver": (*KEY, "2", "4"), "receiver": (*KEY, "2", "giver"),
                 "rating": (*NUMBER, "-2", "0", "2", "7"), "body": (*TEXT, "printf('%.201c', 'x')")},
    "reserve": {"item": (*KEY, "3", "4"), "amount": (*AMOUNT, "0", "1", "500", "501", "amount + 1", "10000")},
    "edition": {"edition": (*KEY, "1", "4"), "first": (*NUMBER, "0", "first + 1", "first - 1", "14", "99")},
    "later_band": {"edition": (*KEY, "1", "5 - edition"), "at": (*AMOUNT, "at + 1", "1"),
                   "step": (*AMOUNT, "0", "step + 1", "step - 1")}}


# The house.

def sellings():
    """Items 1 to 5, by the first edition: settled after bids, bought, open without a bid and with one, unsold."""
    yield listed(2, 1000, "B2", 9000, category=2, buy_now=2000)
    yield listed(2, 1000, "C3", 7000, buy_now=900, text="A chart")
    yield listed(2, 1000, "D4", 7000)
    yield listed(1, 1000, "E5", 5000, category=2)
    yield from (bid(1, member, 1001, maximum) for member, maximum in ((2, 500), (3, 1000), (2, 900)))
    yield command("/items/2/purchase", 3, 1001)
    yield bid(4, 3, 1001, 700)


def sealed():
    """Items 6 to 10, by the second edition, with reserves: without a bid, not met, met, bought, unsold."""
    yield command("/bands", 0, 1002, compact({"bands": [{"at": 0, "step": 7}, {"at": 500, "step": 70}]}))
    yield from (listed(1, 1002, f"R{item}", 7000, category=1 + item % 2, reserve=900) for item in (6, 7, 8))
    yield listed(1, 1002, "R9", 7000, reserve=900, buy_now=2000)
    yield listed(3, 1002, "R10", 5000, category=2, reserve=2000)
    yield from (bid(7, member, 1003, maximum) for member, maximum in ((3, 700), (2, 600)))
    yield from (bid(8, member, 1003, maximum) for member, maximum in ((3, 1000), (2, 970)))
    yield command("/items/9/purchase", 2, 1003)
    yield bid(10, 2, 1003, 700)


def later():
    """Items 11 to 13, by the third edition: open with four bids, open with a reserve that one bid meets, sold."""
    yield command("/bands", 0, 1004, compact({"bands": [{"at": 0, "step": 9}, {"at": 200, "step": 20}]}))
    yield listed(4, 1004, "L11", 9000, start=100)
    yield listed(4, 1004, "L12", 9000, start=100, reserve=200)
    yield listed(2, 1004, "L13", 5000, start=100, category=2)
    yield from (bid(11, member, 1005, maximum) for member, maximum in ((1, 100), (2, 300), (3, 300), (1, 400)))
    yield bid(12, 1, 1005, 300)
    yield from (bid(13, member, 1005, maximum) for member, maximum in ((4, 150), (3, 120)))


def talk():
    """Watches, questions with and without an answer, a close, a settlement, and feedback."""
    watches = ((2, 1), (2, 3), (2, 8), (3, 2), (3, 4), (3, 13), (1, 4), (1, 11), (4, 6))
    yield from (command(f"/items/{item}/watch", member, 1006) for member, item in watches)
    questions = ((1, 2), (1, 3), (3, 3), (3, 3), (3, 4), (6, 3), (8, 2), (11, 1))
    yield from (asked(item, asker, 1006) for item, asker in questions)
    yield from (answered(item, seller, 1006, asker) for item, seller, asker in ((1, 1, 2), (3, 2, 3), (8, 1, 2)))
    yield command("/close", 0, 5000)
    yield command("/items/1/settle", 0, 5000)
    ratings = ((1, 3, 1), (1, 1, 0), (2, 3, 0), (13, 4, -1))
    yield from (rated(item, member, 5001, rating) for item, member, rating in ratings)


def house():
    """The messages that make the house, all of which are accepted."""
    yield from setup()
    yield command("/members", 0, 1000, compact({"name": "Dora"}))
    yield from (command("/categories", 0, 1000, compact({"name": name})) for name in ("Maps", "Toys"))
    yield from itertools.chain(sellings(), sealed(), later(), talk())


# What is asked of it.

def reads():
    """Every read, by everybody and by a member that isn't there."""
    parts = {"E": EDITIONS, "C": CATEGORIES, "I": ITEMS, "M": (1, 2, 3, 4, 5)}
    for path in READS.values():
        named = next((part for part in path.split("/") if part in parts), None)
        for number in parts.get(named, (0,)):
            for least in (1, 8) if path.endswith("/F") else (1,):
                words = {named: number, "F": least, "FROM": "1970-01-01", "TO": "1970-01-01"}
                target = "/".join(str(words.get(part, part)) for part in path.split("/"))
                yield from (read(target, caller) for caller in MEMBERS)


def orders():
    """Every command, by everybody, on each item, question and category and on one that isn't there."""
    for caller in MEMBERS:
        yield from (command("/members", caller, 5002, compact({"name": name})) for name in ("Eve", "Ben", ""))
        yield from (command("/categories", caller, 5002, compact({"name": name}))
                    for name in ("Cars", "Maps", "Other"))
        yield from (listed(caller, 5002, "N14", 9000, category=category, reserve=900) for category in CATEGORIES)
        yield from (listed(caller, 5002, lot, 9000) for lot in ("B2", "R6"))
        yield from (command("/close", caller, moment) for moment in (5000, 5002, 7000, 9000))
        yield command("/bands", caller, 5002, compact({"bands": [{"at": 0, "step": 5}]}))
        for item in ITEMS:
            yield from of_item(item, caller)
        yield from (answered(item, caller, 5002, asker, number) for item, asker, number in QUESTIONS)


def of_item(item, caller):
    yield from (bid(item, caller, 5002, maximum) for maximum in (5000, 100))
    yield from (command(f"/items/{item}/{word}", caller, 5002) for word in ("purchase", "settle", "watch", "unwatch"))
    yield asked(item, caller, 5002)
    yield rated(item, caller, 5002, 1)


@dataclasses.dataclass(frozen=True)
class Spoiled:
    """A column of a row, and what it is set to."""
    table: str
    row: int
    column: str
    value: str

    def statement(self):
        return f"UPDATE {self.table} SET {self.column} = {self.value} WHERE rowid = {self.row}"


def spoils(path):
    """Each value of each column, put into some rows, other ones for each value."""
    with contextlib.closing(sqlite3.connect(path)) as tables:
        rows_of = {table: [row for row, in tables.execute(f"SELECT rowid FROM {table} ORDER BY rowid")]
                   for table in VALUES}
    for table, columns in VALUES.items():
        rows = rows_of[table]
        for column, values in columns.items():
            for at, value in enumerate(values):
                for each in range(min(ROWS_EACH, len(rows))):
                    yield Spoiled(table, rows[(at + each * len(rows) // ROWS_EACH) % len(rows)], column, value)


def put(path, spoiled):
    """Whether SQLite puts a value into a file, whose row hasn't got it."""
    with contextlib.closing(sqlite3.connect(path)) as tables, contextlib.suppress(sqlite3.IntegrityError):
        with tables:
            changed = tables.execute(f"{spoiled.statement()} AND {spoiled.column} IS NOT ({spoiled.value})")
            return changed.rowcount == 1
    return False


# The test.

class Asked:
    """A request, and what it says."""

    def __init__(self, site, request):
        self.request, self.text, self.parsed = request, request.text(), parse(site, request)
        self.what = f"{request.method} {request.target} {request.body.decode()}"
        self.line = f"{self.what} by {self.parsed[0]}"


class Columns:
    """Houses with a spoiled column, and what each has to be answered."""

    def __init__(self, program, folder):
        self.program, self.folder = program, pathlib.Path(folder)
        site = Site(preset=True)
        self.asked = [Asked(site, request) for request in (*reads(), *orders())]
        self.begin()

    def begin(self):
        """Counts anew: checks, values that SQLite took, houses that aren't opened, answers by rows that don't fit."""
        self.counts, self.faults = collections.Counter(), []

    def make(self):
        """The house before anything is spoiled, of which everything has to be foretold as the plain site answers it."""
        self.check("made", self.program.ended("init", "whole", *INIT), (0, b"created\n", b""))
        site, requests = Site(), list(house())
        replies, ending = self.program.answers("whole", [b"".join(request.text() for request in requests)])
        self.check("all answered", (replies[0], ending),
                   (b"".join(site.answer(request).text() for request in requests), served(1)))
        self.check("all accepted", sum(site.accepted.values()), len(requests))
        rows = Rows(stored(self.path("whole")))
        self.whole = [foretell(rows, each.request, each.parsed) for each in self.asked]
        for each, foretold in zip(self.asked, self.whole):
            answer = (copy.deepcopy(site) if foretold.change else site).answer(each.request)
            self.check(f"unspoiled: {each.line}", (foretold.fits, foretold.is_misfit, foretold.answer),
                       (True, False, answer))

    def path(self, name):
        return self.folder / name

    def check(self, what, got, wanted):
        self.counts["checks"] += 1
        if got != wanted:
            self.faults.append(f"{what}: got {got}, wanted {wanted}")

    def lay(self, name, source):
        """A copy of a house, without a log."""
        self.path(f"{name}-wal").unlink(missing_ok=True)
        shutil.copy(self.path(source), self.path(name))

    def spoil(self, place, spoiled):
        """All checks of a house with a value spoiled, if SQLite takes it."""
        name = f"spoiled-{place}"
        self.lay(name, "whole")
        if put(self.path(name), spoiled):
            self.what, self.tables = spoiled.statement(), stored(self.path(name))
            self.counts["taken"] += 1
            if opens(self.tables):
                self.ask(name, place)
            else:
                self.refuse(name)
        for path in self.folder.glob(f"{name}*"):
            path.unlink()

    def refuse(self, name):
        """A house that isn't opened stays as it is."""
        self.counts["shut"] += 1
        content = self.path(name).read_bytes()
        with self.program.serving(name, 1) as server:
            # One that listens ends with its connection.
            if server.is_listening:
                exchange(server.port, b"")
        is_left = self.path(name).read_bytes() == content
        self.check(f"{self.what}: opened", (server.ending, is_left), (NOT_OPENED, True))

    def ask(self, name, place):
        """Asks everything of a house that is opened."""
        rows = Rows(self.tables)
        foretold = [foretell(rows, each.request, each.parsed) for each in self.asked]
        self.at_once(name, [pair for pair in zip(self.asked, foretold) if pair[1].change is None])
        for each, now in self.chosen(foretold, place):
            self.alone(name, each, now)

    def chosen(self, foretold, place):
        """The commands that each meet a house of their own: of those that differ by their callers alone one that is
        foretold otherwise than ever, if there is one; of the others one in so many, other ones in each house."""
        alike = collections.defaultdict(list)
        for each, now, ever in zip(self.asked, foretold, self.whole):
            if now.change:
                alike[each.what].append((each, now, (now.fits, now.answer) != (ever.fits, ever.answer)))
        for number, commands in enumerate(alike.values()):
            others = [command for command in commands if command[2]]
            if others or (number + place) % ROTATION == 0:
                among = others or commands
                yield among[place % len(among)][:2]

    def at_once(self, name, asked):
        """Sends what isn't to be accepted over one connection, all of which leaves the rows."""
        copied = f"{name}-all"
        self.lay(copied, name)
        texts = self.texts(copied, b"".join(each.text for each, _ in asked))
        self.check(f"{self.what}: how many answers", len(texts), len(asked))
        for (each, foretold), text in zip(asked, texts):
            self.judge(each, foretold, text)
        self.check(f"{self.what}: its rows", changes(self.tables, stored(self.path(copied))), [])

    def alone(self, name, asked, foretold):
        """Sends a command that may be accepted to a copy of the house, whose rows have its change then, or none."""
        copied = f"{name}-one"
        self.lay(copied, name)
        text = b"".join(self.texts(copied, asked.text))
        self.judge(asked, foretold, text)
        wanted = {table: list(rows) for table, rows in self.tables.items()}
        if text != DAMAGED:
            foretold.change(wanted)
        self.check(f"{self.what}: {asked.line}: its change", changes(wanted, stored(self.path(copied))), [])

    def texts(self, name, stream):
        """What a house is answered to a stream."""
        with self.program.serving(name, 1) as server:
            received = exchange(server.port, stream) if server.is_listening else b""
        texts, rest = answers_in(received)
        self.check(f"{self.what}: ended", (rest, server.ending), (b"", served(1)))
        return texts

    def judge(self, asked, foretold, text):
        """Whether an answer is one that is foretold."""
        self.counts["unfit"] += not foretold.fits
        self.counts["shown"] += foretold.is_misfit
        self.counts["damaged"] += text == DAMAGED
        is_damaged = foretold.is_misfit or text == DAMAGED and not foretold.fits
        self.check(f"{self.what}: {asked.line}", text, DAMAGED if is_damaged else foretold.answer.text())


def changes(wanted, found):
    """The tables in which rows differ, with these."""
    return [(table, sorted(set(wanted[table]) ^ set(found[table]), key=repr)) for table in wanted
            if sorted(wanted[table], key=repr) != sorted(found[table], key=repr)]


def spoil(columns, place, spoiled):
    """What came of a value, in a process that has the house."""
    columns.begin()
    columns.spoil(place, spoiled)
    return columns.counts, columns.faults


def spoiled_in_turn(columns, spoiled):
    """What came of each value, by as many processes as there are processors."""
    with multiprocessing.get_context("fork").Pool(initializer=HELD.append, initargs=(columns,)) as pool:
        yield from pool.imap_unordered(spoil_held, spoiled)


# The houses, in each process that spoils some.
HELD = []


def spoil_held(numbered):
    return spoil(HELD[0], *numbered)


def main():
    every = int(sys.argv[2]) if len(sys.argv) > 2 else 1
    with tempfile.TemporaryDirectory() as folder:
        pathlib.Path(folder, "bands.csv").write_text("at,step\n" + "".join(f"{at},{step}\n" for at, step in BANDS))
        columns = Columns(Program(str(pathlib.Path(sys.argv[1]).resolve()), folder), folder)
        columns.make()
        counts, wrong = collections.Counter(), 0
        first = columns.counts, columns.faults
        numbered = list(enumerate(spoils(columns.path("whole"))))[::every]
        for more, faults in itertools.chain([first], spoiled_in_turn(columns, numbered)):
            counts += more
            for line in faults[:max(0, MOST_LINES - wrong)]:
                print(line[:1000], flush=True)
            wrong += len(faults)
    print(f"{counts['taken']} values, with {counts['shut']} of which no house is opened")
    print(f"{counts['unfit']} messages take rows that don't fit; {counts['damaged']} are damaged, {counts['shown']} have to be")
    print(f"{counts['checks']} checks, {wrong} wrong")
    return 1 if wrong else 0


if __name__ == "__main__":
    sys.exit(main())
