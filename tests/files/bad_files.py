#!/usr/bin/env python3
"""Gives each command that takes a file what is no house, or can't be had: `bad_files.py PROGRAM`.

Each has its line on standard error and ends with status 1; the file stays byte for byte what it was, and no more is left beside
it than a log without a commit. A file of which nothing can be read or written is so to another user than the superuser: where a
superuser runs this, the program runs as nobody. What SQLite has locked can be had once it is free. The last line is 'N checks, M
wrong'.

Promise: bytes to bytes
"""
import contextlib
import hashlib
import os
import pathlib
import random
import shutil
import sqlite3
import stat
import subprocess
import sys
import tempfile

from lib.checks import check, verdict
from lib.confined import as_nobody
from lib.house_files import commands, is_small_log
from lib.plain_house import BANDS
from lib.plain_site import setup
from lib.sent import read, value_of
from lib.serving import Program, exchange, fault, served

STORE, DAMAGED = fault("file: Store"), fault("file: Damaged")


def making(file):
    return ["init", file, "--bands", "bands.csv", "--rate", "1000", "--zone", "UTC0"]


def database(path, *statements):
    """A database that SQLite makes."""
    with contextlib.closing(sqlite3.connect(path)) as tables:
        for statement in statements:
            tables.execute(statement)
        tables.commit()


def cut(size):
    return lambda whole, path: path.write_bytes(whole.read_bytes()[:size])


def written(content):
    return lambda _, path: path.write_bytes(content)


def changed(*statements):
    def change(whole, path):
        shutil.copy(whole, path)
        database(path, *statements)
    return change


def other(*statements):
    return lambda _, path: database(path, *statements)


NOISE = random.Random(2026).randbytes(98_304)
TABLE = "CREATE TABLE member (id INTEGER PRIMARY KEY)"

# What lies at the path, of which the house `whole` is a copy, and how making a house there ends.
NO_HOUSES = [
    ("nothing in the file", written(b""), None),
    ("a text", written(b"This is no house. " * 1000), DAMAGED),
    ("bytes at random", written(NOISE), DAMAGED),
    ("few bytes at random", written(NOISE[:99]), DAMAGED),
    ("a page of zeros", written(bytes(4096)), DAMAGED),
    ("the head of a database, and bytes at random", lambda whole, path: path.write_bytes(
        whole.read_bytes()[:100] + NOISE[100:]), DAMAGED),
    *((f"{size} bytes of a house", cut(size), DAMAGED) for size in (16, 99, 100, 4095, 4096, 50_000, 98_303)),
    ("a page of another page's bytes", lambda whole, path: path.write_bytes(
        whole.read_bytes()[:4096] * 2 + whole.read_bytes()[8192:]), DAMAGED),
    ("a table of that name", other(TABLE), DAMAGED),
    ("another table", other("CREATE TABLE more (id INTEGER PRIMARY KEY)"), DAMAGED),
    ("another program's log", other("PRAGMA journal_mode = WAL", TABLE, "INSERT INTO member VALUES (1)"), DAMAGED),
    ("an earlier version", changed("UPDATE house SET version = 1"), DAMAGED),
    ("a later version", changed("UPDATE house SET version = 3"), DAMAGED),
    ("another clock", changed("UPDATE house SET clock = 4102444801"), DAMAGED),
    ("no row of the house", changed("DELETE FROM house"), DAMAGED),
    ("a rate over the limit", changed("UPDATE house SET rate = 2001"), DAMAGED),
    ("no band", changed("DELETE FROM band"), DAMAGED),
    ("a band that falls", changed("INSERT INTO band VALUES (600000, 1)"), DAMAGED),
    ("a member 0", changed("INSERT INTO member VALUES (0, 'Zoe')"), DAMAGED),
    ("a gap of members", changed("INSERT INTO member VALUES (5, 'Zoe')"), DAMAGED),
    ("a category below 0", changed("INSERT INTO category VALUES (-1, 'Maps')"), DAMAGED),
    ("a reserve of no item", changed("INSERT INTO reserve VALUES (2, 900)"), DAMAGED),
    ("a reserve below 0", changed("INSERT INTO reserve VALUES (1, -1)"), DAMAGED),
    ("a reserve over the limit", changed("INSERT INTO reserve VALUES (1, 1000000001)"), DAMAGED),
    ("one table more", changed("CREATE TABLE more (id INTEGER PRIMARY KEY) STRICT"), DAMAGED),
    ("one table less", changed("DROP TABLE later_band"), DAMAGED),
    ("one view more", changed("CREATE VIEW more AS SELECT name FROM member"), DAMAGED),
    ("one index more", changed("CREATE INDEX more ON member (name, id)"), DAMAGED),
    ("one index less", changed("DROP INDEX item_by_end"), DAMAGED),
    ("one check more", changed("DROP TABLE watch", "CREATE TABLE watch (member INTEGER NOT NULL CHECK (member < 5),"
                               " item INTEGER NOT NULL, PRIMARY KEY (member, item)) STRICT"), DAMAGED),
]


class Files:
    """A folder in which bad files are laid out, and a house."""

    def __init__(self, program, folder):
        self.path, self.folder = program, pathlib.Path(folder)
        self.program = Program(program, folder)
        (self.folder / "bands.csv").write_text("at,step\n" + "".join(f"{at},{step}\n" for at, step in BANDS))
        (self.folder / "lots.csv").write_text("lot,category,title,text,start,buy_now,end\nB2,1,Globe,,7.50,,6000\n")
        check("made", self.program.ended(*making("whole")), (0, b"created\n", b""))
        self.program.answers("whole", [b"".join(request.text() for request in setup())])
        (self.folder / "whole-wal").unlink()
        self.whole = self.folder / "whole"

    def clear(self):
        for path in self.folder.glob("bad*"):
            shutil.rmtree(path) if path.is_dir() and not path.is_symlink() else path.unlink()
        return self.folder / "bad"

    def look(self, path):
        """What lies at a path and beside it: of each its kind, its mode, and its bytes but those of a small log."""
        return {name: shown(path.parent / name) for name in sorted(os.listdir(path.parent))
                if name.startswith(path.name) and not is_small_log(path.parent / name)}

    def fails(self, what, path, words, ending, program=None):
        """Checks how a command ends, and that all is as it was."""
        before = self.look(path)
        try:
            got = (program or self.program).ended(*words)
        except subprocess.TimeoutExpired:
            got = "no end"
        check(f"{what}: {words[0]}", got, ending)
        check(f"{what}: {words[0]}, the file", self.look(path), before)

    def no_houses(self):
        for what, lay, made in NO_HOUSES:
            path = self.clear()
            lay(self.whole, path)
            for words in commands("bad"):
                self.fails(what, path, words, DAMAGED)
            if made:
                self.fails(what, path, making("bad"), made)
        path = self.clear()
        changed("UPDATE house SET zone = 'nowhere'")(self.whole, path)
        for words in (*commands("bad"), making("bad")):
            # Who goes by no zone doesn't look at it.
            self.fails("no zone", path, words, (0, b"is version 2\n", b"") if words[0] == "upgrade" else DAMAGED)
        path = self.clear()
        path.write_bytes(b"")
        check("nothing in the file: init", self.program.ended(*making("bad")), (0, b"created\n", b""))

    def counted(self):
        """A house to which SQLite has added rows with the next numbers, but for those that it has not committed."""
        path = self.clear()
        changed("INSERT INTO member VALUES (4, 'Dan'), (5, 'Eve')", "INSERT INTO category VALUES (2, 'Maps')")(self.whole, path)
        with contextlib.closing(sqlite3.connect(path)) as tables:
            tables.execute("INSERT INTO member VALUES (6, 'Flo')")
        replies, ending = self.program.answers("bad", [read("/house", 0).text()])
        shown = value_of(replies[0].split(b"\r\n\r\n", 1)[1])
        check("rows added", [shown[name] for name in ("members", "categories", "items")], [5, 2, 1])
        check("rows added: serve", ending, served(1))

    def no_files(self):
        """Paths at which there is no file that may be a house."""
        path = self.clear()
        for name in ("bad", "missing/bad", "whole/bad", "", ".", "..", "b" * 300):
            for words in commands(name):
                self.fails(f"no file {name[:20]}", path, words, STORE)
        for name in ("missing/bad", "whole/bad", "", ".", "..", "b" * 300, "/dev/full"):
            self.fails(f"no file {name[:20]}", path, making(name), STORE)
        os.mkfifo(path)
        self.fails("a pipe", path, making("bad"), STORE)
        for name in ("bad", "/dev/full", "/dev/null"):
            for words in commands(name):
                self.fails(f"no regular file {name}", path, words, DAMAGED)
        path = self.clear()
        path.symlink_to("missing/bad")
        for words in (*commands("bad"), making("bad")):
            self.fails("a link to nothing", path, words, STORE)

    def beside(self):
        """Files beside a house that say that it is not whole, or not its own."""
        for what, lay in [("a journal", lambda path: path.with_name("bad-journal").write_bytes(NOISE)),
                          ("a second name", lambda path: os.link(path, path.with_name("bad2"))),
                          ("a link as its log", lambda path: path.with_name("bad-wal").symlink_to("bad2")),
                          ("a folder as its log", lambda path: path.with_name("bad-wal").mkdir())]:
            path = self.clear()
            shutil.copy(self.whole, path)
            lay(path)
            for words in (*commands("bad"), making("bad")):
                self.fails(what, path, words, STORE)

    def no_rights(self):
        """Files and folders that another user may not read, or not write."""
        nobody = Program(self.path, self.folder, as_nobody)
        for what, file_mode, folder_mode in [
                ("no right to read", 0o000, 0o777), ("a right to read", 0o444, 0o777), ("a right to write", 0o222, 0o777),
                ("a folder that is read", 0o666, 0o555), ("a folder that is closed", 0o666, 0o000)]:
            self.clear()
            place = self.folder / "bad"
            place.mkdir()
            path = place / "house"
            shutil.copy(self.whole, path)
            path.chmod(file_mode)
            place.chmod(folder_mode)
            for words in (*commands("bad/house"), making("bad/house")):
                self.fails(what, path, words, STORE, nobody)
            if folder_mode != 0o777:
                self.fails(what, path, making("bad/new"), STORE, nobody)
            place.chmod(0o777)
            path.unlink()

    def locked(self):
        """A house that SQLite has locked, or only reads, and then lets go."""
        for statement in ("BEGIN EXCLUSIVE", "BEGIN IMMEDIATE", "SELECT * FROM member"):
            path = self.clear()
            shutil.copy(self.whole, path)
            tables = sqlite3.connect(path, isolation_level=None)
            rows = tables.execute(statement)
            rows.fetchone()
            for words in (*commands("bad"), making("bad")):
                # Python would let go of the lock if it read the file, so the bytes are looked at afterwards.
                check(f"{statement}: {words[0]}", self.program.ended(*words), STORE)
            tables.close()
            check(f"{statement}, the file", path.read_bytes(), self.whole.read_bytes())
            self.is_there("bad", statement)

    def is_there(self, file, what):
        """Checks that a house shows its item."""
        replies, ending = self.program.answers(file, [read("/items/1", 2).text()])
        check(f"{what}, and then served", (replies[0][:15], ending), (b"HTTP/1.1 200 OK", served(1)))

    def lends(self):
        """A house that is served is locked for SQLite, which gets it back."""
        path = self.clear()
        shutil.copy(self.whole, path)
        with self.program.serving("bad", 1) as server:
            tables = sqlite3.connect(path, timeout=0)
            with contextlib.suppress(sqlite3.Error):
                check("read while served", tables.execute("SELECT * FROM member").fetchall(), "an error")
            tables.close()
            exchange(server.port, read("/items/1", 2).text())
        check("lent", server.ending, served(1))


def shown(path):
    mode = path.lstat().st_mode
    content = hashlib.sha256(path.read_bytes()).hexdigest() if stat.S_ISREG(mode) else None
    return mode, content


def main():
    with tempfile.TemporaryDirectory() as folder:
        os.chmod(folder, 0o777)
        program = pathlib.Path(folder) / "auction"
        shutil.copy(sys.argv[1], program)
        program.chmod(0o755)
        files = Files(str(program), folder)
        for part in (files.no_houses, files.counted, files.no_files, files.beside, files.no_rights, files.locked, files.lends):
            part()
    return verdict()


if __name__ == "__main__":
    sys.exit(main())
