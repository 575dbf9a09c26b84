#!/usr/bin/env python3
"""Looks what lies in the file of a house, beside its log and alone: `house_file.py PROGRAM`.

After each command that has ended the file is copied without its log, and has to be the whole house, for the program and for
SQLite. Nobody but its user may read it. A new house lists its tables and indexes in SQLite's own order: where SQLite has compacted
its file they are listed as before, and it is the same house. While a house is served nobody else opens it, and nothing is lost by
the try. A server that is killed leaves all that it acknowledged in the file with its log; and where that log is cut, wherever that
is, the house as some of the accepted commands left it, and later ones not without the earlier. Where files may not grow, a command
is answered that the store failed, and so is all after it on its connection, with which the server ends; and the house holds what
was accepted before. The last line is 'N checks, M wrong'.

Four sizes are the limit for `init`, five for `serve`; a log of twelve commands is cut after each of its pages and within some; a
copy is read after the `statement` of a house whose server was killed.

Promise: bytes to bytes
"""
import os
import pathlib
import shutil
import sqlite3
import sys
import tempfile

from lib.checks import check, verdict
from lib.confined import limited
from lib.sent import answers_in
from lib.serving import FAILED, MESSAGES, READS, SETTINGS, SIGHTS, STORE_FAILED, Program, exchange, fault, served

COMMANDS = MESSAGES[:-len(READS)]
TABLES = {"house": 1, "member": 2, "category": 1, "item": 2, "bid": 1, "watch": 1, "question": 1, "feedback": 1,
          "reserve": 1, "edition": 1, "later_band": 2}


def seen(program, file):
    """What a house in a file shows."""
    replies, ending = program.answers(file, [b"".join(SIGHTS)])
    check(f"{file} ended", ending, served(1))
    return replies[0]


def seen_after(program, init, count):
    """What a house shows that took so many commands."""
    status, output, error = program.ended("replay", *init, given=b"".join(COMMANDS[:count] + SIGHTS))
    check(f"{count} commands replayed", (status, error), (0, b""))
    before = program.ended("replay", *init, given=b"".join(COMMANDS[:count]))[1]
    return output[len(before):]


def copied(folder, file, name, *, log=None):
    """A copy of a house's file, without its log, or with so many bytes of it."""
    shutil.copy(folder / file, folder / name)
    if log is not None:
        (folder / f"{name}-wal").write_bytes((folder / f"{file}-wal").read_bytes()[:log])
    return name


def rows(folder, name):
    """How many rows each table has, by SQLite, which finds no fault in the file."""
    database = sqlite3.connect(folder / name)
    check(f"{name} is sound", database.execute("PRAGMA integrity_check").fetchall(), [("ok",)])
    counts = {table: database.execute(f"SELECT count(*) FROM {table}").fetchone()[0] for table in TABLES}
    database.close()
    return counts


def alone(program, folder, init):
    """The file alone is the house, after `init` and after `serve`."""
    check("made", program.ended("init", "house", *init), (0, b"created\n", b""))
    new = {table: int(table == "house") for table in TABLES}
    check("a new house alone", rows(folder, copied(folder, "house", "new")), new)
    check("a new house", seen(program, copied(folder, "house", "new")), seen_after(program, init, 0))
    program.answers("house", [b"".join(COMMANDS)])
    check("a served house alone", rows(folder, copied(folder, "house", "kept")), TABLES)
    check("a served house", seen(program, copied(folder, "house", "kept")), seen_after(program, init, len(COMMANDS)))


def objects(folder, name):
    """What SQLite lists in a file, in its order: of each object its number, its words and its first page."""
    database = sqlite3.connect(folder / name)
    listed = database.execute("SELECT rowid, * FROM sqlite_schema ORDER BY rowid").fetchall()
    database.close()
    return listed


def compacted(program, folder, init):
    """SQLite leaves the objects of a new house where they are, and it stays a house, when it compacts the file."""
    check("made", program.ended("init", "loose", *init), (0, b"created\n", b""))
    made = objects(folder, "loose")
    # An index that a key of a table makes has no words of its own, and stands with its table.
    check("tables come first", [row[1] for row in made if row[5]], ["table"] * 12 + ["index"] * 8)
    database = sqlite3.connect(folder / copied(folder, "loose", "vacuumed"))
    database.execute("VACUUM INTO ?", [str(folder / "another")])
    database.execute("VACUUM")
    database.close()
    for name in ("vacuumed", "another"):
        check(f"{name} lists them so", objects(folder, name), made)
        check(f"{name} is the house", seen(program, name), seen_after(program, init, 0))


def private(program, folder, init):
    """A house is its user's alone, and so is its log, however open new files are."""
    open_to_all = Program(program.path, program.folder, lambda: os.umask(0))
    check("made", open_to_all.ended("init", "private", *init), (0, b"created\n", b""))
    with open_to_all.serving("private", 1) as server:
        modes = {name: (folder / name).stat().st_mode & 0o777 for name in ("private", "private-wal")}
        check("while it is served", modes, {"private": 0o600, "private-wal": 0o600})
        exchange(server.port, COMMANDS[0])
    check("once it is ended", (folder / "private").stat().st_mode & 0o777, 0o600)


def together(program, folder, init):
    """A house that is served is nobody else's."""
    check("made", program.ended("init", "shared", *init), (0, b"created\n", b""))
    with program.serving("shared", 2) as server:
        exchange(server.port, b"".join(COMMANDS[:5]))
        check("served twice", program.ended("serve", "shared", "--port", "1", "--count", "1"), fault("file: Store"))
        check("upgraded while served", program.ended("upgrade", "shared"), fault("file: Store"))
        check("made while served", program.ended("init", "shared", *init), fault("file: Store"))
        exchange(server.port, b"".join(COMMANDS[5:]))
    check("shared ended", server.ending, served(2))
    check("shared", seen(program, "shared"), seen_after(program, init, len(COMMANDS)))


def killed(program, folder, init):
    """A server is killed, and its log is cut after each page and within some."""
    check("made", program.ended("init", "stopped", *init), (0, b"created\n", b""))
    with program.serving("stopped", 2) as server:
        exchange(server.port, b"".join(COMMANDS))
        server.process.kill()
    size = (folder / "stopped-wal").stat().st_size
    # A statement reads nothing but what is there, and ends its keep.
    statement = ["--member", "1", "--from", "1970-01-01", "--to", "1970-01-01"]
    result = program.ended("statement", copied(folder, "stopped", "stated", log=size), *statement)
    check("a statement of it", (result[0], result[2]), (0, b""))
    check("a stated house alone", rows(folder, copied(folder, "stated", "read")), TABLES)
    states = [seen_after(program, init, count) for count in range(len(COMMANDS) + 1)]
    check("killed", seen(program, copied(folder, "stopped", "cut", log=size)), states[-1])
    last = 0
    # A log is a head of 32 bytes, and for each page 24 bytes and its 4096.
    for cut in sorted({0, 31, *range(32, size, 4120), *range(2000, size, 7 * 4120)}):
        (folder / "cut-wal").unlink(missing_ok=True)
        sight = seen(program, copied(folder, "stopped", "cut", log=cut))
        place = next((place for place in range(len(states) - 1, -1, -1) if states[place] == sight), None)
        check(f"cut at {cut}", place is not None and place >= last, True)
        last = place if place is not None else last


def full(program, folder, init):
    """No file may grow over a size."""
    states = [seen_after(program, init, count) for count in range(len(COMMANDS) + 1)]
    for size in (0, 4096, 20_000, 98_303):
        tight = Program(program.path, program.folder, limited(size))
        check(f"made within {size}", tight.ended("init", f"none-{size}", *init), fault("file: Store"))
    # A log grows by many pages at once, so that some of these sizes leave room for a few commands.
    for size in (98_304, 200_000, 270_000, 300_000, 1_000_000):
        file = f"full-{size}"
        check(f"{file} made", program.ended("init", file, *init), (0, b"created\n", b""))
        tight = Program(program.path, program.folder, limited(size))
        replies, ending = tight.answers(file, [b"".join(COMMANDS + SIGHTS)])
        answers, _ = answers_in(replies[0])
        first = answers.index(FAILED) if FAILED in answers else len(COMMANDS)
        failed = len(COMMANDS + SIGHTS) - first if FAILED in answers else 0
        check(f"{file} fails after it", (len(answers), answers.count(FAILED)), (len(COMMANDS + SIGHTS), failed))
        check(f"{file} ended", ending, STORE_FAILED if failed else served(1))
        check(f"{file} seen", seen(program, file) in states[first:first + 2], True)


def main():
    with tempfile.TemporaryDirectory() as path:
        folder = pathlib.Path(path)
        (folder / "bands.csv").write_text("at,step\n0,5\n100,25\n500,50\n")
        program = Program(str(pathlib.Path(sys.argv[1]).resolve()), path)
        init = ["--bands", "bands.csv", *SETTINGS]
        alone(program, folder, init)
        compacted(program, folder, init)
        private(program, folder, init)
        together(program, folder, init)
        killed(program, folder, init)
        full(program, folder, init)
    return verdict()


if __name__ == "__main__":
    sys.exit(main())
