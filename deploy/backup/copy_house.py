#!/usr/bin/env python3
"""Copies a house, also while it is served: `copy_house.py HOUSE COPY`.

A house that is served writes what it takes into its log, HOUSE-wal. Now and then it writes the log into its file, and begins the
log anew with another salt. Between these two moments the file stands still, and the log only grows. So a copy of the file, and
then of the log, is what a crash could have left. If the file's time or size, or the log's salt, is another one after the
copying, both are copied again.

SQLite reads the whole copy, makes one file of the two, and looks for faults. What is no house of version 2 is refused. Then the
copy gets its name. It holds what the house had answered when this began. Nobody is disturbed. A copy that fails leaves nothing
behind.
"""
import contextlib
import os
import pathlib
import shutil
import sqlite3
import sys
import time

# A file's time goes by the ticks of the system's clock. Within one it would not tell a second change.
STILL = 0.1
TIMES = 1000
SALT = slice(16, 24)
VERSION = 2
TABLES = {"band", "bid", "category", "edition", "feedback", "house", "item", "later_band", "member", "question", "reserve", "watch"}


class Unsound(Exception):
    """What is wrong with a copy."""


def log_of(house):
    return house.with_name(house.name + "-wal")


def salt_of(log):
    """The salt in the log's head, of which there is none where nothing was written yet."""
    try:
        with log.open("rb") as file:
            return file.read(SALT.stop)[SALT]
    except FileNotFoundError:
        return b""


def state(house):
    """What is another one once the log was written into the file, or was begun anew."""
    status = house.stat()
    return status.st_mtime_ns, status.st_size, salt_of(log_of(house))


def wait_until_still(house):
    while abs(time.time() - house.stat().st_mtime) < STILL:
        time.sleep(STILL)


def copy_both(house, copy):
    """Copies the file, then the log, and tells whether neither was written anew meanwhile."""
    wait_until_still(house)
    before = state(house)
    shutil.copyfile(house, copy)
    log_of(copy).unlink(missing_ok=True)
    with contextlib.suppress(FileNotFoundError):
        shutil.copyfile(log_of(house), log_of(copy))
    return state(house) == before


def version_of(database):
    """The version of a house, of which there is none where the tables are not those of a house."""
    tables = {name for (name,) in database.execute("SELECT name FROM sqlite_schema WHERE type = 'table'")}
    if "house" not in tables:
        return None
    rows = database.execute("SELECT version FROM house").fetchall()
    version = rows[0][0] if len(rows) == 1 else None
    return None if version == VERSION and tables != TABLES else version


def make_one_file(copy):
    """Has SQLite write the copy's log into its file, and look for faults. It has to be a house."""
    with contextlib.closing(sqlite3.connect(copy)) as database:
        faults = [fault for (fault,) in database.execute("PRAGMA integrity_check") if fault != "ok"]
        faults += [f"row {row} of {table}" for table, row, *_ in database.execute("PRAGMA foreign_key_check")]
        version = version_of(database)
    if faults:
        raise Unsound("; ".join(faults[:3]))
    if version != VERSION:
        raise Unsound("it is no house" if version is None else f"it is a house of version {version}, not of {VERSION}")


def keep(file):
    """Has the disk keep a file, or a folder's names."""
    handle = os.open(file, os.O_RDONLY)
    os.fsync(handle)
    os.close(handle)


def remove(copy):
    for file in (copy, log_of(copy), copy.with_name(copy.name + "-shm")):
        file.unlink(missing_ok=True)


def make_sound(house, begun):
    """Makes a sound copy, and tells how many times it was begun."""
    for times in range(1, TIMES + 1):
        if copy_both(house, begun):
            make_one_file(begun)
            keep(begun)
            return times
    raise Unsound("the house never stood still")


def copy_house(house, copy):
    """Makes the copy, and tells how many times it was begun. One that fails leaves no room taken."""
    begun = copy.with_name(copy.name + ".begun")
    try:
        times = make_sound(house, begun)
    except BaseException:
        remove(begun)
        raise
    begun.rename(copy)
    keep(copy.parent)
    return times


def main():
    if len(sys.argv) != 3:
        print("copy_house.py: its words are HOUSE COPY", file=sys.stderr)
        return 2
    house, copy = (pathlib.Path(word).resolve() for word in sys.argv[1:])
    os.umask(0o077)
    if copy.exists():
        print(f"copy_house.py: there already: {copy}", file=sys.stderr)
        return 1
    try:
        times = copy_house(house, copy)
    except (OSError, sqlite3.Error, Unsound) as error:
        print(f"copy_house.py: {error}", file=sys.stderr)
        return 1
    print(f"copied, begun {times} times" if times > 1 else "copied")
    return 0


if __name__ == "__main__":
    sys.exit(main())
