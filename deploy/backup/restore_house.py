#!/usr/bin/env python3
"""Puts a copy in the place of a house that nobody serves: `restore_house.py COPY HOUSE`.

COPY is a file that copy_house.py has made. The house that was there is kept as HOUSE.before, and the copy gets its owner and its
rights. Where none was there, it gets the owner of the folder, and no other user reads it. It is refused where SQLite finds a
fault in the copy, where the copy is no house, where somebody serves the house, and where HOUSE.before is there already, or its log.
"""
import contextlib
import os
import pathlib
import shutil
import sqlite3
import sys

from copy_house import Unsound, keep, log_of, make_one_file, remove

# A log of fewer bytes holds nothing.
LEAST_LOG = 100


def end_log(house):
    """Writes the log of a house that nobody serves into its file."""
    with contextlib.closing(sqlite3.connect(house, timeout=0)) as database:
        database.execute("BEGIN EXCLUSIVE")
        database.rollback()


def give_to(owner, file):
    """Gives a file to the owner of another, or of a folder."""
    status = owner.stat()
    if (status.st_uid, status.st_gid) != (os.getuid(), os.getgid()):
        os.chown(file, status.st_uid, status.st_gid)


def copy_anew(source, target):
    """Copies into a new file: root must not follow a link that the owner of the folder has put there."""
    with source.open("rb") as read:
        remove(target)
        with target.open("xb") as written:
            shutil.copyfileobj(read, written)


def put_aside(house, before):
    """Keeps the house that is there under another name, as one file. What is damaged is kept as it is, with its log."""
    log = log_of(house)
    # SQLite may change a damaged house, and its log, as soon as it opens them.
    shutil.copy2(house, before)
    if log.exists():
        shutil.copy2(log, log_of(before))
    try:
        end_log(house)
    except sqlite3.OperationalError:
        remove(before)
        raise
    except sqlite3.DatabaseError:
        house.unlink()
    else:
        log_of(before).unlink(missing_ok=True)
        house.rename(before)
    # A log must not lie beside another file than its own.
    log.unlink(missing_ok=True)


def restore_house(copy, house):
    begun, before = house.with_name(house.name + ".begun"), house.with_name(house.name + ".before")
    log = log_of(copy)
    if log.exists() and log.stat().st_size >= LEAST_LOG:
        raise Unsound(f"{copy} has a log beside it: copy_house.py makes one file")
    for file in (before, log_of(before)):
        if os.path.lexists(file):
            raise Unsound(f"{file} is there already")
    try:
        copy_anew(copy, begun)
        make_one_file(begun)
        keep(begun)
        if house.exists():
            shutil.copymode(house, begun)
            give_to(house, begun)
            put_aside(house, before)
        else:
            give_to(house.parent, begun)
    except BaseException:
        remove(begun)
        raise
    # The log of a house that is lost is kept too.
    if log_of(house).exists():
        log_of(house).rename(log_of(before))
    begun.rename(house)
    keep(house.parent)


def main():
    if len(sys.argv) != 3:
        print("restore_house.py: its words are COPY HOUSE", file=sys.stderr)
        return 2
    copy, house = (pathlib.Path(word).resolve() for word in sys.argv[1:])
    os.umask(0o077)
    try:
        restore_house(copy, house)
    except (OSError, sqlite3.Error, Unsound) as error:
        print(f"restore_house.py: {error}", file=sys.stderr)
        return 1
    print("restored")
    return 0


if __name__ == "__main__":
    sys.exit(main())
