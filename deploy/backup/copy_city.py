#!/usr/bin/env python3
"""Copies all that a city's service needs: `copy_city.py CITY [ROOT]`.

A copy is a folder /var/backups/auction/CITY/TIME with the file `house`, as copy_house.py makes it; `accounts`, who may sign in, by
which password and with which number; `settings`, what lies in /etc/auction/CITY: the names, the certificate and its key; and
`page`, the addresses of members, and what they have been told. Accounts are copied first, so each number there is that of a
member of the house. The folder gets its name once all of it is on the disk, and a copy that fails leaves nothing behind. Kept
are the newest 24, and the newest of each of the last 14 days that have one.

The last line tells how old the newest copy is, also where this one failed. ROOT is another root than /, for a trial.
"""
import calendar
import contextlib
import fcntl
import os
import pathlib
import shutil
import sqlite3
import sys
import time

from copy_house import Unsound, copy_house, keep, log_of

NEWEST, DAYS = 24, 14
TIME = "%Y-%m-%dT%H:%M:%SZ"
DAY = len("2026-01-01")
BEGUN = "begun"


@contextlib.contextmanager
def held(file):
    """A name by which a file or a folder is read. It fails for a link, also for one that was put there just now."""
    handle = os.open(file, os.O_RDONLY | os.O_NOFOLLOW)
    try:
        yield pathlib.Path(f"/proc/self/fd/{handle}")
    finally:
        os.close(handle)


def refuse_link(file):
    """The owner of the folder may have put a link there, and a restore would give that user what it leads to."""
    if file.is_symlink():
        raise Unsound(f"{file} is a link")


def copy_accounts(source, target):
    """Copies a file of SQLite, which others may write meanwhile. Where nobody has it open, it has no log."""
    mode = "mode=ro" if log_of(source).exists() else "mode=ro&immutable=1"
    with contextlib.closing(sqlite3.connect(f"{source.absolute().as_uri()}?{mode}", uri=True)) as database, \
            contextlib.closing(sqlite3.connect(target)) as copy:
        database.backup(copy)
    keep(target)


def copy_file(source, target):
    """Copies a file with its rights and its owner, who has to exist where it is restored."""
    with held(source) as file:
        shutil.copy2(file, target)
        if os.geteuid() == 0:
            status = file.stat()
            os.chown(target, status.st_uid, status.st_gid)
    keep(target)


def copy_files(source, target, names=None):
    """Copies the files of a folder, all of them or those of these names. Links are made anew by setup.sh."""
    target.mkdir()
    for file in sorted(source.iterdir()):
        if file.is_file() and not file.is_symlink() and (names is None or file.name in names):
            copy_file(file, target / file.name)
    keep(target)


def copy_gateway(root, city, copy):
    """Copies what the gateway has of a city. One that was set up by hand may lack accounts, or what the jobs write."""
    accounts, page = (root / "var" / "lib" / folder / city for folder in ("auction-sign-in", "auction-page"))
    refuse_link(accounts / "accounts")
    if (accounts / "accounts").exists():
        copy_accounts(accounts / "accounts", copy / "accounts")
    copy_files(root / "etc" / "auction" / city, copy / "settings")
    if page.exists():
        copy_files(page, copy / "page", ("notices.json",))
        refuse_link(page / "addresses")
        with held(page / "addresses") as addresses:
            copy_files(addresses, copy / "page" / "addresses")


def names(copies):
    """The copies that are done, newest first."""
    return sorted((folder.name for folder in copies.iterdir() if folder.name[:1].isdigit()), reverse=True)


def kept(copies):
    """The newest copies, and the newest of each of the last days."""
    of_days = {}
    for name in copies:
        of_days.setdefault(name[:DAY], name)
    return set(copies[:NEWEST]) | set(list(of_days.values())[:DAYS])


def drop_old(copies):
    done = names(copies)
    for name in set(done) - kept(done):
        shutil.rmtree(copies / name)


def lock(copies):
    """Refuses a second copy at once, for as long as this process runs."""
    fcntl.flock(os.open(copies, os.O_RDONLY), fcntl.LOCK_EX | fcntl.LOCK_NB)


def make_copy(root, city, copies):
    name, begun = time.strftime(TIME, time.gmtime()), copies / BEGUN
    # One that was killed has left it.
    shutil.rmtree(begun, ignore_errors=True)
    try:
        begun.mkdir()
        copy_gateway(root, city, begun)
        copy_house(root / "var" / "lib" / "auction" / city / "house", begun / "house")
        begun.rename(copies / name)
    except BaseException:
        shutil.rmtree(begun, ignore_errors=True)
        raise
    keep(copies)


def age(copies):
    done = names(copies) if copies.exists() else []
    if not done:
        return "there is no copy"
    made = calendar.timegm(time.strptime(done[0], TIME))
    return f"the newest copy is {done[0]}, {(time.time() - made) / 60:.0f} minutes old"


def main():
    if len(sys.argv) not in (2, 3):
        print("copy_city.py: its words are CITY [ROOT]", file=sys.stderr)
        return 2
    city, root = sys.argv[1], pathlib.Path((sys.argv[2:] + ["/"])[0])
    copies = root / "var" / "backups" / "auction" / city
    os.umask(0o077)
    status = 0
    try:
        copies.mkdir(parents=True, exist_ok=True)
        lock(copies)
        make_copy(root, city, copies)
        drop_old(copies)
    except (OSError, sqlite3.Error, Unsound) as error:
        print(f"copy_city.py: {error}", file=sys.stderr)
        status = 1
    print(age(copies))
    return status


if __name__ == "__main__":
    sys.exit(main())
