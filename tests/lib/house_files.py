"""The file of a house: the commands on it, the log beside it, and its rows by SQLite."""
import contextlib
import shutil
import sqlite3

from lib.checks import check

# A log has a head of 32 bytes, and for each page 24 bytes and the page, of which none is committed in so few.
SMALL_LOG = 100


def rows(folder, file):
    """The rows of each table of a house, by SQLite, on a copy with its log, in which it finds no fault."""
    for ending in ("", "-wal"):
        shutil.copy(folder / (file + ending), folder / ("copy" + ending))
    database = sqlite3.connect(folder / "copy")
    there = [name for (name,) in database.execute("SELECT name FROM sqlite_master WHERE type = 'table'")]
    check("sound", database.execute("PRAGMA integrity_check").fetchall(), [("ok",)])
    check("no dangling row", database.execute("PRAGMA foreign_key_check").fetchall(), [])
    tables = {name: sorted(database.execute(f"SELECT * FROM {name}"), key=repr) for name in there}
    database.close()
    return tables


def change(path, statement):
    """Has SQLite change a row of a house that nobody serves."""
    with contextlib.closing(sqlite3.connect(path)) as tables, tables:
        tables.execute(statement)
    # SQLite takes the log away.
    path.with_name(f"{path.name}-wal").touch()


def commands(file):
    """The words of each command on a file that is there; none gets as far as to take a port."""
    return (["serve", file, "--port", "1", "--count", "1"], ["import", file, "lots.csv", "--member", "1", "--moment", "1000"],
            ["statement", file, "--member", "1", "--from", "1970-01-01", "--to", "1970-01-01"], ["upgrade", file])


def is_small_log(path):
    return path.name.endswith("-wal") and path.is_file() and not path.is_symlink() and path.stat().st_size < SMALL_LOG
