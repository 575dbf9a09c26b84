"""Databases that SQLite writes anew: the same rows, and mostly the tables in another order.

Each way takes a database at a path, with its log if it has one, and leaves the new one at another path. The old one stays.
"""
import contextlib
import shutil
import sqlite3
import subprocess
import tempfile

from lib.sent import PATIENCE

ENDINGS = ("", "-wal")
# Ways that leave the list of a new house as it is, since it has its tables before its indexes.
KEEP_THE_LIST = ("VACUUM", "VACUUM INTO", ".dump", ".recover")
# Tables whose rows count in the order in which they were put in, which each way of SQLite keeps.
IN_ORDER = ("later_band",)
# Without the pages that are free, whose old rows would come in a table of their own.
RECOVER = ".recover --ignore-freelist"


def opened(path):
    return contextlib.closing(sqlite3.connect(path, isolation_level=None))


def copied(source, target):
    """A copy of a database with its log."""
    for ending in ENDINGS:
        if source.with_name(source.name + ending).exists():
            shutil.copyfile(source.with_name(source.name + ending), target.with_name(target.name + ending))
    return target


def changed(path, *statements):
    with opened(path) as database:
        for statement in statements:
            database.execute(statement)
    return path


def vacuumed(source, target, _):
    changed(copied(source, target), "VACUUM")


def vacuumed_into(source, target, _):
    with copy_of(source) as copy:
        changed(copy, f"VACUUM INTO '{target}'")


def dumped_by_name(source, target, _):
    """By the dump of Python, which has the tables in the order of their names."""
    with copy_of(source) as copy, opened(copy) as database:
        text = "\n".join(database.iterdump())
    with opened(target) as database:
        database.executescript(text)


def dumped(source, target, _):
    with copy_of(source) as copy:
        piped(copy, ".dump", target)


def recovered(source, target, _):
    with copy_of(source) as copy:
        piped(copy, RECOVER, target)


def shuffled(source, target, chance):
    """Tables and indexes are made in an order that chance draws, an index after its table; and so are rows put in."""
    with copy_of(source) as copy, opened(target) as database:
        database.execute("ATTACH ? AS old", [str(copy)])
        made = database.execute("SELECT name, tbl_name, sql FROM old.sqlite_schema WHERE sql IS NOT NULL").fetchall()
        for name, table, text in drawn(made, chance):
            database.execute(text)
            if name == table:
                put_rows(database, table, chance)


def listed_anew(source, target, chance):
    """The list of tables and indexes has another order, an automatic index too; what they hold stays in its place."""
    copied(source, target)
    with opened(target) as database:
        rows = database.execute("SELECT name, tbl_name, type, rootpage, sql FROM sqlite_schema").fetchall()
        version, = database.execute("PRAGMA schema_version").fetchone()
        database.execute("PRAGMA writable_schema = ON")
        database.execute("BEGIN")
        database.execute("DELETE FROM sqlite_schema")
        database.executemany("INSERT INTO sqlite_schema (name, tbl_name, type, rootpage, sql) VALUES (?, ?, ?, ?, ?)",
                             drawn(rows, chance))
        database.execute(f"PRAGMA schema_version = {version + 1}")
        database.execute("COMMIT")


@contextlib.contextmanager
def copy_of(source):
    """A copy of a database in a folder of its own: SQLite would take the log away from the one that is read."""
    with tempfile.TemporaryDirectory(dir=source.parent) as folder:
        yield copied(source, source.parent / folder / "copy")


def drawn(rows, chance):
    """What a database lists, in an order that chance draws; a row begins with a name and that of its table, which comes first."""
    places = {name: chance.random() for name, *_ in rows}
    return sorted(rows, key=lambda row: (max(places[row[0]], places[row[1]]), row[0] != row[1]))


def put_rows(database, table, chance):
    rows = database.execute(f"SELECT * FROM old.{table}").fetchall()
    if table not in IN_ORDER:
        chance.shuffle(rows)
    if rows:
        database.executemany(f"INSERT INTO main.{table} VALUES ({', '.join('?' * len(rows[0]))})", rows)


def told(path, words):
    """What the command `sqlite3` tells of a database, and whether it could."""
    result = subprocess.run(["sqlite3", path, words], capture_output=True, timeout=PATIENCE)
    return result.stdout, result.returncode == 0 and not result.stderr and b"sql error" not in result.stdout


def piped(source, words, target):
    """The database that the command `sqlite3` makes of what it tells of another."""
    text, _ = told(source, words)
    subprocess.run(["sqlite3", target], input=text, check=True, timeout=PATIENCE)


def has_command():
    return shutil.which("sqlite3") is not None


def can_recover():
    """Whether the command is there and knows `.recover`, as that of Debian 12 does not."""
    with tempfile.TemporaryDirectory() as folder:
        path = f"{folder}/small"
        changed(path, "CREATE TABLE small (id)")
        return has_command() and told(path, RECOVER)[1]


def ways():
    """Every way by its name, and those that this machine has not."""
    there = {"VACUUM": vacuumed, "VACUUM INTO": vacuumed_into, "a dump by names": dumped_by_name, "shuffled": shuffled,
             "shuffled again": shuffled, "listed anew": listed_anew}
    command = {".dump": (dumped, has_command()), ".recover": (recovered, can_recover())}
    return ({**there, **{name: way for name, (way, is_there) in command.items() if is_there}},
            [name for name, (_, is_there) in command.items() if not is_there])
