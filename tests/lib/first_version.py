"""The houses of version 1 that version-1/ keeps: what lies in a file, by SQLite, and what an upgrade has to make of it."""
import contextlib
import shutil
import sqlite3
import tempfile

from lib.checks import check
from lib.places import LIB
from lib.plain_site import Site
from lib.routes import commands

KEPT = LIB / "version-1"
ENDINGS = ("", "-wal")
TABLES = ("house", "band", "member", "category", "item", "bid", "watch", "question", "feedback")
# What version 2 has more, with its columns and the place of each in the key.
LATER = {"reserve": (("item", 1), ("amount", 0)), "edition": (("edition", 1), ("first", 0)),
         "later_band": (("edition", 1), ("at", 2), ("step", 0))}
STATES = ("open", "sold", "unsold", "settled")
UPGRADED, IS_VERSION_2 = (0, b"upgraded\n", b""), (0, b"is version 2\n", b"")


def laid(kept, path):
    """Lays a kept house at a path, with its log if it has one."""
    for ending in ENDINGS:
        path.with_name(path.name + ending).unlink(missing_ok=True)
        if (KEPT / (kept + ending)).exists():
            shutil.copy(KEPT / (kept + ending), path.with_name(path.name + ending))
    return path


def found(path):
    """The texts of the schema and the rows of each table, by SQLite on a copy with the log, in which it finds no fault."""
    with tempfile.TemporaryDirectory() as folder:
        for ending in ENDINGS:
            if path.with_name(path.name + ending).exists():
                shutil.copy(path.with_name(path.name + ending), f"{folder}/copy{ending}")
        with contextlib.closing(sqlite3.connect(f"{folder}/copy")) as database:
            check(f"{path.name} is sound", database.execute("PRAGMA integrity_check").fetchall(), [("ok",)])
            check(f"{path.name} has no dangling row", database.execute("PRAGMA foreign_key_check").fetchall(), [])
            schema = database.execute("SELECT type, name, tbl_name, sql FROM sqlite_schema ORDER BY rowid").fetchall()
            tables = [name for kind, name, _, _ in schema if kind == "table"]
            return schema, {name: database.execute(f"SELECT * FROM {name} ORDER BY rowid").fetchall() for name in tables}


def by_key(rows):
    """The rows of each table in the order of its key, which no table has beyond its third column."""
    return {name: sorted(table, key=lambda row: row[:3]) for name, table in rows.items()}


def plain_rows():
    """The rows of version 1 by the rules in Python, each table's in the order of its key."""
    site = Site(preset=True)
    for request in commands():
        site.answer(request)
    house = site.house
    bids = [bid for item in house.rows for bid in enumerate(house.placed_on(item), 1)]
    return {"house": [(1, 1, house.now, 1000, "UTC0")], "band": house.tables[0],
            "member": list(enumerate(house.names, 1)), "category": list(enumerate(house.kinds, 1)),
            "item": [item_row(house, item) for item in house.rows],
            "bid": [(bid.item, number, bid.member, bid.maximum) for number, bid in bids],
            "watch": sorted(house.watching),
            "question": [(q.item, q.asker, q.number, q.text, q.answer) for q in house.sorted_questions()],
            "feedback": [(f.item, f.giver, f.to, f.rating, f.text) for f in house.sorted_feedback()]}


def item_row(house, item):
    """The columns of an item; a purchase leaves no maxima."""
    standing = house.standing_of(item)
    return (item.number, item.seller, item.category, item.lot, item.title, item.text, item.start, item.buy_now, item.end,
            STATES.index(item.state), item.closed, house.price(item), house.leader(item), standing.top, standing.second,
            standing.count)


def upgraded(rows):
    """What an upgrade has to leave of the rows of version 1: each, but for the version, and tables that are empty."""
    (number, version, *settings), = rows["house"]
    check("version 1", (number, version, list(rows)), (1, 1, list(TABLES)))
    return {**rows, "house": [(1, 2, *settings)], **{name: [] for name in LATER}}
