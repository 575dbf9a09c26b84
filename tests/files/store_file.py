#!/usr/bin/env python3
"""Plays a script on a house in a file, and looks at the file: `store_file.py PROGRAM`.

The program is that of the crate `test_store`, and the script the part of its section `houses` on those in SQLite before `fill`. A
first run makes the house in a new file and is given the commands; a second opens the file and is asked; each answer has to be the
one that it has. Then Python's sqlite3, and SQLite's shell where it is there, look for damage and for keys that lead nowhere, and
read the tables, which have to be those of the script's commands. A house isn't made in a file that has one. A file that is no
house, or a damaged one, answers nothing and stays as it is: an empty one, one cut short, one with a page overwritten, and one
with other tables or another version. One with a row that has a column out of its range, or whose columns don't fit together, is
opened, and doesn't answer when that row is asked for.

Then each column of each row of every table is spoiled in turn, and every look-up and every list is asked: each is refused, or
answers as before, or as if the row weren't there where the column is one by which rows are found; an item that is due by a
spoiled column isn't counted as due. The same of items as no bids and no purchase leave them, by their columns or by their
reserves, whose readers are all refused; but a former leader has bought no such item, and no list of reserves has one without. The
last line is 'N checks, M wrong'.

Promise: operations
"""
import contextlib
import pathlib
import re
import shutil
import sqlite3
import subprocess
import sys
import tempfile

from lib.checks import check
from lib.places import ROOT
from lib.sent import PATIENCE
from lib.transcript import pairs, section

CRATE = ROOT / "crates" / "test_store"
# A question that any house answers once it is open, and its answer by the script.
CLOCK, MOMENT = "? clock", "7001"
# By the script's commands. Items are open (0), sold (1), unsold (2) or settled (3).
TABLES = {
    "house": [(1, 2, 7001, 1000, "UTC0")],
    "band": [(0, 5), (100, 25), (500, 50), (2500, 100), (10000, 250), (25000, 500), (50000, 1000),
             (100000, 2500), (250000, 5000), (500000, 10000)],
    "member": [(1, "Ana"), (2, "Ben"), (3, "Cid")],
    "category": [(1, "Books"), (2, "Maps")],
    "item": [(1, 1, 1, "A1", "Atlas", "An atlas of 1952", 500, None, 5000, 3, 5000, 1000, 3, 1000, 1000, 3),
             (2, 1, 2, "B2", "Globe", "", 500, 900, 6000, 1, 1003, 900, 2, None, None, 0),
             (3, 1, 2, "C3", "Chart", "", 500, None, 5000, 1, 5000, 500, 3, 700, None, 1),
             (4, 2, 1, "A1", "Novel", "", 100, None, 7000, 1, 7000, 125, 3, 600, 100, 2),
             (5, 1, 2, "K4", "Compass", "", 500, 800, 6000, 2, 6000, 500, None, None, None, 0),
             (6, 2, 2, "R6", "Lamp", "", 500, None, 7000, 2, 7000, 750, 1, 750, 700, 2),
             (7, 1, 1, "R7", "Vase", "", 500, None, 5000, 1, 5000, 900, 2, 1000, None, 2),
             (8, 1, 2, "R8", "Bell", "", 100, 600, 6000, 1, 1003, 600, 2, None, None, 0),
             (9, 1, 1, "G9", "Clock", "", 100, None, 9000, 0, None, 100, 2, 100, None, 1),
             (10, 1, 1, "H10", "Scale", "", 100, None, 9000, 0, None, 109, 3, 110, 100, 2)],
    "bid": [(1, 1, 2, 500), (1, 2, 3, 1000), (1, 3, 2, 1000), (3, 1, 3, 700), (4, 1, 1, 100), (4, 2, 3, 600),
            (6, 1, 3, 700), (6, 2, 1, 750), (7, 1, 2, 899), (7, 2, 2, 1000), (9, 1, 2, 100), (10, 1, 2, 100), (10, 2, 3, 110)],
    "watch": [(2, 1), (2, 4), (3, 1)],
    "question": [(1, 2, 1, "How old?", None), (1, 3, 1, "Is it signed?", None),
                 (1, 3, 2, "By whom?", "By its maker"), (4, 3, 1, "In French?", None)],
    "feedback": [(1, 1, 3, 1, "Good"), (1, 3, 1, 1, "No party"), (2, 2, 1, -1, "Late")],
    "reserve": [(6, 900), (7, 900), (8, 600)],
    "edition": [(2, 10), (3, 10)],
    "later_band": [(2, 0, 3), (2, 110, 11), (3, 0, 9)],
}

# What sqlite3 does to the file, and a question whose answer it spoils.
SPOILED = [
    ("CREATE TABLE more (id INTEGER PRIMARY KEY) STRICT", CLOCK),
    ("CREATE VIEW more AS SELECT id FROM item", CLOCK),
    ("DROP INDEX item_by_end", CLOCK),
    ("DROP TABLE watch", CLOCK),
    ("DROP TABLE later_band", CLOCK),
    ("UPDATE house SET version = 1", CLOCK),
    ("UPDATE house SET version = 3", CLOCK),
    ("UPDATE house SET clock = 4102444801", CLOCK),
    ("UPDATE house SET rate = 2001", CLOCK),
    ("UPDATE house SET zone = zone || char(10)", CLOCK),
    ("UPDATE house SET id = 2", CLOCK),
    ("DELETE FROM house", CLOCK),
    ("DELETE FROM band", CLOCK),
    ("UPDATE band SET step = 0 WHERE at = 0", CLOCK),
    ("UPDATE edition SET edition = 4 WHERE edition = 3; UPDATE later_band SET edition = 4 WHERE edition = 3", CLOCK),
    ("DELETE FROM edition WHERE edition = 3", CLOCK),
    ("DELETE FROM later_band WHERE edition = 3", CLOCK),
    ("UPDATE later_band SET step = 2 WHERE at = 110", CLOCK),
    ("INSERT INTO later_band VALUES (4, 0, 9)", CLOCK),
    ("UPDATE edition SET first = 11 WHERE edition = 3", "? standing 10"),
    ("DELETE FROM member WHERE id = 2", CLOCK),
    ("UPDATE item SET category = 9 WHERE id = 1", CLOCK),
    ("UPDATE member SET name = '' WHERE id = 1", "? member 1"),
    ("UPDATE member SET name = 'A' || char(10) WHERE id = 1", "? members"),
    ("UPDATE category SET name = '' WHERE id = 1", "? category 1"),
    ("UPDATE item SET lot = 'A 1' WHERE id = 1", "? item 1"),
    ("UPDATE item SET title = '' WHERE id = 1", "? item 1"),
    ("UPDATE item SET body = char(127) WHERE id = 1", "? item 1"),
    ("UPDATE item SET start = 0 WHERE id = 1", "? item 1"),
    ("UPDATE item SET buy_now = 499 WHERE id = 5", "? item 5"),
    ("UPDATE item SET ending = 4102444801 WHERE id = 1", "? state 1"),
    ("UPDATE item SET state = 4 WHERE id = 1", "? state 1"),
    ("UPDATE item SET state = -1 WHERE id = 1", "? items_in 1 0"),
    ("UPDATE item SET closed = NULL WHERE id = 1", "? state 1"),
    ("UPDATE item SET closed = -1 WHERE id = 1", "? state 1"),
    ("UPDATE item SET price = -1 WHERE id = 1", "? state 1"),
    ("UPDATE item SET price = 100000000001 WHERE id = 1", "? state 1"),
    ("UPDATE item SET leader = 1 WHERE id = 1", "? state 1"),
    ("UPDATE item SET leader = NULL WHERE id = 1", "? state 1"),
    ("UPDATE item SET count = -1 WHERE id = 1", "? state 1"),
    ("UPDATE item SET count = 0 WHERE id = 1", "? standing 1"),
    ("UPDATE item SET leader = NULL WHERE id = 4", "? standing 4"),
    ("UPDATE item SET top = NULL WHERE id = 1", "? standing 1"),
    ("UPDATE item SET top = 999 WHERE id = 1", "? standing 1"),
    ("UPDATE item SET second = 1001 WHERE id = 1", "? standing 1"),
    ("UPDATE item SET price = 499 WHERE id = 1", "? standing 1"),
    ("DROP TABLE reserve", CLOCK),
    ("UPDATE reserve SET amount = -1 WHERE item = 6", CLOCK),
    ("UPDATE reserve SET amount = 1000000001 WHERE item = 6", CLOCK),
    ("UPDATE reserve SET item = 19 WHERE item = 8", CLOCK),
    ("INSERT INTO reserve VALUES (4, 200)", "? state 4"),
    ("UPDATE reserve SET amount = 901 WHERE item = 7", "? reserves 1 0"),
    ("UPDATE reserve SET amount = 901 WHERE item = 7", "? reserve 7"),
    ("DELETE FROM reserve WHERE item = 7", "? standing 7"),
    ("UPDATE bid SET maximum = -1 WHERE item = 1 AND member = 2", "? own 1 2"),
    ("UPDATE question SET n = 21 WHERE n = 2", "? questions 3 0"),
    ("UPDATE question SET body = '' WHERE asker = 2", "? questions 2 0"),
    ("UPDATE question SET answer = '' WHERE n = 2", "? published 1 0"),
    ("UPDATE feedback SET rating = 2 WHERE giver = 1", "? feedback 3 0"),
    ("UPDATE feedback SET rating = -2 WHERE giver = 1", "? ratings 3"),
    ("UPDATE feedback SET rating = 5 WHERE item = 1 AND giver = 1", "? given 1 1"),
]

# What leaves an item as no bids and no purchase do, each column in its range; and the item.
UNSTANDING = [
    ("second = 1001", 1),
    ("top = 999", 1),
    ("top = NULL, second = NULL, count = 0", 1),
    ("second = NULL", 1),
    ("count = 1", 1),
    ("price = 777", 1),
    ("leader = 2, top = NULL", 1),
    ("price = 901", 2),
    ("buy_now = 901", 2),
    ("buy_now = NULL", 2),
    ("state = 0, closed = NULL", 2),
    ("state = 2", 2),
    ("count = 1", 2),
    ("second = 500", 2),
    ("second = 600", 3),
    ("price = 777", 3),
    ("price = 777", 5),
    ("leader = 2", 5),
    ("state = 0, closed = NULL, leader = 2", 5),
    ("state = 1, leader = 2", 5),
    ("count = 1", 5),
    ("top = 500", 5),
    ("second = 500", 5),
    ("price = 950", 6),
    ("top = 900", 6),
    ("price = 500", 7),
    ("price = 950", 7),
    ("top = 899", 7),
    ("buy_now = 601", 8),
]
# The same of reserves: one over the price that it has to have raised, one at the start, one that isn't met under the
# price, none, and one that would have raised it.
UNSTANDING_RESERVES = [
    ("UPDATE reserve SET amount = 901 WHERE item = 7", 7),
    ("UPDATE reserve SET amount = 500 WHERE item = 7", 7),
    ("UPDATE reserve SET amount = 1001 WHERE item = 7", 7),
    ("DELETE FROM reserve WHERE item = 7", 7),
    ("INSERT INTO reserve VALUES (4, 200)", 4),
]


# The columns by which rows are found, beside the keys.
FOUND_BY = {("member", "name"), ("category", "name"), ("item", "lot"), ("question", "answer")}
# The columns by which an item is due, and the question of those that are due at last.
DUE_BY, LAST_DUE = {("item", "state"), ("item", "ending")}, "? due 4294967296"


def numbers(table):
    """The numbers of a table's rows."""
    return [row[0] for row in TABLES[table]]


def every_question():
    """Every look-up and every list, of each item, member and category."""
    yield CLOCK
    yield from ("? newest", "? edition 9", "? edition 10", "? bands 1", "? bands 2", "? bands 3")
    yield from ("? counts", "? members", "? categories", "? items", "? all_published", "? all_feedback")
    yield from ("? due 4999", "? due 7000", LAST_DUE)
    for number, name in TABLES["member"]:
        yield f"? member_named {name}"
        yield from (f"? member {number}", f"? has_member {number}", f"? sales {number}", f"? ratings {number}")
        yield from (f"? watches {number}", f"? watch_count {number}")
        yield from (f"? waiting {number}", f"? first_waiting {number}")
        yield from (f"? bids {number} 0", f"? questions {number} 0", f"? feedback {number} 0", f"? reserves {number} 0")
    for number, name in TABLES["category"]:
        yield from (f"? category_named {name}", f"? category {number}", f"? has_category {number}")
        yield f"? items_in {number} 0"
    for item in TABLES["item"]:
        number = item[0]
        yield from (f"? item {number}", f"? state {number}", f"? standing {number}", f"? published {number} 0")
        yield f"? reserve {number}"
        yield f"? item_of {item[1]} {item[3]}"
        for member in numbers("member"):
            yield from (f"? own {number} {member}", f"? watched {member} {number}", f"? given {number} {member}")
            yield from (f"? ask_count {number} {member}", f"? question {number} {member} 1")


def is_there(path, what, number):
    """Whether a file has an item that is open, or that has a reserve."""
    with contextlib.closing(sqlite3.connect(path)) as tables:
        return tables.execute(f"SELECT 1 FROM {what} = ?", (number,)).fetchone() is not None


def readers(path, number):
    """The questions that read the row of an item in a file, by the tables."""
    item = next(row for row in TABLES["item"] if row[0] == number)
    yield from ("? items", f"? item {number}", f"? state {number}", f"? standing {number}", f"? reserve {number}",
                f"? items_in {item[2]} 0")
    if is_there(path, "item WHERE state = 0 AND id", number):
        yield LAST_DUE
    if is_there(path, "reserve WHERE item", number):
        yield f"? reserves {item[1]} 0"
    yield from (f"? sales {item[1]}", f"? waiting {item[1]}", f"? first_waiting {item[1]}")
    yield from (f"? watches {member}" for member, watched in TABLES["watch"] if watched == number)
    yield from {f"? bids {bid[2]} 0" for bid in TABLES["bid"] if bid[0] == number}


def answered():
    """The lines of the script in SQLite that have an answer, each with it."""
    _, script = section((CRATE / "stdout").read_bytes().decode(), "houses").split("\n-- In SQLite.\n")
    return [(line, *answer) for line, answer in pairs(script) if answer]


def parts():
    """The script before `fill`, and the questions after it up to the next command."""
    lines = answered()
    place = [line for line, _ in lines].index("fill")
    asked = lines[place + 1:]
    end = next(number for number, (line, _) in enumerate(asked) if not line.startswith("?"))
    return lines[:place], asked[:end]


def played(program, word, path, lines):
    """How a run ends that plays lines: its status, and its answers."""
    script = "\n".join(line for line, _ in lines)
    result = subprocess.run([program, word, path], input=script.encode(), capture_output=True, timeout=PATIENCE)
    return result.returncode, result.stdout.decode().splitlines()


def expected(lines):
    """How it has to end."""
    return 0, [answer for _, answer in lines]


def spoiled(whole, folder):
    """Files that are no house, or a damaged one: what they are, their bytes, and a question."""
    size = int.from_bytes(whole[16:18], "big")
    yield "empty", b"", CLOCK
    for short in len(whole) - 1, len(whole) - size, len(whole) // 2, size, 99:
        yield f"cut short at {short}", whole[:short], CLOCK
    for at in range(0, len(whole), size):
        for byte in 0, 255:
            yield f"page {at // size + 1} all {byte}", whole[:at] + bytes([byte]) * size + whole[at + size:], CLOCK
    path = folder / "spoiled.db"
    for statement, question in SPOILED:
        path.write_bytes(whole)
        with contextlib.closing(sqlite3.connect(path)) as tables:
            tables.executescript(statement)
            tables.commit()
        yield statement, path.read_bytes(), question


def refused(program, whole, folder):
    """The checks of such files: that a question isn't answered, and that the file is as it was."""
    for number, (what, content, question) in enumerate(spoiled(whole, folder)):
        path = folder / f"spoiled{number}.db"
        path.write_bytes(content)
        before = [] if question == CLOCK else [CLOCK]
        ended = played(program, "ask", str(path), [(line, "") for line in (*before, question)])
        yield what, (ended, path.read_bytes() == content), ((1, [MOMENT for _ in before]), True)


def answers(program, path, questions):
    """The answer to each question, or None where it is refused; None to all if the house isn't opened."""
    found = {question: None for question in questions}
    left = list(questions)
    while left:
        _, lines = played(program, "ask", path, [(line, "") for line in left])
        if not lines and left[0] == CLOCK:
            break
        found.update(zip(left, lines))
        left = left[len(lines) + 1:]
    return found


def changed(whole, path, statement):
    """Lays a file out that a statement has changed; whether SQLite took it."""
    path.write_bytes(whole)
    with contextlib.closing(sqlite3.connect(path)) as tables:
        try:
            tables.execute(statement)
        except sqlite3.IntegrityError:
            return False
        tables.commit()
    return True


def left_out(answer, number):
    """A list of sales or reserves without that of an item."""
    of_item = (f"item {number}, seller", f"item {number}, reserve")
    return "; ".join(row for row in answer.split("; ") if not row.startswith(of_item))


def uncounted(answer):
    """How many items are due where one of them isn't, which was sold or unsold."""
    sold, unsold = (int(number) for number in re.findall(r"\d+", answer))
    return f"sold {sold - 1}, unsold {unsold}", f"sold {sold}, unsold {unsold - 1}"


def without(program, whole, path, row, questions):
    """The answers without a row."""
    changed(whole, path, f"DELETE FROM {row}")
    return answers(program, str(path), questions)


def columns(path):
    """Each column of each row: its table, the row, its name, its type, and whether rows are found by it."""
    with contextlib.closing(sqlite3.connect(path)) as tables:
        for table in TABLES:
            for row, in tables.execute(f"SELECT rowid FROM {table}").fetchall():
                for _, name, kind, _, _, key in tables.execute(f"PRAGMA table_info({table})").fetchall():
                    yield table, f"rowid = {row}", name, kind, key > 0 or (table, name) in FOUND_BY


def all_columns(program, whole, folder):
    """The checks of a file with one column spoiled: that no question is answered by it."""
    path = folder / "column.db"
    path.write_bytes(whole)
    questions = list(every_question())
    before = answers(program, str(path), questions)
    yield "every question", [each for each in questions if before[each] is None], []
    asked = {line.split()[1] for line, _ in answered() if line.startswith("?")}
    yield "every word", asked - {each.split()[1] for each in questions}, set()
    for table, row, name, kind, is_found_by in list(columns(path)):
        gone = without(program, whole, path, f"{table} WHERE {row}", questions) if is_found_by else before
        for value in ("-2", "1099511627776") if kind == "INTEGER" else ("char(10)", "printf('%.3000c', 'x')"):
            # A zone may be of any length.
            if (name, value[:6]) == ("zone", "printf"):
                continue
            if changed(whole, path, f"UPDATE {table} SET {name} = {value} WHERE {row}"):
                now = answers(program, str(path), questions)
                none = "-" if (table, name) in FOUND_BY else None
                due = uncounted(before[LAST_DUE]) if (table, name) in DUE_BY else ()
                wrong = [each for each in questions if now[each] not in (None, before[each], gone[each], none)
                         and not (each == LAST_DUE and now[each] in due)]
                yield f"{table}.{name} = {value} where {row}", (wrong, now == before), ([], False)
    of_items = [(f"UPDATE item SET {change} WHERE id = {number}", number) for change, number in UNSTANDING]
    for statement, number in [*of_items, *UNSTANDING_RESERVES]:
        changed(whole, path, statement)
        now = answers(program, str(path), questions)
        wrong = [each for each in questions if now[each] not in (None, before[each], left_out(before[each], number))]
        read = [each for each in readers(path, number) if now[each] is not None]
        yield statement, (wrong, read), ([], [])


def out_of_turn(program, whole, folder):
    """The check of editions whose first items don't rise: an item goes by the greatest edition that begins at or before it."""
    path = folder / "turn.db"
    changed(whole, path, "UPDATE edition SET first = 9 WHERE edition = 3")
    asked = [("? newest", "3"), ("? edition 8", "1"), ("? edition 9", "3"), ("? edition 10", "3")]
    yield "firsts out of turn", played(program, "ask", str(path), asked), expected(asked)


def tables_checked(path):
    """The checks of the tables by sqlite3, which leaves all in the one file."""
    with contextlib.closing(sqlite3.connect(path)) as tables:
        yield "integrity", tables.execute("PRAGMA integrity_check").fetchall(), [("ok",)]
        yield "foreign keys", tables.execute("PRAGMA foreign_key_check").fetchall(), []
        for name, rows in TABLES.items():
            yield name, sorted(tables.execute(f"SELECT * FROM {name}")), rows


def read_by_shell(path):
    """The checks of the tables by the shell of SQLite, where it is there."""
    if shutil.which("sqlite3") is None:
        return
    for name, rows in TABLES.items():
        lines = sorted("|".join("" if value is None else str(value) for value in row) for row in rows)
        yield f"{name} in the shell", sorted(shell(path, f"SELECT * FROM {name}")), lines
    yield "integrity in the shell", shell(path, "PRAGMA integrity_check; PRAGMA foreign_key_check"), ["ok"]


def shell(path, statement):
    """The lines that the shell shows."""
    ran = subprocess.run(["sqlite3", path, statement], capture_output=True, check=True, timeout=PATIENCE)
    return ran.stdout.decode().splitlines()


def checks(program, folder):
    """Each check: what it is of, what came and what should."""
    commands, questions = parts()
    path = folder / "made.db"
    yield "made", played(program, "make", str(path), commands), expected(commands)
    yield "asked", played(program, "ask", str(path), questions), expected(questions)
    yield "made twice", played(program, "make", str(path), commands), (1, [])
    yield "asked again", played(program, "ask", str(path), questions), expected(questions)
    yield from read_by_shell(path)
    yield from tables_checked(path)
    yield from refused(program, path.read_bytes(), folder)
    yield from all_columns(program, path.read_bytes(), folder)
    yield from out_of_turn(program, path.read_bytes(), folder)
    yield "asked at last", played(program, "ask", str(path), questions), expected(questions)


def main():
    program = str(pathlib.Path(sys.argv[1]).resolve())
    with tempfile.TemporaryDirectory() as folder:
        all_checks = list(checks(program, pathlib.Path(folder)))
    wrong = [check for check in all_checks if check[1] != check[2]]
    for name, got, expected in wrong:
        print(f"{name}\n  expected {expected}\n  got      {got}")
    print(f"{len(all_checks)} checks, {len(wrong)} wrong")
    return 1 if wrong else 0


if __name__ == "__main__":
    sys.exit(main())
