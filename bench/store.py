"""How long the house in SQLite takes in a file, beside Python's `sqlite3` on the same tables.

`store.py PROGRAM [SIZE..]` makes houses of so many items, and as many members, by the program `test_store`, each in
a file, with a commit a command, and then opens and asks them. Shown are commits a second as the house is made, by the
clock, over all its commands, beside those of Python for the two statements of a listing on the same file, with
`journal_mode=WAL` and `synchronous=FULL`; how long an opening takes, with the most memory that it holds; and nanoseconds of the processor for
a line of each kind, the least of a few runs that take the sizes in turn, less those of `? clock`, with the greatest
size's over the least's, and over those that Python's `sqlite3` takes for the same statement.
"""
import pathlib
import sqlite3
import subprocess
import sys
import tempfile
import time

import house

SIZES = [1_000, 10_000, 100_000]
COMMITS = 2_000
RUNS = 3
TERMS = "id, seller, category, start, buy_now, ending, state, closed, price, leader, count"
ITEM = f"{TERMS}, lot, title, body"
# What a line asks that is one statement, with what is bound to it.
STATEMENTS = {
    "member": ("SELECT id, name FROM member WHERE id = ?1 ORDER BY id", lambda h: (h.member(),)),
    "member of a name": ("SELECT id, name FROM member WHERE name = ?1 ORDER BY id", lambda h: (f"M{h.member()}",)),
    "item": (f"SELECT {ITEM} FROM item WHERE id = ?1 ORDER BY id", lambda h: (h.item(),)),
    "standing": (f"SELECT {TERMS}, top, second FROM item WHERE id = ?1 ORDER BY id", lambda h: (h.item(),)),
    "item of a lot": ("SELECT id FROM item WHERE seller = ?1 AND lot = ?2 ORDER BY id",
                      lambda h: (h.member(), f"L{h.item()}")),
    "watched": ("SELECT item FROM watch WHERE member = ?1 AND item = ?2", lambda h: (h.member(), h.item())),
    "question": ("SELECT item, asker, n, answer, body FROM question WHERE item = ?1 AND asker = ?2 AND n = ?3 ORDER BY rowid",
                 lambda h: (h.item(), h.member(), 1)),
    "items of a category": (f"SELECT {ITEM} FROM item WHERE category = ?1 AND id >= ?2 ORDER BY id",
                            lambda h: (h.random.randint(1, h.categories), 0)),
    "own questions": ("SELECT item, asker, n, answer, body FROM question WHERE asker = ?1 AND item >= ?2 ORDER BY asker, item, n",
                      lambda h: (h.busy(), 0)),
    "feedback": ("SELECT item, giver, receiver, rating, body FROM feedback WHERE receiver = ?1 AND item >= ?2 ORDER BY item, giver",
                 lambda h: (h.busy(), 0)),
}
LINES = {house.LINES: 2_000, house.LISTS: 200}


def seconds(command, lines):
    """What the clock shows for a run that plays so many lines."""
    script = "\n".join(lines) + "\n"
    begun = time.perf_counter()
    ran = subprocess.run(command, input=script, text=True, check=True, capture_output=True)
    return time.perf_counter() - begun, ran.stdout.splitlines()


def made(program, path, plan):
    """Makes a house: commits a second."""
    commands = list(plan.made())
    spent, answers = seconds([program, "make", path], commands)
    if set(answers) != {"ok"}:
        sys.exit("store.py: a command was refused")
    return len(commands) / spent


def asked(program, path, plan):
    """Asks a house: nanoseconds of the processor for a line of each kind."""
    lines = []
    for count, line in house.ASKED.values():
        lines += ["time", *(line(plan) for _ in range(LINES[count])), "time"]
    _, answers = seconds([program, "ask", path], lines)
    at, times = 0, {}
    for kind, (count, _) in house.ASKED.items():
        last = at + LINES[count] + 1
        times[kind] = (int(answers[last]) - int(answers[at])) / LINES[count]
        at = last + 1
    return times


def least(runs):
    """The least time of each kind."""
    return {kind: min(run[kind] for run in runs) for kind in runs[0]}


def pythons_commits(path, items):
    """Commits a second that Python makes with listings, in the tables of a house."""
    there = sqlite3.connect(path, isolation_level=None)
    there.execute("PRAGMA journal_mode=WAL")
    there.execute("PRAGMA synchronous=FULL")
    begun = time.perf_counter()
    for number in range(COMMITS):
        there.execute("BEGIN")
        there.execute("INSERT INTO item (id, seller, category, lot, title, body, start, buy_now, ending, state, closed, price, leader, top, second, count) VALUES (?1, ?2, ?3, ?4, ?5, ?6, ?7, ?8, ?9, 0, NULL, ?7, NULL, NULL, NULL, 0)",
                      (items + 1 + number, 1, 1, f"P{number}", "Title", "Text" * 20, 500, 900000, house.END))
        there.execute("UPDATE house SET clock = ?2 WHERE id = ?1", (1, house.MOMENT))
        there.execute("COMMIT")
    spent = time.perf_counter() - begun
    there.close()
    return COMMITS / spent


def pythons_answers(path, plan):
    """Nanoseconds of the processor that Python takes for each statement."""
    there = sqlite3.connect(path)
    times = {}
    for kind, (statement, bound) in STATEMENTS.items():
        count = LINES[house.KINDS[kind][0]]
        values = [bound(plan) for _ in range(count)]
        begun = time.process_time_ns()
        for value in values:
            there.execute(statement, value).fetchmany(50)
        times[kind] = (time.process_time_ns() - begun) / count
    there.close()
    return times


def opening(program, path):
    """Seconds that an opening takes, and the most memory that it holds, in bytes."""
    begun = time.perf_counter()
    ran = subprocess.run(["/usr/bin/time", "-f", "%M", program, "ask", path], input="", text=True, check=True,
                         stdout=subprocess.DEVNULL, stderr=subprocess.PIPE)
    return time.perf_counter() - begun, int(ran.stderr.split()[-1]) * 1024


def main(program, sizes):
    program = str(pathlib.Path(program).resolve())
    plans = [house.House(items, house.NAMED) for items in sizes]
    with tempfile.TemporaryDirectory() as folder:
        paths = [f"{folder}/house{items}" for items in sizes]
        rates = [made(program, path, plan) for path, plan in zip(paths, plans)]
        runs = [[(asked(program, path, plan), pythons_answers(path, plan)) for path, plan in zip(paths, plans)]
                for _ in range(RUNS)]
        times = [least([run[place][0] for run in runs]) for place in range(len(sizes))]
        pythons = [least([run[place][1] for run in runs]) for place in range(len(sizes))]
        for items, path, rate in zip(sizes, paths, rates):
            spent, held = opening(program, path)
            print(f"{items:,} items: {rate:,.0f} commits a second, Python {pythons_commits(path, items):,.0f}; "
                  f"opened in {spent * 1000:,.0f} ms, {held / 1e6:,.0f} MB held")
    show(times, pythons, sizes)


def show(times, pythons, sizes):
    """The times of each kind at each size, and over the others."""
    print(f"{'nanoseconds a line':22}" + "".join(f"{items:>12,}" for items in sizes) + f"{'ratio':>8}{'over Python':>16}")
    for kind in house.ASKED:
        rows = [row[kind] - (row["clock"] if kind != "clock" else 0) for row in times]
        beside = f"{rows[0] / pythons[0][kind]:.2f} to {rows[-1] / pythons[-1][kind]:.2f}" if kind in STATEMENTS else ""
        print(f"{kind:22}" + "".join(f"{row:12,.0f}" for row in rows) + f"{rows[-1] / rows[0]:8.2f}{beside:>16}")


if __name__ == "__main__":
    main(sys.argv[1], [int(size) for size in sys.argv[2:]] or SIZES)
