"""Makes the statements of bids on a house in a file by SQLite itself: `sqlite_bids.py FILE BIDS`.

It does what the program `bench_sqlite` does by the kit's SQLite, on the same tables: of each bid on item 1 the four statements, and
a commit, with the log and the syncs that the house has. It prints how many microseconds a bid takes, on average and in the middle.
"""
import sqlite3
import statistics
import sys
import time

READ = ("SELECT id, seller, category, start, buy_now, ending, state, closed, price, leader, count, top, second FROM item "
        "WHERE id = ?1 ORDER BY id")


def place(database, number):
    """One bid, in one transaction."""
    member, top = 2 + number % 2, 10_000 * number
    database.execute(READ, (1,)).fetchall()
    database.execute("BEGIN IMMEDIATE")
    database.execute("INSERT INTO bid (item, no, member, maximum) VALUES (?1, ?2, ?3, ?4)", (1, number, member, top))
    database.execute("UPDATE item SET price = ?2, leader = ?3, top = ?4, second = ?5, count = ?6 WHERE id = ?1",
                     (1, top, member, top, top, number))
    database.execute("UPDATE house SET clock = ?2 WHERE id = ?1", (1, 1_001))
    database.execute("COMMIT")


def main(file, count):
    database, times = sqlite3.connect(file, isolation_level=None), []
    for line in "PRAGMA journal_mode=WAL", "PRAGMA synchronous=FULL", "PRAGMA foreign_keys=ON":
        database.execute(line)
    for number in range(1, int(count) + 1):
        began = time.perf_counter()
        place(database, number)
        times.append(1e6 * (time.perf_counter() - began))
    print(f"{statistics.mean(times):.1f} {statistics.median(times):.1f}")


if __name__ == "__main__":
    main(*sys.argv[1:])
