"""The statement of the program of crates/bench_settle, by Python alone."""
import csv
import io
import os
import time

RATE, ZONE = 1250, "CET-1CEST,M3.5.0,M10.5.0/3"
NAMES = ["day", "item", "role", "other", "price", "fee", "net"]
COLUMNS = "{:<10} {:>8} {:<4} {:>8} {:>14} {:>14} {:>14}\n"


def lines(count):
    """The member's sales, by day and item: each twentieth item sold, and those between bought."""
    os.environ["TZ"] = ZONE
    time.tzset()
    found = []
    for item in range(10, count + 1, 10):
        moment = 1_735_689_600 + item * 7_654_321 % 31_449_600
        day = time.strftime("%Y-%m-%d", time.localtime(moment))
        price = 1 + item * 12_347 % 99_991
        sold = item % 20 == 0
        fee = price * RATE // 10_000 if sold else 0
        other = 2 + item % 50_000
        found.append((day, item, "sell" if sold else "buy", other, price, fee, price - fee))
    return sorted(found)


def amount(cents):
    return f"{cents // 100}.{cents % 100:02}"


def records(found):
    return [NAMES] + [[*line[:4], *map(amount, line[4:])] for line in found]


def totals(found):
    sold = [line for line in found if line[2] == "sell"]
    bought = [line for line in found if line[2] == "buy"]
    sums = {"sold": sum(line[4] for line in sold), "fees": sum(line[5] for line in sold),
            "net": sum(line[6] for line in sold), "bought": sum(line[4] for line in bought)}
    return "".join(f"{name} {amount(cents)}\n" for name, cents in sums.items())


def statement(count):
    """The statement as text and then as CSV."""
    found = lines(count)
    text = "".join(COLUMNS.format(*record) for record in records(found)) + totals(found)
    table = io.StringIO()
    csv.writer(table, lineterminator="\n").writerows(records(found))
    return text + table.getvalue()
