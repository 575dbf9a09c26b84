"""What `import` and `statement` print, over the plain lists of plain_house.py and by Python's csv, for comparison."""
import csv
import io
import os
import re
import time

from lib.days import day_of
from lib.plain_site import MOST_BODY
from lib.sent import compact
from lib.statement import COLUMNS, amount, records, totals

HEAD = ["lot", "category", "title", "text", "start", "buy_now", "end"]
NUMBER = re.compile(r"[0-9]{1,10}", re.ASCII)
AMOUNT = re.compile(r"([0-9]+)(?:\.([0-9]{2}))?", re.ASCII)
MOST_CENTS = 1_000_000_000
MARK = b"\xef\xbb\xbf"


def cents(text):
    """The cents of an amount, or none."""
    parts = AMOUNT.fullmatch(text)
    value = int(parts[1]) * 100 + int(parts[2] or 0) if parts else None
    return value if value is not None and value <= MOST_CENTS else None


def number(text):
    return int(text) if NUMBER.fullmatch(text) else None


def maybe_cents(text):
    return cents(text) if text else 0


# How each field is read; what can't be read is none.
READERS = {"lot": str, "category": number, "title": str, "text": str, "start": cents, "buy_now": maybe_cents,
           "end": number}


def rows_of(text):
    """The records of a table, as Python's csv reads them: a mark of the byte order before it is no part of it."""
    text = text.removeprefix(MARK).decode()
    return [row for row in csv.reader(io.StringIO(text, newline="")) if row]


def outcome(house, member, moment, row):
    """What becomes of a row."""
    values = {name: READERS[name](field) for name, field in zip(HEAD, row)}
    for name, value in values.items():
        if value is None:
            return f"fault {name}"
    if not row[HEAD.index("buy_now")]:
        del values["buy_now"]
    if len(compact(values)) > MOST_BODY:
        return "refused Range"
    words = [values.get(name) for name in ("category", "lot", "title", "text", "start", "buy_now", "end")]
    answer = house.order(moment, member, "list", *words)
    if answer == "ok":
        return f"item {len(house.rows)}"
    return "there already" if answer == "LotExists" else f"refused {answer}"


def imported(house, member, moment, text):
    """How an import ends: the status, what is printed, and the line on standard error."""
    head, *rows = rows_of(text) or [[]]
    if head != HEAD:
        return 1, b"", b"auction: lots: Head\n"
    lines, error = [], b""
    for row in rows:
        if len(row) != len(HEAD):
            error = b"auction: lots: Csv\n"
            break
        lines.append(outcome(house, member, moment, row))
    listed = sum(line.startswith("item") for line in lines)
    there = lines.count("there already")
    refused = len(lines) - listed - there
    printed = [f"row {at}: {line}" for at, line in enumerate(lines, 1)]
    if not error:
        printed.append(f"{listed} listed, {there} there already, {refused} refused")
    return int(bool(refused or error)), "".join(f"{line}\n" for line in printed).encode(), error


def lines_of(house, rate, member, first, last):
    """A member's lines of a period, by day and item; days are counted by the zone of the environment."""
    found = []
    for item in house.sold_items():
        day, buyer, price = day_of(item.closed), house.leader(item), house.price(item)
        if member in (item.seller, buyer) and first <= day <= last:
            sold = member == item.seller
            fee = price * rate // 10_000 if sold else 0
            found.append((day, item.number, "sell" if sold else "buy", buyer if sold else item.seller, price, fee,
                          price - fee))
    return [(spelled(day), *line) for day, *line in sorted(found)]


def spelled(day):
    """A day's number as it is written."""
    return time.strftime("%Y-%m-%d", time.gmtime(day * 86_400))


def set_zone(rule):
    os.environ["TZ"] = rule
    time.tzset()


def statement_text(found):
    return ("".join(COLUMNS.format(*record) for record in records(found)) + totals(found)).encode()


def statement_csv(found):
    table = io.StringIO()
    csv.writer(table, lineterminator="\n").writerows(records(found))
    return table.getvalue().encode()


def statement_page(member, found):
    """The page of a statement."""
    keys = ("day", "item", "role", "other", "price", "fee", "net")
    sold = [line for line in found if line[2] == "sell"]
    return {"lines": [dict(zip(keys, line)) for line in found], "member": member,
            "sold": sum(line[4] for line in sold), "fees": sum(line[5] for line in sold),
            "net": sum(line[6] for line in sold), "bought": sum(line[4] for line in found if line[2] == "buy")}


def read_back(text, table):
    """The cents of a statement's totals and of its lines, as they are read from its text and its table."""
    sums = {name: to_cents(value) for name, value in (line.split() for line in text.decode().splitlines()[-4:])}
    rows = list(csv.DictReader(io.StringIO(table.decode(), newline=""), strict=True))
    lines = [(row["role"], *(to_cents(row[name]) for name in ("price", "fee", "net"))) for row in rows]
    return sums, lines


def to_cents(text):
    assert amount(int(text.replace(".", ""))) == text, text
    return int(text.replace(".", ""))
