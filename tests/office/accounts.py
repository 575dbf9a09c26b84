#!/usr/bin/env python3
"""Reads the statements of random houses in files: `accounts.py PROGRAM [HOUSES [SEED]]`.

Sales lie round the midnights of two zones with summer time. Each member's statement of some periods has to be, as text, as CSV
and as the page of `/me/statement`, the one of tests/lib/plain_office.py, and Python's `csv` has to read cents from it that add
up: what was sold to fees and net, and over all members what was bought to what was earned and the fees, and to the prices of the
public record. There are 6 periods and 4 members of each house. HOUSES is 6 without it. The last line is 'N checks, M wrong'.

Promise: operations
"""
import json
import pathlib
import random
import sys
import tempfile

from lib.checks import check, verdict
from lib.days import day_of
from lib.lot_office import SEED, Office
from lib.plain_office import lines_of, read_back, set_zone, spelled, statement_csv, statement_page, statement_text
from lib.plain_site import Site
from lib.sent import answers_in, command, compact, read, replayed, value_of
from lib.serving import Program

ZONES = ["CET-1CEST,M3.5.0,M10.5.0/3", "EST5EDT,M3.2.0,M11.1.0"]
DAY = 86_400
# The day of the last moment that a house knows.
LAST_DAY = 47_846


class Sales:
    """A random house with sales round the midnights of a zone: its messages, and the plain site."""

    def __init__(self, zone, chance):
        set_zone(zone)
        self.site, self.chance, self.requests = Site(rate=chance.choice([0, 999, 1_250, 2_000])), chance, []
        for name in ("Ana", "Ben", "Cid", "Dora"):
            self.send(command("/members", 0, 0, compact({"name": name})))
        self.send(command("/categories", 0, 0, compact({"name": "Books"})))
        self.moments = sorted(chance.sample(midnights(), 12))
        for number in range(chance.randint(0, 40)):
            self.list(number)
        for moment in self.moments:
            self.pass_by(moment)

    def send(self, request):
        self.requests.append(request)
        self.site.answer(request)

    def list(self, number):
        """Lists an item, on which there may be bids."""
        chance, start = self.chance, self.chance.randint(1, 100_000)
        members = {"category": 1, "end": chance.choice(self.moments), "lot": f"L-{number}", "start": start, "text": "",
                   "title": "Globe"}
        if chance.random() < 0.4:
            members["buy_now"] = start + chance.randint(0, 100_000)
        self.send(command("/items", chance.randint(1, 4), 1, compact(members)))
        for _ in range(chance.choice([0, 1, 2, 3])):
            maximum = start + chance.randint(0, 200_000)
            self.send(command(f"/items/{number + 1}/bids", chance.randint(1, 4), 1, compact({"maximum": maximum})))

    def pass_by(self, moment):
        """What happens at a moment: purchases, maybe a close, and settlements."""
        for item in list(self.site.house.rows):
            if item.state == "open" and self.chance.random() < 0.2:
                self.send(command(f"/items/{item.number}/purchase", self.chance.randint(1, 4), moment))
        if self.chance.random() < 0.8:
            self.send(command("/close", 0, moment))
        for item in self.site.house.rows:
            if item.state == "sold" and self.chance.random() < 0.3:
                self.send(command(f"/items/{item.number}/settle", 0, moment))

    def periods(self):
        """Some periods, as the numbers of days."""
        around = {day_of(moment) + more for moment in self.moments for more in (-1, 0, 1)}
        days = sorted({min(max(day, 0), LAST_DAY) for day in around} | {0, LAST_DAY})
        yield from ((0, LAST_DAY), (0, 0))
        yield from (sorted(self.chance.choices(days, k=2)) for _ in range(4))


def midnights():
    """Moments of some days near the changes of summer time, at and round midnight by the zone of the environment."""
    found = []
    for day in (0, 1, 80, 100, 101, 113, 114, 297, 298, 304, 305, 10_000, 20_170, 20_388, 20_402):
        here = next(moment for moment in range(max(2, day * DAY - DAY), day * DAY + 2 * DAY, 1800)
                    if day_of(moment) == max(day, 0))
        found += [here - 1, here, here + 1, here + 3600] if here > 3 else [here + 2, here + 3]
    return sorted(set(found))


def statements(office, chance, count):
    """Statements of random houses."""
    for number in range(count):
        zone = ZONES[number % len(ZONES)]
        sales, file = Sales(zone, chance), f"sales-{number}"
        house, rate = sales.site.house, sales.site.rate
        stream = b"".join(request.text() for request in sales.requests)
        office.make(file, str(rate), zone, [stream])
        record = recorded(office, stream, rate, zone)
        for first, last in sales.periods():
            sums = [of_member(office, file, house, rate, member, first, last) for member in range(1, 5)]
            balanced(record, sums, first, last)


def recorded(office, stream, rate, zone):
    """The public record of a house in memory that got the same messages."""
    answers, record = answers_in(replayed(office.program.path, stream, "--record", "--rate", str(rate), "--zone", zone))
    return json.loads(record)


def of_member(office, file, house, rate, member, first, last):
    """Checks one statement in its three forms, and gives its totals as they are read back."""
    what = f"{file}, {member} from {spelled(first)} to {spelled(last)}"
    found = lines_of(house, rate, member, first, last)
    words = ["statement", file, "--member", str(member), "--from", spelled(first), "--to", spelled(last)]
    text, table = office.program.ended(*words), office.program.ended(*words, "--csv")
    check(f"{what} as text", text, (0, statement_text(found), b""))
    check(f"{what} as CSV", table, (0, statement_csv(found), b""))
    replies, _ = office.program.answers(file, [read(f"/me/statement/{spelled(first)}/{spelled(last)}", member).text()])
    page = value_of(replies[0].split(b"\r\n\r\n", 1)[1])
    check(f"{what} as JSON", page, statement_page(member, found))
    sums, lines = read_back(text[1], table[1])
    check(f"{what}, sold", sums["sold"], sums["fees"] + sums["net"])
    check(f"{what}, sums", sums, {name: page[name] for name in ("sold", "fees", "net", "bought")})
    check(f"{what}, lines", lines, [(line["role"], line["price"], line["fee"], line["net"]) for line in page["lines"]])
    return sums


def balanced(record, sums, first, last):
    """Over all members, what was bought is what was earned and the fees; and the prices of the record, by day."""
    total = {name: sum(one[name] for one in sums) for name in ("sold", "fees", "net", "bought")}
    prices = sum(item["price"] for item in record["items"]
                 if item["state"] in ("sold", "settled") and first <= day_of(item["closed"]) <= last)
    check(f"balance from {first} to {last}", (total["bought"], total["sold"]), (total["net"] + total["fees"], prices))


def main():
    count, seed = (int(word) for word in [*sys.argv[2:], *("6", str(SEED))[len(sys.argv) - 2:]])
    with tempfile.TemporaryDirectory() as folder:
        office = Office(Program(str(pathlib.Path(sys.argv[1]).resolve()), folder), folder)
        statements(office, random.Random(seed), count)
    return verdict()


if __name__ == "__main__":
    sys.exit(main())
