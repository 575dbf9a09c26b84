#!/usr/bin/env python3
"""Compares lists of 0, 1, 50, 51 and 120 rows with plain lists: `long_lists.py PROGRAM WORD`.

The program is that of the crate `test_store`, with `memory` for a house in memory and `sqlite` for one in SQLite. Of each length
there are a category, a member's bids, watches, questions, sales, reserves and feedback, the questions on one item, and those that
wait for a seller, on one item or on as many. Each list is asked for from several of its rows on; each answer has to be that of
tests/lib/plain_house.py. The last line is 'N of N answers, M wrong'.

Promise: operations
"""
import sys

from lib.plain_house import House
from lib.played import compared, spelled

LENGTHS = [0, 1, 50, 51, 120]
MOMENT, END = 1000, 5000
# Member 1 sells what is bid on and asked about, member 2 buys; ASKERS ask up to twenty times each.
SELLER, BUYER, ASKERS = 1, 2, range(3, 9)
# Behind these, for each length, a member that bids, watches and asks, one that sells, and one that is asked.
MEMBERS = ASKERS.stop - 1 + 3 * len(LENGTHS)
SOLD = len(LENGTHS) + 1


class Script:
    """The lines of a script, with what plain lists answer to each."""

    def __init__(self):
        self.house = House()
        self.lines = []

    def order(self, caller, name, *words):
        """A command that has to be accepted."""
        answer = self.house.order(MOMENT, caller, name, *words)
        if answer != "ok":
            raise ValueError(f"{caller} {name} {words}: {answer}")
        self.lines.append((" ".join([str(MOMENT), str(caller), name, *map(spelled, words)]), answer))

    def ask(self, name, *words):
        self.lines.append((" ".join(["?", name, *map(spelled, words)]), getattr(self.house, name)(*words)))

    def ask_from(self, name, number, rows):
        """A list from 0, and from its first, second, middle and last row and after it."""
        points = [rows[0], rows[1 % len(rows)], rows[len(rows) // 2], rows[-1], rows[-1] + 1] if rows else [1]
        for least in (0, *points):
            self.ask(name, number, least)

    def listed(self, seller, category, *reserve):
        """The number of a new item."""
        number = len(self.house.rows) + 1
        self.order(seller, "list", category, f"L-{number}", "Title", "", 500, 900, END, *reserve)
        return number


def make(script, place, length):
    """Makes the rows of a length: the numbers of the items that are bid on, and of those that are sold."""
    member = ASKERS.stop + 3 * place
    items = [script.listed(SELLER, place + 1) for _ in range(length)]
    for item in items:
        script.order(member, "bid", item, 500)
        script.order(member, "watch", item)
        script.order(member, "ask", item, "How old?")
    for nth in range(length):
        asker = ASKERS[nth // 20]
        script.order(asker, "ask", items[0], "How big?")
        script.order(SELLER, "answer", items[0], asker, nth % 20 + 1, "So big.")
    sold = [script.listed(member + 1, SOLD, 700 + nth) for nth in range(length)]
    for item in sold:
        script.order(BUYER, "ask", item, "How new?")
        script.order(BUYER, "buy", item)
        script.order(BUYER, "feedback", item, 1, "Good")
    asked = script.listed(member + 2, SOLD)
    for nth in range(length):
        script.order(ASKERS[nth // 20], "ask", asked, "How old?")
    return items, sold


def question(script, place, items, sold):
    """Asks for the lists of a length."""
    member = ASKERS.stop + 3 * place
    script.ask_from("items_in", place + 1, items)
    script.ask_from("bids", member, items)
    script.ask_from("questions", member, items)
    script.ask_from("feedback", member + 1, sold)
    script.ask_from("reserves", member + 1, sold)
    script.ask_from("published", items[0] if items else 0, ASKERS)
    for name in ("watches", "watch_count"):
        script.ask(name, member)
    for name in ("sales", "ratings", "waiting", "first_waiting"):
        script.ask(name, member + 1)
    script.ask("first_waiting", member + 2)


def lines():
    script = Script()
    for member in range(1, MEMBERS + 1):
        script.order(0, "register", f"M{member}")
    for category in range(1, SOLD + 1):
        script.order(0, "add_category", f"C{category}")
    made = [make(script, place, length) for place, length in enumerate(LENGTHS)]
    for place, (items, sold) in enumerate(made):
        question(script, place, items, sold)
    for name in ("waiting", "first_waiting"):
        script.ask(name, SELLER)
    script.ask("sales", BUYER)
    for name in ("items", "all_published", "all_feedback"):
        script.ask(name)
    return script.lines


if __name__ == "__main__":
    sys.exit(compared(sys.argv[1:], lines()))
