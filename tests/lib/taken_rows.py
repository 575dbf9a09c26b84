"""What the definitions say of a message over any tables: whether it may or has to be `damaged`, and its answer.

For comparison alone, and not from the program: crates/pages/specs/Taken says which rows a page takes, and
crates/pages_laws/specs/ByTables what it shows; crates/house/specs/Taken and crates/house_rows/specs/Making which rows a
command takes, Verdict why it is refused, Changed what it makes. The tables are those of fitting_rows.py.
"""
import dataclasses
import datetime
import typing

from lib.fitting_rows import (NONE, OPEN, SETTLED, SOLD, UNSOLD, after_bid, bid_fits, category_fits, feedback_fits,
                              member_fits, question_fits, watch_fits)
from lib.plain_house import (LAST_MOMENT, LEAVES_CLOCK, MOST_CENTS, MOST_EDITIONS, OF_HOUSE, Refused, fits, is_lot,
                             is_table, over, refuse)
from lib.plain_site import AHEAD, COMMANDS, DAY_0, LISTED, READS, SECONDS_OF_DAY, day_of, refused, table, words_of
from lib.sent import Answer

STATES = ("open", "sold", "unsold", "settled")
# The columns of a stored item.
SELLER, STATE, CLOSED, PRICE, LEADER, TOP, SECOND, COUNT = 1, 9, 10, 11, 12, 13, 14, 15


class Misfit(Exception):
    """A row has to be looked at that can't fit, or a new row has a key that is taken."""


def refuse_taken(key, keys):
    if key in keys:
        raise Misfit


@dataclasses.dataclass(frozen=True)
class Foretold:
    """Whether the rows that a message takes fit, so that it isn't answered `damaged`; whether it has to be, since it
    shows or goes by one that can't; what it is answered else, and what it makes of the rows if it is accepted."""
    fits: bool
    is_misfit: bool
    answer: Answer | None = None
    change: typing.Callable | None = None


def start_of(least):
    return min(least, 2**32 - 1)


def first_fit(rows, number, row_fits):
    """Whether those of some rows fit that a list of fifty takes which goes by a number: up to the last number shown."""
    numbers = [number(row) for row in rows]
    return all(row_fits(row) for row in rows if sum(before < number(row) for before in numbers) < LISTED)


def parse(site, request):
    """The caller, the moment, the name and the words of a request that is well formed."""
    name, words = site.route(request)
    caller = int(request.values("x-member")[0])
    if name in COMMANDS:
        return caller, int(request.values("x-moment")[0]), name, [*map(int, words), *words_of(name, request.body)]
    return caller, None, name, list(map(day_of, words)) if name == "statement" else list(map(int, words))


def foretell(rows, request, parsed):
    """What is foretold of a request."""
    caller, moment, name, words = parsed
    if name in COMMANDS:
        return Orders(rows).order(moment, caller, name, words)
    return Pages(rows).page(caller, name, words)


def is_party(row, member):
    return member in (row.seller, row.leader)


class Pages:
    """Each page: whether the rows that it takes fit, whether those that it shows might, and what it shows."""

    def __init__(self, rows):
        self.rows = rows

    def page(self, caller, name, words):
        own = READS[name].startswith("/me/")
        taken, shown, value = getattr(self, f"page_{name}")(*([caller] if own else []), *words)
        if caller > len(self.rows.members) or own and caller == 0:
            return Foretold(taken, False, Answer(*refused("NoCaller")))
        if value is None:
            return Foretold(taken, False, Answer(*refused("Unknown")))
        # What can't fit need not be a value of JSON.
        return Foretold(taken, not shown, Answer(200, value()) if shown else None)

    def page_house(self):
        rows = self.rows
        return True, True, lambda: {
            "categories": len(rows.categories), "clock": rows.clock, "items": len(rows.items),
            "members": len(rows.members), "rate": rows.rate, "zone": rows.zone.decode()}

    def page_bands(self):
        bands = self.rows.editions[-1].bands if self.rows.editions else self.rows.bands
        return True, True, lambda: table(bands)

    def page_bands_of(self, edition):
        tables = [self.rows.bands, *(later.bands for later in self.rows.editions)]
        return True, True, (lambda: table(tables[edition - 1])) if edition <= len(tables) else None

    def page_categories(self):
        are_fit = all(map(category_fits, self.rows.categories))
        return are_fit, are_fit, lambda: {"categories": [{"category": row.number, "name": row.name.decode()}
                                                         for row in self.rows.categories]}

    def page_items_in(self, category, least):
        named = [row for row in self.rows.categories if row.number == category]
        of_it = [row for row in self.rows.items if row.category == category]
        taken = [row for row in of_it if row.number >= start_of(least)][:LISTED]
        listed = [row for row in of_it if row.number >= least][:LISTED]
        return (all(map(category_fits, named)) and all(map(self.rows.fits, taken)), all(map(self.rows.may_fit, listed)),
                (lambda: {"items": list(map(self.shown, listed))}) if named else None)

    def page_item(self, number):
        row = self.rows.item(number)
        if row is None:
            return True, True, None
        return self.rows.fits(row), self.rows.may_fit(row), lambda: self.shown(row)

    def page_published(self, number, least):
        row = self.rows.item(number)
        published = [q for q in self.rows.questions if q.item == number and q.answer is not None]
        taken = first_fit([q for q in published if q.asker >= start_of(least)], lambda q: q.asker, question_fits)
        if row is None:
            return taken, True, None
        shown, value = self.questions(self.rows.stands(row), [q for q in published if q.asker >= least])
        return taken and self.rows.fits(row), shown, value

    def questions(self, stands, questions):
        """The first of some questions: whether they might be shown, and how they are."""
        listed = questions[:LISTED]
        return stands and all(map(question_fits, listed)), lambda: {"questions": list(map(question, listed))}

    def page_member(self, member):
        rows = [row for row in self.rows.members if row.number == member]
        given = [f for f in self.rows.feedback if f.receiver == member]
        taken = all(map(member_fits, rows)) and all(map(feedback_fits, given))
        shown = all(map(member_fits, rows)) and all(f.item < NONE for f in given)
        counts = {key: sum(f.rating == rating for f in given)
                  for key, rating in (("plus", 1), ("zero", 0), ("minus", -1))}
        return taken, shown, (lambda: {"member": member, "name": rows[0].name.decode(), **counts}) if rows else None

    def page_given(self, member, least):
        rows = [row for row in self.rows.members if row.number == member]
        given = [f for f in self.rows.feedback if f.receiver == member]
        taken = (all(map(member_fits, rows)) and all(feedback_fits(f) for f in given if f.item >= 2**32)
                 and first_fit([f for f in given if f.item >= start_of(least)], lambda f: f.item, feedback_fits))
        listed = [f for f in given if f.item >= least][:LISTED]
        return (taken, all(map(feedback_fits, listed)),
                (lambda: {"feedback": list(map(feedback, listed))}) if rows else None)

    def page_own_bids(self, caller, least):
        rows = self.rows
        own = [bid for bid in rows.bids if bid.member == caller]
        placed = {row.number: [bid for bid in own if bid.item == row.number] for row in rows.items}
        listed = [row for row in rows.items if placed[row.number] and row.number >= least][:LISTED]
        bids_fit = all(bid_fits(bid) for row in listed for bid in placed[row.number])
        return (bids_fit and all(map(rows.fits, listed)), bids_fit and all(map(rows.stands, listed)),
                lambda: {"bids": [{
                    "item": row.number, "leading": row.leader == caller,
                    "maximum": max(bid.maximum for bid in placed[row.number]), "mine": len(placed[row.number]),
                    "price": row.price, "state": STATES[row.state]} for row in listed]})

    def page_own_reserves(self, caller, least):
        listed = [row for row in self.rows.items if row.seller == caller and row.kept.reserve is not None
                  and row.number >= least][:LISTED]
        return (all(map(self.rows.fits, listed)), all(map(self.rows.stands, listed)),
                lambda: {"reserves": [{"item": row.number, "met": bool(row.met), "reserve": row.kept.reserve}
                                      for row in listed]})

    def page_watches(self, caller):
        watches = [watch for watch in self.rows.watches if watch[0] == caller]
        listed = [row for row in self.rows.items if (caller, row.number) in watches]
        return (all(map(watch_fits, watches)) and all(map(self.rows.fits, listed)), all(map(self.rows.may_fit, listed)),
                lambda: {"items": list(map(self.shown, listed))})

    def page_own_questions(self, caller, least):
        own = [q for q in self.rows.questions if q.asker == caller]
        taken = first_fit([q for q in own if q.item >= start_of(least)], lambda q: q.item, question_fits)
        return taken, *self.questions(True, [q for q in own if q.item >= least])

    def page_waiting(self, caller):
        of_caller = [row for row in self.rows.items if row.seller == caller]
        numbers = {row.number for row in of_caller}
        waiting = [q for q in self.rows.questions if q.answer is None and q.item in numbers]
        asked = {q.item for q in waiting[:LISTED]}
        taken = all(map(self.rows.fits, of_caller)) and first_fit(waiting, lambda q: q.item, question_fits)
        return taken, *self.questions(all(self.rows.stands(row) for row in of_caller if row.number in asked), waiting)

    def page_statement(self, caller, first, last):
        of_party = [row for row in self.rows.items if caller == 0 or is_party(row, caller)]
        sold = [row for row in of_party if row.was_sold() and is_party(row, caller)]
        return (all(map(self.rows.fits, of_party)), all(map(self.rows.stands, sold)),
                lambda: self.statement(caller, first, last, sold))

    # What is shown of rows.

    def shown(self, row):
        edition, bands = self.rows.edition_of(row.number)
        floor = (over(row.price, bands) if row.count else row.start) if row.state == OPEN else None
        return {"buy_now": row.buy_now, "category": row.category, "closed": row.closed, "count": row.count,
                "edition": edition, "end": row.end, "floor": floor, "item": row.number, "leader": row.leader,
                "lot": row.lot.decode(), "met": row.met, "price": row.price, "seller": row.seller, "start": row.start,
                "state": STATES[row.state], "text": row.text.decode(), "title": row.title.decode()}

    def statement(self, caller, first, last, sold):
        lines = sorted((self.line(caller, row) for row in sold), key=lambda line: (line["day"], line["item"]))
        lines = [{**line, "day": (DAY_0 + datetime.timedelta(line["day"])).isoformat()}
                 for line in lines if first <= line["day"] <= last]
        sells = [line for line in lines if line["role"] == "sell"]
        return {"lines": lines, "member": caller, "sold": sum(line["price"] for line in sells),
                "fees": sum(line["fee"] for line in sells), "net": sum(line["net"] for line in sells),
                "bought": sum(line["price"] for line in lines if line["role"] == "buy")}

    def line(self, caller, row):
        sells = row.seller == caller
        fee = row.price * self.rows.rate // 10_000 if sells else 0
        return {"day": (row.closed + AHEAD[self.rows.zone.decode()]) // SECONDS_OF_DAY, "fee": fee, "item": row.number,
                "net": row.price - fee, "other": row.leader if sells else row.seller, "price": row.price,
                "role": "sell" if sells else "buy"}


def question(q):
    return {"answer": None if q.answer is None else q.answer.decode(), "asker": q.asker, "item": q.item,
            "number": q.number, "text": q.text.decode()}


def feedback(f):
    return {"from": f.giver, "item": f.item, "rating": f.rating, "text": f.text.decode(), "to": f.receiver}


@dataclasses.dataclass(frozen=True)
class Accepted:
    """What an accepted command is answered, what it makes of the stored rows, and whether those that this takes fit."""
    status: int
    value: dict
    change: typing.Callable
    fits: bool = True


class Orders:
    """Each command: whether the rows that it takes fit, and the first rule that fails, or what is made."""

    def __init__(self, rows):
        self.rows = rows

    def order(self, moment, caller, name, words):
        takes = self.takes(caller, name, words)
        try:
            self.common(moment, caller, name)
            done = getattr(self, f"order_{name}")(moment, caller, *words)
        except Refused as refusal:
            return Foretold(takes, False, Answer(*refused(str(refusal))))
        except Misfit:
            return Foretold(False, True)

        def change(tables):
            done.change(tables)
            if name not in LEAVES_CLOCK:
                tables["house"] = [(*row[:2], moment, *row[3:]) for row in tables["house"]]
        return Foretold(takes and done.fits, False, Answer(done.status, done.value), change)

    def takes(self, caller, name, words):
        """Whether the rows that deciding takes fit."""
        rows = self.rows
        if name == "list":
            category, lot = words[:2]
            found = self.with_lot(caller, lot)
            return (found is None or found.number < 2**32) and all(
                category_fits(row) for row in rows.categories if row.number == category)
        if name in ("register", "add_category"):
            named, row_fits = (rows.members, member_fits) if name == "register" else (rows.categories, category_fits)
            return all(row_fits(row) for row in named if row.name == words[0].encode())
        if name in ("close", "set_bands"):
            return True
        named = rows.item(words[0])
        if named is not None and not rows.fits(named):
            return False
        if name == "watch":
            return all(watch_fits(watch) for watch in rows.watches if watch[0] == caller)
        if name == "answer":
            return all(question_fits(q) for q in rows.questions if (q.item, q.asker, q.number) == tuple(words[:3]))
        return name != "feedback" or self.given_fit(caller)

    def given_fit(self, caller):
        return all(feedback_fits(f) for f in self.rows.feedback if f.giver == caller)

    def common(self, moment, caller, name):
        refuse(moment > LAST_MOMENT, "Range")
        refuse(caller > len(self.rows.members) or caller == 0 and name not in OF_HOUSE, "NoCaller")
        refuse(name in OF_HOUSE and caller != 0, "HouseOnly")
        refuse(moment < self.rows.clock, "MomentBehind")

    def known(self, number):
        """An item that a command names."""
        row = self.rows.item(number)
        refuse(row is None, "Unknown")
        if not self.rows.stands(row):
            raise Misfit
        return row

    def open_to(self, moment, caller, number):
        row = self.known(number)
        refuse(row.seller == caller, "OwnItem")
        refuse(row.state != OPEN, "NotOpen")
        refuse(row.end <= moment, "Ended")
        return row

    def with_lot(self, seller, lot):
        return next((row for row in self.rows.items if (row.seller, row.lot) == (seller, lot.encode())), None)

    # People.

    def order_register(self, moment, caller, name):
        return self.named("member", self.rows.members, 100_000, name)

    def order_add_category(self, moment, caller, name):
        return self.named("category", self.rows.categories, 1_000, name)

    def named(self, kind, rows, most, name):
        refuse(not fits(1, 40, name), "Range")
        refuse(name.encode() in [row.name for row in rows], "NameTaken")
        refuse(len(rows) >= most, "Limit")
        new = len(rows) + 1, name.encode()
        return Accepted(201, {kind: new[0]}, lambda tables: tables[kind].append(new))

    # Items.

    def order_list(self, moment, caller, category, lot, title, body, start, buy_now, end, reserve=None):
        rows = self.rows
        refuse(not is_lot(lot), "Range")
        refuse(self.with_lot(caller, lot) is not None, "LotExists")
        refuse(not (fits(1, 80, title) and fits(0, 2000, body) and 1 <= start <= MOST_CENTS
                    and (buy_now is None or start <= buy_now <= MOST_CENTS) and moment < end <= LAST_MOMENT
                    and (reserve is None or start < reserve <= (MOST_CENTS if buy_now is None else buy_now))), "Range")
        refuse(category not in [row.number for row in rows.categories], "Unknown")
        refuse(len(rows.items) >= 1_000_000, "Limit")
        number = len(rows.items) + 1
        new = (number, caller, category, lot.encode(), title.encode(), body.encode(), start, buy_now, end, OPEN, None,
               start, None, None, None, 0)

        def change(tables):
            tables["item"].append(new)
            tables["reserve"].extend([] if reserve is None else [(number, reserve)])
        return Accepted(201, {"item": number}, change)

    def order_bid(self, moment, caller, number, maximum):
        row = self.open_to(moment, caller, number)
        kept, bands = row.kept, self.rows.edition_of(number)[1]
        leads = kept.leader == caller
        floor = over(kept.price, bands) if kept.count else kept.start
        refuse(maximum > MOST_CENTS, "Range")
        refuse(leads and maximum <= kept.top, "NotHigher")
        refuse(not leads and maximum < floor, f"Low {floor}")
        refuse(kept.count >= 10_000, "Limit")
        after = after_bid(bands, kept, caller, maximum)
        placed = number, after.count, caller, maximum
        refuse_taken(placed[:2], [(bid.item, bid.number) for bid in self.rows.bids])

        def change(tables):
            tables["bid"].append(placed)
            put(tables, number, {PRICE: after.price, LEADER: after.leader, TOP: after.top, SECOND: after.second,
                                 COUNT: after.count})
        return Accepted(201, {"count": after.count, "floor": over(after.price, bands), "leader": after.leader,
                              "price": after.price}, change)

    def order_buy(self, moment, caller, number):
        row = self.open_to(moment, caller, number)
        refuse(row.buy_now is None, "NoBuyNow")
        refuse(row.count > 0, "HasBids")
        return Accepted(201, {"item": number, "price": row.buy_now}, lambda tables: put(
            tables, number, {STATE: SOLD, CLOSED: moment, PRICE: row.buy_now, LEADER: caller}))

    def order_close(self, moment, caller):
        due = [row for row in self.rows.items if row.is_due(moment)]
        if not all(map(self.rows.stands, due)):
            raise Misfit
        sold = [row.leader is not None and row.met is not False for row in due]

        def change(tables):
            for row, sells in zip(due, sold):
                put(tables, row.number, {STATE: SOLD if sells else UNSOLD, CLOSED: row.end})
        return Accepted(200, {"sold": sold.count(True), "unsold": sold.count(False)}, change,
                        all(map(self.rows.fits, due)))

    def order_settle(self, moment, caller, number):
        row = self.known(number)
        refuse(row.state != SOLD, "NotSold")
        fee = row.price * self.rows.rate // 10_000
        return Accepted(200, {"fee": fee, "item": number, "net": row.price - fee, "price": row.price},
                        lambda tables: put(tables, number, {STATE: SETTLED}))

    # Watches, questions and feedback.

    def order_watch(self, moment, caller, number):
        self.known(number)
        own = [watch for watch in self.rows.watches if watch[0] == caller]
        refuse(sum(watch[1] != number for watch in own) >= 200, "Limit")

        def change(tables):
            tables["watch"] = [row for row in tables["watch"] if row != (caller, number)] + [(caller, number)]
        return Accepted(200, {"item": number, "watched": True}, change, len(own) <= 200)

    def order_unwatch(self, moment, caller, number):
        self.known(number)

        def change(tables):
            tables["watch"] = [row for row in tables["watch"] if row != (caller, number)]
        return Accepted(200, {"item": number, "watched": False}, change)

    def order_ask(self, moment, caller, number, body):
        self.open_to(moment, caller, number)
        count = sum((q.item, q.asker) == (number, caller) for q in self.rows.questions)
        refuse(not fits(1, 500, body), "Range")
        refuse(count >= 20, "Limit")
        new = number, caller, count + 1, body.encode(), None
        refuse_taken(new[:3], [(q.item, q.asker, q.number) for q in self.rows.questions])
        return Accepted(201, {"asker": caller, "item": number, "number": count + 1},
                        lambda tables: tables["question"].append(new))

    def order_answer(self, moment, caller, number, asker, nth, body):
        refuse(self.known(number).seller != caller, "SellerOnly")
        named = [q for q in self.rows.questions if (q.item, q.asker, q.number) == (number, asker, nth)]
        refuse(not named, "Unknown")
        if not question_fits(named[0]):
            raise Misfit
        refuse(named[0].answer is not None, "AlreadyAnswered")
        refuse(not fits(1, 500, body), "Range")

        def change(tables):
            tables["question"] = [(*row[:4], body.encode()) if row[:3] == (number, asker, nth) else row
                                  for row in tables["question"]]
        return Accepted(201, {"asker": asker, "item": number, "number": nth}, change)

    def order_feedback(self, moment, caller, number, rating, body):
        row = self.known(number)
        refuse(not row.was_sold(), "NotSold")
        refuse(not is_party(row, caller), "NotParty")
        refuse((number, caller) in [(f.item, f.giver) for f in self.rows.feedback], "AlreadyGiven")
        refuse(rating not in (-1, 0, 1) or not fits(0, 200, body), "Range")
        receiver = row.leader if caller == row.seller else row.seller
        new = number, caller, receiver, rating, body.encode()
        return Accepted(201, {"item": number, "rating": rating, "to": receiver},
                        lambda tables: tables["feedback"].append(new), self.given_fit(caller))

    def order_set_bands(self, moment, caller, bands):
        refuse(not is_table(bands), "Range")
        refuse(len(self.rows.editions) + 1 >= MOST_EDITIONS, "Limit")
        edition = len(self.rows.editions) + 2

        def change(tables):
            tables["edition"].append((edition, len(self.rows.items) + 1))
            tables["later_band"].extend((edition, at, step) for at, step in bands)
        return Accepted(201, {"edition": edition}, change)


def put(tables, number, values):
    """Puts values into columns of a stored item."""
    tables["item"] = [tuple(values.get(at, value) for at, value in enumerate(row)) if row[0] == number else row
                      for row in tables["item"]]
