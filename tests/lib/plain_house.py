"""The house's rules over plain lists, for comparison: every look-up goes over all rows.

A House takes commands and questions by the words of crates/house_script/src/script.rt, and answers
with the lines that the program prints.
"""
import dataclasses

LAST_MOMENT = 4_102_444_800
MOST_CENTS = 1_000_000_000
BANDS = [(0, 5), (100, 25), (500, 50), (2500, 100), (10000, 250), (25000, 500), (50000, 1000),
         (100000, 2500), (250000, 5000), (500000, 10000)]
OF_HOUSE = {"register", "add_category", "close", "settle", "set_bands"}
MOST_EDITIONS = 100
LEAVES_CLOCK = {"watch", "unwatch", "ask"}


class Refused(Exception):
    """A rule that fails: the answer."""


def refuse(fails, answer):
    if fails:
        raise Refused(answer)


@dataclasses.dataclass
class Item:
    number: int
    seller: int
    category: int
    lot: str
    title: str
    text: str
    start: int
    buy_now: int | None
    end: int
    reserve: int | None = None
    state: str = "open"
    closed: int | None = None
    buyer: int | None = None
    edition: int = 1


@dataclasses.dataclass
class Bid:
    item: int
    member: int
    maximum: int


@dataclasses.dataclass
class Question:
    item: int
    asker: int
    number: int
    text: str
    answer: str | None = None


@dataclasses.dataclass
class Feedback:
    item: int
    giver: int
    to: int
    rating: int
    text: str


@dataclasses.dataclass
class Standing:
    price: int
    leader: int | None
    top: int | None
    second: int | None
    count: int
    floor: int


def over(amount, bands=BANDS):
    """An amount and the step of the last band that begins at or below it."""
    return amount + [step for at, step in bands if at <= amount][-1]


def is_table(bands):
    """Whether bands are a table: the first at 0, the others rising, and no step smaller than the one before."""
    return (1 <= len(bands) <= 50 and bands[0][0] == 0
            and all(at <= MOST_CENTS and 1 <= step <= MOST_CENTS for at, step in bands)
            and all(at < later and step <= next_step for (at, step), (later, next_step) in zip(bands, bands[1:])))


def fits(least, most, text):
    return least <= len(text.encode()) <= most and all(ord(c) >= 32 and ord(c) != 127 for c in text)


def is_lot(text):
    return 1 <= len(text) <= 20 and all(c.isascii() and (c.isalnum() or c == "-") for c in text)


def dash(value):
    return "-" if value in (None, "") else str(value)


def line(rows):
    return "; ".join(rows) or "-"


def question_line(q):
    return f"item {q.item}, asker {q.asker}, number {q.number}, {q.text}, {dash(q.answer)}"


def feedback_line(f):
    return f"item {f.item}, from {f.giver} to {f.to}, {f.rating}, {dash(f.text)}"


class House:
    def __init__(self, bands=BANDS):
        self.now, self.tables = 0, [bands]
        self.names, self.kinds, self.rows = [], [], []
        self.placed, self.watching, self.asked, self.given_rows = [], [], [], []

    # Look-ups that rules and questions share.

    def table(self, item):
        """The band table by which an item goes."""
        return self.tables[item.edition - 1]

    def found(self, number):
        return next((item for item in self.rows if item.number == number), None)

    def placed_on(self, item):
        return [bid for bid in self.placed if bid.item == item.number]

    def standing_of(self, item):
        bids = self.placed_on(item)
        if not bids:
            return Standing(item.start, None, None, None, 0, item.start)
        top = max(bid.maximum for bid in bids)
        leader = next(bid.member for bid in bids if bid.maximum == top)
        second = max((bid.maximum for bid in bids if bid.member != leader), default=None)
        price = item.start if second is None else max(item.start, min(top, over(second, self.table(item))))
        if item.reserve is not None and top >= item.reserve:
            price = max(price, item.reserve)
        return Standing(price, leader, top, second, len(bids), over(price, self.table(item)))

    def leader(self, item):
        return self.standing_of(item).leader if item.buyer is None else item.buyer

    def price(self, item):
        return self.standing_of(item).price if item.buyer is None else item.buy_now

    def met(self, item):
        """Whether an item's reserve is met, or none where it has no reserve."""
        if item.reserve is None:
            return None
        return item.buyer is not None or (self.standing_of(item).top or 0) >= item.reserve

    def sells(self, item):
        """Whether an item that is taken now is sold."""
        return self.leader(item) is not None and self.met(item) is not False

    def maxima(self, item, member):
        return [bid.maximum for bid in self.placed if (bid.item, bid.member) == (item, member)]

    def sold_items(self):
        return [item for item in self.rows if item.state in ("sold", "settled")]

    def due_items(self, moment):
        return [item for item in self.rows if item.state == "open" and item.end <= moment]

    def sorted_questions(self):
        return sorted(self.asked, key=lambda q: (q.item, q.asker, q.number))

    def sorted_feedback(self):
        return sorted(self.given_rows, key=lambda f: (f.item, f.giver))

    # Commands.

    def order(self, moment, caller, command, *words):
        """What is answered to a command; an accepted one is made."""
        try:
            refuse(moment > LAST_MOMENT, "Range")
            refuse(caller > len(self.names) or (caller == 0 and command not in OF_HOUSE), "NoCaller")
            refuse(command in OF_HOUSE and caller != 0, "HouseOnly")
            refuse(moment < self.now, "MomentBehind")
            getattr(self, f"order_{command}")(moment, caller, *words)
        except Refused as refused:
            return str(refused)
        if command not in LEAVES_CLOCK:
            self.now = moment
        return "ok"

    def known(self, number):
        item = self.found(number)
        refuse(item is None, "Unknown")
        return item

    def open_to(self, moment, caller, number):
        item = self.known(number)
        refuse(item.seller == caller, "OwnItem")
        refuse(item.state != "open", "NotOpen")
        refuse(item.end <= moment, "Ended")
        return item

    def order_register(self, moment, caller, name):
        refuse(not fits(1, 40, name), "Range")
        refuse(name in self.names, "NameTaken")
        refuse(len(self.names) >= 100_000, "Limit")
        self.names.append(name)

    def order_add_category(self, moment, caller, name):
        refuse(not fits(1, 40, name), "Range")
        refuse(name in self.kinds, "NameTaken")
        refuse(len(self.kinds) >= 1_000, "Limit")
        self.kinds.append(name)

    def order_list(self, moment, caller, category, lot, title, text, start, buy_now, end, reserve=None):
        refuse(not is_lot(lot), "Range")
        refuse(any(item.seller == caller and item.lot == lot for item in self.rows), "LotExists")
        refuse(not (fits(1, 80, title) and fits(0, 2000, text) and 1 <= start <= MOST_CENTS
                    and (buy_now is None or start <= buy_now <= MOST_CENTS)
                    and moment < end <= LAST_MOMENT
                    and (reserve is None or start < reserve <= (MOST_CENTS if buy_now is None else buy_now))), "Range")
        refuse(not 1 <= category <= len(self.kinds), "Unknown")
        refuse(len(self.rows) >= 1_000_000, "Limit")
        self.rows.append(Item(len(self.rows) + 1, caller, category, lot, title, text, start,
                              buy_now, end, reserve, edition=len(self.tables)))

    def order_bid(self, moment, caller, number, maximum):
        item = self.open_to(moment, caller, number)
        standing = self.standing_of(item)
        leads = standing.leader == caller
        refuse(maximum > MOST_CENTS, "Range")
        refuse(leads and maximum <= max(self.maxima(number, caller), default=0), "NotHigher")
        refuse(not leads and maximum < standing.floor, f"Low {standing.floor}")
        refuse(standing.count >= 10_000, "Limit")
        self.placed.append(Bid(number, caller, maximum))

    def order_buy(self, moment, caller, number):
        item = self.open_to(moment, caller, number)
        refuse(item.buy_now is None, "NoBuyNow")
        refuse(bool(self.placed_on(item)), "HasBids")
        item.state, item.closed, item.buyer = "sold", moment, caller

    def order_close(self, moment, caller):
        for item in self.due_items(moment):
            item.state = "sold" if self.sells(item) else "unsold"
            item.closed = item.end

    def order_settle(self, moment, caller, number):
        item = self.known(number)
        refuse(item.state != "sold", "NotSold")
        item.state = "settled"

    def order_watch(self, moment, caller, number):
        self.known(number)
        others = [row for row in self.watching if row != (caller, number)]
        refuse(sum(member == caller for member, _ in others) >= 200, "Limit")
        self.watching = [*others, (caller, number)]

    def order_unwatch(self, moment, caller, number):
        self.known(number)
        self.watching = [row for row in self.watching if row != (caller, number)]

    def order_ask(self, moment, caller, number, text):
        self.open_to(moment, caller, number)
        count = int(self.ask_count(number, caller))
        refuse(not fits(1, 500, text), "Range")
        refuse(count >= 20, "Limit")
        self.asked.append(Question(number, caller, count + 1, text))

    def order_answer(self, moment, caller, number, asker, nth, text):
        refuse(self.known(number).seller != caller, "SellerOnly")
        named = [q for q in self.asked if (q.item, q.asker, q.number) == (number, asker, nth)]
        refuse(not named, "Unknown")
        refuse(named[0].answer is not None, "AlreadyAnswered")
        refuse(not fits(1, 500, text), "Range")
        named[0].answer = text

    def order_feedback(self, moment, caller, number, rating, text):
        item = self.known(number)
        refuse(item.state not in ("sold", "settled"), "NotSold")
        refuse(caller not in (item.seller, self.leader(item)), "NotParty")
        refuse(self.given(number, caller) == "true", "AlreadyGiven")
        refuse(rating not in (-1, 0, 1) or not fits(0, 200, text), "Range")
        to = self.leader(item) if caller == item.seller else item.seller
        self.given_rows.append(Feedback(number, caller, to, rating, text))

    def order_set_bands(self, moment, caller, bands):
        refuse(not is_table(bands), "Range")
        refuse(len(self.tables) >= MOST_EDITIONS, "Limit")
        self.tables.append(bands)

    # Questions: what is answered to each.

    def newest(self):
        return str(len(self.tables))

    def edition(self, number):
        item = self.found(number)
        return str(item.edition if item else self.newest() if number else 1)

    def bands(self, edition):
        table = self.tables[edition - 1] if 1 <= edition <= len(self.tables) else []
        return line([f"at {at} step {step}" for at, step in table])

    def clock(self):
        return str(self.now)

    def counts(self):
        return f"members {len(self.names)}, categories {len(self.kinds)}, items {len(self.rows)}"

    def member(self, number):
        return dash(dict(enumerate(self.names, 1)).get(number))

    def has_member(self, number):
        return str(1 <= number <= len(self.names)).lower()

    def member_named(self, name):
        return dash(self.names.index(name) + 1 if name in self.names else None)

    def category(self, number):
        return dash(dict(enumerate(self.kinds, 1)).get(number))

    def has_category(self, number):
        return str(1 <= number <= len(self.kinds)).lower()

    def category_named(self, name):
        return dash(self.kinds.index(name) + 1 if name in self.kinds else None)

    def members(self):
        return line(self.names)

    def categories(self):
        return line(self.kinds)

    def item(self, number):
        item = self.found(number)
        return "-" if item is None else (
            f"item {number}, seller {item.seller}, category {item.category}, {item.lot}, "
            f"{item.title}, {dash(item.text)}, start {item.start}, buy_now {dash(item.buy_now)}, "
            f"end {item.end}")

    def item_of(self, seller, lot):
        rows = [item for item in self.rows if (item.seller, item.lot) == (seller, lot)]
        return line([str(item.number) for item in rows])

    def items(self):
        return line([str(item.number) for item in self.rows])

    def items_in(self, category, least):
        return line([str(item.number) for item in self.rows
                     if item.category == category and item.number >= least][:50])

    def state(self, number):
        item = self.found(number)
        return "-" if item is None else (
            f"{item.state}, price {self.price(item)}, leader {dash(self.leader(item))}, "
            f"count {len(self.placed_on(item))}, closed {dash(item.closed)}"
            f"{'' if item.reserve is None else f', met {self.met(item)}'.lower()}")

    def standing(self, number):
        item = self.found(number)
        if item is None:
            return "-"
        s = self.standing_of(item)
        return (f"price {s.price}, leader {dash(s.leader)}, top {dash(s.top)}, "
                f"second {dash(s.second)}, count {s.count}, floor {s.floor}")

    def reserve(self, number):
        item = self.found(number)
        return dash(item and item.reserve)

    def reserves(self, member, least):
        return line([f"item {item.number}, reserve {item.reserve}, met {self.met(item)}".lower()
                     for item in self.own_reserves(member, least)])

    def own_reserves(self, member, least):
        return [item for item in self.rows
                if item.seller == member and item.number >= least and item.reserve is not None][:50]

    def own(self, number, member):
        maxima = self.maxima(number, member)
        return f"maximum {max(maxima, default=0)}, mine {len(maxima)}"

    def bids(self, member, least):
        rows = []
        for item in self.rows:
            maxima = self.maxima(item.number, member)
            if maxima and item.number >= least:
                rank = "leading" if self.leader(item) == member else "behind"
                rows.append(f"item {item.number}, {rank}, maximum {max(maxima)}, mine {len(maxima)}, "
                            f"price {self.price(item)}, {item.state}")
        return line(rows[:50])

    def watched(self, member, number):
        return str((member, number) in self.watching).lower()

    def watches(self, member):
        return line([str(item.number) for item in self.rows if (member, item.number) in self.watching])

    def watch_count(self, member):
        return str(sum(row[0] == member for row in self.watching))

    def question(self, number, asker, nth):
        return line([question_line(q) for q in self.asked
                     if (q.item, q.asker, q.number) == (number, asker, nth)])

    def ask_count(self, number, asker):
        return str(sum((q.item, q.asker) == (number, asker) for q in self.asked))

    def questions(self, member, least):
        return line([question_line(q) for q in self.sorted_questions()
                     if q.asker == member and q.item >= least][:50])

    def published(self, number, least):
        return line([question_line(q) for q in self.sorted_questions()
                     if q.answer is not None and q.item == number and q.asker >= least][:50])

    def all_published(self):
        return line([question_line(q) for q in self.sorted_questions() if q.answer is not None])

    def waiting(self, member):
        return line(self.waiting_lines(member))

    def first_waiting(self, member):
        return line(self.waiting_lines(member)[:50])

    def waiting_lines(self, member):
        return [question_line(q) for q in self.sorted_questions()
                if q.answer is None and self.found(q.item).seller == member]

    def given(self, number, giver):
        return str(any((f.item, f.giver) == (number, giver) for f in self.given_rows)).lower()

    def ratings(self, member):
        plus, zero, minus = (sum((f.to, f.rating) == (member, rating) for f in self.given_rows)
                             for rating in (1, 0, -1))
        return f"plus {plus}, zero {zero}, minus {minus}"

    def feedback(self, member, least):
        return line([feedback_line(f) for f in self.sorted_feedback()
                     if f.to == member and f.item >= least][:50])

    def all_feedback(self):
        return line([feedback_line(f) for f in self.sorted_feedback()])

    def due(self, moment):
        sells = [self.sells(item) for item in self.due_items(moment)]
        return f"sold {sells.count(True)}, unsold {sells.count(False)}"

    def sales(self, member):
        return line([f"item {item.number}, seller {item.seller}, buyer {self.leader(item)}, "
                     f"closed {item.closed}, price {self.price(item)}"
                     for item in self.sold_items() if member in (item.seller, self.leader(item))])
