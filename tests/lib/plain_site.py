"""What the site answers, over the plain lists of plain_house.py: from a request to its answer.

The rules of a frame, the routes and the pages are written here from the formats, for comparison alone.
"""
import collections
import datetime
import json
import re

from lib.plain_house import BANDS, LAST_MOMENT, House
from lib.sent import Answer, command, compact

MOST_HEAD, MOST_FIELDS, MOST_BODY, MOST_DEPTH = 8192, 64, 16_384, 127
LISTED = 50
SECONDS_OF_DAY = 86_400
DAY_0 = datetime.date(1970, 1, 1)
# How many seconds a zone's clocks are ahead of UTC.
AHEAD = {"UTC0": 0, "CET-1": 3_600, "EST5": -18_000}

NUMBERS = {"NoCaller": (1, 403), "HouseOnly": (2, 403), "SellerOnly": (3, 403), "Unknown": (4, 404),
           "MomentBehind": (5, 409), "Ended": (6, 409), "NotOpen": (7, 409), "OwnItem": (8, 403),
           "Low": (9, 409), "NotHigher": (10, 409), "HasBids": (11, 409), "NoBuyNow": (12, 409),
           "LotExists": (13, 409), "NameTaken": (14, 409), "AlreadyAnswered": (15, 409),
           "AlreadyGiven": (16, 409), "NotParty": (17, 403), "NotSold": (18, 409), "Limit": (19, 409),
           "Range": (20, 400)}

# Capitals in a pattern are numbers, FROM and TO are days.
COMMANDS = {"register": "/members", "add_category": "/categories", "list": "/items", "bid": "/items/I/bids",
            "buy": "/items/I/purchase", "close": "/close", "settle": "/items/I/settle",
            "watch": "/items/I/watch", "unwatch": "/items/I/unwatch", "ask": "/items/I/questions",
            "answer": "/items/I/questions/A/N/answer", "feedback": "/items/I/feedback", "set_bands": "/bands"}
READS = {"house": "/house", "bands": "/bands", "bands_of": "/bands/E", "categories": "/categories",
         "items_in": "/categories/C/items/F", "item": "/items/I", "published": "/items/I/questions/F",
         "member": "/members/M", "given": "/members/M/feedback/F", "own_bids": "/me/bids/F",
         "own_reserves": "/me/reserves/F", "watches": "/me/watches", "own_questions": "/me/questions/F",
         "waiting": "/me/waiting", "statement": "/me/statement/FROM/TO"}
FIELDS = {"register": {"name": "text"}, "add_category": {"name": "text"},
          "list": {"category": "number", "lot": "text", "title": "text", "text": "text", "start": "number",
                   "buy_now": "maybe", "end": "number", "reserve": "maybe"},
          "bid": {"maximum": "number"}, "ask": {"text": "text"}, "answer": {"text": "text"},
          "feedback": {"rating": "integer", "text": "text"}, "set_bands": {"bands": "bands"}}
SHORT = re.compile(r"0|[1-9][0-9]{0,9}", re.ASCII)
DAY = re.compile(r"([0-9]{4})-([0-9]{2})-([0-9]{2})", re.ASCII)


def pattern(path):
    """The targets of a path, as an expression."""
    return re.compile("".join("/" + ("([1-9][0-9]{0,9})" if len(part) == 1 else "([^/]+)" if part.isupper() else part)
                              for part in path.split("/")[1:]), re.ASCII)


ROUTES = {}
for method, paths in (("POST", COMMANDS), ("GET", READS)):
    for name, path in paths.items():
        ROUTES.setdefault(path, (pattern(path), {}))[1][method] = name


class Stopped(Exception):
    """The answer to a message that a rule stops: status, value, methods."""


class Odd:
    """A number of JSON that is no whole number of 64 bits."""


def stop(fails, status, value, allow=""):
    if fails:
        raise Stopped(status, value, allow)


def word(error):
    return {"error": error}


# Frames.

def frame_fault(request):
    """The first fault of a whole message's frame: status and word."""
    lengths = request.values("content-length")
    if len(request.head()) > MOST_HEAD or len(request.fields) > MOST_FIELDS:
        return 400, "head"
    if request.version == "HTTP/1.1" and len(request.values("host")) != 1:
        return 400, "host"
    if request.values("transfer-encoding"):
        return 501, "transfer"
    if len(lengths) > 1 or not all(re.fullmatch("[0-9]+", length, re.ASCII) for length in lengths):
        return 400, "length"
    if any(int(length) > MOST_BODY for length in lengths):
        return 413, "size"
    return None


def closes(request):
    """Whether the connection ends after the answer."""
    tokens = [token.strip(" \t").lower() for value in request.values("connection") for token in value.split(",")]
    return request.version == "HTTP/1.0" or "close" in tokens


# Bodies.

def whole(text):
    """A JSON whole number; one that no float could hold is no JSON to the house."""
    if text == "-0" or not -2**63 <= int(text) < 2**64:
        fraction(text)
        return Odd
    return int(text)


def fraction(text):
    if abs(float(text)) == float("inf"):
        raise ValueError(text)
    return Odd


def constant(text):
    raise ValueError(text)


def depth(value):
    parts = value.values() if isinstance(value, dict) else value if isinstance(value, list) else None
    return 0 if parts is None else 1 + max(map(depth, parts), default=0)


def texts_in(value):
    if isinstance(value, dict):
        return [text for pair in value.items() for part in pair for text in texts_in(part)]
    if isinstance(value, list):
        return [text for part in value for text in texts_in(part)]
    return [value] if isinstance(value, str) else []


def body_of(text):
    """The members of the object that a body is, or None."""
    try:
        value = json.loads(text.decode(), parse_int=whole, parse_float=fraction, parse_constant=constant)
        # A lone surrogate has no bytes.
        "".join(texts_in(value)).encode()
    except ValueError:
        return None
    return value if isinstance(value, dict) and depth(value) <= MOST_DEPTH else None


def is_kind(kind, value):
    if kind == "maybe" and value is None:
        return True
    if kind == "text":
        return isinstance(value, str)
    if kind == "bands":
        return isinstance(value, list) and all(isinstance(band, dict) and is_kind("number", band.get("at"))
                                               and is_kind("number", band.get("step")) for band in value)
    if not isinstance(value, int) or isinstance(value, bool):
        return False
    return -2**63 <= value < 2**63 if kind == "integer" else 0 <= value < 2**64


def words_of(name, body):
    """What the fields of a command say, in the order in which they are judged."""
    if name not in FIELDS:
        return []
    members = body_of(body)
    stop(members is None, 400, word("json"))
    for field, kind in FIELDS[name].items():
        stop(not is_kind(kind, members.get(field)), 400, {"error": "field", "field": field})
    if name == "set_bands":
        return [[(band["at"], band["step"]) for band in members["bands"]]]
    return [members.get(field) for field in FIELDS[name]]


def day_of(text):
    """The number of a day from 1970 to 2100, or none."""
    digits = DAY.fullmatch(text)
    try:
        day = datetime.date(*map(int, digits.groups())) if digits else None
    except ValueError:
        return None
    return (day - DAY_0).days if day and 1970 <= day.year <= 2100 else None


def refused(answer):
    """The value that tells a refusal, with its status."""
    name, *floor = answer.split()
    number, status = NUMBERS[name]
    return status, {"error": name, "number": number, **({"floor": int(floor[0])} if floor else {})}


class Site:
    """The house and its settings, how often each command was accepted, and which refusals were given."""

    def __init__(self, rate=1_000, zone="UTC0", preset=False, bands=BANDS):
        self.house, self.rate, self.zone = House(bands), rate, zone
        self.accepted, self.refusals = collections.Counter(), set()
        if preset:
            for request in setup():
                self.answer(request)
            self.accepted.clear()

    def answer(self, request):
        """The answer to a whole message."""
        fault = frame_fault(request)
        if fault:
            return Answer(fault[0], word(fault[1]), "", True)
        try:
            status, value, allow = self.answered(request)
        except Stopped as stopped:
            status, value, allow = stopped.args
        if "number" in value and "error" in value:
            self.refusals.add(value["error"])
        return Answer(status, value, allow, closes(request))

    def answered(self, request):
        name, words = self.route(request)
        caller = self.short(request, "x-member", "member")
        if name in COMMANDS:
            moment = self.short(request, "x-moment", "moment")
            stop(moment > LAST_MOMENT, 400, word("moment"))
            return *self.ordered(moment, caller, name, [*map(int, words), *words_of(name, request.body)]), ""
        return 200, self.page(caller, name, words), ""

    def route(self, request):
        """The name of what is asked for, and the parts of the target that are parameters."""
        for targets, methods in ROUTES.values():
            parts = targets.fullmatch(request.target)
            if parts:
                stop(request.method not in methods, 405, word("method"), ", ".join(sorted(methods)))
                return methods[request.method], parts.groups()
        raise Stopped(404, word("path"), "")

    def short(self, request, field, fault):
        values = request.values(field)
        stop(len(values) != 1 or not SHORT.fullmatch(values[0]), 400, word(fault))
        return int(values[0])

    # Commands.

    def ordered(self, moment, caller, name, words):
        sells = [self.house.sells(item) for item in self.house.due_items(moment)]
        answer = self.house.order(moment, caller, name, *words)
        if answer != "ok":
            return refused(answer)
        self.accepted[name] += 1
        if name == "close":
            return 200, {"sold": sells.count(True), "unsold": sells.count(False)}
        status = 200 if name in ("settle", "watch", "unwatch") else 201
        return status, getattr(self, f"result_{name}")(caller, *words)

    def result_register(self, caller, name):
        return {"member": len(self.house.names)}

    def result_add_category(self, caller, name):
        return {"category": len(self.house.kinds)}

    def result_list(self, caller, *words):
        return {"item": len(self.house.rows)}

    def result_bid(self, caller, number, maximum):
        standing = self.house.standing_of(self.house.found(number))
        return {"count": standing.count, "floor": standing.floor, "leader": standing.leader, "price": standing.price}

    def result_buy(self, caller, number):
        return {"item": number, "price": self.house.found(number).buy_now}

    def result_settle(self, caller, number):
        price = self.house.price(self.house.found(number))
        fee = price * self.rate // 10_000
        return {"fee": fee, "item": number, "net": price - fee, "price": price}

    def result_watch(self, caller, number):
        return {"item": number, "watched": True}

    def result_unwatch(self, caller, number):
        return {"item": number, "watched": False}

    def result_ask(self, caller, number, text):
        return {"asker": caller, "item": number, "number": int(self.house.ask_count(number, caller))}

    def result_answer(self, caller, number, asker, nth, text):
        return {"asker": asker, "item": number, "number": nth}

    def result_feedback(self, caller, number, rating, text):
        return {"item": number, "rating": rating, "to": self.house.given_rows[-1].to}

    def result_set_bands(self, caller, bands):
        return {"edition": len(self.house.tables)}

    # Pages.

    def page(self, caller, name, words):
        days = []
        if name == "statement":
            days = [day_of(text) for text in words]
            stop(None in days, 400, word("date"))
            stop(days[1] < days[0], 400, word("order"))
        own = READS[name].startswith("/me/")
        self.refuse(caller > len(self.house.names) or own and caller == 0, "NoCaller")
        numbers = days or [int(text) for text in words]
        return getattr(self, f"page_{name}")(*([caller] if own else []), *numbers)

    def refuse(self, fails, answer):
        if fails:
            raise Stopped(*refused(answer), "")

    def page_house(self):
        house = self.house
        return {"categories": len(house.kinds), "clock": house.now, "items": len(house.rows),
                "members": len(house.names), "rate": self.rate, "zone": self.zone}

    def page_bands(self):
        return table(self.house.tables[-1])

    def page_bands_of(self, edition):
        self.refuse(edition > len(self.house.tables), "Unknown")
        return table(self.house.tables[edition - 1])

    def page_categories(self):
        return {"categories": [{"category": number, "name": name} for number, name in enumerate(self.house.kinds, 1)]}

    def page_items_in(self, category, least):
        self.refuse(category > len(self.house.kinds), "Unknown")
        return {"items": [self.shown(item) for item in self.house.rows
                          if item.category == category and item.number >= least][:LISTED]}

    def page_item(self, number):
        return self.shown(self.item(number))

    def page_published(self, number, least):
        self.item(number)
        return {"questions": [question(q) for q in self.house.sorted_questions()
                              if q.answer is not None and q.item == number and q.asker >= least][:LISTED]}

    def page_member(self, member):
        self.refuse(member > len(self.house.names), "Unknown")
        counts = {key: sum((f.to, f.rating) == (member, rating) for f in self.house.given_rows)
                  for key, rating in (("plus", 1), ("zero", 0), ("minus", -1))}
        return {"member": member, "name": self.house.names[member - 1], **counts}

    def page_given(self, member, least):
        self.refuse(member > len(self.house.names), "Unknown")
        return {"feedback": [feedback(f) for f in self.house.sorted_feedback()
                             if f.to == member and f.item >= least][:LISTED]}

    def page_own_bids(self, caller, least):
        house, rows = self.house, []
        for item in house.rows:
            maxima = house.maxima(item.number, caller)
            if maxima and item.number >= least:
                rows.append({"item": item.number, "leading": house.leader(item) == caller, "maximum": max(maxima),
                             "mine": len(maxima), "price": house.price(item), "state": item.state})
        return {"bids": rows[:LISTED]}

    def page_own_reserves(self, caller, least):
        return {"reserves": [{"item": item.number, "met": self.house.met(item), "reserve": item.reserve}
                             for item in self.house.own_reserves(caller, least)]}

    def page_watches(self, caller):
        return {"items": [self.shown(item) for item in self.house.rows
                          if (caller, item.number) in self.house.watching]}

    def page_own_questions(self, caller, least):
        return {"questions": [question(q) for q in self.house.sorted_questions()
                              if q.asker == caller and q.item >= least][:LISTED]}

    def page_waiting(self, caller):
        return {"questions": [question(q) for q in self.waiting(caller)][:LISTED]}

    def page_statement(self, caller, first, last):
        lines = sorted((line for line in map(lambda item: self.line(caller, item), self.house.sold_items())
                        if line and first <= line["day"] <= last), key=lambda line: (line["day"], line["item"]))
        lines = [{**line, "day": (DAY_0 + datetime.timedelta(line["day"])).isoformat()} for line in lines]
        sold = [line for line in lines if line["role"] == "sell"]
        return {"lines": lines, "member": caller, "sold": sum(line["price"] for line in sold),
                "fees": sum(line["fee"] for line in sold), "net": sum(line["net"] for line in sold),
                "bought": sum(line["price"] for line in lines if line["role"] == "buy")}

    # Rows, as pages and the record show them.

    def item(self, number):
        item = self.house.found(number)
        self.refuse(item is None, "Unknown")
        return item

    def shown(self, item):
        floor = self.house.standing_of(item).floor if item.state == "open" else None
        return {"buy_now": item.buy_now, "category": item.category, "closed": item.closed,
                "count": len(self.house.placed_on(item)), "edition": item.edition, "end": item.end, "floor": floor,
                "item": item.number,
                "leader": self.house.leader(item), "lot": item.lot, "met": self.house.met(item),
                "price": self.house.price(item), "seller": item.seller, "start": item.start, "state": item.state,
                "text": item.text, "title": item.title}

    def line(self, member, item):
        """A member's line of a sale, with the day's number, or none."""
        price, buyer = self.house.price(item), self.house.leader(item)
        if member not in (item.seller, buyer):
            return None
        sells = member == item.seller
        fee = price * self.rate // 10_000 if sells else 0
        return {"day": self.day(item.closed), "fee": fee, "item": item.number,
                "net": price - fee, "other": buyer if sells else item.seller, "price": price,
                "role": "sell" if sells else "buy"}

    def day(self, moment):
        """The number of a moment's day in the house's zone."""
        return (moment + AHEAD[self.zone]) // SECONDS_OF_DAY

    def waiting(self, member):
        return [q for q in self.house.sorted_questions()
                if q.answer is None and self.house.found(q.item).seller == member]

    def record(self):
        """The text of the public record."""
        house = self.house
        return compact({
            **self.page_bands(), **self.page_categories(), "clock": house.now, "rate": self.rate, "zone": self.zone,
            "editions": [{**table(bands), "edition": number} for number, bands in enumerate(house.tables, 1)],
            "feedback": [feedback(f) for f in house.sorted_feedback()],
            "items": [self.shown(item) for item in house.rows],
            "members": [{"member": number, "name": name} for number, name in enumerate(house.names, 1)],
            "questions": [question(q) for q in house.sorted_questions() if q.answer is not None]})


def table(bands):
    return {"bands": [{"at": at, "step": step} for at, step in bands]}


def question(q):
    return {"answer": q.answer, "asker": q.asker, "item": q.item, "number": q.number, "text": q.text}


def feedback(f):
    return {"from": f.giver, "item": f.item, "rating": f.rating, "text": f.text, "to": f.to}


def setup():
    """The messages that make the preset house."""
    listing = {"category": 1, "end": 5_000, "lot": "A1", "start": 500, "text": "", "title": "Atlas"}
    return [*(command("/members", 0, 1_000, compact({"name": name})) for name in ("Ana", "Ben", "Cid")),
            command("/categories", 0, 1_000, compact({"name": "Books"})),
            command("/items", 1, 1_000, compact(listing))]
