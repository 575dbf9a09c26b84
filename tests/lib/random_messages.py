"""Random messages with what each has to be answered, and what one member has sealed in a stream of them."""
import dataclasses
import json
import re

from lib.chance import Chance
from lib.plain_house import MOST_CENTS
from lib.plain_site import COMMANDS, FIELDS, MOST_BODY, MOST_FIELDS, MOST_HEAD, READS, SHORT, Site
from lib.sent import Answer, command, compact, lengthened, read

SEED = 2026
SECONDS_OF_DAY = 86_400
HEAD, END = (Answer(400, {"error": fault}, "", True) for fault in ("head", "end"))

BROKEN_NUMBERS = ["", "02", "+2", "2x", "-1", "1 2", "12345678901", "2.0", "0x2", "٢"]
BROKEN_PATHS = ["/", "*", "/items/", "/items/01", "/items/0", "/items/12345678901", "/items/1?x", "/items/1#x",
                "/items/%31", "//items/1", "/Items/1", "/items/1/bid", "/me", "/me/bids/0", "/me/watches/", "/é",
                "http://h/items/1", "/items/1/questions/2/0/answer", "/me/statement//1970-01-01", "/categories/1/items"]
BROKEN_DAYS = ["1970-1-01", "1970-02-29", "1969-12-31", "2101-01-01", "1970-01-01?x", "x", "1970-13-01", "١٩٧٠-٠١-٠١"]
METHODS = ["GET", "POST", "HEAD", "DELETE", "PUT", "get", "PATCH", "X-1"]
OTHER_KINDS = {"text": [None, 5, True, ["a"], {}],
               "number": [None, "5", 12.5, -1, 2**64, 10**30, True, [1], {"a": 1}],
               "maybe": ["5", 12.5, -1, 2**64, False, []],
               "integer": [None, "1", 0.5, 2**63, -2**63 - 1, False, []],
               "bands": [None, {}, "[]", 5, [None], [{"at": 0}], [{"at": 0, "step": "5"}], [{"at": -1, "step": 5}],
                         [{"at": 0, "step": 5}, 5], [[0, 5]]]}
NO_BODIES = [b"", b" ", b"x", b"[]", b"5", b'"a"', b"null", b"{", b'{"name":"a"', b"{'name':1}", b'{"name":"a"}x',
             b'{"name":"a",}', b"\xef\xbb\xbf{}", b'{"name":"\xff"}', b'{"name":"\\ud800"}', b'{"name":"a\nb"}', b"{} {}",
             b'{"a":' + b"[" * 127 + b"]" * 127 + b"}", b'{"a":1e999}', b'{"a":NaN}', b'{"a":01}', b'{"a":-}']
PLAIN_FIELDS = [("User-Agent", " client/1"), ("accept", "*/*"), ("Expect", " 100-continue"), ("connection", "keep-alive"),
                ("X-Members", " 3"), ("content-type", "text/plain"), ("x-empty", ""), ("Connection", " upgrade, closed"),
                ("via", " \té\t")]


def any_maximum(chance, others):
    """A maximum from the whole range: any amount, any magnitude, one near a bound, or the same as another."""
    return chance.choice([
        lambda: chance.randint(1, MOST_CENTS),
        lambda: int(10 ** chance.uniform(0, 9)),
        lambda: chance.choice([1, 2, MOST_CENTS - 1, MOST_CENTS]),
        lambda: chance.choice([*others, MOST_CENTS])])()


class Sealing(Chance):
    """Random words, of which one maximum in four and one reserve in four are from the whole range."""

    def reserve(self, start, buy_now):
        sealed = super().reserve(start, buy_now)
        is_any = sealed and buy_now is None and start < MOST_CENTS and self.rarely(25)
        return [self.random.randint(start + 1, MOST_CENTS)] if is_any else sealed

    def bid(self):
        caller, number, maximum = super().bid()
        others = [bid.maximum for bid in self.house.placed if bid.item == number]
        return caller, number, any_maximum(self.random, others) if self.rarely(25) else maximum


class Sender:
    """Random requests over what a plain site has."""

    def __init__(self, site, seed):
        self.site, self.chance = site, Sealing(site.house, seed)
        self.random = self.chance.random
        self.repeated = []

    def one_of(self, values):
        return self.random.choice(values)

    def rarely(self, percent=3):
        return self.chance.rarely(percent)

    # Bodies.

    def body(self, name, words):
        """The body of a command whose fields have these values, in one of its spellings."""
        members = dict(zip(FIELDS.get(name, {}), words))
        if name == "set_bands":
            members = {"bands": [{"at": at, "step": step} for at, step in members["bands"]]}
        if members.get("buy_now", 0) is None and self.rarely(50):
            del members["buy_now"]
        if name == "list" and "reserve" not in members and self.rarely(20):
            members["reserve"] = None
        if name not in FIELDS:
            return self.one_of([b"", b"", b"not json", b"{}", b"\0\xff"])
        pairs = list(members.items())
        if self.rarely(20):
            self.random.shuffle(pairs)
        if self.rarely(5):
            pairs.append((self.one_of(["more", "Maximum", "x"]), self.one_of([None, 1e300, [{}], "é\u2028"])))
        spelled = [self.spelled(key) + ":" + self.spelled(value) for key, value in pairs]
        if self.rarely(5):
            # Of two equal keys the last counts.
            spelled.insert(0, self.spelled(self.one_of(list(FIELDS[name]))) + ":" + self.one_of(["true", "[]", '"z"']))
        space = self.one_of(["", "", "", " ", "\n\t", "\r\n"])
        return (space + "{" + ("," + space).join(spelled) + space + "}" + space).encode()

    def spelled(self, value):
        return json.dumps(value, ensure_ascii=self.rarely(30))

    def other_body(self, name, body):
        """A body that lacks a field or has one of another kind, or that is no object."""
        if name not in FIELDS or self.rarely(30):
            return self.one_of(NO_BODIES)
        members = json.loads(body)
        for field in self.random.sample(list(FIELDS[name]), self.one_of([1, 1, min(2, len(FIELDS[name]))])):
            members[field] = self.one_of(OTHER_KINDS[FIELDS[name][field]])
            if self.rarely(25):
                del members[field]
        text = json.dumps(members, ensure_ascii=False)
        # What is a whole number to some, and none to the house.
        return re.sub(r": -1\b", self.one_of([":-1", ":-0", ":1e0", ":1.0"]), text).encode()

    # Messages.

    def command(self):
        moment, caller, name, *words = self.chance.command()
        if self.rarely(1):
            moment += self.random.randint(1, SECONDS_OF_DAY)
        path = re.sub(r"\b[A-Z]\b", lambda _: str(words.pop(0)), COMMANDS[name])
        body = self.body(name, words)
        return name, command(path, caller, moment, body)

    def read(self):
        name = self.one_of(list(READS))
        numbers = {"I": self.chance.item, "C": self.chance.category, "M": self.chance.member, "A": self.chance.member,
                   "E": self.edition, "F": self.least, "FROM": self.day, "TO": self.day}
        path = re.sub(r"\b[A-Z]+\b", lambda part: str(numbers[part[0]]()), READS[name])
        caller = self.one_of([self.chance.member(), self.chance.member(), self.chance.member(), 0])
        return name, read(path, caller)

    def edition(self):
        count = len(self.site.house.tables)
        return self.one_of([1, count, count + 1, self.random.randint(1, count)])

    def least(self):
        return self.one_of([1, 1, 1, 2, 5, self.chance.item(), 9_999_999_999])

    def day(self):
        if self.rarely(5):
            return self.one_of(BROKEN_DAYS)
        return self.one_of(["1970-01-01", "1970-01-01", "1970-01-02", "1970-01-03", "1970-02-28", "2100-12-31"])

    def message(self):
        """The next message: mostly a command, sometimes the one before again, up to more often than a rule allows."""
        if self.repeated:
            return self.repeated.pop()
        name, request = self.command() if self.rarely(75) else self.read()
        if self.rarely(8):
            request = self.broken(name, request)
        request = self.dressed(request)
        if self.rarely(4 if name == "ask" else 1):
            self.repeated = [request] * self.one_of([1, 3, 22])
        return request

    def messages(self, count):
        """So many messages, mostly to a house that has some members and categories."""
        first = []
        if not self.rarely(20):
            first = [self.named("/members", name) for name in "KLMNOP"] + [self.named("/categories", "QR")]
        for number in range(count):
            yield first[number] if number < len(first) else self.message()

    def named(self, path, name):
        return command(path, 0, self.site.house.now, compact({"name": name}))

    def broken(self, name, request):
        """The message with one fault after its frame, or what looks like one."""
        field = self.one_of(["x-member", "x-member", "x-moment"])
        other = self.one_of([*BROKEN_NUMBERS, "0", "1", "4102444800", "4102444801", "9999999999"])
        return self.one_of([
            lambda: request.without(field),
            lambda: request.with_field(field, " 2"),
            lambda: request.without(field).with_field(field.upper(), f"\t{other} "),
            lambda: dataclasses.replace(request, method=self.one_of(METHODS)),
            lambda: dataclasses.replace(request, target=self.one_of(BROKEN_PATHS)),
            lambda: self.with_body(request, self.other_body(name, request.body)),
            lambda: self.with_body(request, self.other_body(name, request.body)),
            lambda: self.with_body(request, self.other_body(name, request.body)),
        ])()

    def with_body(self, request, body):
        request = request.without("content-length")
        return dataclasses.replace(request, fields=request.fields + lengthened(body), body=body)

    def dressed(self, request):
        """The same message in another of its spellings."""
        if self.rarely(10):
            request = request.with_field(*self.one_of(PLAIN_FIELDS))
        if self.rarely(10):
            fields = [(self.one_of([name, name.upper(), name.title()]), value + self.one_of(["", " ", "\t "]))
                      for name, value in request.fields]
            self.random.shuffle(fields)
            request = dataclasses.replace(request, fields=tuple(fields))
        if self.rarely(5):
            request = dataclasses.replace(request, line_end="\n")
        if self.rarely(5):
            request = dataclasses.replace(request, before=self.one_of(["\r\n", "\n\r\n"]))
        if self.rarely(2) and not request.body:
            request = self.with_body(request, b"GET / HTTP/1.1\r\n\r\n")
        # The last, since a field more would make the head too long.
        if self.rarely(2):
            request = self.filled(request, MOST_FIELDS, MOST_HEAD)
        return request

    def filled(self, request, fields, size):
        """The message with a head of so many fields, or of so many bytes."""
        if self.rarely(50):
            return dataclasses.replace(request, fields=request.fields + (("a", ""),) * (fields - len(request.fields)))
        empty = request.with_field("a", "")
        return request.with_field("a", "b" * (size - len(empty.head())))

    # How a stream ends: its last bytes, and what is answered to them, or None where only the form is known.

    def end_cleanly(self):
        return b"", []

    def end_closed(self):
        request = self.message()
        request = self.one_of([
            lambda: request.with_field("connection", self.one_of(["close", " Close", "a, CLOSE ,b", "keep-alive,close"])),
            lambda: dataclasses.replace(request, version="HTTP/1.0"),
            lambda: dataclasses.replace(request.without("host"), version="HTTP/1.0")])()
        return request.text() + self.message().text(), [self.site.answer(request)]

    def end_broken(self):
        request = self.message()
        fields = self.one_of([
            [], [("host", "h"), ("Host", "")], [("host", "h"), ("transfer-encoding", "chunked")],
            [("host", "h"), ("content-length", self.one_of(["-1", "x", "", "+1", "1,1", "0x1"]))],
            [("host", "h"), ("content-length", "0"), ("content-length", "0")],
            [("host", "h"), ("content-length", self.one_of([str(MOST_BODY + 1), "0" * 9 + "9" * 40]))], None])
        if fields is None:
            request = self.filled(request, MOST_FIELDS + 1, MOST_HEAD + 1)
        else:
            request = request.without("host").without("content-length")
            request = dataclasses.replace(request, fields=request.fields + tuple(fields), body=b"")
        return request.text() + self.message().text(), [self.site.answer(request)]

    def end_cut(self):
        request = self.message()
        text = request.text()
        at = self.random.randrange(1, len(text))
        return text[:at], [HEAD if at < len(request.head()) else END]

    def end_wild(self):
        text = bytearray(self.message().text() + self.message().text())
        for _ in range(self.random.randint(1, 4)):
            at = self.random.randrange(len(text))
            text[at:at + self.one_of([0, 1, 1, 9])] = self.random.randbytes(self.one_of([0, 1, 1, 5]))
        return bytes(text), None


@dataclasses.dataclass
class Played:
    """Messages, what the plain site answers to each, and after each what is public and what waits for whom."""
    site: Site
    requests: list
    answers: list
    seen: list


def played(site, requests):
    """What the plain site makes of whole messages."""
    result = Played(site, [], [], [])
    for request in requests:
        before = sum(site.accepted.values())
        answer = site.answer(request)
        if sum(site.accepted.values()) > before or not result.seen:
            seen = site.record(), [site.waiting(member) and site.page_waiting(member)
                                   for member in range(1, len(site.house.names) + 1)]
        result.requests.append(request)
        result.answers.append(answer)
        result.seen.append(seen)
    return result


def named(request):
    """The number whose message it is, or none."""
    values = request.values("x-member")
    return int(values[0]) if len(values) == 1 and SHORT.fullmatch(values[0]) else None


def sealed_changes(first, chance):
    """Accepted messages with what else a member could have sealed in their place, one kind of them first."""
    parts = {at: first.requests[at].target.split("/")[-1] for at, answer in enumerate(first.answers)
             if answer.status in (200, 201) and first.requests[at].method == "POST"}
    places, kind = list(parts), chance.choice(["bids", "bids", "questions", "watch", "items"])
    maxima = {at: json.loads(first.requests[at].body)["maximum"] for at in places if parts[at] == "bids"}
    chance.shuffle(places)
    for at in sorted(places, key=lambda at: parts[at] != kind):
        request, part = first.requests[at], parts[at]
        if part == "bids":
            near = max(0, maxima[at] + chance.choice([-1, 1, 7, 500, 100_000]))
            body = compact({"maximum": chance.choice([near, any_maximum(chance, list(maxima.values()))])})
        elif part == "items" and json.loads(request.body).get("reserve") is not None:
            body = other_reserve(chance, json.loads(request.body))
        elif part == "questions":
            body = compact({"text": f"Is it {chance.randrange(1_000)} years old?"})
        elif part in ("watch", "unwatch"):
            yield at, dataclasses.replace(request, target=request.target.replace(
                part, "unwatch" if part == "watch" else "watch"))
            continue
        else:
            continue
        request = request.without("content-length")
        yield at, dataclasses.replace(request, fields=request.fields + lengthened(body), body=body)


def other_reserve(chance, listing):
    """A listing with another reserve: one near it, or any."""
    start, most = listing["start"], listing.get("buy_now") or MOST_CENTS
    near = listing["reserve"] + chance.choice([-100, -1, 1, 7, 500])
    reserve = chance.choice([near, chance.randint(start, most), most, int(start * chance.uniform(1, 3)) + 1])
    return compact({**listing, "reserve": max(start + 1, min(most, reserve))})


def sights(site):
    """A read of each page that shows what a house has."""
    house = site.house
    pages = ["/house", "/categories", *(f"/categories/{number}/items/1" for number in range(1, len(house.kinds) + 1))]
    pages += [f"/items/{item.number}/questions/1" for item in house.rows]
    for number in range(1, len(house.names) + 1):
        pages += [f"/members/{number}", f"/members/{number}/feedback/1"]
        for page in ("bids/1", "reserves/1", "watches", "questions/1", "waiting", "statement/1970-01-01/2100-12-31"):
            yield read(f"/me/{page}", number)
    yield from (read(page, 0) for page in pages)
