"""Lists of messages with what each has to be answered, written by hand from the rules of the house and its formats.

Where a body is given it is the one that the rules give; the head, and each body that is left out, is the one of
tests/lib/plain_site.py. `stored()` is the section `runs` of the script of crates/test_store and the transcript that it has
to be.
"""
import dataclasses

from lib.plain_site import READS, Site, setup
from lib.routes import answered, asked, bid, listed, rated
from lib.sent import Answer, Request, command, compact, lengthened, read
from lib.transcript import MARK

ATLAS = ('{"buy_now":null,"category":1,"closed":%s,"count":%d,"edition":1,"end":5000,"floor":%s,"item":1,"leader":%s,'
         '"lot":"A1","met":null,"price":%d,"seller":1,"start":500,"state":"%s","text":"","title":"Atlas"}')
# An item with a reserve.
GLOBE = ('{"buy_now":%s,"category":1,"closed":%s,"count":%d,"edition":1,"end":6000,"floor":%s,"item":2,"leader":%s,'
         '"lot":"B2","met":%s,"price":%d,"seller":1,"start":500,"state":"%s","text":"","title":"Globe"}')
FIRST_BID = (b'POST /items/1/bids HTTP/1.1\r\nhost: h\r\nx-member: 2\r\nx-moment: 1001\r\ncontent-length: 15\r\n\r\n'
             b'{"maximum":500}')
FORMS = ("in a database", "run", "run in a database")


def placed(count, floor, leader, price):
    return '{"count":%d,"floor":%d,"leader":%d,"price":%d}' % (count, floor, leader, price)


def refusal(name, number):
    return '{"error":"%s","number":%d}' % (name, number)


def close(moment):
    return command("/close", 0, moment)


def purchase(member, moment):
    return command("/items/2/purchase", member, moment)


def broken(status, fault):
    return Answer(status, {"error": fault}, "", True)


@dataclasses.dataclass
class Case:
    """A list: pairs of a message and the body of its answer, of a text and its answer, or a message alone.

    Where it has the words of a replay it is played as one stream.
    """
    name: str
    steps: list
    preset: bool = True
    zone: str = "UTC0"
    replay: str | None = None


def bids():
    """Bids on the atlas, from the first to a maximum that is no raise."""
    first = [(read("/items/1", 2), ATLAS % ("null", 0, "500", "null", 500, "open")),
             (bid(1, 2, 1001, 500), placed(1, 550, 2, 500)),
             (read("/items/1", 2), ATLAS % ("null", 1, "550", "2", 500, "open")),
             (bid(1, 3, 1002, 549), '{"error":"Low","floor":550,"number":9}'),
             (bid(1, 3, 1002, 1000), placed(2, 600, 3, 550))]
    more = [(bid(1, 2, 1003, 1000), placed(3, 1050, 3, 1000)),
            (bid(1, 3, 1004, 1001), placed(4, 1051, 3, 1001)),
            (bid(1, 3, 1005, 2000), placed(5, 1100, 3, 1050)),
            (bid(1, 3, 1006, 3000), placed(6, 1100, 3, 1050)),
            (bid(1, 3, 1007, 3000), refusal("NotHigher", 10)),
            (read("/me/bids/1", 2),
             '{"bids":[{"item":1,"leading":false,"maximum":1000,"mine":2,"price":1050,"state":"open"}]}')]
    yield Case("A first bid, one that is too low, and one that leads", first)
    yield Case("A tie, raises, and a maximum that is no raise", first + more)
    for maximum, price, floor in ((2499, 2549, 2649), (2500, 2600, 2700)):
        yield Case("Steps on either side of a band's beginning",
                   [(listed(1, 1000, "B2", 6000, start=100), '{"item":2}'), (bid(2, 2, 1001, 9000), placed(1, 125, 2, 100)),
                    (bid(2, 3, 1002, maximum), placed(2, floor, 2, price))])
    yield Case("The greatest amount, and one over it",
               [(bid(1, 2, 1001, 1_000_000_000), placed(1, 550, 2, 500)),
                (bid(1, 2, 1002, 1_000_000_001), refusal("Range", 20)),
                (bid(1, 3, 1003, 1_000_000_000), placed(2, 1_000_010_000, 2, 1_000_000_000))])
    yield Case("The end of an item, and a close at it",
               [(bid(1, 2, 5000, 500), refusal("Ended", 6)), (close(4999), '{"sold":0,"unsold":0}'),
                (bid(1, 2, 4999, 500), placed(1, 550, 2, 500)), (close(5000), '{"sold":1,"unsold":0}'),
                (read("/items/1", 3), ATLAS % ("5000", 1, "null", "2", 500, "sold")),
                (bid(1, 3, 5001, 1000), refusal("NotOpen", 7))])
    yield Case("A moment before the clock",
               [(bid(1, 2, 1001, 500), placed(1, 550, 2, 500)), (bid(1, 3, 1000, 1000), refusal("MomentBehind", 5)),
                (bid(1, 3, 1001, 1000), placed(2, 600, 3, 550))])


def sales():
    """Purchases, closes, settlements and ratings."""
    globe = (listed(1, 1000, "B2", 6000, buy_now=2000), '{"item":2}')
    bought = '{"item":2,"price":2000}'
    yield Case("A purchase", [globe, (purchase(2, 1001), bought)])
    yield Case("A purchase behind a refused bid",
               [globe, (bid(2, 3, 1001, 400), '{"error":"Low","floor":500,"number":9}'), (purchase(2, 1001), bought)])
    yield Case("A purchase behind a bid",
               [globe, (bid(2, 3, 1001, 500), placed(1, 550, 3, 500)), (purchase(2, 1001), refusal("HasBids", 11))])
    yield Case("A statement, by a zone in which a day begins before that of UTC",
               [command("/members", 0, 1000, compact({"name": "Ana"})), command("/members", 0, 1000, compact({"name": "Ben"})),
                command("/categories", 0, 1000, compact({"name": "Books"})),
                listed(1, 1000, "A1", 5000, start=999), listed(1, 1000, "B2", 84_600, start=1),
                bid(1, 2, 1001, 999), bid(2, 2, 1001, 1), (close(84_600), '{"sold":2,"unsold":0}'),
                (read("/me/statement/1970-01-01/1970-01-02", 1),
                 '{"bought":0,"fees":99,"lines":[{"day":"1970-01-01","fee":99,"item":1,"net":900,"other":2,"price":999,'
                 '"role":"sell"},{"day":"1970-01-02","fee":0,"item":2,"net":1,"other":2,"price":1,"role":"sell"}],'
                 '"member":1,"net":901,"sold":1000}'),
                read("/me/statement/1970-01-01/1970-01-01", 1)], preset=False, zone="CET-1")
    yield Case("A bid behind a close", [(close(4999), '{"sold":0,"unsold":0}'), (bid(1, 2, 4998, 500), refusal("MomentBehind", 5))])
    yield Case("A watch doesn't move the clock",
               [(command("/items/1/watch", 2, 3000), '{"item":1,"watched":true}'), (bid(1, 2, 1001, 500), placed(1, 550, 2, 500))])
    rating = compact({"rating": 1, "text": ""})
    yield Case("A settlement, and ratings",
               [(bid(1, 2, 1001, 999), placed(1, 550, 2, 500)), (close(5000), '{"sold":1,"unsold":0}'),
                (command("/items/1/settle", 0, 5000), '{"fee":50,"item":1,"net":450,"price":500}'),
                (command("/items/1/feedback", 2, 5000, rating), '{"item":1,"rating":1,"to":1}'),
                (command("/items/1/feedback", 2, 5000, rating), refusal("AlreadyGiven", 16)),
                (command("/items/1/feedback", 3, 5000, rating), refusal("NotParty", 17))])


def reserves():
    """Reserves: what is sold and shown by them, what a seller may seal, and who sees it."""
    globe, page = (listed(1, 1000, "B2", 6000, reserve=900), '{"item":2}'), read("/items/2", 3)
    first = (bid(2, 2, 1001, 700), placed(1, 550, 2, 500))
    second = (bid(2, 3, 1002, 750), placed(2, 800, 3, 750))

    def sealed(met, amount=900):
        return read("/me/reserves/1", 1), '{"reserves":[{"item":2,"met":%s,"reserve":%d}]}' % (met, amount)

    yield Case("A reserve that is met by the third bid, which leads at it",
               [globe, (read("/items/1", 2), ATLAS % ("null", 0, "500", "null", 500, "open")),
                (page, GLOBE % ("null", "null", 0, "500", "null", "false", 500, "open")), first,
                (page, GLOBE % ("null", "null", 1, "550", "2", "false", 500, "open")), second, sealed("false"),
                (page, GLOBE % ("null", "null", 2, "800", "3", "false", 750, "open")),
                (bid(2, 2, 1003, 1000), placed(3, 950, 2, 900)), sealed("true"),
                (page, GLOBE % ("null", "null", 3, "950", "2", "true", 900, "open")),
                (bid(2, 3, 1004, 949), '{"error":"Low","floor":950,"number":9}'),
                (bid(2, 3, 1004, 950), placed(4, 1050, 2, 1000)), (close(6000), '{"sold":1,"unsold":1}'),
                (page, GLOBE % ("null", "6000", 4, "null", "2", "true", 1000, "sold")), sealed("true"),
                (read("/me/reserves/2", 1), '{"reserves":[{"item":2,"met":true,"reserve":900}]}'),
                (read("/me/reserves/3", 1), '{"reserves":[]}'), (read("/me/reserves/1", 2), '{"reserves":[]}'),
                (read("/me/reserves/1", 0), refusal("NoCaller", 1))])
    yield Case("A leader raises to a reserve, and over it",
               [globe, first, (bid(2, 2, 1002, 899), placed(2, 550, 2, 500)), sealed("false"),
                (bid(2, 2, 1003, 900), placed(3, 950, 2, 900)), sealed("true"),
                (bid(2, 2, 1004, 5000), placed(4, 950, 2, 900)),
                (page, GLOBE % ("null", "null", 4, "950", "2", "true", 900, "open"))])
    yield Case("A second maximum under a reserve, and one over it",
               [globe, (bid(2, 2, 1001, 5000), placed(1, 950, 2, 900)), (bid(2, 3, 1002, 950), placed(2, 1050, 2, 1000)),
                (bid(2, 3, 1003, 1050), placed(3, 1150, 2, 1100))])
    yield Case("A reserve that isn't met: the item is unsold, and keeps its leader and its price",
               [globe, first, second, (close(6000), '{"sold":0,"unsold":2}'),
                (page, GLOBE % ("null", "6000", 2, "null", "3", "false", 750, "unsold")), sealed("false"),
                (read("/me/bids/1", 3),
                 '{"bids":[{"item":2,"leading":true,"maximum":750,"mine":1,"price":750,"state":"unsold"}]}'),
                (command("/items/2/settle", 0, 6001), refusal("NotSold", 18)),
                (rated(2, 3, 6001, 1), refusal("NotSold", 18)),
                (read("/me/statement/1970-01-01/1970-01-02", 1),
                 '{"bought":0,"fees":0,"lines":[],"member":1,"net":0,"sold":0}')])
    yield Case("An item that is bought at once meets its reserve",
               [(listed(1, 1000, "B2", 6000, buy_now=2000, reserve=2000), '{"item":2}'), sealed("false", 2000),
                (purchase(2, 1001), '{"item":2,"price":2000}'), sealed("true", 2000),
                (page, GLOBE % ("2000", "1001", 0, "null", "2", "true", 2000, "sold")),
                (command("/items/2/settle", 0, 1002), '{"fee":200,"item":2,"net":1800,"price":2000}')])
    field = '{"error":"field","field":"reserve"}'
    yield Case("What is no reserve, and what is none",
               [*((listed(1, 1000, "B2", 6000, reserve=wrong), refusal("Range", 20))
                  for wrong in (0, 499, 500, 1_000_000_001, 2**64 - 1)),
                (listed(1, 1000, "B2", 6000, buy_now=2000, reserve=2001), refusal("Range", 20)),
                *((listed(1, 1000, "B2", 6000, reserve=wrong), field) for wrong in ("900", True, [], -1, 9.5, 2**64)),
                (listed(1, 1000, "B2", "6000", reserve="900"), '{"error":"field","field":"end"}'),
                (listed(1, 1000, "A1", 6000, reserve=500), refusal("LotExists", 13)),
                (listed(1, 1000, "B2", 6000, category=9, reserve=500), refusal("Range", 20)),
                (listed(1, 1000, "B2", 6000, category=9, reserve=501), refusal("Unknown", 4)),
                (listed(1, 1000, "B2", 6000, reserve=None), '{"item":2}'),
                (page, GLOBE % ("null", "null", 0, "500", "null", "null", 500, "open")),
                (listed(1, 1000, "C3", 6000, reserve=501), '{"item":3}'),
                (listed(2, 1000, "D4", 6000, reserve=1_000_000_000), '{"item":4}'),
                (read("/me/reserves/1", 1), '{"reserves":[{"item":3,"met":false,"reserve":501}]}'),
                (read("/me/reserves/1", 2), '{"reserves":[{"item":4,"met":false,"reserve":1000000000}]}')])
    yield Case("Reserves of fifty-one items, of which a page shows fifty",
               [*((listed(1, 1000, f"L{number}", 6000, reserve=number + 600), '{"item":%d}' % number)
                  for number in range(2, 53)),
                (read("/me/reserves/1", 1), own_reserves(range(2, 52))), (read("/me/reserves/3", 1), own_reserves(range(3, 53))),
                (read("/me/reserves/52", 1), own_reserves([52]))])


def sets(caller, *bands):
    return command("/bands", caller, 1001, compact({"bands": [{"at": at, "step": step} for at, step in bands]}))


def editions():
    """Band tables that are set: an item goes by the newest at its listing, and keeps it."""
    listing, wide = (listed(1, 1001, "B2", 6000), '{"item":2}'), '{"bands":[{"at":0,"step":100}]}'
    first = [(sets(0, (0, 100)), '{"edition":2}'), listing, (bid(1, 2, 1001, 500), placed(1, 550, 2, 500)),
             (bid(2, 2, 1001, 500), placed(1, 600, 2, 500))]
    globe = (GLOBE % ("null", "null", 2, "700", "3", "null", 600, "open")).replace('"edition":1', '"edition":2')
    yield Case("A band table is set, and an item is listed by it", first)
    yield Case("Bids by either band table",
               [*first, (bid(1, 3, 1001, 1000), placed(2, 600, 3, 550)), (bid(2, 3, 1001, 1000), placed(2, 700, 3, 600)),
                (read("/items/1", 2), ATLAS % ("null", 2, "600", "3", 550, "open")), (read("/items/2", 2), globe),
                (read("/bands", 2), wide), read("/bands/1", 2), (read("/bands/2", 2), wide),
                (read("/bands/3", 2), refusal("Unknown", 4))])
    yield Case("What is no band table, and who sets none",
               [(sets(0), refusal("Range", 20)), (sets(0, (0, 5), (100, 4)), refusal("Range", 20)),
                (sets(1, (0, 100)), refusal("HouseOnly", 2)), (read("/bands/2", 2), refusal("Unknown", 4))])
    yield Case("Two band tables with no listing between",
               [(sets(0, (0, 100)), '{"edition":2}'), (sets(0, (0, 200)), '{"edition":3}'), listing,
                (bid(2, 2, 1001, 500), placed(1, 700, 2, 500))])


def own_reserves(numbers):
    rows = ",".join('{"item":%d,"met":false,"reserve":%d}' % (number, number + 600) for number in numbers)
    return '{"reserves":[%s]}' % rows


def talk():
    """Questions and answers."""
    yield Case("Questions of two, one of which is answered",
               [(asked(1, 2, 1001), '{"asker":2,"item":1,"number":1}'),
                (asked(1, 3, 1002, "How old?"), '{"asker":3,"item":1,"number":1}'),
                (answered(1, 1, 1003, 3), '{"asker":3,"item":1,"number":1}'),
                (read("/items/1/questions/1", 2),
                 '{"questions":[{"answer":"1952","asker":3,"item":1,"number":1,"text":"How old?"}]}'),
                (read("/me/questions/1", 2),
                 '{"questions":[{"answer":null,"asker":2,"item":1,"number":1,"text":"Is it signed?"}]}')])
    yield Case("One question over the limit of an asker",
               [*((asked(1, 2, 1001), '{"asker":2,"item":1,"number":%d}' % number) for number in range(1, 21)),
                (asked(1, 2, 1001), refusal("Limit", 19)), (asked(1, 3, 1001), '{"asker":3,"item":1,"number":1}')])
    yield Case("A question of the seller", [(asked(1, 1, 1001), refusal("OwnItem", 8))])


def frames():
    """Texts that are no message, and spellings of one that is."""
    empty = b"POST /items/1/bids HTTP/1.1\r\nhost: h\r\nx-member: 2\r\nx-moment: 1001\r\n"
    half = b'{"maximum":12.5}'
    yield Case("Broken frames, each followed by a message that is answered",
               [(b"", broken(400, "head")), (FIRST_BID[:-1], broken(400, "end")), (FIRST_BID[:60], broken(400, "head")),
                (FIRST_BID + b"x", broken(400, "excess")), (FIRST_BID + FIRST_BID, broken(400, "excess")),
                (FIRST_BID.replace(b"host: h\r\n", b""), broken(400, "host")),
                (empty + b"content-length: 16385\r\n\r\n", broken(413, "size")),
                (empty + b"content-length: 15\r\ncontent-length: 15\r\n\r\n", broken(400, "length")),
                (empty + b"transfer-encoding: chunked\r\n\r\n", broken(501, "transfer")),
                (command("/items/1/bids", 2, 1001, half), '{"error":"field","field":"maximum"}'),
                (FIRST_BID, Answer(201, {"count": 1, "floor": 550, "leader": 2, "price": 500}))])
    names = (("Host", " 127.0.0.1:8080"), ("User-Agent", " client/1"), ("Accept", " */*"), ("x-member", " 2"),
             ("x-moment", " 1001"), ("Content-Type", " application/x-www-form-urlencoded"))
    other = bid(1, 2, 1001, 500)
    other = dataclasses.replace(other, fields=names + lengthened(other.body))
    yield Case("Other fields", [(other, placed(1, 550, 2, 500))])
    yield Case("No message", [], preset=False)
    twice = listed(1, 1000, "B2", 6000)
    yield Case("A lot that is listed twice", [(twice, '{"item":2}'), (twice, refusal("LotExists", 13))])
    place = read("/items/1", 2)
    yield Case("Other methods, paths and callers",
               [(dataclasses.replace(place, method="DELETE"), '{"error":"method"}'),
                (read("/items/01", 2), '{"error":"path"}'), (read("/items/1?x", 2), '{"error":"path"}'),
                (read("/items/9", 2), refusal("Unknown", 4)), (read("/items/1", 9), refusal("NoCaller", 1)),
                (place.with_field("connection", " close"), ATLAS % ("null", 0, "500", "null", 500, "open")),
                (dataclasses.replace(place, version="HTTP/1.0"), ATLAS % ("null", 0, "500", "null", 500, "open"))])


def whole():
    """Lists of many items, and of every command and every page."""
    yield Case("A category of 120 items, of which a page shows 50, and a bid behind it",
               [*((listed(1, 1000, f"L{number}", 6000), '{"item":%d}' % number) for number in range(2, 121)),
                read("/categories/1/items/1", 2), read("/categories/1/items/71", 2), read("/categories/1/items/72", 2),
                (bid(120, 2, 1001, 500), placed(1, 550, 2, 500))])
    numbers = {"I": 1, "C": 1, "M": 1, "F": 1, "FROM": "1970-01-01", "TO": "1970-01-02"}
    pages = ["/".join(str(numbers.get(part, part)) for part in path.split("/")) for path in READS.values()]
    yield Case("Every command is accepted, and then every page is read",
               [command("/members", 0, 1000, compact({"name": "Dora"})),
                command("/categories", 0, 1000, compact({"name": "Maps"})),
                listed(1, 1000, "B2", 6000, category=2, buy_now=2000, reserve=900, title="\u00c9toile"), bid(1, 2, 1001, 500),
                bid(1, 3, 1001, 1000), command("/items/1/watch", 3, 1001), command("/items/2/watch", 3, 1001),
                command("/items/2/unwatch", 3, 1001), asked(1, 3, 1001, "How old?"), asked(1, 3, 1001),
                asked(1, 2, 1001), answered(1, 1, 1002, 3), purchase(4, 1003), close(5000),
                command("/items/1/settle", 0, 5000), rated(1, 3, 5001, 1), rated(1, 1, 5001, 0),
                *(read(page, caller) for page in pages for caller in (3, 1))])


def replays():
    """Lists that are replayed."""
    three = [(bid(1, 2, 1001, 500), placed(1, 550, 2, 500)), (bid(1, 3, 1003, 1000), placed(2, 600, 3, 550)),
             (bid(1, 2, 1004, 1000), placed(3, 1050, 3, 1000))]
    yield Case("A replay after the setup, and then the record", three, replay="preset record")
    yield Case("A replay after the setup", three, replay="preset")
    yield Case("A replay over a new house, and then the record", three, replay="record")
    yield Case("A replay over a new house", three, replay="")
    yield Case("A replay of a stream that ends within a message, and then the record", [(FIRST_BID[:-1], broken(400, "end"))],
               replay="preset record")
    yield Case("A replay of no message", [], preset=False, replay="")


def cases():
    yield from (*bids(), *sales(), *reserves(), *editions(), *talk(), *frames(), *whole(), *replays())


def is_new(site):
    return not (site.house.names or site.house.kinds or site.house.rows or site.house.now)


def printed(site, answers):
    """What has to be printed of a list with these answers, after which the house is the plain site's."""
    ends = ["not new", "new"]
    lines = [b"new", *(answer.text() for answer in answers), ends[is_new(site)].encode(), site.record()]
    return b"".join(line + b"\n" for line in [*lines, *(f"{form}: the same".encode() for form in FORMS)])


class Wrong(Exception):
    """The plain site answers otherwise than the rules."""


def steps(case):
    """The site after a list, and each of its messages with its answer."""
    site = Site(zone=case.zone)
    pairs = [(request, site.answer(request)) for request in (setup() if case.preset else [])]
    for step in case.steps:
        given, body = step if isinstance(step, tuple) else (step, None)
        answer = body if isinstance(given, bytes) else site.answer(given)
        if isinstance(given, bytes) and body.status == 201:
            answer = site.answer(bid(1, 2, 1001, 500))
        if isinstance(body, str) and compact(answer.value) != body.encode() or isinstance(body, Answer) and body != answer:
            raise Wrong(case.name, given, body, answer)
        pairs.append((given, answer))
    return site, pairs


def block(given):
    """A message in a script."""
    text = given if isinstance(given, bytes) else given.text()
    return f"text {len(text)}\n".encode() + text + b"\n"


def line(given):
    """A message in a script, in its shortest spelling; there a command tells its length also where it is none."""
    if isinstance(given, Request):
        member, moment = "".join(given.values("x-member")), "".join(given.values("x-moment"))
        if given == read(given.target, member):
            return f"get {member} {given.target}\n".encode()
        if given == command(given.target, member, moment, given.body):
            return f"post {member} {moment} {given.target} {given.body.decode()}".strip().encode() + b"\n"
    return block(given)


def script_of(case):
    """The lines of a list in a script, each with what has to be printed of it."""
    site, pairs = steps(case)
    yield f"house 1000 {case.zone}\n".encode(), b""
    if case.replay is None:
        yield from ((line(given), b"") for given, _ in pairs)
        yield b"all\n", printed(site, [answer for _, answer in pairs])
    else:
        stream = pairs[len(setup()):] if "preset" in case.replay else pairs
        yield from ((line(given), b"") for given, _ in stream)
        record = site.record() + b"\n" if "record" in case.replay else b""
        written = b"".join([*(answer.text() for _, answer in stream), record])
        yield f"replay {case.replay}".strip().encode() + b"\n", b"done\n" + written + b"\nin a database: the same\n"


def stored():
    """The script, and what has to be printed: its lines, but for the texts that follow them, and what is printed of each."""
    script, output = [], []
    for case in cases():
        for text, answer in [(f"-- {case.name}.\n".encode(), b""), *script_of(case), (b"\n", b"")]:
            marked = text if text.startswith((b"--", b"\n")) else MARK.encode() + text
            script.append(marked)
            output += [marked[:marked.index(b"\n") + 1], answer]
    return b"".join(script), b"".join(output)
