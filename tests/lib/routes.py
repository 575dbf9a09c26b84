"""A list of messages with every command accepted, every page read and every refusal and fault answered.

They are for the house that `--preset` stands for: Ana, who sells item 1, Ben and Cid. No command of `commands` has a
reserve or sets a band table: these are in `sealed`, which a house of version 1 doesn't take.
"""
import dataclasses

from lib.plain_house import BANDS
from lib.plain_site import COMMANDS, NUMBERS, READS, Site
from lib.sent import command, compact, read

LAST_MOMENT = 4_102_444_800


def bid(item, member, moment, maximum):
    return command(f"/items/{item}/bids", member, moment, compact({"maximum": maximum}))


def listed(seller, moment, lot, end, **others):
    members = {"category": 1, "end": end, "lot": lot, "start": 500, "text": "", "title": "Globe", **others}
    return command("/items", seller, moment, compact(members))


def asked(item, member, moment, text="Is it signed?"):
    return command(f"/items/{item}/questions", member, moment, compact({"text": text}))


def answered(item, member, moment, asker, number=1):
    return command(f"/items/{item}/questions/{asker}/{number}/answer", member, moment, compact({"text": "1952"}))


def rated(item, member, moment, rating):
    return command(f"/items/{item}/feedback", member, moment, compact({"rating": rating, "text": "Good"}))


def commands():
    """Each command accepted, and each refusal."""
    yield command("/members", 0, 1000, compact({"name": "Dora"}))
    yield command("/members", 0, 1000, compact({"name": "Dora"}))
    yield command("/members", 0, 1000, compact({"name": ""}))
    yield command("/members", 2, 1000, compact({"name": "Eve"}))
    yield command("/categories", 0, 1000, compact({"name": "Maps"}))
    yield command("/categories", 0, 1000, compact({"name": "Maps"}))
    yield listed(1, 1000, "B2", 6000, category=2, buy_now=2000, text="An atlas of 1952", title="\u00c9toile")
    yield listed(1, 1000, "B2", 6000)
    yield listed(2, 1000, "C3", 7000)
    yield listed(2, 1000, "D4", 7000, buy_now=900)
    yield listed(2, 1000, "E5", 5000)
    yield listed(2, 1000, "F6", 5000, category=9)
    yield bid(1, 2, 1001, 500)
    yield bid(1, 3, 1001, 549)
    yield bid(1, 3, 1001, 1000)
    yield bid(1, 3, 1001, 1000)
    yield bid(1, 2, 1001, 1000)
    yield bid(1, 1, 1001, 5000)
    yield bid(1, 2, 1001, 1_000_000_001)
    yield bid(1, 2, 1000, 5000)
    yield bid(9, 2, 1001, 5000)
    yield bid(1, 9, 1001, 5000)
    yield bid(4, 3, 1001, 500)
    for item in (1, 2, 3, 9):
        yield command(f"/items/{item}/watch", 2, 1001)
    yield command("/items/2/unwatch", 2, 1001)
    yield asked(1, 2, 1001, "How old?")
    yield asked(1, 3, 1001)
    yield from (asked(3, 3, 1001) for _ in range(21))
    yield answered(1, 1, 1002, 2)
    yield answered(1, 1, 1002, 2)
    yield answered(1, 2, 1002, 3)
    yield answered(1, 1, 1002, 4)
    yield command("/items/2/purchase", 3, 1003)
    yield command("/items/2/purchase", 3, 1003)
    yield command("/items/3/purchase", 3, 1003)
    yield command("/items/4/purchase", 4, 1003)
    yield rated(1, 3, 1003, 1)
    yield bid(1, 2, 5000, 5000)
    yield command("/items/1/settle", 0, 5000)
    yield command("/close", 0, 5000)
    yield command("/close", 1, 5000)
    yield command("/items/1/settle", 0, 5000)
    yield rated(1, 3, 5001, 1)
    yield rated(1, 1, 5001, 0)
    yield rated(1, 1, 5001, 0)
    yield rated(1, 2, 5001, -1)
    yield rated(2, 3, 5001, 2)


def sealed():
    """A second band table, which is the same as the first; and reserves, in the house that `commands` leaves: of item 6
    without a bid, of item 7 with one under it, of item 8 with one over it, and of item 9, which is bought; and one that is
    refused."""
    yield command("/bands", 0, 5001, compact({"bands": [{"at": at, "step": step} for at, step in BANDS]}))
    yield listed(1, 5001, "R6", 7000, reserve=900)
    yield listed(1, 5001, "R7", 7000, reserve=900)
    yield listed(1, 5001, "R8", 7000, reserve=900)
    yield listed(1, 5001, "R9", 7000, reserve=900, buy_now=2000)
    yield listed(1, 5001, "R10", 7000, reserve=500)
    yield bid(7, 3, 5001, 700)
    yield bid(8, 3, 5001, 1000)
    yield command("/items/9/purchase", 3, 5001)


def reads():
    """Each page: by a member who has what it shows, by the house, and of what isn't there."""
    numbers = {"I": 1, "C": 1, "M": 1, "F": 1, "A": 1, "E": 1, "FROM": "1970-01-01", "TO": "1970-01-01"}
    for path in READS.values():
        for caller in (3, 1, 0):
            yield read("/".join(str(numbers.get(part, part)) for part in path.split("/")), caller)
    for path in ("/items/19", "/members/9", "/categories/9/items/1", "/items/19/questions/1", "/members/9/feedback/1",
                 "/bands/9"):
        yield read(path, 2)
    yield read("/house", 9)


def malformed():
    """Messages that are no command and no read, each by another fault."""
    page, place = read("/items/1", 2), bid(1, 2, 5001, 5000)
    yield read("/nowhere", 2)
    yield read("/items/01", 2)
    yield dataclasses.replace(page, method="DELETE")
    yield read("/close", 2)
    yield page.without("x-member")
    yield page.with_field("x-member", " 2")
    yield page.without("x-member").with_field("x-member", " 02")
    yield place.without("x-moment")
    yield place.without("x-moment").with_field("x-moment", f" {LAST_MOMENT + 1}")
    for body in (b"", b"[]", b"{", b"[" * 200 + b"]" * 200, b" " * 16_384, b'{"maximum":12.5}', b'{"maximum":null}',
                 b"{}"):
        yield command("/items/1/bids", 2, 5001, body)
    yield command("/items/1/feedback", 2, 5001, b'{"rating":1,"text":5}')
    yield listed(1, 5001, "R10", 7000, reserve="900")
    yield read("/me/statement/1970-01-01/1970-02-30", 2)
    yield read("/me/statement/1970-01-02/1970-01-01", 2)


def messages():
    """All of them, with the reads of what waits before it is answered; the last ends the connection."""
    first = list(commands())
    place = next(at for at, request in enumerate(first) if request.target.endswith("/answer"))
    waiting = [read("/me/waiting", 1), read("/me/questions/1", 3), read("/items/1", 3), read("/me/bids/1", 3)]
    last = dataclasses.replace(read("/house", 0), version="HTTP/1.0")
    return [*first[:place], *waiting, *first[place:], *sealed(), *reads(), *malformed(), last]


def lacking():
    """What the plain site answers to no message of the list: commands that aren't accepted, and refusals."""
    site = Site(preset=True)
    for request in messages():
        site.answer(request)
    return [name for name in (*COMMANDS, *NUMBERS) if name not in site.accepted and name not in site.refusals]
