"""What the members of a house are to be told, from two rounds of its public items."""
import collections

SOON = 3_600

# Who is told what of which item: an event is told once, so it has all that makes it another.
Event = collections.namedtuple("Event", "member kind item count")


def changes(before, after):
    """What changed of an item that was known, in the order in which it is told."""
    was, now = before["state"], after["state"]
    if now in ("open", "unsold") and before["leader"] not in (None, after["leader"]):
        yield Event(before["leader"], "outbid", after["item"], after["count"])
    if was == "open" and now in ("sold", "settled"):
        yield Event(after["leader"], "won", after["item"], 0)
        yield Event(after["seller"], "sold", after["item"], 0)
        if before["leader"] not in (None, after["leader"]):
            yield Event(before["leader"], "lost", after["item"], 0)
    if was == "open" and now == "unsold":
        yield Event(after["seller"], "unsold", after["item"], 0)
        if after["leader"] is not None:
            yield Event(after["leader"], "short", after["item"], 0)
    if was != "settled" and now == "settled":
        yield Event(after["seller"], "settled", after["item"], 0)


def ends_soon(item, moment):
    """Who leads is told once that the end is near."""
    if item["state"] == "open" and item["leader"] is not None and 0 < item["end"] - moment <= SOON:
        yield Event(item["leader"], "soon", item["item"], 0)


# An item as it was before anybody saw it.
LISTED = {"state": "open", "leader": None}


def events_between(before, count, after, moment):
    """All events of a round, where `before` has what was not final of the first so many items."""
    for number, item in after.items():
        if number in before or number > count:
            yield from changes(before.get(number, LISTED), item)
        yield from ends_soon(item, moment)
