"""An answer with one thing in it changed, in every way: none of these is an answer of the house.

Which numbers there are is known by the rules, not by the description of the interface.
"""
import dataclasses

from lib.plain_house import LAST_MOMENT, MOST_CENTS
from lib.plain_site import LISTED

# Keys of an item of which its other keys decide whether they are null.
NULLED = {"closed", "floor", "leader"}
# What numbers are in answers, by key, and how many entries a list has at most that has more than fifty.
BOUNDS = {key: bounds for keys, bounds in {
    "member seller leader asker from to other": (1, 100_000), "category": (1, 1_000), "item": (1, 1_000_000),
    "buy_now maximum price start step": (1, MOST_CENTS), "at": (0, MOST_CENTS), "floor": (1, 2 * MOST_CENTS),
    "reserve": (2, MOST_CENTS),
    "fee": (0, MOST_CENTS // 5), "fees bought": (0, 1_000_000 * MOST_CENTS), "closed clock": (0, LAST_MOMENT),
    "end": (1, LAST_MOMENT), "count": (0, 10_000), "mine": (1, 10_000), "number": (1, 20), "rate": (0, 2_000),
    "minus plus unsold zero": (0, 1_000_000), "members": (0, 100_000), "categories": (0, 1_000),
    "items": (0, 1_000_000)}.items() for key in keys.split()}
LONGER = {"watches": 200, "categories": 1_000, "statement": 1_000_000}


def spoiled(place, reply):
    """An answer with one thing changed: its status, a header, or something in its value."""
    for status in place.responses.keys() - {reply.status}:
        yield dataclasses.replace(reply, status=status)
    changes = [("x-more", "1"), ("connection", "keep-alive"), ("content-length", "01"), ("content-type", "text/html"),
               ("allow", "DELETE")]
    for name, value in changes:
        yield dataclasses.replace(reply, headers={**reply.headers, name: value})
    # Other faults share their status with answers that leave the connection open.
    fixed = reply.headers if reply.error() in ("size", "transfer") else reply.headers.keys() - {"connection"}
    for gone in fixed:
        yield dataclasses.replace(reply, headers=without(reply.headers, gone))
    for value in [*spoiled_value(reply.value), *spoiled_page(place.name, reply.value)]:
        yield dataclasses.replace(reply, value=value)


def without(parts, gone):
    return {name: part for name, part in parts.items() if name != gone}


def spoiled_page(name, value):
    """A page that has too much, a question of another one, or a reserve of none; and a watch that is none."""
    most = LONGER.get(name, LISTED)
    for key, part in value.items():
        # So long a statement would take minutes.
        if isinstance(part, list) and part and most <= 1_000:
            yield {**value, key: part[:1] * (most + 1)}
    if name in ("published", "waiting"):
        for question in value.get("questions", []):
            yield {"questions": [{**question, "answer": None if name == "published" else "No"}]}
    for reserve in value.get("reserves", []):
        yield {"reserves": [{**reserve, "met": None}]}
    if "watched" in value:
        yield {**value, "watched": not value["watched"]}


def spoiled_value(value, key=""):
    """A value with one thing in it changed."""
    if isinstance(value, dict):
        yield from ([value], {**value, "more": 1})
        yield from ({**value, name: 7 if value[name] is None else None} for name in NULLED & value.keys())
        for name, part in value.items():
            yield from (without(value, name), {**without(value, name), name.upper(): part})
            yield from ({**value, name: other} for other in spoiled_value(part, name))
    elif isinstance(value, list):
        yield from ({}, None, [None])
        yield from ([other, *value[1:]] for part in value[:1] for other in spoiled_value(part))
    elif value is None:
        yield from ("", 1.5, [], {})
    elif isinstance(value, bool):
        # An item may have no reserve that is met.
        yield from ("", 1, [value], {}, *(() if key == "met" else (None,)))
    elif isinstance(value, int):
        least, most = BOUNDS.get(key, (-1, 10**15))
        yield from (least - 1, most + 1, value + 0.5, float(value), str(value), True, [value])
    else:
        yield from (f"{value}\u0001", value + "x" * 3000, 5, [value], {})
