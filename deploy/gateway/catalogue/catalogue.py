#!/usr/bin/env python3
"""Writes the catalogue of a house: `catalogue.py HOUSE`, where HOUSE is the folder with run/queue.sock.

It reads the public lists as the house does, and writes HOUSE/catalogue, whole or not at all:

- about.json: the second of the reading, and how many items there are and are open
- open/P.json: what is open, ending soonest, in parts of 200 from 1 on
- category/C/P.json and seller/S/P.json: what a category and a seller have, open ones first
- items/K.json: all items by number, 1000 in each from 0 on: K has those from 1000 K + 1 on

Run it each minute. The last line says what it did.
"""
import pathlib
import sys
import time

from folder import Folder
from house import House
from items import by, in_order, read_items

PART, CHUNK = 200, 1000


def parts_of(name, items):
    """Files of so many items each. The first is there also where there is none."""
    for place in range(0, max(1, len(items)), PART):
        yield f"{name}/{place // PART + 1}.json", items[place:place + PART]


def files_of(items, moment):
    """The files of the catalogue: names and values."""
    ordered = in_order(items.values())
    is_open = [item for item in ordered if item["state"] == "open"]
    yield "about.json", {"items": len(items), "moment": moment, "open": len(is_open)}
    yield from parts_of("open", is_open)
    for kind in ("category", "seller"):
        for number, group in by(kind, ordered).items():
            yield from parts_of(f"{kind}/{number}", group)
    chunks = {}
    for number, item in items.items():
        chunks.setdefault((number - 1) // CHUNK, []).append(item)
    for number, chunk in chunks.items():
        yield f"items/{number}.json", chunk


def known_items(folder):
    """The items of the catalogue that is there."""
    chunks = [folder.read(name) for name in folder.names("items/*.json")]
    return {item["item"]: item for chunk in chunks if None not in chunks for item in chunk}


def write_catalogue(place, house, moment):
    """One round: reads the house and writes the catalogue. Gives the items before it and after it."""
    folder = Folder(place / "catalogue")
    known = known_items(folder)
    items = read_items(house, known, house.read("/house")["items"])
    folder.write(files_of(items, moment), moment)
    return known, items


def main():
    place = pathlib.Path(sys.argv[1])
    house = House(str(place / "run" / "queue.sock"))
    _, items = write_catalogue(place, house, int(time.time()))
    print(f"{len(items)} items, {house.reads} reads")


if __name__ == "__main__":
    main()
