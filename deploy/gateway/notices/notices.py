#!/usr/bin/env python3
"""Tells members by mail what happened to their items: `notices.py HOUSE`, after each round of the catalogue.

It compares HOUSE/catalogue with the round before, and gives a mail for each event to `sendmail`, or to the program in
SENDMAIL. Whoever has a file HOUSE/addresses/NUMBER is written to. What was seen and what is still to be sent stands in
HOUSE/notices.json: each event is told once, also where this is stopped and run again.
"""
import email.message
import json
import os
import pathlib
import re
import subprocess
import sys
import time
import urllib.parse

from events import Event, events_between
from words import Words

# So long a notice is tried to be sent, in seconds.
PATIENCE = 86_400
KEPT = ("item", "leader", "state")
FINAL = ("unsold", "settled")
ADDRESS = re.compile(r"[A-Za-z0-9][A-Za-z0-9._%+-]*@[A-Za-z0-9][A-Za-z0-9-]*(?:\.[A-Za-z0-9-]+)+", re.ASCII)


def read_json(file, otherwise):
    try:
        return json.loads(file.read_bytes())
    except FileNotFoundError:
        return otherwise


def write_json(file, value):
    """Writes a file whole or not at all."""
    new = file.with_name(file.name + ".new")
    with new.open("w") as writing:
        json.dump(value, writing)
        writing.flush()
        os.fsync(writing.fileno())
    os.replace(new, file)


def address_of(place, member):
    """The address that a member gave, or None."""
    try:
        given = (place / "addresses" / str(member)).read_text(errors="replace").strip()
    except FileNotFoundError:
        return None
    return given if len(given) <= 200 and ADDRESS.fullmatch(given) else None


class State:
    """What was seen of each item that may change, and of how many items; whose near end was told; and which notices are
    still to be sent."""

    def __init__(self, file):
        self.file = file
        found = read_json(file, None)
        self.is_new = found is None
        found = found or {"count": 0, "items": [], "soon": [], "waiting": []}
        self.count = found["count"]
        self.items = {item["item"]: item for item in found["items"]}
        self.soon = set(found["soon"])
        self.waiting = found["waiting"]

    def write(self):
        write_json(self.file, {"count": self.count, "items": list(self.items.values()), "soon": sorted(self.soon), "waiting": self.waiting})

    def look(self, items, moment):
        """Notes a round: its events wait to be sent. At the first round nothing is news."""
        for event in events_between(self.items, self.count, items, moment):
            if event.kind == "soon" and event.item in self.soon:
                continue
            if event.kind == "soon":
                self.soon.add(event.item)
            if not self.is_new:
                self.waiting.append([moment, *event])
        self.count = max(items, default=0)
        self.items = {number: {key: item[key] for key in KEPT} for number, item in items.items() if item["state"] not in FINAL}
        self.soon &= {number for number, item in items.items() if item["state"] == "open"}


def origin_of(place):
    """The address of the page: what HOUSE/origin has, or the name of the folder."""
    file = place / "origin"
    return file.read_text().strip() if file.exists() else f"https://{place.resolve().name}"


def message(event, item, address, origin, words):
    """The mail of an event. Its number is that of the event, so that a second one is known as the same."""
    host = urllib.parse.urlsplit(origin).hostname
    mail = email.message.EmailMessage()
    mail["To"] = address
    mail["Subject"] = words.subject(event.kind, item)
    mail["Message-ID"] = f"<{event.kind}.{event.item}.{event.member}.{event.count}@{host}>"
    mail["Auto-Submitted"] = "auto-generated"
    mail.set_content(words.text(event.kind, item, origin))
    return mail


def send(mail, address):
    program = os.environ.get("SENDMAIL", "/usr/sbin/sendmail")
    subprocess.run([program, "-i", "--", address], input=bytes(mail), check=True)


def send_waiting(state, items, place, moment):
    """Sends what waits, one after the other, and notes each. What fails waits for the next round, for a day."""
    words, origin = Words(place / "page"), origin_of(place)
    sent = failed = 0
    for entry in list(state.waiting):
        since, event = entry[0], Event(*entry[1:])
        address = address_of(place, event.member)
        try:
            if address is not None and event.item in items and moment - since <= PATIENCE:
                send(message(event, items[event.item], address, origin, words), address)
                sent += 1
        except (OSError, subprocess.CalledProcessError) as error:
            print(f"a notice waits: {error}", file=sys.stderr)
            failed += 1
            continue
        state.waiting.remove(entry)
        state.write()
    return sent, failed


def items_of(place):
    """All items of the catalogue, by number."""
    files = sorted((place / "catalogue").resolve().glob("items/*.json"))
    return {item["item"]: item for file in files for item in json.loads(file.read_bytes())}


def main():
    place, moment = pathlib.Path(sys.argv[1]), int(time.time())
    state, items = State(place / "notices.json"), items_of(place)
    state.look(items, moment)
    state.write()
    sent, failed = send_waiting(state, items, place, moment)
    print(f"{sent} sent, {failed} wait")


if __name__ == "__main__":
    main()
