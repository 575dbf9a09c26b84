#!/usr/bin/env python3
"""Plays conformance cases on the plain site alone, without a program: `plain_cases.py FOLDER:PATTERN..`.

Each folder is a suite, of which the cases are played whose names fit the pattern. What plain_site.py and plain_office.py make of
a case has to be what it has: the answers and the record of `replay`, what `import` and `statement` print over the house that its
messages make, what `audit` and `surplus` tell. So the rules in Python, to which the program is held, are held to the cases
themselves. Cases that tell a fault of words, files or tables are left out. The last line is 'N cases, M left out, K wrong'.

Promise: operations
"""
import csv
import fnmatch
import pathlib
import re
import sys

from lib import plain_office
from lib.days import day_of
from lib.frame import cut, request_of
from lib.plain_house import BANDS
from lib.plain_site import AHEAD, Site, day_of as day_number
from lib.raises import Raise, covered_bid
from lib.sent import Answer, answers_in
from lib.twin_lists import Run, apart, caller

TOKEN = re.compile(r"[!#$%&'*+.^_`|~0-9A-Za-z-]+", re.ASCII)
NO_HEAD = Answer(400, {"error": "head"}, "", True).text()
# The answer to what is no whole message, which ends a stream.
BROKEN = re.compile(rb'connection: close\r\n\r\n{"error":"(head|host|transfer|length|size|end)"}\Z')


class ZonedSite(Site):
    """The plain site by any zone."""

    def day(self, moment):
        plain_office.set_zone(self.zone)
        return day_of(moment)


class Case:
    """A case: its words, and the files beside it."""

    def __init__(self, path):
        self.path, self.words = path, path.read_text().splitlines()
        self.options = dict(zip(self.words, self.words[1:]))
        self.member = int(self.options.get("--member", "0"))

    def read(self, ending):
        return self.path.with_suffix(ending).read_bytes()

    def is_fault(self):
        return bool(self.read(".err"))

    def list(self, name):
        """The messages of a file."""
        messages, _ = cut((self.path.parent / name).read_bytes())
        return [request_of(*message) for message in messages]

    def run(self, requests):
        """A list as the plain site plays it. In a zone that it lacks other days would be shown, to both lists alike."""
        chosen = settings(self.path.parent, self.words)
        return Run({**chosen, "zone": chosen["zone"] if chosen["zone"] in AHEAD else "UTC0"}, requests, self.member)

    def replies(self, requests):
        return sum(caller(request) == self.member for request in requests)

    def house(self):
        """The site that the messages of a case have made of a house."""
        site = ZonedSite(**settings(self.path.parent, self.path.with_suffix(".init").read_text().splitlines()))
        if answered(site, self.read(".made_by"), self.read(".served")) != self.read(".served"):
            raise ValueError(self.path.stem)
        return site


def settings(folder, words):
    """Rate, zone and bands by the words of a case."""
    options, bands = dict(zip(words, words[1:])), BANDS
    if "--bands" in options:
        with open(folder / options["--bands"], newline="") as table:
            bands = [tuple(map(int, row)) for row in list(csv.reader(table))[1:] if row]
    return {"rate": int(options.get("--rate", "1000")), "zone": options.get("--zone", "UTC0"), "bands": bands}


def is_head(request):
    """Whether a message's head is one by its grammar."""
    return (request is not None and TOKEN.fullmatch(request.method) and request.version in ("HTTP/1.0", "HTTP/1.1")
            and re.fullmatch(r"[!-~\x80-\xff]+", request.target)
            and all(TOKEN.fullmatch(name) and not re.search("[\0-\x08\x0a-\x1f\x7f]", value) for name, value in request.fields))


def answered(site, stream, wanted):
    """What the plain site answers to a stream. Which fault its rest has is known by what is wanted, if that is one."""
    messages, left = cut(stream)
    texts = []
    for message in messages:
        request = request_of(*message)
        answer = site.answer(request) if is_head(request) else None
        texts.append(answer.text() if answer else NO_HEAD)
        if answer is None or answer.closes:
            return b"".join(texts)
    last = answers_in(wanted)[0][-1:] if left else []
    return b"".join([*texts, *filter(BROKEN.search, last)])


# What standard output and the status have to be, by command.

def replay(case):
    site = ZonedSite(**settings(case.path.parent, case.words), preset="--preset" in case.words)
    output = answered(site, case.read(".in"), case.read(".out"))
    return output + (site.record() + b"\n" if "--record" in case.words else b""), 0


def lots(case):
    text = (case.path.parent / case.words[2]).read_bytes()
    status, output, _ = plain_office.imported(case.house().house, case.member, int(case.options["--moment"]), text)
    return output, status


def statement(case):
    site, form = case.house(), plain_office.statement_csv if "--csv" in case.words else plain_office.statement_text
    plain_office.set_zone(site.zone)
    days = [day_number(case.options[name]) for name in ("--from", "--to")]
    return form(plain_office.lines_of(site.house, site.rate, case.member, *days)), 0


def bands(case):
    house = case.house().house
    with open(case.path.parent / case.words[2], newline="") as table:
        rows = [tuple(map(int, row)) for row in list(csv.reader(table))[1:] if row]
    house.order(int(case.options["--moment"]), 0, "set_bands", rows)
    return b"edition %d\n" % len(house.tables), 0


def audit(case):
    left, right = map(case.list, case.words[1:3])
    step = apart(case.member, case.run(left), case.run(right))
    return (b"apart at step %d\n" % step, 1) if step else (b"equal, %d replies\n" % case.replies(left), 0)


def surplus(case):
    requests = case.list(case.words[1])
    raising = Raise(int(case.options["--place"]), int(case.options["--maximum"]), case.member)
    is_covered = covered_bid(case.run(requests), raising) is not None
    return (b"same, %d replies\n" % case.replies(requests), 0) if is_covered else (b"not covered\n", 1)


PLAYS = {"replay": replay, "import": lots, "statement": statement, "bands": bands, "audit": audit, "surplus": surplus}


def main():
    count = left_out = wrong = 0
    for word in sys.argv[1:]:
        folder, _, pattern = word.partition(":")
        for path in sorted(pathlib.Path(folder).glob("*.args")):
            case = Case(path)
            if not fnmatch.fnmatch(path.stem, pattern or "*"):
                continue
            count += 1
            if case.is_fault():
                left_out += 1
                continue
            played, wanted = PLAYS[case.words[0]](case), (case.read(".out"), int(case.read(".status")))
            if played != wanted:
                wrong += 1
                print(f"{path.stem}\n  wanted {wanted}\n  got    {played}"[:3000])
    print(f"{count} cases, {left_out} left out, {wrong} wrong")
    return 1 if wrong else 0


if __name__ == "__main__":
    sys.exit(main())
