#!/usr/bin/env python3
"""Serves the houses of the section `pages` of crates/test_site from files and from memory: `served_pages.py PROGRAM`.

Each page has to be what is in that crate's stdout, and so does the record that ends a house, which a replay shows. The last line
is 'N checks, M wrong'.

Promise: bytes to bytes
"""
import dataclasses
import pathlib
import sys
import tempfile

from lib.checks import check, verdict
from lib.page_script import requests
from lib.places import ROOT
from lib.sent import answers_in
from lib.serving import Program, served
from lib.transcript import pairs, section

CRATE = ROOT / "crates" / "test_site"
BANDS = ROOT / "examples" / "bands.csv"


@dataclasses.dataclass
class House:
    """A house of the script: its messages, the pages that its reads show, and the record, if it ends with that."""
    zone: str
    messages: list = dataclasses.field(default_factory=list)
    pages: list = dataclasses.field(default_factory=list)
    record: bytes = b""


def houses():
    found = []
    for line, answer in pairs(section((CRATE / "stdout").read_bytes().decode(), "pages")):
        shown = [page.encode() for page in answer]
        word, _, rest = line.partition(" ")
        if word == "house":
            found.append(House(rest))
        elif word == "record":
            found[-1].record, = shown
        else:
            found[-1].record = b""
            found[-1].messages += requests(word, rest)
            found[-1].pages += shown
    return found


def pages(house, answers):
    """The bodies of what is answered to the reads of a house."""
    bodies = [answer.partition(b"\r\n\r\n")[2] for answer in answers]
    return [body for message, body in zip(house.messages, bodies) if message.method == "GET"]


def compare(program, number, house):
    words = ["--bands", str(BANDS), "--rate", "1000", "--zone", house.zone]
    stream = b"".join(message.text() for message in house.messages)
    check(f"house {number} made", program.ended("init", f"house-{number}", *words), (0, b"created\n", b""))
    replies, ending = program.answers(f"house-{number}", [stream])
    check(f"house {number} ended", ending, served(1))
    status, replayed, error = program.ended("replay", "--record", *words, given=stream)
    check(f"house {number} replayed", (status, error), (0, b""))
    for keep, text in (("a file", replies[0]), ("memory", replayed)):
        answers, rest = answers_in(text)
        check(f"house {number} in {keep}, answers", len(answers), len(house.messages))
        for place, (got, wanted) in enumerate(zip(pages(house, answers), house.pages), 1):
            check(f"house {number} in {keep}, page {place}", got, wanted)
    if house.record:
        check(f"house {number}, record", rest, house.record + b"\n")


def main():
    with tempfile.TemporaryDirectory() as folder:
        program = Program(str(pathlib.Path(sys.argv[1]).resolve()), folder)
        for number, house in enumerate(houses(), 1):
            compare(program, number, house)
    return verdict()


if __name__ == "__main__":
    sys.exit(main())
