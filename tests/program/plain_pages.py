#!/usr/bin/env python3
"""Compares what a script of houses and reads has to show with the plain site: `plain_pages.py [stored]`.

It looks whether the section `pages` of crates/test_site/stdout, a transcript, is the one that it makes from that of the stdin
there; with `stored` it writes it. crates/test_site/src/page_script.rt says what a line may be. Nothing of ours is asked: the
rules are those of plain_house.py, the pages plain_site.py's. The last line is 'N lines, M wrong'.

Promise: operations
"""
import itertools
import sys

from lib.page_script import requests
from lib.places import ROOT
from lib.plain_site import Site
from lib.sent import compact
from lib.transcript import is_printed, lines, played, section

CRATE = ROOT / "crates" / "test_site"


def shown(script):
    """The lines that are printed, and after each what it shows, if it shows anything."""
    site = Site()
    for line in lines(script):
        if is_printed(line):
            yield line.encode()
        word, _, rest = played(line).partition(" ")
        if word == "house":
            site = Site(zone=rest)
            continue
        if word == "record":
            yield site.record()
            continue
        for request in requests(word, rest):
            answer = site.answer(request)
            if request.method == "GET":
                yield compact(answer.value)
            elif answer.status >= 400:
                raise ValueError(f"{line}: {answer.value}")


def compared(stored, made):
    """Tells the lines of a section that are others than those that are made."""
    both = list(itertools.zip_longest(stored.encode().split(b"\n"), made.encode().split(b"\n")))
    wrong = [pair for pair in both if pair[0] != pair[1]]
    for line, expected in wrong[:5]:
        print(f"expected {expected}\nstored   {line}")
    print(f"{len(both)} lines, {len(wrong)} wrong")
    return 1 if wrong else 0


def main():
    script, transcript = ((CRATE / name).read_bytes().decode() for name in ("stdin", "stdout"))
    stored = section(transcript, "pages")
    made = b"".join(line + b"\n" for line in shown(section(script, "pages"))).decode()
    if sys.argv[1:] == ["stored"]:
        (CRATE / "stdout").write_bytes(transcript.replace(stored, made).encode())
        return 0
    return compared(stored, made)


if __name__ == "__main__":
    sys.exit(main())
