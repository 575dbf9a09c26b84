#!/usr/bin/env python3
"""Compares the figures that pages show with those that were measured: `figures.py`.

bench/figures.json has what was measured. A comment `<!-- figure: RUN: WHAT, UNIT -->` names one of them. In a row of a table with
the columns Ours and Ahead it holds for the row; elsewhere for the number in front of it, which is ours. Every row of such a table
has to name its figure, and a comment that names none is wrong. bench/TABLE.md has to be the page that is made of the last run.
The last line is 'N checks, M wrong'.

Promise: none
"""
import re
import sys

from lib.checks import claim, verdict
from lib.places import ROOT

sys.path.insert(0, str(ROOT / "bench"))
import published  # noqa: E402

PAGES = [ROOT / "README.md", ROOT / "CHANGELOG.md", ROOT / "bench" / "README.md", *sorted((ROOT / "docs").glob("*.md")),
         *sorted((ROOT / "deploy").glob("*/*.md"))]
SHOWING = ["README.md", "bench/README.md", "docs/RUNNING.md", "deploy/gateway/GROWTH.md"]
COMMENT = re.compile(r"<!--\s+figure:\s+(.*?)\s+-->", re.S)
NUMBER_BEFORE = re.compile(r"([0-9][0-9.,]*)\s*" + COMMENT.pattern, re.S)
COLUMNS = {"Ours": "ours", "Ahead": "ahead", "From round to round": "spread",
           **{name[0].upper() + name[1:]: whose for whose, name in published.OTHERS.items()}}

def cells_of(line):
    return [cell.strip() for cell in COMMENT.sub("", line).strip().strip("|").split("|")]


def check_row(place, header, line, shown):
    """A row of a table that compares ours with another's."""
    names = COMMENT.findall(line)
    claim(f"{place}: which figure is it: {line}", len(names) == 1 and names[0] in shown)
    if len(names) == 1 and names[0] in shown:
        for title, cell in zip(header, cells_of(line)):
            if title in COLUMNS:
                was = shown[names[0]].get(COLUMNS[title], "")
                claim(f"{place}: {names[0]}: {title} is {was}, and not {cell}", cell == was)


def check_numbers(place, text, shown):
    """Numbers in a text, each in front of its figure's name."""
    found = NUMBER_BEFORE.findall(text)
    claim(f"{place}: a figure has no number in front", len(found) == len(COMMENT.findall(text)))
    for number, name in found:
        # A comment may go on in the next line.
        name = " ".join(name.split())
        was = shown.get(name, {}).get("ours", "none")
        claim(f"{place}: {name} is {was}, and not {number}", number == was)


def check_page(page, text, shown):
    header, texts = [], []
    for place, line in enumerate(text.splitlines(), 1):
        is_row = line.startswith("|")
        header = (header or cells_of(line)) if is_row else []
        if not is_row or "Ahead" not in header:
            texts.append(line)
        elif not re.fullmatch(r"[|: -]+", line) and cells_of(line) != header:
            check_row(f"{page}:{place}", header, line, shown)
    check_numbers(page, "\n".join(texts), shown)


def main():
    runs = published.read()
    shown = published.shown_by_name(runs)
    for page in PAGES:
        name, text = str(page.relative_to(ROOT)), page.read_text()
        claim(f"{name} names no figure", name not in SHOWING or COMMENT.search(text))
        check_page(name, text, shown)
    claim("bench/TABLE.md is not of the last run", published.TABLE.read_text() == published.table(runs["table"]))
    return verdict()


if __name__ == "__main__":
    sys.exit(main())
