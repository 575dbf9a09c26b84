#!/usr/bin/env python3
"""Reads the documents of the repository: `documents.py [PROGRAM]`.

Each link leads to a file and a heading that are there. Each file that is named between backticks is there, by its path or the end
of it. Each name of code in the pages on promises, definitions, crates and changes and in GLOSSARY.md is a word of some source,
and each wrong body there has its file. Each block of Rust is text of some source. README.md and the pages of docs/, deploy/ and
tests/ have no line over 100 columns outside tables and Rust. Whatever shows how a house is made shows it under umask 077. The
pages that clauses.py and list_tests.py make are those that they make; PROMISES.md has what ported.py and definitions.py print;
and figures.py finds no wrong figure. The manual docs/auction.1 has no line over 80 columns, and no fault that mandoc finds, where
mandoc is there. It has each command of PROGRAM with all its files, options and ranges, as the help tells them, and no other. The
last line is 'N checks, M wrong'.

Promise: none
"""
import pathlib
import re
import shutil
import subprocess
import sys

from lib.checks import claim, verdict
from lib.places import ROOT

PAGES = [*(ROOT / name for name in ("README.md", "CHANGELOG.md", "CONTRIBUTING.md", "bench/README.md", "tests/README.md")),
         *sorted((ROOT / "docs").glob("*.md")), *sorted((ROOT / "deploy").glob("*/*.md"))]
OF_CODE = [f"docs/{name}.md" for name in ("ARCHITECTURE", "CHANGING", "DEFINITIONS", "GLOSSARY", "LAYERS", "PROMISES", "PROOFS")]
MANUAL = ROOT / "docs" / "auction.1"
HERE = pathlib.Path(__file__).resolve().parent
MOST_COLUMNS, MOST_IN_MANUAL = 100, 80

LINK = re.compile(r"\]\(([^)#\s]*)(?:#([^)\s]*))?\)")
FENCED = re.compile(r"^```.*?^```$", re.M | re.S)
RUST = re.compile(r"^```rust\n(.*?)^```$", re.M | re.S)
QUOTED = re.compile(r"`([^`\n]+)`")
FILE = re.compile(r"[\w./*-]+\.(?:py|rt|antt|md|csv|http|c|sh|edit|txt|yaml)")
NAME = re.compile(r"(?:\w+::)*([A-Za-z_]\w*)")
HEX = re.compile(r"[0-9a-f]{16}")
# A file or an option in the help and in the manual, and the range of a number.
HELPED = re.compile(r"^ +(?:-\w, )?(?:--([a-z]+))? ?(?:<([A-Z]+)>)?  +(.*)$", re.M)
GIVEN = re.compile(r"Fl -([a-z]+)(?: Ar ([A-Z]+))?|Ar ([A-Z]+)")
RANGE = re.compile(r"[0-9]+ to [0-9]+(?![-0-9])")
# What makes a house, in a block of a page or of the manual, and in a line of text.
MAKES = re.compile(r"^(?:\$ )?(?:.*\W)?auction init \S", re.M)
BLOCK = re.compile(r"^```\w*\n.*?^```$|^\.Bd .*?^\.Ed$", re.M | re.S)
WRONG = re.compile(r"`([a-z0-9]+(?:-[a-z]+){2,})`")

def named(page):
    return str(page.relative_to(ROOT))


def anchors(text):
    """The anchors of a page's headings, as they are made of them."""
    heads = re.findall(r"^#+ (.*)$", FENCED.sub("", text), re.M)
    return {re.sub(r"[^\w -]", "", head.lower()).replace(" ", "-") for head in heads}


def links(page, text):
    for target, anchor in LINK.findall(FENCED.sub("", text)):
        if target.startswith(("http:", "https:")):
            continue
        found = (page.parent / target).resolve() if target else page
        claim(f"{named(page)}: no file {target}", found.exists())
        if anchor and found.exists():
            claim(f"{named(page)}: no heading {target}#{anchor}", anchor in anchors(found.read_text()))


def files(page, text, there):
    for quoted in QUOTED.findall(FENCED.sub("", text)):
        if FILE.fullmatch(quoted) and "*" not in quoted:
            path = quoted.removeprefix("./").removeprefix("../")
            claim(f"{named(page)}: no file {quoted}", any(("/" + file).endswith("/" + path) for file in there))


def code(page, text, words):
    for quoted in QUOTED.findall(FENCED.sub("", text)):
        name = NAME.fullmatch(quoted)
        if name and len(name[1]) > 1 and not HEX.fullmatch(quoted):
            claim(f"{named(page)}: no name {quoted}", name[1] in words)


def wrong_bodies(page, text, there):
    edits = {pathlib.Path(file).stem for file in there if file.endswith(".edit")}
    for name in WRONG.findall(text):
        claim(f"{named(page)}: no wrong body {name}", name in edits)


def quotes(page, text, sources):
    """Each block of Rust is there in a source, whatever the spaces between words."""
    for block in RUST.findall(text):
        claim(f"{named(page)}: in no source:\n{block}", any(" ".join(block.split()) in source for source in sources))


def columns(page, text):
    wide = [line for line in RUST.sub("", text).splitlines() if len(line) > MOST_COLUMNS and not line.startswith("|")]
    claim("\n".join([f"{named(page)}: over {MOST_COLUMNS} columns:", *wide]), not wide)


def made_shut(page, text):
    """A house is made by who reads a page, so its user alone has to be let to read the file: each block that makes one says so."""
    for block in BLOCK.findall(text):
        for made in MAKES.finditer(block):
            claim(f"{named(page)}: no umask 077 before {made[0]}..", "umask 077" in block[:made.end()])
    found = MAKES.search(BLOCK.sub("", re.sub(r"<!--.*?-->", "", text)))
    claim(f"{named(page)}: it makes a house outside a block: {found and found[0]}", not found)


def ran(script, *words):
    """What another script prints, which has to end well."""
    found = subprocess.run([sys.executable, HERE / script, *words], capture_output=True, text=True, timeout=60)
    claim(f"{script}: {found.stdout}{found.stderr}", found.returncode == 0)
    return found.stdout.strip()


def made_pages():
    """What other scripts make of the sources, and compare, is in the pages."""
    ran("clauses.py", "--check")
    ran("../kit/list_tests.py", "--check")
    ran("figures.py")
    promises = " ".join((ROOT / "docs" / "PROMISES.md").read_text().split())
    for script in ("ported.py", "definitions.py"):
        claim(f"docs/PROMISES.md has not what {script} prints", ran(script) in promises)


def helps(program):
    """The files and options of each command, each with its range, as the help tells them."""
    def help_of(*words):
        return subprocess.run([program, *words], capture_output=True, text=True, timeout=60, check=True).stdout

    listed = help_of("-h").split("Commands:\n")[1].split("\n\n")[0]
    for command in re.findall(r"^  (\w+)", listed, re.M):
        if command != "help":
            rows = HELPED.findall(help_of(command, "-h"))
            yield command, {(option, value): RANGE.findall(text) for option, value, text in rows if option != "help"}


def manual_part(text, begin, end):
    return text.split(begin)[1].split(end)[0]


def given(text):
    """The files and options that a part of the manual names."""
    return [(option, value or file) for option, value, file in GIVEN.findall(text)]


def manual_items(part):
    """The files and options of a command's list in the manual, each with its range. One that is as elsewhere has None."""
    items = {}
    for item in part.split("\n.It ")[1:]:
        head, text = item.split("\n", 1)
        text = " ".join(text.split())
        for name in given(head):
            items[name] = None if "As at" in text else RANGE.findall(text)
    return items


def manual(program):
    text = MANUAL.read_text()
    made_shut(MANUAL, text)
    for line in text.splitlines():
        claim(f"auction.1: over {MOST_IN_MANUAL} columns: {line}", len(line) <= MOST_IN_MANUAL)
    if shutil.which("mandoc"):
        lint = subprocess.run(["mandoc", "-Tlint", MANUAL], capture_output=True, text=True)
        claim(f"auction.1: {lint.stdout}{lint.stderr}", lint.returncode == 0 and not lint.stdout)
    if program is None:
        return
    commands = dict(helps(program))
    synopsis = manual_part(text, ".Sh SYNOPSIS", ".Sh DESCRIPTION").split("\n.Nm\n.Cm ")[1:]
    listed = manual_part(text, ".Sh COMMANDS", ".Sh FILES").split("\n.It Cm ")[1:]
    for name, parts in (("synopsis", synopsis), ("commands", listed)):
        claim(f"auction.1: the {name} are {sorted(commands)}",
              {part.split("\n")[0] for part in parts} == {*commands, "help"})
    for part in synopsis:
        command = part.split("\n")[0]
        if command in commands:
            claim(f"auction.1: the synopsis of {command}", set(given(part)) == set(commands[command]))
    for part in listed:
        command = part.split("\n")[0]
        if command in commands:
            manual_command(command, manual_items(part), commands[command])


def manual_command(command, items, helped):
    claim(f"auction.1: {command} has {sorted(items)}", set(items) == set(helped))
    for name, ranges in helped.items():
        had = items.get(name, [])
        claim(f"auction.1: {command}: {name}: {ranges}", had is None or set(ranges) <= set(had))


def main():
    there = subprocess.run(["git", "ls-files", "--cached", "--others", "--exclude-standard"], cwd=ROOT, text=True,
                           capture_output=True, check=True).stdout.splitlines()
    there = [file for file in there if (ROOT / file).exists()]
    sources = [(ROOT / file).read_text() for file in there if file.endswith((".rt", ".antt"))]
    words = {word for source in sources for word in re.findall(r"\w+", source)}
    lines = [" ".join(source.split()) for source in sources]
    words.update(part for file in there for part in pathlib.Path(file).parts)
    for page in PAGES:
        text = page.read_text()
        links(page, text)
        files(page, text, there)
        quotes(page, text, lines)
        made_shut(page, text)
        if page.parent.name != "bench":
            columns(page, text)
        if named(page) in OF_CODE:
            code(page, text, words)
            wrong_bodies(page, text, there)
    made_pages()
    manual(sys.argv[1] if len(sys.argv) > 1 else None)
    return verdict()


if __name__ == "__main__":
    sys.exit(main())
