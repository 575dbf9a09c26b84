#!/usr/bin/env python3
"""Makes tests/README.md of the first lines of the scripts: `list_tests.py [--check]`.

A script begins with what it does and how it is called, and has a line `Promise: ..` that names those of README.md's five promises
for which it speaks, or none. Which target of make calls it is in the Makefile; those that none calls come last. No two scripts may
have the same name. With --check nothing is written, and the status is 1 where the page is not the one that is made.

Promise: none
"""
import re
import sys

from lib.places import ROOT

TESTS = ROOT / "tests"
PAGE = TESTS / "README.md"
# In the order in which they are read.
FOLDERS = {
    "program": "What the program answers, whatever comes, and that nobody sees what others sealed.",
    "office": "Lot files, statements and audits.",
    "files": "What lies in the file of a house, and what kills, power cuts, upgrades and a failing disk leave.",
    "memory": "That running out of memory is reported, and changes nothing else.",
    "documents": "That the documents say what is so.",
    "web": "What is around the program, in deploy/: the gateway, its page, the service and the package.",
    "kit": "What runs the gate, and looks at what it would miss.",
}
HEAD = """\
# The tests

Made by `kit/list_tests.py` of the first lines of the scripts. [TESTS.md](../docs/TESTS.md) goes
by what they show, and begins with the five promises.

What lies in `lib/` is imported, and so is what lies in `web/parts/`; each script in the other
folders is called, as its first lines say, from any folder. PROGRAM is `crates/auction/out/auction`,
which `make auction` leaves, where a script names no other. `make` lists the targets below, and
`.ci/run` runs most of them; a script with none is a tool, or another script runs it. A last line
says how much was checked, and how much of it was wrong.

To read them, begin in `lib/`: `plain_house.py` and `plain_site.py` are the rules in plain Python,
which most scripts compare with; `sent.py` has messages and answers as texts, `serving.py` the
program as it serves, and `checks.py` the count of what is wrong. `kit/judges.py` tests the parts
of `lib/` by which the others judge. Then read the folders in this order, each from its first
script on.

A new script goes into the folder of its subject, under a name that no other has. Its first line
says what it does, and then its call; a line `Promise: ..` names those of the five promises for
which it speaks, or none. It imports from `lib/`, which the folder's `lib.py` finds, has its place
in the Makefile, and gets its line here by `python3 tests/kit/list_tests.py`.
"""
# What finds the library for the scripts of a folder.
FINDER = "lib.py"
FIRST = re.compile(r"(?:#!.*\n)?(?:\"\"\"|// )(.+?): `(?:node --test )?(?:tests/web/)?([\w.]+)[^`\n]*`")
PROMISE = re.compile(r"^(?:// )?Promise: (.*)$", re.M)
TARGET = re.compile(r"^([a-z]+):(?! *=)")
CALLED = re.compile(r"tests/(\w+/\w+\.\w+)")


def promises():
    """The names of the five promises, from README.md's table."""
    return [name.lower() for name in re.findall(r"^\| \*\*(.*?)\*\* \|", (ROOT / "README.md").read_text(), re.M)]


def targets():
    """By script the targets of make that call it, in the Makefile's order."""
    called, target = {}, ""
    for line in (ROOT / "Makefile").read_text().splitlines():
        if line.startswith("\t"):
            for script in CALLED.findall(line):
                called.setdefault(script, []).append(target)
        elif named := TARGET.match(line):
            target = named[1]
    return {script: list(dict.fromkeys(names)) for script, names in called.items()}


def scripts(folder):
    return [path for path in sorted((TESTS / folder).iterdir()) if path.suffix in (".py", ".mjs") and path.name != FINDER]


def fault(path, known):
    """What a script's head lacks, or none."""
    text = path.read_text()
    first, promise = FIRST.match(text), PROMISE.search(text)
    if not first or first[2] != path.name:
        return "the first line has not what it does, and then its call"
    if not promise:
        return "no line Promise: .."
    unknown = [name for name in promise[1].split(", ") if name != "none" and not any(name in one for one in known)]
    return f"README.md has no promise {unknown[0]}" if unknown else None


def row(path, called):
    text = path.read_text()
    name, promise = f"{path.parent.name}/{path.name}", PROMISE.search(text)[1]
    what = FIRST.match(text)[1].replace("|", "\\|")
    return f"| [`{path.name}`]({name}) | {what} | {' '.join(called.get(name, []))} | {'' if promise == 'none' else promise} |"


def page():
    called = targets()
    order = {name: place for place, name in enumerate(called)}
    parts = [HEAD]
    for folder, says in FOLDERS.items():
        paths = sorted(scripts(folder), key=lambda path: order.get(f"{folder}/{path.name}", len(order)))
        rows = "\n".join(row(path, called) for path in paths)
        parts.append(f"\n## {folder}\n\n{says}\n\n| Script | What it does | make | Promise |\n|---|---|---|---|\n{rows}\n")
    return "".join(parts)


def faults():
    """What keeps the page from being made."""
    known, names = promises(), {}
    for folder in FOLDERS:
        for path in scripts(folder):
            if said := fault(path, known):
                yield f"tests/{folder}/{path.name}: {said}"
    for path in TESTS.glob("*/*.py"):
        if path.name != FINDER:
            names.setdefault(path.name, []).append(path.parent.name)
    yield from (f"{name} is in {' and in '.join(folders)}" for name, folders in names.items() if len(folders) > 1)
    yield from (f"the Makefile calls tests/{name}, which isn't there" for name in targets() if not (TESTS / name).exists())
    yield from (f"tests/{path.name} is no folder of the list" for path in TESTS.iterdir()
                if path.is_dir() and path.name not in (*FOLDERS, "lib", "__pycache__"))


def main():
    found = list(faults())
    for line in found:
        print(line)
    if found:
        return 1
    if sys.argv[1:] == ["--check"]:
        same = PAGE.exists() and PAGE.read_text() == page()
        print("tests/README.md is " + ("as it is made" if same else "older than the scripts: run tests/kit/list_tests.py"))
        return 0 if same else 1
    PAGE.write_text(page())
    return 0


if __name__ == "__main__":
    sys.exit(main())
