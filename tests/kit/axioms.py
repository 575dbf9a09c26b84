#!/usr/bin/env python3
"""Lists what the proof of a program takes without proof: `axioms.py NAME`, as `axioms.py auction`.

`rt check --list-axioms` lists the C functions of a program, but proves each crate below it first, one after the other. So this
copies the crate, and all that it stands on, has `rt ci` prove the copy, of which it takes what an earlier run has kept, and
checks the program alone over those libraries. What it prints is the prover's own list: each C function whose contract the proof
assumes, with the place of the contract in the kit; the libraries of the kit, which are taken as they are built; and the last line
of the check. It then looks in our own files for the words by which something could be assumed, and fails where there are any, or
where the list and the count in the last line differ. docs/PROMISES.md says what such a list can't see.

Promise: none
"""
import pathlib
import re
import subprocess
import sys
import tempfile

from lib.crates import copy_below, dependencies, ported
from lib.places import ROOT
from lib.progress import run

# By kind of file the words that assume something: functions of C, bodies that the borrow check doesn't follow, and leave to end or
# stop the program in place of returning; and declarations with a type alone.
STATED = re.compile(r"\b(?:axiom|Prim\.Axiom)\b")
ASSUMING = {"src/**/*.rt": re.compile(r"\b(?:extern|unsafe|Abort|Wait)\b"), "specs/**/*.antt": STATED, "proofs/**/*.antt": STATED}
REPORT = re.compile(r"^axioms (\w+): \w+ reached of the (\d+) declared\n((?:  \S+.*\n)*)", re.M)
REACHED = re.compile(r"^  (\S+) +reached$", re.M)
BELOW = re.compile(r"^statements (\w+): ", re.M)
EXTERN = re.compile(r'^( *)(?:unsafe )?extern "C" \{\n.*?^\1\}', re.M | re.S)
DECLARED = re.compile(r"^ *(?:pub(?:\(\w+\))? )?(?:safe |unsafe )?fn (\w+)", re.M)
VERDICT = re.compile(r"^logic=proved .*\baxioms=(\d+)\b.*$", re.M)


def kit():
    """The folder of the kit, in which its first page lies."""
    return pathlib.Path(subprocess.run(["rt", "doc"], capture_output=True, text=True, check=True).stdout.strip()).parent


def check(name, folder, kit):
    """What the prover says of a program, over the libraries that `rt ci` has left in a repository."""
    line = next(line for line in (folder / "crates.txt").read_text().splitlines() if line.startswith(f"{name}:"))
    ours = dependencies(folder)[name]
    libraries = {below: folder / "crates" / below / "out" / "rlib" / f"{below}.rlib" for below in ours}
    of_kit = {below: kit / "rlibs" / f"{below}.rlib" for below in ["std", *line.split()[1:]] if below not in ours}
    words = ["--crate-name", name, "src/main.rt", "--antt-project", kit / "rattle" / "logic" / "antt-project.json",
             "--logic-built", kit / "logic_built", "--jobs", "2", "--links", f"{name}=", "-L", f"dependency={kit / 'rlibs'}"]
    for library, place in {**libraries, **of_kit}.items():
        words += ["--extern", f"{library}={place}"]
    for place in libraries.values():
        words += ["-L", f"dependency={place.parent}"]
    return subprocess.run([kit / "bin" / "rattle", "check", "--list-axioms", *words], cwd=folder / "crates" / name,
                          stdout=subprocess.PIPE, stderr=subprocess.STDOUT, text=True).stdout


def places(library, kit):
    """Where a library of the kit states the contract of each C function that it declares, by name: file and line."""
    found = {}
    for path in sorted((kit / "rattle" / library / "src").rglob("*.rt")):
        text = path.read_text()
        for block in EXTERN.finditer(text):
            for function in DECLARED.finditer(block[0]):
                line = text.count("\n", 0, block.start() + function.start(1)) + 1
                found[function[1]] = f"{path.relative_to(kit)}:{line}"
    return found


def assumed(said, kit):
    """The lines that say which C functions are reached, and how many."""
    lines, count = [], 0
    for library, declared, rows in REPORT.findall(said):
        reached, stated = REACHED.findall(rows), places(library, kit)
        count += len(reached)
        lines += [f"{library}: {len(reached)} of the {declared} that it declares"]
        lines += [f"  {function:<30} {stated[function.split('::')[-1]]}" for function in reached]
    return lines, count


def ours():
    """How many files of ours were looked at, and where one assumes something."""
    looked, found = 0, []
    for pattern, assuming in ASSUMING.items():
        for path in sorted((ROOT / "crates").glob(f"*/{pattern}")):
            looked += 1
            found += [f"{path.relative_to(ROOT)}: {word}" for word in assuming.findall(path.read_text())]
    return looked, found


def told(name, said, kit):
    """What a check has said of a program, as lines, and whether nothing else is assumed."""
    lines, count = assumed(said, kit)
    looked, found = ours()
    taken = [library for library in BELOW.findall(said) if (kit / "rlibs" / f"{library}.rlib").exists()]
    verdict = VERDICT.search(said)
    named = [library for library in taken if library in ported()]
    return [
        f"The proof of {name} assumes the contracts of {count} functions of C, which the kit declares:", *lines, "",
        f"It stands on {len(taken)} libraries, which it takes as the kit has them built. crates.txt names {len(named)}:",
        ", ".join(named),
        "The others lie below these:", ", ".join(library for library in taken if library not in named), "",
        f"Of {looked} files of our crates {len(found)} have a word by which code or a proof assumes something.", *found, "",
        f"The prover ends with: {verdict[0]}",
    ], count == int(verdict[1]) and not found


def main(name):
    home = kit()
    with tempfile.TemporaryDirectory(prefix=f"{name}-") as place:
        folder = pathlib.Path(place)
        copy_below(name, folder)
        if run(["rt", "ci"], folder):
            return 1
        print(f"Checking {name} once more, for the list.", flush=True)
        said = check(name, folder, home)
    if not VERDICT.search(said):
        print(said)
        return 1
    lines, is_all = told(name, said, home)
    print("\n".join(lines))
    return 0 if is_all else 1


if __name__ == "__main__":
    sys.exit(main(sys.argv[1]))
