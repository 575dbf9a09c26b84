#!/usr/bin/env python3
"""Makes docs/CLAUSES.md, the index of what public functions promise: `clauses.py [--check]`.

A line is a public function of a crate that has a contract: what it gives, by the first sentence over it; the names of its
clauses, `-` being the one that needs none; and its wrong bodies, which are the edits in must-fail/ by name and those in wrong/ by
number. A program's functions are all public here. Crates of tests and benches are left out. With --check nothing is written, and
the status is 1 where the page is not the one that is made.

Promise: none
"""
import re
import sys

from lib.places import ROOT

PAGE = ROOT / "docs" / "CLAUSES.md"
LEFT_OUT = re.compile(r"test_|bench_|house_script$|transcript$|stop_files$")
PROGRAM = "auction"

ITEM = re.compile(r"(?:pub(?:\(crate\))? )?(?:impl|trait)\b.*\{$")
FUNCTION = re.compile(r"( *)(pub |pub\(crate\) )?(?:unsafe |const )?fn (\w+)")
CLAUSE = re.compile(r"\s+(?:requires|ensures)\*?(?: (\w+))? \{")
HEAD = """# The clauses, by function

An index for whoever proves or reviews, made by `tests/documents/clauses.py`: after a change of a
contract, a first sentence or a wrong body, run it again. [PROMISES.md](PROMISES.md) says in words
what all this comes to, and [CHANGING.md](CHANGING.md#how-a-contract-is-read) how a contract is
read.

A clause is shown by its name, and `-` is one that has none. Under wrong bodies are the edits of
`must-fail/` by name, which the gate tries, and the number of those in `wrong/`, which `make wrong`
tries. An edit in a private function stands with its crate's last line.
"""


class Function:
    """A function with a contract: where it begins, what is said over it, and what it promises."""

    def __init__(self, crate, file, owner, public, name, at):
        self.crate, self.file, self.owner, self.public, self.name, self.at = crate, file, owner, public, name, at
        self.says, self.clauses, self.edits = "", [], []

    def shown(self):
        return f"{self.owner}::{self.name}" if self.owner else self.name


def crates():
    """Our crates that aren't left out, in the order of crates.txt."""
    names = re.findall(r"^(\w+):", (ROOT / "crates.txt").read_text(), re.M)
    return [name for name in names if not LEFT_OUT.match(name)]


def exported(crate):
    """The names that a crate's root hands out, and those that it declares; of a program none."""
    root = ROOT / "crates" / crate / "src" / "lib.rt"
    text = root.read_text() if root.exists() else ""
    lists = re.findall(r"^pub use [\w:]*::(\w+|\{[^;]*\});", text, re.M)
    return set(re.findall(r"\w+", " ".join(lists))) | set(re.findall(r"^pub (?:fn|struct|enum|trait) (\w+)", text, re.M))


def owner_of(line):
    """The type or trait of a block, and whether all its functions are public; of an impl of a trait none."""
    line = re.sub(r"<[^<>]*(?:<[^<>]*>[^<>]*)*>", "", line)
    if " for " in line:
        return None, False
    name = re.search(r"(?:impl|trait) (\w+)", line)
    return name and name[1], "trait " in line


def first_sentence(lines):
    """The first sentence of the comment right over a line, which attributes may follow."""
    text = []
    for line in reversed(lines):
        line = line.strip()
        if line.startswith("//") and not line.startswith("//!"):
            text.insert(0, line.lstrip("/").strip())
        elif not line.startswith("#["):
            break
    return re.split(r"(?<=\.) ", " ".join(text).split("  ")[0])[0]


def functions_of(crate, path):
    """The functions of a file that have clauses, and where each begins."""
    lines, owner, every = path.read_text().splitlines(), None, False
    handed, found = exported(crate), []
    for at, line in enumerate(lines):
        if ITEM.match(line):
            owner, every = owner_of(line)
        elif line == "}":
            owner, every = None, False
        head = FUNCTION.match(line)
        if head:
            inside = len(head[1]) > 0
            public = crate == PROGRAM or ((head[2] == "pub " or inside and every)
                                          and (owner in handed if inside else head[3] in handed))
            found.append(Function(crate, path, owner if inside else None, public, head[3], at))
            found[-1].says = first_sentence(lines[:at])
        clause = CLAUSE.match(line)
        if clause and found:
            found[-1].clauses.append(clause[1] or "-")
    return found


def edit_of(path):
    """The file that an edit changes first, and the text that it looks for there."""
    lines = dict(line.split(": ", 1) for line in reversed(path.read_text().splitlines()) if ": " in line)
    return lines["file"], lines["old"]


def place_edits(crate, functions):
    """Puts each edit of a crate to the function in whose text it is; gives those that are in none."""
    left = []
    folder = ROOT / "crates" / crate
    for path in sorted([*folder.glob("must-fail/*.edit"), *folder.glob("wrong/*.edit")]):
        file, old = edit_of(path)
        text = (folder / file).read_text()
        line = text[:text.find(old)].count("\n")
        inside = [function for function in functions if function.file == folder / file and function.at <= line]
        (inside[-1].edits if inside else left).append(path)
    return left


def wrong_bodies(edits):
    named = [f"`{path.stem}`" for path in edits if path.parent.name == "must-fail"]
    more = len(edits) - len(named)
    return ", ".join([*named, *([f"{'and ' if named else ''}{more}"] if more else [])])


def row(function):
    """The line of a function, whose name leads to its file."""
    name = f"[`{function.shown()}`](../{function.file.relative_to(ROOT)})"
    says = function.says.replace("|", "\\|")
    return f"| {name} | {says} | {', '.join(function.clauses)} | {wrong_bodies(function.edits)} |"


def section(crate):
    folder = ROOT / "crates" / crate
    functions = [function for path in sorted(folder.glob("src/**/*.rt")) for function in functions_of(crate, path)]
    left = place_edits(crate, functions)
    shown = [function for function in functions if function.public and function.clauses]
    left += [path for function in functions if function not in shown for path in function.edits]
    rows = [row(function) for function in shown]
    if left:
        rows.append(f"| | In private functions, definitions and types | | {wrong_bodies(left)} |")
    if not rows:
        return ""
    table = ["| Function | Gives | Clauses | Wrong bodies |", "|---|---|---|---|"]
    return "\n".join([f"\n## {crate}\n", *table, *rows]) + "\n"


def page():
    return HEAD + "".join(section(crate) for crate in crates())


def main():
    if sys.argv[1:] == ["--check"]:
        same = PAGE.exists() and PAGE.read_text() == page()
        print("docs/CLAUSES.md is " + ("as it is made" if same else "older than the code: run tests/documents/clauses.py"))
        return 0 if same else 1
    PAGE.write_text(page())
    return 0


if __name__ == "__main__":
    sys.exit(main())
