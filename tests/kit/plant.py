#!/usr/bin/env python3
"""Has the kit plant wrong bodies in crates, and writes what came of it into docs/PLANTED.md: `plant.py [--kept] [NAME..]`.

`rt plant` puts wrong bodies under a crate's public functions: some give up, others call the real function and change an argument,
the result or a field. It runs here over each of named crates, or of all but those of tests and benches, in a copy, and for as long
as it takes. What it found is kept in out/planted by a sum of the crate's text, so that a run begins with the first crate that has
nothing kept. A crate is run anew if a run was broken off inside it, or if one of its checks ran out of time: rt gives each four
minutes, which may be too few on a busy machine. With --kept nothing is run. The page has a table of the crates of which something
is kept; each body that was proved, with the reason that proved.tsv gives for it; and each function of which no body was judged, with
the edits of must-fail/ and wrong/ that change it. It needs the kit, with its `rt` on the path. The last line is 'N crates, M bodies
proved, K of them with no reason'.

Promise: none
"""
import collections
import re
import subprocess
import sys

from lib.crates import dependencies
from lib.places import ROOT
from lib.proved_bodies import cell, reasons_given
from lib.wrong_bodies import CRATES, Unfit, copied, edited, edits_of, functions_of, logic, owner, sum_of
from lib.wrong_bodies import rows_of as rows_of_edit

KEPT, PAGE = ROOT / "out" / "planted", ROOT / "docs" / "PLANTED.md"
LEFT_OUT = re.compile(r"test_|bench_")
# No number of bodies or minutes ends a run.
NO_END = "100000"
ROW = re.compile(r"(proves|same|refused|elsewhere|not-judged|not-source|not-run|untested|no-ensures)\s+(src/\S+?):\d+ (.*)$")
BODY = re.compile(r"(.+?): \{ (.*?) ?\}(?:  \((.*)\))?$")
# What rt plant writes for a variant whose doc comment it takes for its name.
MISNAMED = "::///"
LAST = re.compile(r"^plants crate=(\w+) planted-in=([0-9]+) untested=([0-9]+) no-ensures=([0-9]+)", re.M)
OUT_OF_TIME = "the check was killed or ran out of time"
# In whose words a body isn't judged.
UNCHANGED = "the unchanged call did not prove"
WHYS = {"the tactics met a limit": "a limit", UNCHANGED: "the unchanged call isn't proved", "rt could not tell": "which function it is",
        OUT_OF_TIME: "no end"}
HEAD = """# Planted bodies

Made by `tests/kit/plant.py` of what `rt plant` said, with a kit of the logic `{logic}`.

`rt plant` puts wrong bodies under the public functions of a crate, and has the tactics try to prove
each: some give up, others call the real function and change an argument, the result or a field.
Refused are those of which a clause was not proved. A body that was proved meets the contract, so a
clause is missing, unless the body is right, or no clause can speak: those are listed below the
table. Of one that is the same, the contract shows that it answers as the real function does. One
isn't judged where only what a callee asks for was not proved, where the tactics met a limit, or
where the unchanged call isn't proved. Only crates that were run on today's text stand here.

| Crate | Functions | Tried | Refused | Proved | Same | Not judged | Why not |
|---|---|---|---|---|---|---|---|
"""

UNJUDGED = """## Not judged

Of these functions no planted body was judged. Beside each stand the wrong bodies that people wrote
for it, in `must-fail/` and `wrong/` of its crate.
"""


def place(crate):
    return KEPT / f"{crate}-{sum_of(crate)[:16]}"


def leave_out_docs(folder):
    """Takes the doc comments out of a copy of a crate: rt plant takes that of an enum's variant for its name."""
    for path in (folder / "src").rglob("*.rt"):
        path.write_text("".join(line for line in path.read_text().splitlines(keepends=True) if not line.lstrip().startswith("///")))


def is_whole(said):
    """Whether each body of a run was a right text, and each check came to its end."""
    return OUT_OF_TIME not in said and MISNAMED not in said


def planted(crate):
    """What `rt plant` says of a crate, from what is kept or by a run, or none where it said no last line."""
    if place(crate).exists() and is_whole(place(crate).read_text()):
        return place(crate).read_text()
    with copied(crate) as copy:
        leave_out_docs(copy.folder)
        ran = subprocess.run(["rt", "plant", "--all", "--max", NO_END, "--minutes", NO_END, "--jobs", "1"], cwd=copy.folder,
                             stdin=subprocess.DEVNULL, stdout=subprocess.PIPE, stderr=subprocess.PIPE, text=True, errors="replace")
    if not LAST.search(ran.stdout):
        print(f"{crate}: rt plant gave no last line: {(ran.stdout + ran.stderr)[-400:]}")
        return None
    KEPT.mkdir(parents=True, exist_ok=True)
    place(crate).write_text(ran.stdout)
    return ran.stdout


def rows_of(said):
    """The bodies in what `rt plant` says: the kind, the function, the body and why it is not judged."""
    for line in said.splitlines():
        row = ROW.match(line)
        body = row and BODY.match(row[3])
        if row:
            function, text, why = (body[1], body[2], body[3] or "") if body else (row[3], "", "")
            yield row[1], f"{row[2]} {function}", text, why


def why_not(rows):
    """Why bodies are not judged, and how many each."""
    counts = collections.Counter()
    for kind, _, _, why in rows:
        if kind == "elsewhere":
            counts["what a callee asks for"] += 1
        elif kind == "not-judged":
            counts[next((words for begin, words in WHYS.items() if why.startswith(begin)), why[:60] or "no reason given")] += 1
    return ", ".join(f"{words}: {count}" for words, count in counts.most_common())


def row(crate, said):
    """The line of a crate in the table."""
    # A call of the function as it is, which is not proved, is no wrong body.
    rows, functions = [row for row in rows_of(said) if not row[3].startswith(UNCHANGED)], LAST.search(said)[2]
    kinds = collections.Counter(kind for kind, *_ in rows)
    unjudged = kinds["elsewhere"] + kinds["not-judged"]
    counts = [functions, kinds["refused"] + kinds["proves"] + kinds["same"] + unjudged, kinds["refused"], kinds["proves"], kinds["same"], unjudged]
    return f"| {crate} | {' | '.join(map(str, counts))} | {why_not(rows)} |"


def proved_in(found):
    """The bodies that were proved: the crate, the function and the body."""
    return [(crate, function, text) for crate, said in found.items()
            for kind, function, text, _ in rows_of(said) if kind == "proves"]


def is_law(crate, named):
    """Whether a function, by its name, has no code."""
    file = named.split(" ")[0]
    text = (CRATES / crate / file).read_text()
    return not any(is_named(function, named) for function in functions_of(file, text))


def unjudged_in(crate, said):
    """The functions of a crate of which no planted body was judged, and why not. Laws have no body."""
    by = {}
    for kind, function, _, why in rows_of(said):
        by.setdefault(function.removesuffix("()"), []).append((kind, function, "", why))
    for function, rows in by.items():
        kinds = {kind for kind, *_ in rows}
        if not kinds & {"refused", "proves", "same", "no-ensures"} and not is_law(crate, function):
            given = [row for row in rows if row[0] == "not-source"]
            yield function, why_not(rows) or ("none fits its type" if given or kinds == {"untested"} else "none was made")


def edits_by_function(crate):
    """By function the edits of a crate that change it, or that put a wrong one of its own beside it."""
    found = collections.defaultdict(list)
    for path in edits_of(crate):
        rows = tuple(rows_of_edit(path.read_text()))
        try:
            body = edited(crate, rows, path.stem)
        except Unfit:
            continue
        beside = [function for file, old, _ in rows for function in functions_of(file, (CRATES / crate / file).read_text())
                  if file.startswith("src/") and re.search(rf"\bfn {function.name}\b", old)]
        for function in dict.fromkeys([*body.functions, *beside]):
            found[function].append(path.stem)
    return found


def is_named(function, named):
    """Whether what rt plant names is a function: its file, and the words of its block."""
    file, _, name = named.partition(" ")
    words = re.findall(r"\w+", name)
    block = [word for word in owner(function.block) if word] if function.block else []
    return function.file == file and function.name == words[-1] and set(block) <= set(words)


def hand_made(crate, named):
    """The edits of a crate that change a function, by its name."""
    edits = [edit for function, edits in edits_by_function(crate).items() if is_named(function, named) for edit in edits]
    return list(dict.fromkeys(edits))


def page(found):
    """The page of what was said of each crate."""
    lines = [HEAD.format(logic=logic()) + "\n".join(row(crate, said) for crate, said in found.items())]
    reasons, proved = reasons_given(), proved_in(found)
    if proved:
        lines.append("\n## Proved\n\n| Crate | Function | Body | Why no clause refuses it |\n|---|---|---|---|")
        lines += [f"| {crate} | {cell(function)} | {cell(text)} | {reasons.get((crate, function, text), '')} |"
                  for crate, function, text in proved]
    rows = [(crate, function, why, hand_made(crate, function)) for crate, said in found.items() for function, why in unjudged_in(crate, said)]
    if rows:
        lines.append(f"\n{UNJUDGED}\n| Crate | Function | Why not | Edits |\n|---|---|---|---|")
        lines += [f"| {crate} | {cell(function)} | {why} | {', '.join(map(cell, edits)) or 'none'} |" for crate, function, why, edits in rows]
    return "\n".join(lines) + "\n"


def main():
    names = [word for word in sys.argv[1:] if word != "--kept"]
    unknown = [name for name in names if not (CRATES / name / "src").is_dir()]
    if unknown:
        sys.exit(f"no crate: {' '.join(unknown)}")
    lacking = 0
    for crate in [name for name in dependencies(ROOT) if name in names or not names and not LEFT_OUT.match(name)]:
        said = planted(crate) if names == sys.argv[1:] else None
        lacking += names == sys.argv[1:] and said is None
        if said:
            print(row(crate, said), flush=True)
    found = {crate: place(crate).read_text() for crate in dependencies(ROOT) if place(crate).exists()}
    if found:
        PAGE.write_text(page(found))
    proved, reasons = proved_in(found), reasons_given()
    open_ones = [body for body in proved if body not in reasons]
    for body in open_ones:
        print("no reason:", "\t".join(body))
    print(f"{len(found)} crates, {len(proved)} bodies proved, {len(open_ones)} of them with no reason")
    return 1 if lacking or open_ones else 0


if __name__ == "__main__":
    sys.exit(main())
