#!/usr/bin/env python3
"""Puts small wrong edits at random lines, and says what refuses them: `mutants.py [--kept] SEED COUNT [NAME..]`.

A seed draws lines of the bodies of all crates but those of tests, house_script among them, and benches, or of named crates, so that
each line is as likely as another, and one of the edits that fit it: a comparison turned, one more or less, a call left out, arguments
swapped, a branch taken twice, another constant, a return before the line, `||` for `&&`, a `!` dropped. Each is checked as reasons.py
checks an edit, with the same classes and the same folder of what is kept; one that doesn't compile is drawn again. Those that are
refused only because answers of the proof no longer fit count apart: they say nothing of the contract. One that is PROVED is printed,
with the reason that proved.tsv gives for it, or as a line of that file with none: it means the same as before or is as right, no
clause can speak of what it changes, or a clause is missing. With --kept nothing is tried, and what is kept is counted.
docs/MUTANTS.md gets the mutants of all crates by what they came to, with the commit of which they are, and is left as it was where
some crates are named. It needs the kit, with its `rt` on the path. The last line is 'N mutants, M proved, K of them with no reason'.

Promise: none
"""
import collections
import difflib
import functools
import random
import re
import subprocess
import sys

from lib.crates import dependencies
from lib.places import ROOT
from lib.proved_bodies import cell, reasons_given
from lib.wrong_bodies import CLASSES, CLAUSE, CRATES, NO_CODE, PANIC, PROVED, REFUSED
from lib.wrong_bodies import Body, found, functions_of, key, logic, table, try_bodies

PAGE = ROOT / "docs" / "MUTANTS.md"
COLUMNS = ["At a clause", "At a panic", "By its answers alone", "No evidence", "Proved"]
HEAD = """# Mutants

Made by `make mutants SEED={seed} COUNT={count}` of the text of commit `{commit}`, with a kit of the
logic `{logic}`. Of another text the seed draws others.

A mutant is a small wrong edit at a random line of a body: a comparison turned, one more or less, a
call left out, two arguments swapped, one branch in the place of the other, another constant, a
return before the line. Each line of all crates is as likely as another, but for those of tests,
`house_script` among them, and benches.

A mutant counts as refused where a goal of a contract, or of safety as at an index, is false or
stays open: at a clause, or at a panic. One that is refused by its answers alone tells nothing of
the contract, because the proof has an answer that no longer fits the changed code, and nobody wrote
another. There is no evidence either where a search met a limit, or where only the invariant of a
loop fails. One that is proved has a reason: it means the same as the right body, it answers in
another way that is as right, it changes what no clause can speak of, such as why the machine
refused a file, or a clause is missing.
"""
LEFT_OUT = re.compile(r"test_|bench_")
# It prints what tests compare, mostly without contracts. Its lines are drawn and dropped, so that a seed draws the others as ever.
PRINTS = "house_script"
# What stands in a line and is no code: texts, characters, and a comment at its end.
NO_CODE_TEXT = re.compile(r'b?"(?:\\.|[^"\\])*"|b?\'(?:\\.[^\']*|[^\'\\])\'|//.*')
# A line that begins a statement, or is the value of its block.
STATEMENT = re.compile(r"\s+(?:let |if |match |for |while |return |self\.|\w+[.(:!]|\w+ [-+*]?= |Ok\(|Err\(|Some\(|\w+$)")
CALL = re.compile(r"\s+(?:self|\w+)(?:\.\w+|::\w+)*\(.*\)\??;$")
# A value that may stand as an argument.
PLAIN = r"&?(?:mut )?[\w.]+(?:\(\))?"
SWAPPED = re.compile(rf"(\w\()({PLAIN}), ({PLAIN})(?=[,)])")
NUMBER = re.compile(r"(?<![\w.])\d[\d_]*(?![\w.]|\.\.)")
ARM = re.compile(r"(\s+)(.+) => (.+),$")
BRANCHES = re.compile(r"(\bif .* )\{ ([^{}]*) \} else \{ ([^{}]*) \}")
TURNED = {" == ": [" != "], " != ": [" == "], " < ": [" <= ", " >= "], " <= ": [" < ", " > "], " > ": [" >= ", " <= "],
          " >= ": [" > ", " < "]}
JOINED = {" && ": [" || "], " || ": [" && "], " + ": [" - "], " - ": [" + "], "..=": [".."], " += ": [" -= "], " -= ": [" += "]}
PAIRS = [("true", "false"), ("min", "max"), ("is_some", "is_none"), ("is_ok", "is_err"), ("first", "last")]
OTHER = {one: other for pair in PAIRS for one, other in (pair, pair[::-1])}


def places(line, text):
    """Where a text stands in the code of a line."""
    hidden = [match.span() for match in NO_CODE_TEXT.finditer(line)]
    return [match.start() for match in re.finditer(re.escape(text), line)
            if not any(start <= match.start() < end for start, end in hidden)]


def replaced(line, start, end, new):
    return line[:start] + new + line[end:]


def value_of(head):
    """Values that a function of such a head may return at once."""
    given = re.search(r"-> (.*?)(?: where\b.*)?(?: \{)?$", head)
    kind = given[1] if given else ""
    if not kind:
        return ["return;"]
    for form, values in [(r"Result<\(\),", ["Ok(())"]), (r"Option<", ["None"]), (r"bool$", ["true", "false"]),
                         (r"(?:u|i)(?:8|16|32|64|128|size)$", ["0", "1"]), (r"Result<bool,", ["Ok(true)", "Ok(false)"]),
                         (r"Result<(?:u|i)\w+,", ["Ok(0)"]), (r"Result<Option<", ["Ok(None)"])]:
        if re.match(form, kind):
            return [f"return {value};" for value in values]
    return []


def turned(line):
    """Comparisons turned, one more or less, `&&` and `||`, the other of two words, and a `!` dropped."""
    for old, news in [*TURNED.items(), *JOINED.items()]:
        for at in places(line, old):
            yield from (replaced(line, at, at + len(old), new) for new in news)
    for at in places(line, "!"):
        if line[at + 1:at + 2] not in ("=", "(", "[") and not re.match(r"\w", line[at - 1:at] or " "):
            yield replaced(line, at, at + 1, "")
    for old, new in OTHER.items():
        for at in places(line, old):
            if re.match(rf"\b{old}\b", line[at:]) and not re.match(r"\w", line[at - 1:at] or " "):
                yield replaced(line, at, at + len(old), new)


def counted(line):
    """Another number, or another constant that the line has."""
    hidden = [match.span() for match in NO_CODE_TEXT.finditer(line)]
    for match in NUMBER.finditer(line):
        if not any(start <= match.start() < end for start, end in hidden):
            number = int(match[0].replace("_", ""))
            yield from (replaced(line, *match.span(), str(other)) for other in {number + 1, max(number - 1, 0)} - {number})
    for match in re.finditer(r"\.len\(\)", line):
        yield replaced(line, *match.span(), ".len() + 1")
    for match in re.finditer(r"\b[A-Z][A-Z_0-9]+\b", line):
        yield replaced(line, *match.span(), f"({match[0]} + 1)")


def swapped(line):
    """Two arguments that stand beside each other, each in the other's place."""
    for match in SWAPPED.finditer(line):
        if match[2] != match[3]:
            yield replaced(line, *match.span(), f"{match[1]}{match[3]}, {match[2]}")


def taken_twice(line, above):
    """One branch in the place of the other."""
    for match in BRANCHES.finditer(line):
        if match[2] != match[3]:
            yield replaced(line, *match.span(), f"{match[1]}{{ {match[2]} }} else {{ {match[2]} }}")
            yield replaced(line, *match.span(), f"{match[1]}{{ {match[3]} }} else {{ {match[3]} }}")
    one, other = ARM.match(above), ARM.match(line)
    are_arms = one and other and one[1] == other[1] and one[3] != other[3]
    if are_arms and not names_in(one[2], one[3]) - set(re.findall(r"\w+", other[2])):
        yield f"{other[1]}{other[2]} => {one[3]},"


def names_in(pattern, value):
    """The names of a pattern that a value has."""
    return set(re.findall(r"\b[a-z_]\w*", pattern)) & set(re.findall(r"\w+", value))


def left_out(line):
    """Nothing in the place of a call whose value nobody takes."""
    if CALL.match(line):
        yield ""


def returned(lines, at, head):
    """A return in the place of a statement, and nothing in that of the lines that follow in its block."""
    line, above = lines[at], lines[at - 1]
    if not STATEMENT.match(line) or " => " in line or not above.endswith(("{", ";", "}")):
        return
    blanks = line[:len(line) - len(line.lstrip())]
    end = next(row for row in range(at, len(lines)) if lines[row] and not lines[row].startswith(blanks))
    for value in value_of(head):
        if line.strip(" ;").removeprefix("return ") != value.strip(";").removeprefix("return "):
            yield "\n".join([f"{blanks}{value}", *[""] * (end - at - 1)])


def edits_at(lines, at, head):
    """The wrong lines that may take the place of one, by what they do."""
    line, above = lines[at], lines[at - 1]
    ways = {"turned": turned(line), "number": counted(line), "swapped": swapped(line), "branch": taken_twice(line, above),
            "left out": left_out(line), "return": returned(lines, at, head)}
    made = {way: [new for new in dict.fromkeys(news) if new != line] for way, news in ways.items()}
    return {way: news for way, news in made.items() if news}


def head_of(lines, function):
    """The head of a function as one line, without its clauses."""
    rows = []
    for line in lines[function.first:function.opens + 1]:
        if re.match(r"\s+(?:requires|ensures|ghost|//)", line):
            break
        rows.append(line.strip())
    return re.sub(r" ?\{$", "", " ".join(rows))


def is_test(lines, function):
    """Whether a function is a test, or stands in a module of tests."""
    above = "\n".join(lines[:function.first])
    return "#[test]" in "\n".join(lines[max(0, function.first - 3):function.first]) or "#[cfg(test)]\nmod tests {" in above


@functools.cache
def lines_of(crates):
    """Each line of code in a body, of all these crates: its crate, file and number, and its function."""
    rows = []
    for crate in crates:
        for path in sorted((CRATES / crate / "src").rglob("*.rt")):
            file, text = str(path.relative_to(CRATES / crate)), path.read_text()
            lines = text.split("\n")
            for function in functions_of(file, text):
                if function.file.endswith("tests.rt") or is_test(lines, function):
                    continue
                rows += [(crate, file, at, function) for at in range(function.opens + 1, function.last)
                         if lines[at].strip(" {}();,") and not lines[at].lstrip().startswith(("//", "ghost ", "prove!", "#"))]
    return rows


def drawn(seed, crates):
    """Wrong bodies without end, as a seed draws them."""
    chance, rows, seen, count = random.Random(seed), lines_of(tuple(crates)), set(), 0
    while True:
        crate, file, at, function = chance.choice(rows)
        text = (CRATES / crate / file).read_text()
        lines = text.split("\n")
        ways = edits_at(lines, at, head_of(lines, function))
        if not ways:
            continue
        way = chance.choice(list(ways))
        # A return fits almost every line.
        if way == "return" and chance.random() < 0.6:
            continue
        new = chance.choice(ways[way])
        if (crate, file, at, new) in seen:
            continue
        seen.add((crate, file, at, new))
        count += 1
        lines[at:at + new.count("\n") + 1] = new.split("\n")
        yield Body(crate, f"{count}, {way}, {file}:{at + 1}", ((file, "\n".join(lines)),), (function,))


def difference(body):
    """The lines that a body changes."""
    for file, text in body.texts:
        old = (CRATES / body.crate / file).read_text().split("\n")
        for line in difflib.unified_diff(old, text.split("\n"), f"crates/{body.crate}/{file}", "", "", "", 1, ""):
            yield f"    {line}"


def row_of(body):
    """The crate, the function and the change of a body, as proved.tsv has them."""
    (file, first, end, new), *_ = body.spans()
    old = (CRATES / body.crate / file).read_text().split("\n")[first:end]
    change = " => ".join(" ".join(" ".join(lines).split()) or "nothing" for lines in (old, new))
    return body.crate, f"{file} {body.functions[0].name}", change


def line(body):
    one = found(body)
    shape = ", by its answers alone" if one.kind in REFUSED and one.by_shape() else ""
    shown = f"{body.crate}/{body.name}: {one.kind}{shape}{f' ({one.told()})' if one.told() else ''}"
    if one.kind != PROVED:
        return shown
    reason = reasons_given().get(row_of(body))
    return "\n".join([shown, *difference(body), f"    {reason}" if reason else "no reason: " + "\t".join(row_of(body))])


def compiling(source, count, is_tried):
    """So many bodies that compile, or fewer where another run is at some of the first; each that doesn't makes room for another."""
    bodies, told, order = [], set(), list(dependencies(ROOT))

    def tell(body):
        if key(body) not in told and found(body).kind != NO_CODE:
            told.add(key(body))
            print(line(body), flush=True)

    while len(bodies) < count:
        bodies += [next(source) for _ in range(count - len(bodies))]
        if is_tried:
            try_bodies(sorted(bodies, key=lambda body: order.index(body.crate)), told=tell, may_be_no_code=True)
        known = [body for body in bodies if found(body)]
        if len(known) < len(bodies):
            return [body for body in known if found(body).kind != NO_CODE]
        bodies = [body for body in bodies if found(body).kind != NO_CODE]
    return bodies


def column(one):
    """The column of the page in which a mutant counts."""
    if one.kind == PROVED:
        return "Proved"
    if one.by_shape():
        return "By its answers alone"
    return {CLAUSE: "At a clause", PANIC: "At a panic"}.get(one.kind, "No evidence")


def commit():
    """The commit whose text the mutants are drawn of."""
    words = ["git", "rev-parse", "--short=8", "HEAD"]
    return subprocess.run(words, cwd=ROOT, capture_output=True, text=True, check=True).stdout.strip()


def page(seed, bodies):
    """The page of mutants that were drawn of all crates."""
    order = list(dependencies(ROOT))
    bodies = sorted(bodies, key=lambda body: order.index(body.crate))
    counts = {}
    for body in bodies:
        counts.setdefault(body.crate, collections.Counter())[column(found(body))] += 1
    counts["all"] = sum(counts.values(), collections.Counter())
    rows = [["Crate", "Mutants", *COLUMNS], ["---"] * (len(COLUMNS) + 2)]
    rows += [[crate, str(sum(ways.values())), *(str(ways[name]) for name in COLUMNS)] for crate, ways in counts.items()]
    lines = [HEAD.format(count=len(bodies), seed=seed, commit=commit(), logic=logic()), *(f"| {' | '.join(row)} |" for row in rows)]
    proved = [row_of(body) for body in bodies if found(body).kind == PROVED]
    if proved:
        lines += ["", "## Proved", "", "| Crate | Function | Change | Why no clause refuses it |", "|---|---|---|---|"]
        lines += [f"| {crate} | {cell(function)} | {cell(change)} | {reasons_given().get((crate, function, change), '')} |"
                  for crate, function, change in proved]
    return "\n".join(lines) + "\n"


def main():
    words = [word for word in sys.argv[1:] if word != "--kept"]
    if len(words) < 2 or not words[1].isdigit():
        sys.exit(__doc__.split("\n", 1)[0])
    seed, count, named = words[0], int(words[1]), words[2:]
    unknown = [name for name in named if not (CRATES / name / "src").is_dir()]
    if unknown:
        sys.exit(f"no crate: {' '.join(unknown)}")
    crates = [name for name in dependencies(ROOT) if name in named or not named and not LEFT_OUT.match(name)]
    source = (body for body in drawn(seed, crates) if named or body.crate != PRINTS)
    bodies = compiling(source, count, words == sys.argv[1:])
    results = [found(body) for body in bodies]
    counts = collections.Counter(one.kind for one in results)
    shaped = collections.Counter(one.kind for one in results if one.kind in REFUSED and one.by_shape())
    print()
    print("\n".join(table([["came to", "mutants", "by its answers alone"],
                           *([name, str(counts[name] or "-"), str(shaped[name] or "-")] for name in CLASSES if name != NO_CODE)])))
    if not named and len(bodies) == count:
        PAGE.write_text(page(seed, bodies))
    open_ones = [body for body in bodies if found(body).kind == PROVED and row_of(body) not in reasons_given()]
    print(f"{len(results)} mutants, {counts[PROVED]} proved, {len(open_ones)} of them with no reason")
    return 1 if open_ones else 0


if __name__ == "__main__":
    sys.exit(main())
