"""Wrong bodies: put into a copy of a crate, checked function by function, and told apart by what refuses them.

That a check refuses a wrong body is evidence only where it says why: a goal of the contract is false, or stays open although each
answer of its proof was applied. A search that gave up, and an answer that names what is gone, say nothing of the contract.
"""
import contextlib
import dataclasses
import fcntl
import functools
import hashlib
import json
import os
import pathlib
import re
import shutil
import signal
import subprocess
import sys
import tempfile
import time

from lib.crates import dependencies
from lib.places import ROOT

CRATES, KEPT = ROOT / "crates", ROOT / "out" / "wrong-bodies"
PARTS = ("src", "specs", "proofs")
COMMENT = {".rt": "//", ".antt": "--"}

# What a wrong body comes to. The first two are refusals for a reason of the contract's, or of safety.
CLAUSE, PANIC = "at a clause", "at a panic"
PROOF, LOST, GAVE_UP, NO_CODE, PROVED = "in its proof alone", "name lost", "gave up", "does not compile", "PROVED"
REFUSED = (CLAUSE, PANIC)
CLASSES = (CLAUSE, PANIC, PROOF, LOST, GAVE_UP, NO_CODE, PROVED)
# Why a goal is left: values make it false; the search came to its end and found nothing; its answer was applied and doesn't prove
# it; a limit was met; its answer names what isn't there.
FALSE, OPEN, MISFIT, LIMIT, GONE = "false", "open", "its answer doesn't fit", "limit", "name"

# How rt lays out code: a block of methods, and a function with its indentation.
BLOCK = re.compile(r"(?:pub(?:\([^)]*\))? )?(?:unsafe )?(?:impl|trait)\b.*\{$")
FUNCTION = re.compile(r"( *)(?:pub(?:\([^)]*\))? )?(?:unsafe |const )*fn (\w+)")
CLAUSES = re.compile(r"\s+(?:requires|ensures|ghost)\b")
# What a check says.
SEVERAL = re.compile(r"several functions are named `([^`]+)`: help: write one of (.*)")
NONE_NAMED = re.compile(r"has no function `([^`]+)`")
SYMBOL = re.compile(r"`([^`]+)`")
LINE = re.compile(r"fn (\S+): (.*)")
GOAL = re.compile(r"note: (\S+?):\d+:\d+: (?:it is not proved that (.*?)|`search` found no proof)(?: \(`([^`\s]+)`\))?((?:; .*)?)$")
IN_PROOFS = re.compile(r"(?:\./)?proofs/(\S+)\.antt:(\d+):\d+: error: (?:`([^`]*)`: )?(.*)")
IN_CODE = re.compile(r"^(?:\./)?(src/\S+\.rt):(\d+):\d+: error", re.M)
NAMES = re.compile(r"is not in scope|has no field|has no `|exports no|is no name|was not admitted|not answer|names no|no such")
ENDED = re.compile(r"^(?:only=|logic=)", re.M)
NO_VERDICT = re.compile(r"^rattle: no verdict|could not tell", re.M)
OF_CALLEES = re.compile(r"(?:no proof: |; )it (?:calls|passes) .*$")
WAITS = re.compile(r"has not tried the goals of (.*?), which wait")
# The name of goals that wait for a callee's proof.
CALLEE = "what a callee's proof decides"
# How long a check may take, in seconds.
PATIENCE = int(os.environ.get("WRONG_BODY_SECONDS", "3600"))
# How many bodies are checked together at most.
MOST = 16


@dataclasses.dataclass(frozen=True)
class Function:
    """A function of a file: its name, the head of its block, and the lines where it begins, where its body does, and its last."""
    file: str
    name: str
    block: str
    first: int
    opens: int
    last: int

    def asked(self):
        """The name by which a check is asked for it; that of a generic impl is found by what a check answers."""
        stem = pathlib.PurePath(self.file).with_suffix("").name
        if self.block:
            trait, of = owner(self.block)
            return f"{of}{trait}::{self.name}"
        return f"{'' if stem in ('lib', 'main') else stem + '::'}{self.name}"


class Unfit(Exception):
    """Why a wrong body can't be put in."""


@dataclasses.dataclass(frozen=True)
class Body:
    """A wrong body: its crate and name, by file its new text, and the functions that it changes, or none where it changes more."""
    crate: str
    name: str
    texts: tuple
    functions: tuple

    def spans(self):
        """By file the lines of the old text that it changes, and the new lines, or nothing for what is as it was."""
        for file, text in self.texts:
            old, new = (CRATES / self.crate / file).read_text().split("\n"), text.split("\n")
            same = os.path.commonprefix([old, new])
            end = len(os.path.commonprefix([old[len(same):][::-1], new[len(same):][::-1]]))
            yield file, len(same), len(old) - end, new[len(same):len(new) - end]


def without_arguments(head):
    """The head of a block without what stands in angle brackets."""
    while (shorter := re.sub(r"<[^<>]*>", "", head.replace("->", ""))) != head:
        head = shorter
    return head


def owner(head):
    """The trait, or an empty name, and the type of a block by its head."""
    plain = re.sub(r"\bwhere\b.*|\{$", "", without_arguments(head)).strip()
    named = [re.findall(r"\w+", part)[-1] for part in re.sub(r"^.*?\b(?:impl|trait)\b", "", plain).split(" for ")]
    return ("", named[0]) if len(named) == 1 else (named[0], named[1])


def functions_of(file, text):
    """The functions of a file that have a body, in the layout of rt."""
    lines, block, found = text.split("\n"), "", []
    for at, line in enumerate(lines):
        if BLOCK.match(line):
            block = line
        elif line == "}":
            block = ""
        head = FUNCTION.match(line)
        if not head:
            continue
        opens = opening(lines, at, head[1])
        if opens is None:
            continue
        last = opens
        if not lines[opens].endswith("{}"):
            last = next((end for end in range(opens + 1, len(lines)) if lines[end] == head[1] + "}"), opens)
        found.append(Function(file, head[2], block if head[1] else "", at, opens, last))
    return found


def opening(lines, at, indentation):
    """The line where the body of a function opens whose head begins at a line, or none where it has no body. A head without
    clauses ends with a line; below clauses, whose texts have braces of their own, the brace stands alone."""
    has_clauses = False
    for number, line in enumerate(lines[at:], at):
        if line == indentation + "{":
            return number
        has_clauses = has_clauses or bool(CLAUSES.match(line))
        if has_clauses and (line == "}" or FUNCTION.match(line)):
            return None
        if not has_clauses and line.endswith((" {", " {}")):
            return number
        if not has_clauses and line.endswith(";"):
            return None
    return None


def edited(crate, rows, name):
    """The body that rows of a file, an old text and a new one make, each over what those before have made, as rt reads an edit."""
    folder, texts, functions = CRATES / crate, {}, []
    for file, old, new in rows:
        if file not in texts:
            if not (folder / file).is_file():
                raise Unfit(f"there is no file {file}")
            texts[file] = (folder / file).read_text()
        count = texts[file].count(old)
        if count != 1:
            raise Unfit(f"its old text is in {file} {count} times")
        line = texts[file][:texts[file].index(old)].count("\n")
        functions += changed(file, texts[file], line, new)
        texts[file] = texts[file].replace(old, new)
    if not rows:
        raise Unfit("it has no old and new text")
    known = tuple(dict.fromkeys(functions)) if None not in functions else ()
    return Body(crate, name, tuple(sorted(texts.items())), known)


def changed(file, text, line, new):
    """The functions that a new text in a line changes and adds: none as a member where it changes more than functions."""
    if not file.startswith("src/"):
        return [None]
    inside = [one for one in functions_of(file, text) if one.opens <= line <= one.last]
    block = next((row for row in reversed(text.split("\n")[:line]) if row == "}" or BLOCK.match(row)), "}")
    added = [Function(file, name, "" if block == "}" else block, line, line, line) for name in re.findall(r"\bfn (\w+)", new)]
    return inside[-1:] + added or [None]


def rows_of(text):
    """The rows of an edit: lines `file:`, and pairs of `old:` and `new:`."""
    file, old = "", ""
    for line in text.split("\n"):
        if line.startswith("file: "):
            file = line[len("file: "):].strip()
        elif line.startswith("old: "):
            old = line[len("old: "):]
        elif line.startswith("new:"):
            yield file, old, line[len("new:"):].removeprefix(" ")


def edits_of(crate):
    """The edits of a crate: those that the gate tries, and those that it leaves out."""
    return [*sorted((CRATES / crate).glob("must-fail/*.edit")), *sorted((CRATES / crate).glob("wrong/*.edit"))]


@functools.cache
def kit():
    return subprocess.run(["rt", "version"], capture_output=True, text=True, check=True).stdout


def logic():
    """The logic that the kit proves by, which several kits may have."""
    return kit().split()[-1]


def without_comments(path):
    """The lines of a file but for those that are comments, which no check reads."""
    begin = COMMENT.get(path.suffix)
    return [line for line in path.read_text().splitlines() if not begin or not line.lstrip().startswith(begin)]


@functools.cache
def sum_of(crate):
    """A sum of all that a check of a crate reads: its own text, what is stated below it, and the logic of the kit."""
    total = hashlib.sha256(logic().encode())
    for name, parts in [(crate, PARTS), *((below, PARTS[:2]) for below in dependencies(ROOT)[crate])]:
        for path in sorted(path for part in parts for path in (CRATES / name / part).rglob("*") if path.is_file()):
            total.update(repr((str(path.relative_to(CRATES)), without_comments(path))).encode())
    return total.hexdigest()


@functools.cache
def kit_folder():
    """The folder of the kit, where its first page lies."""
    said = subprocess.run(["rt", "doc"], capture_output=True, text=True, check=True).stdout
    return pathlib.Path(said.strip()).parent


def are_built(crates):
    """Whether the library of each of these crates, the lowest first, is newer than its text and the texts before it."""
    newest = 0.0
    for name in crates:
        built = CRATES / name / "out" / "rlib" / "stamp"
        texts = [path for part in PARTS for path in (CRATES / name / part).rglob("*") if path.is_file()]
        newest = max([newest, *(path.stat().st_mtime for path in texts)])
        if not built.exists() or built.stat().st_mtime < newest:
            return False
    return True


def prover(crate):
    """The call of the prover that `rt check` makes in a crate's folder. rt first sums up what lies below, anew along each way
    down to it, which takes minutes in a high crate, so where all libraries are there it is passed by."""
    folder, below = kit_folder(), dependencies(ROOT)[crate]
    line = re.search(rf"^{crate}:(.*)$", (ROOT / "crates.txt").read_text(), re.M)
    root = "src/main.rt" if (CRATES / crate / "src" / "main.rt").exists() else "src/lib.rt"
    words = [str(folder / "bin" / "rattle"), "check", "--crate-name", crate, root]
    for name in [*line[1].split(), "std"]:
        library = f"../{name}/out/rlib" if name in below else f"{folder}/rlibs"
        words += ["--extern", f"{name}={library}/{name}.rlib"]
    for library in [f"{folder}/rlibs", *(f"../{name}/out/rlib" for name in below)]:
        words += ["-L", f"dependency={library}"]
    return [*words, "--antt-project", f"{folder}/rattle/logic/antt-project.json", "--logic-built", f"{folder}/logic_built",
            "--links", f"{crate}=", "--incremental", "out/incremental", "--progress"]


def key(body):
    return hashlib.sha256(repr((sum_of(body.crate), body.texts)).encode()).hexdigest()[:32]


def kept(body):
    """What was kept of a body: what the checks said, by function."""
    path = KEPT / f"{key(body)}.json"
    return json.loads(path.read_text()) if path.exists() else None


def keep(body, looks, seconds):
    """Keeps what checks said of a body, so that no run has to check it again."""
    KEPT.mkdir(parents=True, exist_ok=True)
    with tempfile.NamedTemporaryFile("w", dir=KEPT, suffix=".new", delete=False) as file:
        json.dump({"crate": body.crate, "name": body.name, "looks": looks, "seconds": round(seconds)}, file)
    os.replace(file.name, KEPT / f"{key(body)}.json")


@contextlib.contextmanager
def claimed(bodies):
    """Those of some bodies that no other run is at, and that have nothing kept."""
    KEPT.mkdir(parents=True, exist_ok=True)
    with contextlib.ExitStack() as stack:
        free = []
        for body in bodies:
            file = stack.enter_context(open(KEPT / f"{key(body)}.lock", "w"))
            with contextlib.suppress(OSError):
                fcntl.flock(file, fcntl.LOCK_EX | fcntl.LOCK_NB)
                free.append(body)
        yield [body for body in free if kept(body) is None]
        for body in free:
            (KEPT / f"{key(body)}.lock").unlink(missing_ok=True)


class Copy:
    """A copy of a crate, and of those below it with their libraries where they are built, as a repository of its own."""

    def __init__(self, crate, folder):
        self.crate, self.folder = crate, pathlib.Path(folder) / "crates" / crate
        self.symbols, wanted = {}, [crate, *dependencies(ROOT)[crate]]
        lines = (ROOT / "crates.txt").read_text().splitlines(keepends=True)
        (pathlib.Path(folder) / "crates.txt").write_text("".join(line for line in lines if line.split(":")[0] in wanted))
        shutil.copy(ROOT / "HANDLES", folder)
        for name in wanted:
            place, to = CRATES / name, pathlib.Path(folder) / "crates" / name
            for part in PARTS:
                if (place / part).is_dir():
                    shutil.copytree(place / part, to / part)
            if (place / "out" / "rlib").is_dir():
                shutil.copytree(place / "out" / "rlib", to / "out" / "rlib", copy_function=linked)
        for begun in [CRATES / crate / "out" / "incremental", KEPT / "work" / crate]:
            if begun.is_dir() and not self.work().exists():
                shutil.copytree(begun, self.work(), copy_function=linked)
        self.work().mkdir(parents=True, exist_ok=True)
        self.command = prover(crate) if are_built(dependencies(ROOT)[crate]) else ["rt", "check"]

    def work(self):
        """What a check proves, with which the next one begins."""
        return self.folder / "out" / "incremental"

    def check(self, bodies, without=(), proves=True):
        """What a check says of the functions that these bodies change, or of all, or the front end alone. Answers that are named,
        by their file, are left out of it."""
        texts = joined(bodies)
        for file, names in without:
            texts[file] = without_answers((self.folder / file).read_text(), names)
        asked = list(dict.fromkeys(function.asked() for body in bodies for function in body.functions)) if proves else [""]
        blocks = {function.asked(): function for body in bodies for function in body.functions}
        was = {file: (self.folder / file).read_text() for file in texts}
        try:
            for file, text in texts.items():
                (self.folder / file).write_text(text)
            begun = self.begin_answers(blocks.values())
            while True:
                names = list(dict.fromkeys(name for one in asked for name in self.symbols.get(one, [one])))
                said = self.run([*self.command, "--jobs", "1", *(word for name in names for word in ("--only", name))])
                known = dict(self.symbols)
                self.learn(said, blocks)
                if self.symbols == known:
                    return said
        finally:
            for file, text in was.items():
                (self.folder / file).write_text(text)
            for path in begun:
                path.unlink()

    def begin_answers(self, functions):
        """Makes an empty file of answers for each of some functions that has none, and says which. Where one is lacking, the prover
        runs a second time to write out the answers that it expects, which takes as long as the first."""
        begun = []
        for function in functions:
            path = self.folder / answers_of(self.crate, function)
            if not path.exists():
                path.parent.mkdir(parents=True, exist_ok=True)
                path.touch()
                begun.append(path)
        return begun

    def learn(self, said, blocks):
        """Takes from what a check says by which names the functions that were asked for are known, where it knows several or none
        by theirs."""
        several, none = SEVERAL.search(said), NONE_NAMED.search(said)
        for asked, function in blocks.items():
            named = self.symbols.get(asked, [asked])
            if several and several[1] in named:
                symbols = SYMBOL.findall(several[2])
                self.symbols[asked] = fitting(function, symbols) or symbols
            elif none and none[1] in named:
                # The bare name is its own, or that of several.
                self.symbols[asked] = [function.name]

    def run(self, words):
        try:
            ran = subprocess.run(words, cwd=self.folder, stdin=subprocess.DEVNULL, stdout=subprocess.PIPE, stderr=subprocess.STDOUT,
                                 text=True, errors="replace", timeout=PATIENCE)
        except subprocess.TimeoutExpired:
            return "rattle: no verdict: the check took too long\n"
        return ran.stdout if ran.returncode >= 0 else "rattle: no verdict: the check was killed\n"


@contextlib.contextmanager
def copied(crate):
    """A copy of a crate, whose work is kept for the next one, also where the run is ended."""
    signal.signal(signal.SIGTERM, lambda *_: sys.exit(128 + signal.SIGTERM))
    with tempfile.TemporaryDirectory(prefix="wrong-bodies-") as folder:
        copy = Copy(crate, folder)
        try:
            yield copy
        finally:
            if copy.work().is_dir() and not (KEPT / "work" / crate).exists():
                (KEPT / "work").mkdir(parents=True, exist_ok=True)
                shutil.move(copy.work(), KEPT / "work" / crate)


@functools.cache
def module_of_type(crate, name):
    """The file of a crate that declares a type, without its ending, or none where it declares no such type."""
    source = CRATES / crate / "src"
    declared = re.compile(rf"^(?:pub(?:\([^)]*\))? )?(?:struct|enum) {name}\b", re.M)
    return next((path.relative_to(source).with_suffix("") for path in sorted(source.rglob("*.rt")) if declared.search(path.read_text())), None)


def answers_of(crate, function):
    """The file of answers of a function. Methods of a type itself are proved where the type is declared, those of its traits where
    they stand."""
    trait, of = owner(function.block) if function.block else ("", "")
    own = pathlib.PurePath(function.file).relative_to("src").with_suffix("")
    module = own if trait or not of else module_of_type(crate, of) or own
    parts = [] if str(module) in ("lib", "main") else module.parts
    return pathlib.PurePath("proofs", *parts, *filter(None, [of + trait]), function.name, "Answers.antt")


def linked(one, other):
    """Links a file where that can be done, else copies it: a check replaces what it has kept, and changes none."""
    try:
        os.link(one, other)
    except OSError:
        shutil.copy2(one, other)


def fitting(function, symbols):
    """Those of some symbols that have the words of a function's block, or of its file."""
    stem = pathlib.PurePath(function.file).with_suffix("").name
    words = [word for word in owner(function.block) if word] if function.block else [stem]
    plain = [word.replace("_", "").lower() for word in words]
    near = [symbol for symbol in symbols if all(word in symbol.split("::")[-2].replace("_", "").lower() for word in plain)]
    return [symbol for symbol in near if len(symbol.split("::")[-2]) == sum(map(len, words))] or near


def joined(bodies):
    """By file the text with all these bodies, of which no two may change the same lines."""
    spans = {}
    for body in bodies:
        for file, first, end, lines in body.spans():
            spans.setdefault((body.crate, file), []).append((first, end, lines))
    texts = {}
    for (crate, file), rows in spans.items():
        text = (CRATES / crate / file).read_text().split("\n")
        for first, end, lines in sorted(rows, reverse=True, key=lambda row: row[:2]):
            text[first:end] = lines
        texts[file] = "\n".join(text)
    return texts


def overlap(one, other):
    """Whether two bodies can't be checked together: they change the same function or lines, or one changes more than functions."""
    if not one.functions or not other.functions:
        return True
    if any(a.file == b.file and a.first == b.first for a in one.functions for b in other.functions):
        return True
    return any(a[0] == b[0] and a[1] < b[2] and b[1] < a[2] for a in one.spans() for b in other.spans())


def groups(bodies, most=MOST):
    """The bodies in groups that can be checked together."""
    made = []
    for body in bodies:
        for group in made:
            if len(group) < most and not any(overlap(body, other) for other in group):
                group.append(body)
                break
        else:
            made.append([body])
    return made


def without_answers(text, names):
    """A file of answers without those of these names."""
    lines, kept_lines, drops = text.split("\n"), [], False
    for line in lines:
        if line[:1].strip():
            head = re.match(r"(?:pub |abbrev )*([^\s:]+)", line)
            is_start = bool(re.match(r"(?:pub |abbrev )*[^\s:]+ :", line))
            drops = bool(head) and head[1] in names if is_start or not drops else drops and not line.startswith(("use ", "--"))
        if not drops:
            kept_lines.append(line)
    return "\n".join(kept_lines)


@dataclasses.dataclass(frozen=True)
class Left:
    """A goal that is left: of what it is, why it is left, its name, and the file of its answer where that is at fault."""
    place: str
    why: str
    name: str
    file: str = ""


def place_of(name, says=""):
    """Of what a goal is, by what a check says of it, or by its name alone."""
    if "loop" in says or re.search(r"-preserved$|-init$|-smaller\b|^decreases", name):
        return PROOF
    of_contract = ("ensures" in says or "requires" in says or "invariant" in says or "ghost" in says
                   or re.match(r"returns|invariant_of", name) or "requires" in name)
    return CLAUSE if of_contract else PANIC


def why_open(says):
    return FALSE if "values at which" in says else LIMIT if "gave up" in says or "limit" in says else OPEN


def read(said):
    """By function what a check says of it: its words, without what they say of others, and the goals that are left of it. Under an
    empty name stand the faults of files that are no function's own."""
    functions, goals, faults = {}, [], {}
    waits = {name for names in WAITS.findall(said) for name in SYMBOL.findall(names)}
    for line in said.split("\n"):
        goal, of, fault = GOAL.match(line), LINE.match(line), IN_PROOFS.match(line)
        if goal:
            says, name = goal[2] or "", goal[3] or ""
            goals.append(Left(place_of(name, says), why_open(goal[4]), name or says))
        elif of:
            functions[of[1]] = (OF_CALLEES.sub("", of[2]), [*goals, *([Left(PROOF, LIMIT, CALLEE)] if of[1] in waits else [])])
            goals = []
        elif fault:
            file, name, text = f"proofs/{fault[1]}.antt", fault[3] or "", fault[4]
            why = GONE if NAMES.search(text) else MISFIT
            folder, _, last = fault[1].rpartition("/")
            path = folder if last in ("Answers", "Invariants", "Proof") else ""
            place = place_of(name) if last == "Answers" else PROOF
            faults.setdefault(path.replace("/", "::"), []).append(Left(place, why, name or fault[1], file))
    found = {"": ("", [left for path, rows in faults.items() if not path for left in rows])}
    for symbol, (words, left) in functions.items():
        found[symbol] = (words, [*faults.get(symbol.partition("::")[2], []), *left])
    return found


def of_function(found, function, symbols):
    """What a check says of one function, or none where it has no line for it."""
    asked = function.asked()
    names = symbols.get(asked, [asked])
    ends = [symbol for symbol in found if symbol and any(f"::{symbol}".endswith(f"::{name}") for name in names)]
    return fitting(function, ends) if len(ends) > 1 else ends


def lefts(said, symbols=None, functions=()):
    """The goals that are left of these functions, or of all, and whether all that is asked was answered."""
    found = read(said)
    if not ENDED.search(said):
        return None if not NO_VERDICT.search(said) else [Left(PROOF, LIMIT, "no verdict")]
    names = [name for one in functions for name in of_function(found, one, symbols or {})] if functions else [*filter(None, found)]
    left = [one for name in names for one in found[name][1]]
    bare = [name for name in names if not found[name][1] and not found[name][0].startswith("proved") and found[name][0]]
    if functions and not names:
        return [Left(PROOF, LIMIT, "no line")]
    if bare:
        # Nothing is said of the function's own: what its proof rests on is refused, or the check could not tell.
        told = [one for one in found[""][1]]
        left += told or [Left(PROOF, LIMIT, found[bare[0]][0])]
    return left


def class_of(left):
    """What a wrong body comes to by the goals that are left of it: none where nothing could be told."""
    if left is None:
        return NO_CODE
    if not left:
        return PROVED
    lost = any(one.why == GONE for one in left)
    for place in (CLAUSE, PANIC, PROOF):
        if any(one.place == place and (one.why in (FALSE, MISFIT) or one.why == OPEN and not lost) for one in left):
            return place
    return LOST if lost else GAVE_UP


def is_shown(left):
    """Whether a goal of the contract, or of safety, is false, or stays open though no answer was lost."""
    lost = any(one.why == GONE for one in left)
    return any(one.place in REFUSED and (one.why == FALSE or one.why == OPEN and not lost) for one in left)


def at_fault(left):
    """The answers that are at fault, by file: what a second look leaves out."""
    files = {}
    for one in left or []:
        if one.file.endswith("Answers.antt") and one.why in (MISFIT, GONE):
            files.setdefault(one.file, set()).add(one.name)
    return files


def both(first, second):
    """The goals that are left by two looks: in the second the answers that were at fault in the first were left out, so that what
    it leaves of these goals counts only where it is false."""
    if second is None or not second:
        return first if second is None else []
    names = {one.name for one in first if one.why in (MISFIT, GONE)}
    still = {one.name for one in second}
    # An answer that was at fault and whose goal is then proved by itself is no evidence.
    return [*(one for one in first if one.why not in (MISFIT, GONE) or one.name in still or one.place == PROOF),
            *(one for one in second if one.name not in names or one.why == FALSE)]


@dataclasses.dataclass(frozen=True)
class Found:
    """What a wrong body came to: its class, the goals that are left, the seconds, and why it could not be tried."""
    kind: str
    left: tuple = ()
    seconds: float = 0
    fault: str = ""

    def by_shape(self):
        """Whether answers that no longer fit are all that refuses it."""
        return self.kind == LOST or self.kind in REFUSED and not is_shown(self.left)

    def told(self):
        """The goals that decide, as words."""
        first = [one for one in self.left if one.place == self.kind] or list(self.left)
        order = [FALSE, OPEN, MISFIT, LIMIT, GONE]
        best = min((order.index(one.why) for one in first), default=0)
        names = list(dict.fromkeys(one.name for one in first if order.index(one.why) == best))
        more = f" and {len(names) - 2} more" if len(names) > 2 else ""
        return self.fault or (f"{', '.join(names[:2])}{more}: {order[best]}" if names else "")


def judged(body, entry):
    """What a body came to by what is kept of it."""
    symbols = entry["looks"][0]["symbols"]
    left = [lefts(look["said"], symbols, body.functions) for look in entry["looks"]]
    every = left[0] if len(left) == 1 else both(*left)
    return Found(class_of(every), tuple(every or ()), entry["seconds"])


def short(said):
    """What counts of what a check says."""
    wanted = ("note: ", "fn ", "./proofs", "proofs/", "./src", "src/", "only=", "logic=", "rattle: ", "error")
    return "\n".join(line[:600] for line in said.split("\n") if line.startswith(wanted)) + "\n"


def compiling(copy, group):
    """Those of a group whose code the front end takes, all together. What is refused is kept as such."""
    said = copy.check(group, proves=False)
    if ENDED.search(said) or not group:
        return group
    places = {(file, int(line) - 1) for file, line in IN_CODE.findall(said)}
    refused = [body for body in group if len(group) == 1 or any(one.file == file and one.first <= line <= one.last
                                                                for one in body.functions for file, line in places)]
    for body in refused:
        keep(body, [{"said": short(said), "symbols": {}}], 0)
    if refused:
        return compiling(copy, [body for body in group if body not in refused])
    return compiling(copy, group[:len(group) // 2]) + compiling(copy, group[len(group) // 2:])


def looked_at(copy, group):
    """Checks a group of bodies together, and once more without the answers that are at fault. A body is checked alone where the
    group tells nothing of it."""
    begun = time.monotonic()
    said = copy.check(group)
    if not ENDED.search(said):
        rest = group if NO_VERDICT.search(said) else compiling(copy, group)
        if len(rest) == len(group) == 1:
            keep(group[0], [{"said": "rattle: no verdict\n" + short(said), "symbols": {}}], time.monotonic() - begun)
        for part in [rest] if len(rest) < len(group) else [group[:len(group) // 2], group[len(group) // 2:]] * (len(group) > 1):
            if part:
                looked_at(copy, part)
        return
    looks = {body: [{"said": short(said), "symbols": dict(copy.symbols)}] for body in group}
    first = {body: lefts(said, copy.symbols, body.functions) for body in group}
    waiting = [body for body in group if len(group) > 1 and any(one.name == CALLEE for one in first[body] or [])]
    again = [body for body in group if first[body] and body not in waiting and not is_shown(first[body]) and at_fault(first[body])]
    if again:
        files = {}
        for body in again:
            for file, names in at_fault(first[body]).items():
                files.setdefault(file, set()).update(names)
        second = copy.check(again, files.items())
        for body in again if ENDED.search(second) else []:
            looks[body].append({"said": short(second), "symbols": dict(copy.symbols)})
    for body in group:
        if body not in waiting:
            keep(body, looks[body], (time.monotonic() - begun) / len(group))
    for body in waiting:
        looked_at(copy, [body])


def try_bodies(bodies, told=lambda body: None, may_be_no_code=False):
    """Tries the bodies of which nothing is kept yet, crate by crate, and tells of each as it is known. Where some may be no code
    at all, the front end is asked first."""
    for crate in dict.fromkeys(body.crate for body in bodies):
        of_crate = [body for body in bodies if body.crate == crate]
        open_ones = [body for body in of_crate if kept(body) is None]
        for body in of_crate:
            if body not in open_ones:
                told(body)
        if not open_ones:
            continue
        with copied(crate) as copy:
            for group in groups(open_ones):
                with claimed(group) as mine:
                    if may_be_no_code:
                        mine = compiling(copy, mine)
                    if mine:
                        looked_at(copy, mine)
                for body in group:
                    if kept(body) is not None:
                        told(body)


def found(body):
    """What a body came to, or none where nothing is kept of it."""
    entry = kept(body)
    return judged(body, entry) if entry else None


def table(rows):
    """Lines of a table for a terminal, of rows of words."""
    widths = [max(len(row[at]) for row in rows) for at in range(len(rows[0]) - 1)]
    return ["  ".join([*(word.ljust(width) for word, width in zip(row, widths)), row[-1]]).rstrip() for row in rows]
