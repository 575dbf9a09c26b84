#!/usr/bin/env python3
"""Puts in bodies that give up, and looks whether the tests find them: `giving_up.py [NAME..]`.

A body that always tells that memory ran out, or that the store failed, is proved under any contract: memory may be refused at any
call, and a contract shows no cause. So is one that tells it by what somebody has sealed, and then a 503 shows that. So only tests
find them. Each is put into a copy of the checkout and built without proofs, by `rt try`; then a section of the stored run of
`test_site` or `test_store` has to come out otherwise, or tests/office/office.py has to fail on the program, or
tests/program/twins.py, where a body goes by what is sealed. With nothing put in they have to pass. NAMEs choose among the bodies,
`all` takes all, none those that are MAIN. As many are built at once as there are processors, and memory for. It needs the kit,
with its `rt` on the path. The last line is 'N bodies, M not found'. With `--texts` nothing is built: each text that a body takes
the place of has to be in its file once.

Promise: none
"""
import contextlib
import dataclasses
import os
import pathlib
import re
import shutil
import subprocess
import sys
import tempfile
import time

from lib.places import ROOT
from lib.refusal import in_turn
from lib.transcript import SECTION, section

# The most memory that a build takes, in kB.
BUILD = 7_000_000
ENGINE, DECIDING, READING = "site/src/engine.rt", "house/src/decision.rt", "pages/src/reading.rt"
KEEP, ACCOUNT, IMPORTS = "store/src/keep.rt", "office/src/account.rt", "office/src/imports.rt"
REPLAY, SETUP = "auction_runs/src/replay.rt", "auction_runs/src/setup.rt"
MEMORY, STORE, REPLAYED = "Err(KeepFault::Memory)", "Err(KeepFault::Store)", "Err(Fault::Memory)"
# What finds a body: a section of the stored run of a crate's program, or a script that is given the house's program and words.
STREAMS, SHOWN, RUNS = ("test_site", "streams"), ("test_site", "pages"), ("test_store", "runs")
OFFICE, TWINS = ("office/office.py",), ("program/twins.py", "1000", "0")


@dataclasses.dataclass(frozen=True)
class Body:
    """A body that gives up: its name, its file, the text that is there once, the new one, and what finds it."""
    name: str
    file: str
    old: str
    new: str
    finder: tuple


RECORD = "append_record(self.alloc, &mut self.keep, &mut text)?;"
ACT = "act(&mut self.keep, &mut self.writer, &asked, out)"
CALLS = {"register": "register(keep, moment, caller, name)", "add_category": "add_category(keep, moment, caller, name)",
         "list": "list(keep, moment, caller, &offer)", "bid": "bid(keep, moment, caller, *item, *maximum)",
         "buy": "buy(keep, moment, caller, *item)", "close": "close(keep, moment, caller)",
         "settle": "settle(keep, moment, caller, *item)", "watch": "=> watch(keep, moment, caller, *item)",
         "unwatch": "unwatch(keep, moment, caller, *item)", "ask": "ask(keep, moment, caller, *item, text)",
         "answer": "answer(keep, moment, caller, *item, *asker, *number, text)",
         "feedback": "feedback(keep, moment, caller, *item, *rating, text)"}
PAGES = {"house": "house(alloc, keep)", "bands": "bands(alloc, keep)", "categories": "categories(keep)",
         "items": "items_in(alloc, keep, category, from)", "item": "item(keep, number)",
         "published": "published(keep, item, from)", "member": "member(keep, number)",
         "ratings": "feedback_to(keep, member, from)", "bids": "bids(keep, caller, from)",
         "reserves": "=> reserves(keep, caller, from)", "watches": "watches(alloc, keep, caller)", "questions": "=> questions(keep, caller, from)",
         "waiting": "waiting(keep, caller)", "account": "statement(keep, caller, from, to)"}


# Whether something sealed is so, by its name: of item 1, and of what member 2 has bid, watches or asks there.
SECRETS = {"reserve": "matches!(keep.reserve(1)?, Some(sealed) if sealed.value() > 100_000)",
           "maximum": "keep.own_best(1, 2)?.maximum.value() > 100_000",
           "watch": "keep.watched(2, 1)?",
           "question": "match keep.question(1, 2, 1)? { "
                       "Some(asked) => asked.answer.is_none() && asked.text.as_str().len() > 12, None => false }"}
# Where every page is made, and where every command is decided on.
PAGE, COMMAND = "read_tables(alloc, keep, caller, query)", "match command {"


def with_arrow(call, new):
    return ("=> " if call.startswith("=> ") else "") + new


BODIES = [
    Body("everything-503", ENGINE, ACT, MEMORY, STREAMS),
    Body("everything-500", ENGINE, ACT, STORE, STREAMS),
    Body("record", ENGINE, RECORD, f"{RECORD}\n        if !text.is_empty() {{\n            return {MEMORY};\n        }}", STREAMS),
    Body("look-up", KEEP, "report!(self, item_at(&mut self.conn, &self.rules, item))", STORE, RUNS),
    Body("statement", ACCOUNT, "Ok(statement) => Ok(statement),", "Ok(_) => Err(StatementFault::Memory),", OFFICE),
    Body("import", IMPORTS, "Ok(lot) => list(room, site, by, &lot, number, output),", "Ok(_) => Err(ImportFault::Memory),",
         OFFICE),
    Body("replay", REPLAY, "reply_over(alloc, source, sink, &mut site, asked)", REPLAYED, RUNS),
    Body("replay-record", REPLAY, "append_record(sink, site)\n", f"{REPLAYED}\n", RUNS),
    Body("replay-setup", SETUP, "check_reply(&site.reply(message.as_bytes()))", REPLAYED, RUNS),
    *(Body(f"command-{name}", DECIDING, call, with_arrow(call, MEMORY), RUNS if name == "unwatch" else SHOWN)
      for name, call in CALLS.items()),
    *(Body(f"page-{name}", READING, call, with_arrow(call, MEMORY), SHOWN) for name, call in PAGES.items()),
    *(Body(f"pages-503-by-a-{name}", READING, PAGE, f"if {secret} {{ return {MEMORY}; }} {PAGE}", TWINS)
      for name, secret in SECRETS.items()),
    *(Body(f"commands-503-by-a-{name}", DECIDING, COMMAND, f"if {secret} {{ return {MEMORY}; }} {COMMAND}", TWINS)
      for name, secret in SECRETS.items()),
]
MAIN = ["everything-503", "everything-500", "command-bid", "page-items", "look-up", "record", "statement", "import",
        "pages-503-by-a-reserve"]


def times_there(root, body):
    """How often the text that a body takes the place of is in its file."""
    path = root / "crates" / body.file
    return path.read_text().count(body.old) if path.exists() else 0


def put_in(copy, body):
    count = times_there(copy, body)
    if count != 1:
        sys.exit(f"{body.name}: its text is there {count} times in {body.file}")
    path = copy / "crates" / body.file
    path.write_text(path.read_text().replace(body.old, body.new))


def count_texts():
    """Whether each body can be put in."""
    counts = {body.name: times_there(ROOT, body) for body in BODIES}
    wrong = [name for name, count in counts.items() if count != 1]
    for name in wrong:
        print(f"{name}: its text is there {counts[name]} times")
    print(f"{len(counts)} bodies that give up, {len(wrong)} of which can't be put in")
    return 1 if wrong else 0


def passes(copy, finder):
    """Whether a copy passes what finds a body, or None where it can't be built."""
    if not is_script(finder):
        crate = copy / "crates" / finder[0]
        script, transcript = (stored(crate / name, finder[1]) for name in ("stdin", "stdout"))
        ran = subprocess.run(["rt", "try"], cwd=crate, input=script, capture_output=True)
        return ran.stdout == transcript if is_run(ran.stderr) else None
    program = built(copy)
    return program and subprocess.run([sys.executable, copy / "tests" / finder[0], program, *finder[1:]],
                                      capture_output=True).returncode == 0


def is_script(finder):
    return finder[0].endswith(".py")


def stored(path, name):
    """A section of a stored run, from the line by which it begins."""
    return f"{SECTION}{name}\n{section(path.read_bytes().decode(), name)}".encode()


def is_run(log):
    """Whether `rt try` tells that a program was built and ended by itself."""
    if b"\nrun=ended " in b"\n" + log:
        return True
    print(log.decode(errors="replace")[-2000:])
    return False


def built(copy):
    """The house's program of a copy, or None; `rt try` doesn't keep it, so it is taken while it waits for its bands."""
    program, bands = copy / "auction", copy / "bands.csv"
    os.mkfifo(bands)
    with tempfile.TemporaryFile() as log:
        trying = subprocess.Popen(["rt", "try", "--", "replay", "--bands", str(bands)], cwd=copy / "crates" / "auction",
                                  stdin=subprocess.DEVNULL, stdout=subprocess.DEVNULL, stderr=log)
        while trying.poll() is None:
            for path in [] if program.exists() else replaying(str(trying.pid)):
                shutil.copy(path, program)
            if program.exists():
                give(bands)
            time.sleep(0.05)
        log.seek(0)
        return program if is_run(log.read()) and program.exists() else None


def give(bands):
    """Writes a table of bands to who waits for it, if somebody does yet."""
    with contextlib.suppress(OSError):
        pipe = os.open(bands, os.O_WRONLY | os.O_NONBLOCK)
        os.write(pipe, b"at,step\n0,5\n")
        os.close(pipe)


def replaying(above):
    """The programs that replay below a process."""
    parents, found = {}, {}
    for path in pathlib.Path("/proc").glob("[0-9]*"):
        with contextlib.suppress(OSError):
            parents[path.name] = (path / "stat").read_text().rpartition(")")[2].split()[1]
            # Its loader is what runs, and names the program before the program's own words.
            words = (path / "cmdline").read_bytes().split(b"\0")
            if b"--library-path" in words and b"replay" in words:
                found[path.name] = words[words.index(b"replay") - 1].decode()
    for number, program in found.items():
        one = number
        while one in parents and one != above:
            one = parents[one]
        if one == above:
            yield program


def tried(body):
    """Whether what finds a body passes on a copy with it, or None where that can't be built; and in how many seconds."""
    begun = time.monotonic()
    with tempfile.TemporaryDirectory() as folder:
        copy = pathlib.Path(folder) / "house"
        shutil.copytree(ROOT, copy, symlinks=True, ignore=shutil.ignore_patterns("out", "bin", "target", ".git"))
        if body.file:
            put_in(copy, body)
        return body, passes(copy, body.finder), time.monotonic() - begun


def builds_at_once():
    """How many builds there are processors and memory for."""
    free = int(re.search(r"^MemAvailable: +([0-9]+) kB$", pathlib.Path("/proc/meminfo").read_text(), re.M)[1])
    return max(1, min(os.cpu_count(), free // BUILD))


def main():
    if sys.argv[1:] == ["--texts"]:
        return count_texts()
    names = sys.argv[1:] or MAIN
    bodies = [body for body in BODIES if body.name in names or names == ["all"]]
    unknown = set(names) - {body.name for body in BODIES} - {"all"}
    if unknown:
        sys.exit(f"no body: {' '.join(sorted(unknown))}")
    finders = dict.fromkeys(body.finder for body in bodies)
    missed = 0
    every = [*(Body("nothing", "", "", "", finder) for finder in finders), *bodies]
    for body, passed, seconds in in_turn(tried, every, builds_at_once()):
        is_right = passed is (not body.file)
        missed += not is_right
        end = {True: "passes", False: "is found", None: "can't be built"}[passed]
        print(f"{body.name} {end} by {' '.join(body.finder)}, {seconds:.0f} s" + ("" if is_right else ": WRONG"), flush=True)
    print(f"{len(bodies)} bodies, {missed} not found")
    return 1 if missed else 0


if __name__ == "__main__":
    sys.exit(main())
