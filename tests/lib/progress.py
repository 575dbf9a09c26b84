"""How far a command of `rt` is, told while it runs, by the minutes that an earlier run took by crate and step."""
import os
import queue
import re
import signal
import subprocess
import threading
import time

from lib.crates import crates_of
from lib.places import ROOT
from lib.times import STEPS, Times, file_of, minutes_of_children, start_command, status_of

EARLIER = ROOT / "tests" / "kit" / "rt-ci.times"
QUIET_SECONDS = 60
TAIL = 40
# The steps that are done once a crate is said to be proved, and once its tests are; and those of its wrong bodies.
OF_PROOF, OF_TESTS, OF_EDITS = ("proof", "build"), ("tests",), ("seed", "edits")
# How busy a run keeps the processors, and for how many minutes that guess counts as much as what is seen.
BUSY, MINUTES_OF_GUESS = 0.9, 5
PROVED = re.compile(r"rt: (\w+)(: its tests are)? proved$")
UNPROVED = re.compile(r"rt: (\w+)(: its tests are)? NOT PROVED")
KEPT = re.compile(r"rt: (\w+) is kept: ")
REFUSED = re.compile(r"rt: must-fail (\w+)/\S+: refused, as it must be")
# What failed and is reported in the lines above, and what goes on in the lines below.
FAILED = re.compile(r"rt: .*(FAILED|had not ended|did not build)")
GOES_ON = re.compile(r"rt: .*(BAD EDIT|NOT TRIED)")
LAST = re.compile(r"[0-9]+ passed, [0-9]+ failed")
# What a check says of each thing that is in order.
IN_ORDER = re.compile(r"fn \S+: proved$|statements \S+: |rt: chose |rt: \w+: begins with what a check kept")


def minutes_in(path):
    """The processor minutes that a run took, by crate and step, from the file that it left."""
    minutes = {}
    for line in path.read_text().splitlines()[1:]:
        crate, *numbers = line.split()
        if len(numbers) == len(STEPS) + 1 and crate != "sum":
            minutes[crate] = {step: float(number) for step, number in zip(STEPS, numbers) if number != "-"}
    return minutes


class Work:
    """What is to be done, in processor minutes of an earlier run, and how much of it is done."""

    def __init__(self, crates, folder):
        earlier = minutes_in(EARLIER)
        average = sum(sum(steps.values()) for steps in earlier.values()) / len(earlier)
        self.below, self.ended, self.begun = crates, set(), time.monotonic()
        self.expected = {crate: dict(earlier.get(crate, {"proof": average})) for crate in crates}
        for crate in crates:
            if not (folder / "crates" / crate / "must-fail").is_dir():
                self.drop(crate, OF_EDITS)

    def drop(self, crate, steps=tuple(STEPS)):
        """Takes that these steps of a crate aren't to be done."""
        for step in steps:
            self.expected.get(crate, {}).pop(step, None)

    def end(self, crate, steps):
        """Takes that these steps of a crate are done."""
        self.ended.update((crate, step) for step in steps)

    def left(self, spent):
        """By crate and step the minutes that are left, where so many were spent."""
        return {crate: {step: 0.0 if (crate, step) in self.ended else max(0.0, minutes - spent.get((crate, step), 0.0))
                        for step, minutes in steps.items()} for crate, steps in self.expected.items()}

    def longest_chain(self, left):
        """The minutes that are left of crates of which each is proved after the one before."""
        chains = {}
        for crate, below in sorted(self.below.items(), key=lambda row: len(row[1])):
            own = sum(left[crate].get(step, 0.0) for step in OF_PROOF)
            chains[crate] = own + max((chains[other] for other in below), default=0.0)
        return max(chains.values(), default=0.0)

    def told(self, spent):
        """How much is done, and when all should be, as words."""
        left = self.left(spent)
        whole = sum(sum(steps.values()) for steps in self.expected.values())
        to_do = sum(sum(steps.values()) for steps in left.values())
        elapsed = (time.monotonic() - self.begun) / 60
        guess = BUSY * len(os.sched_getaffinity(0))
        speed = (whole - to_do + guess * MINUTES_OF_GUESS) / (elapsed + MINUTES_OF_GUESS)
        end = time.localtime(time.time() + 60 * max(to_do / speed, self.longest_chain(left)))
        share = 100 * (whole - to_do) / whole if whole else 100
        return f"{share:.0f} %, {elapsed:.1f} min, ends about {time.strftime('%H:%M', end)}"


class Progress:
    """What a command has said, and how far it is."""

    def __init__(self, work, spent):
        self.work, self.spent, self.last_said = work, spent, time.monotonic()
        # Lines that matter only if a failure follows, and whether a crate's own are coming, or more of a failure.
        self.held, self.is_in_block, self.goes_on = [], False, False
        # How many edits of a crate were refused, until that is said.
        self.refused = {}
        self.last_line = None

    def say(self, text):
        self.last_said = time.monotonic()
        print(f"[{self.work.told(self.spent())}] {text}", flush=True)

    def take(self, line):
        """Takes the next line of the command's."""
        if LAST.match(line):
            self.last_line = line
        elif line.startswith("== "):
            self.end_edits()
            self.held, self.is_in_block, self.goes_on = [], True, False
        elif not line.startswith("rt: "):
            self.hold(line)
        elif refused := REFUSED.match(line):
            self.refused[refused[1]] = self.refused.get(refused[1], 0) + 1
            self.held, self.goes_on = [], False
        else:
            self.end_edits()
            self.take_own(line)

    def hold(self, line):
        if self.goes_on:
            print(line, flush=True)
        elif not IN_ORDER.match(line):
            self.held.append(line)

    def take_own(self, line):
        """Takes a line of rt's own."""
        proved, kept, unproved = PROVED.match(line), KEPT.match(line), UNPROVED.match(line)
        verdict = proved or kept or unproved
        if verdict:
            self.take_verdict(line, *verdict.groups(), has_failed=bool(unproved))
        elif self.is_in_block:
            self.hold(line)
        elif not IN_ORDER.match(line):
            if FAILED.match(line):
                self.show_held()
            self.say(line.removeprefix("rt: "))
            self.held, self.goes_on = [], bool(GOES_ON.match(line))

    def take_verdict(self, line, crate, of_tests=None, has_failed=False):
        if has_failed:
            self.show_held()
        if of_tests:
            self.work.end(crate, OF_TESTS)
        elif KEPT.match(line) or has_failed:
            self.work.drop(crate)
        else:
            self.work.end(crate, OF_PROOF)
        self.held, self.is_in_block, self.goes_on = [], False, False
        self.say(line.removeprefix("rt: ").split(": an earlier run")[0])

    def show_held(self):
        for line in self.held:
            print(line, flush=True)
        self.held = []

    def end_edits(self):
        for crate, count in self.refused.items():
            self.say(f"{crate}: {count} must-fail edits refused")
        self.refused = {}

    def wait(self, in_work):
        """Says what is worked on where nothing else was said for long."""
        if time.monotonic() - self.last_said >= QUIET_SECONDS:
            self.say(f"in work: {in_work() or 'rt alone'}")


def lines_of(command, folder, log, lines):
    """Hands on each line that a process writes, and keeps it, until its output ends. Paths are those of this repository, also where
    the command works on a copy, which is gone when they are read."""
    for line in command.stdout:
        line = line.replace(os.fsencode(folder), os.fsencode(ROOT))
        log.write(line)
        log.flush()
        lines.put(line.decode(errors="replace").rstrip("\n"))
    lines.put(None)


def follow(lines, progress, times, kept):
    """Follows the lines that a process writes to their end."""
    looked, wrote = 0, time.monotonic()
    line = ""
    while line is not None:
        try:
            line = lines.get(timeout=1)
            if line is not None:
                progress.take(line)
        except queue.Empty:
            line = ""
        now = time.monotonic()
        if now - looked >= 1:
            times.look()
            looked = now
        if now - wrote >= 60:
            kept.write_text(times.table())
            wrote = now
        progress.wait(times.in_work)
    progress.end_edits()


def run(words, folder=ROOT):
    """Runs a command of `rt` in a repository, and gives the status that it ends with."""
    kept, path = file_of(words, "times"), file_of(words, "log")
    with open(path, "wb") as log:
        command = start_command(words, cwd=folder, stdout=subprocess.PIPE, stderr=subprocess.STDOUT)
        # The command is ended where this is, and says what it has to.
        for number in (signal.SIGINT, signal.SIGTERM):
            signal.signal(number, lambda number, _: command.send_signal(number))
        times = Times(command.pid)
        progress = Progress(Work(crates_of(words, folder), folder), times.minutes)
        lines = queue.Queue()
        threading.Thread(target=lines_of, args=(command, folder, log, lines), daemon=True).start()
        follow(lines, progress, times, kept)
        status = status_of(command.wait())
    kept.write_text(times.table(minutes_of_children()))
    if status:
        print(f"ended with {status}; {path.relative_to(ROOT)} ends so:")
        print("\n".join(path.read_text(errors="replace").splitlines()[-TAIL:]))
    print(f"all lines: {path.relative_to(ROOT)}; minutes by crate and step: {kept.relative_to(ROOT)}")
    if progress.last_line is not None:
        print(progress.last_line, flush=True)
    return status
