"""What the processes below a command took, by crate and by step."""
import collections
import os
import resource
import subprocess
import sys
import tempfile
import time

from lib.places import ROOT

STEPS = ["proof", "tests", "seed", "edits", "build", "run"]
TICKS = os.sysconf("SC_CLK_TCK")


def word_after(words, flag):
    """The word after a flag, or an empty one."""
    return words[words.index(flag) + 1] if flag in words[:-1] else ""


def crate_and_step(words, folder):
    """The crate and the step of a process by its words and the folder that it is in, or none."""
    program, temporary = words[0].rsplit("/", 1)[-1], tempfile.gettempdir()
    if folder.startswith(f"{temporary}/rt-run-"):
        ran = next((word for word in words if word.startswith(f"{temporary}/rt-run-")), "")
        name = ran.rsplit("/", 1)[-1]
        # Tests are run by a runner, which is given how long they may take.
        return (name.removesuffix("_tests") if "--seconds" in words else name, "run") if ran else None
    if not program.startswith("rattle"):
        return None
    crate = word_after(words, "--crate-name")
    if folder.startswith(f"{temporary}/rt-edit-"):
        kept = word_after(words, "--incremental")
        return crate, "seed" if kept.endswith("/seed") else "edits"
    if crate and "--crate-checked" not in words:
        return crate, "tests" if "--test" in words else "proof"
    if crate or program == "rattle-link":
        return crate or folder.rsplit("/", 1)[-1], "build"
    return None


class Process:
    """What was seen of a process: the seconds that it took, and what it works on, if that is known."""

    def __init__(self):
        self.seconds, self.work, self.is_there = 0.0, None, True


class Times:
    """What the processes that a process has started took."""

    def __init__(self, number):
        self.number, self.seen, self.begun = number, {}, time.monotonic()

    def look(self):
        """Looks at all processes below."""
        found = dict(self.rows())
        below = {key for key in self.seen if key in found} | {key for key in found if key[0] == self.number}
        parents, size = {key: parent for key, (parent, _) in found.items()}, 0
        while size != len(below):
            size, numbers = len(below), {number for number, _ in below}
            below |= {key for key, parent in parents.items() if parent in numbers}
        for process in self.seen.values():
            process.is_there = False
        for key in below:
            process = self.seen.setdefault(key, Process())
            process.seconds, process.is_there = found[key][1], True
            # A process that is to be another program says so only once it is.
            process.work = process.work or self.work_of(key[0])
        self.hand_down(below, parents)

    def rows(self):
        """Of each process its number and its begin, its parent, and the seconds that it took."""
        for number in filter(str.isdigit, os.listdir("/proc")):
            try:
                with open(f"/proc/{number}/stat", encoding="utf-8", errors="replace") as file:
                    row = file.read().rsplit(")", 1)[1].split()
            except (OSError, IndexError):
                continue
            yield (int(number), row[19]), (int(row[1]), (int(row[11]) + int(row[12])) / TICKS)

    def work_of(self, number):
        try:
            with open(f"/proc/{number}/cmdline", "rb") as file:
                words = file.read().decode(errors="replace").split("\0")[:-1]
            return crate_and_step(words, os.readlink(f"/proc/{number}/cwd")) if words else None
        except OSError:
            return None

    def hand_down(self, below, parents):
        """Has processes that don't tell their work share that of the process which started them."""
        by_number = {key[0]: key for key in below}
        for key in sorted(below, key=lambda key: int(key[1])):
            above = by_number.get(parents[key])
            if self.seen[key].work is None and above is not None:
                self.seen[key].work = self.seen[above].work

    def in_work(self):
        """What is worked on, as words."""
        work = collections.Counter(process.work for process in self.seen.values() if process.is_there and process.work)
        return ", ".join(sorted({f"{crate} ({step})" for crate, step in work}))

    def minutes(self):
        """The minutes by crate and step; what is on no crate counts as of rt."""
        minutes = collections.defaultdict(float)
        for process in self.seen.values():
            minutes[process.work or ("rt", "")] += process.seconds / 60
        return minutes

    def table(self, whole=None):
        """The minutes by crate and step, and those of the whole run where it has ended."""
        minutes = collections.defaultdict(collections.Counter)
        for (crate, step), spent in self.minutes().items():
            minutes[crate][step] += spent
        own = sum(minutes.pop("rt", collections.Counter()).values())
        crates = sorted(minutes, key=lambda crate: -sum(minutes[crate].values()))
        width = max(map(len, ["processor minutes", *crates])) + 1
        lines = ["processor minutes".ljust(width) + "".join(f"{step:>8}" for step in [*STEPS, "sum"])]
        for crate in crates:
            lines.append(self.line(crate.ljust(width), minutes[crate]))
        sums = sum(minutes.values(), collections.Counter())
        lines.append(self.line("sum".ljust(width), sums))
        lines.append(f"rt itself {own:.1f}")
        if whole is not None:
            missed = max(0.0, whole - own - sum(sums.values()))
            lines.append(f"not met by a look {missed:.1f}, the whole run {whole:.1f}")
        lines.append(f"minutes on the clock {(time.monotonic() - self.begun) / 60:.1f}")
        return "\n".join(lines) + "\n"

    def line(self, name, steps):
        numbers = [steps[step] for step in STEPS] + [sum(steps.values())]
        return name + "".join(f"{number:8.1f}" if number else f"{'-':>8}" for number in numbers)


def minutes_of_children():
    """What all processes took that were started here and have ended."""
    used = resource.getrusage(resource.RUSAGE_CHILDREN)
    return (used.ru_utime + used.ru_stime) / 60


def file_of(words, ending):
    """Where something of a command is kept, by its first two words."""
    name = "-".join(word.rsplit("/", 1)[-1] for word in words[:2])
    (ROOT / "out").mkdir(exist_ok=True)
    return ROOT / "out" / f"{name}.{ending}"


def start_command(words, **how):
    """The process of a command, which has to be on the path."""
    try:
        return subprocess.Popen(words, **how)
    except OSError as error:
        sys.exit(f"{words[0]}: {error.strerror}")


def status_of(code):
    """The exit status that tells how a process ended."""
    return code if code >= 0 else 128 - code
