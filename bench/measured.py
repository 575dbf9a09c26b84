"""Instructions and processor time of runs of a program, and two programs side by side."""
import array
import contextlib
import fcntl
import pathlib
import re
import resource
import signal
import statistics
import subprocess
import tempfile
import termios
import time

import published

RUNS = 7

# What plain Rust's answers lack: an item's edition, whether its reserve is met, and so the same lengths.
LACKING = re.compile(rb'"edition":\d+,|"met":(?:null|true|false),|(?<=content-length: )\d+')

# What was shown, for who writes a table of it: what, by whom so much, in which unit.
FIGURES = []


def paths(program, *plain):
    """The programs that are compared, by whose they are."""
    return {whose: str(pathlib.Path(path).resolve()) for whose, path in zip(("ours", "plain"), (program, *plain))}


def counted(words, stream=b"", folder=None):
    """How many instructions a run takes; in a folder, what valgrind wrote stays there as `dump`."""
    with tempfile.TemporaryDirectory() as scratch:
        dump = pathlib.Path(folder or scratch, "dump")
        subprocess.run(["valgrind", "--tool=callgrind", f"--callgrind-out-file={dump}", *map(str, words)],
                       input=stream, stdout=subprocess.DEVNULL, stderr=subprocess.DEVNULL, check=True)
        return int(re.search(r"^totals: (\d+)", dump.read_text(), re.M)[1])


def seconds(words, stream=b""):
    """The processor time of a run, and what it wrote."""
    before = resource.getrusage(resource.RUSAGE_CHILDREN)
    output = subprocess.run(list(map(str, words)), input=stream, stdout=subprocess.PIPE, check=True).stdout
    after = resource.getrusage(resource.RUSAGE_CHILDREN)
    return after.ru_utime + after.ru_stime - before.ru_utime - before.ru_stime, output


def seconds_of(process):
    """The processor time that a running process has taken."""
    return int(pathlib.Path(f"/proc/{process.pid}/schedstat").read_text().split()[0]) / 1e9


def unread(pipe):
    """How many bytes of a pipe nobody has read."""
    count = array.array("i", [0])
    fcntl.ioctl(pipe, termios.FIONREAD, count)
    return count[0]


class Running:
    """A run of a program that reads its input as it comes. Its output goes to nobody, or into a pipe that `cat` reads."""

    def __init__(self, words, into_pipe=False):
        output = subprocess.PIPE if into_pipe else subprocess.DEVNULL
        self.process = subprocess.Popen(list(map(str, words)), stdin=subprocess.PIPE, stdout=output)
        self.reader = subprocess.Popen(["cat"], stdin=self.process.stdout, stdout=subprocess.DEVNULL) if into_pipe else None

    def is_asleep(self):
        state = pathlib.Path(f"/proc/{self.process.pid}/stat").read_text().rpartition(")")[2].split()[0]
        if state == "Z":
            raise ChildProcessError(f"{self.process.args[0]} ends early")
        return state == "S"

    def unwritten(self):
        """How much of its output nobody has read."""
        return unread(self.process.stdout) if self.reader else 0

    def send(self, stream):
        """Sends it a stream. Gives the processor time that it takes until it waits for more."""
        before = seconds_of(self.process)
        self.process.stdin.write(stream)
        self.process.stdin.flush()
        while not self.is_asleep() or unread(self.process.stdin) or self.unwritten():
            time.sleep(0.001)
        return seconds_of(self.process) - before

    def send_last(self, stream=b""):
        """Sends it the last of its input, while `cat` stands still. Gives the processor time that it takes until it has more to write
        than a pipe holds, and ends it there."""
        self.reader.send_signal(signal.SIGSTOP)
        before = seconds_of(self.process)
        self.process.stdin.write(stream)
        self.process.stdin.close()
        while not self.is_asleep() or not self.unwritten():
            time.sleep(0.001)
        spent = seconds_of(self.process) - before
        self.process.kill()
        self.reader.kill()
        self.close()
        return spent

    def end(self):
        """Ends its input, and waits for its end."""
        self.process.stdin.close()
        self.close()
        if self.process.returncode != 0:
            raise ChildProcessError(f"{self.process.args[0]} fails")

    def close(self):
        self.process.wait()
        if self.reader:
            self.process.stdout.close()
            self.reader.wait()


def timed(words, before, things, into_pipe=False):
    """The processor time of one of each thing that a program is sent: by name a stream, and of how many it is. All go through one
    run, after what sets it up, so that nothing is taken off which differs from run to run."""
    run = Running(words, into_pipe)
    run.send(before)
    found = {name: run.send(stream) / count for name, (stream, count) in things.items()}
    run.end()
    return found


def by_thing(found):
    """What was found of each thing round by round, by name and program, of what each program's rounds found of all things."""
    names = dict.fromkeys(name for rounds in found.values() for name in rounds[0])
    return {name: {who: [one[name] for one in rounds] for who, rounds in found.items() if name in rounds[0]} for name in names}


def without_lacking(text):
    """Answers without what plain Rust's lack."""
    return LACKING.sub(b"", text)


def in_turn(programs, once, runs=RUNS):
    """What `once` gives for each program, a list of so many runs in turn, every second one in the other order."""
    found = {name: [] for name in programs}
    for run in range(runs):
        for name in list(programs)[::1 if run % 2 else -1]:
            found[name].append(once(programs[name]))
    return found


def medians(found):
    return {name: statistics.median(results) for name, results in found.items()}


def shown(what, found, unit, digits=0):
    """A line: ours, and another's where it is there, with how many times ours is ahead."""
    FIGURES.append((what, found, unit))
    line = f"{what:28} {found['ours']:12,.{digits}f} {unit}"
    for whose, name in published.OTHERS.items():
        if whose in found:
            ahead = published.times_ahead({"ours": found["ours"], whose: found[whose]}, unit)
            line += f", {found[whose]:12,.{digits}f} by {name}, {ahead} times ahead"
    if "least" in found:
        line += f" ({found['least']:.2f} to {found['most']:.2f})"
    print(line, flush=True)


def shown_rounds(what, found, unit, digits=0):
    """A line of the medians of what each gave round by round; of more than one, with how many times ours was ahead at least and at
    most."""
    figures = medians(found)
    for whose in published.OTHERS.keys() & found.keys():
        ratios = [ours / other if "a second" in unit else other / ours for ours, other in zip(found["ours"], found[whose])]
        if len(ratios) > 1:
            figures |= {"least": min(ratios), "most": max(ratios)}
    shown(what, figures, unit, digits)


@contextlib.contextmanager
def kept(name, by):
    """Keeps all that is shown meanwhile as a run of this name."""
    machine = published.machine()
    yield
    run = {"by": by, "commit": published.commit(), "machine": machine,
           "parts": {by: [published.figure(*found) for found in FIGURES]}}
    published.keep(name, run)
