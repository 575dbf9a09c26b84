"""What a durable bid writes and waits for: calls of the system, bytes, syncs, and what writing the log back costs.

`writes.py PROGRAM [BENCH]` bids on a house in a new file over one connection, each bid in its turn, as `serve.py` does, and has
`strace` note every call. Beside it are the house in plain Rust, over `rusqlite` on tables of its own; SQLite itself on ours, which
`sqlite_bids.py` asks by Python; and BENCH, the program `bench_sqlite` that `make test` leaves, which does the same by the kit's
SQLite: the four statements of a bid, a commit, and nothing else. So what PROGRAM does and BENCH doesn't is not the kit's. Calls and
bytes of a bid are those of 8,000 bids more, and don't depend on the machine. An answer that is sent before what was written to the
log is synced ends the run.

A bid that finds the log full has it written back. Which bids these are is known from the calls, and how long they take, beside the
others, is measured without `strace`, in rounds of both programs in turn. It needs `strace`, and for plain Rust what `table.py`
needs.
"""
import collections
import pathlib
import re
import statistics
import subprocess
import sys
import tempfile
import time

import auctionmark
import serve
from lib.serving import PRESET, Program
from measured import in_turn, kept, shown, shown_rounds

# Traced are so many bids, and so many; measured are as many as the latter.
FEW, MANY, ROUNDS = 1_000, 9_000, 7
# A call: its name, the file that it is on, and what it gives.
CALL = re.compile(r"^\d+ +(\w+)\((?:\d+<([^>]*)>)?.*\) += (-?\d+)")
SQLITE = pathlib.Path(__file__).with_name("sqlite_bids.py")
STRACE = ["strace", "-f", "-qq", "-y", "-s", "0", "-o"]
WRITES, READS, SYNCS = {"pwrite64", "write", "writev"}, {"pread64", "read", "readv"}, {"fsync", "fdatasync"}
SENDS, RECEIVES = {"sendto", "sendmsg", "write", "writev"}, {"recvfrom", "recvmsg", "read"}
FILE, LOG, SOCKET, OTHER = "file", "log", "socket", "other"


def on_what(path):
    """What a call is on."""
    if path is None:
        return OTHER
    if path.startswith(("socket:", "TCP:")):
        return SOCKET
    return LOG if path.endswith("-wal") else FILE if path.endswith(("house", "copy")) else OTHER


def calls_in(trace):
    """The calls that were noted: name, on what, and what each gave."""
    found = map(CALL.match, trace.read_text(errors="replace").splitlines())
    return [(call[1], on_what(call[2]), int(call[3])) for call in found if call]


def check_synced(who, calls):
    """Ends the run where an answer goes out before the log is synced."""
    waits = False
    for name, file, _ in calls:
        if file == LOG:
            waits = name in WRITES or waits and name not in SYNCS
        if file == SOCKET and name in SENDS and waits:
            sys.exit(f"writes.py: {who} answers before the log is synced")


def bids_in_turn(server, count):
    """The microseconds of each of so many bids, and the server's processor time of one."""
    times, spent = [], serve.seconds_of(server.process)
    with serve.connect(server.port) as connection:
        for place in range(count):
            began = time.perf_counter()
            if not auctionmark.answer_to(connection, serve.bid(place)).startswith(b"HTTP/1.1 201 "):
                sys.exit("writes.py: a bid is not accepted")
            times.append(1e6 * (time.perf_counter() - began))
        spent = serve.seconds_of(server.process) - spent
    return times, 1e6 * spent / count


def bids_of(name, path, folder, count):
    """As `bids_in_turn`, of a house in a new file."""
    program = Program(path, folder)
    serve.new_file(name, program, "house")
    with program.serving("house", 2, 3_000) as server:
        serve.exchanged(server.port, PRESET)
        return bids_in_turn(server, count)


def trace_house(name, path, folder, count):
    """The calls of a house that takes so many bids."""
    trace, wrapper = folder / "trace", folder / "traced"
    wrapper.write_text(f"#!/bin/sh\nexec {' '.join(STRACE)} {trace} {path} \"$@\"\n")
    wrapper.chmod(0o755)
    bids_of(name, str(wrapper), folder, count)
    calls = calls_in(trace)
    check_synced(name, calls)
    return calls


def trace_alone(words, program, folder, count):
    """The calls of what makes the statements of so many bids on a house of ours, and does nothing else."""
    serve.new_file("ours", program, "house")
    with program.serving("house", 1, 600) as server:
        serve.exchanged(server.port, PRESET)
    trace = folder / "trace"
    subprocess.run([*STRACE, trace, *words, "house", str(count)], cwd=folder, check=True, stdout=subprocess.DEVNULL)
    return calls_in(trace)


def write_backs(calls):
    """The places of those of the last bids that write to the file."""
    received, found = 0, set()
    for name, file, gave in calls:
        received += file == SOCKET and name in RECEIVES and gave > 0
        if file == FILE and name in WRITES:
            found.add(received)
    # The last message is the last bid; what is written after its answer is none's.
    return {place - received + MANY - 1 for place in found if received - MANY < place < received}


def bursts(calls):
    """How often the log is written back: writes to the file with none to the log between."""
    on = [file for name, file, _ in calls if name in WRITES and file in (FILE, LOG)]
    return sum(file == FILE and before != FILE for before, file in zip([LOG, *on], on))


def sums_of(calls):
    """How often each call was made on what, and the bytes that it moved."""
    counts, sizes = collections.Counter(), collections.Counter()
    for name, file, gave in calls:
        counts[name, file] += 1
        sizes[name, file] += gave if name in WRITES | READS and gave > 0 else 0
    return counts, sizes


def of_a_bid(few, many):
    """Calls and bytes of a bid, by call and what it is on."""
    (few_calls, few_bytes), (many_calls, many_bytes) = sums_of(few), sums_of(many)
    return [{key: (many[key] - few[key]) / (MANY - FEW) for key in many | few}
            for few, many in ((few_calls, many_calls), (few_bytes, many_bytes))]


# What of a bid is shown: whether calls or their bytes, which calls, on what.
SHOWN = {"calls of the system": (0, None, (LOG, FILE, SOCKET, OTHER)), "calls on the connection": (0, None, (SOCKET,)),
         "calls on the log and the file": (0, None, (LOG, FILE)), "syncs": (0, SYNCS, (LOG, FILE)),
         "writes to the log": (0, WRITES, (LOG,)), "bytes written to the log": (1, WRITES, (LOG,)),
         "writes to the file": (0, WRITES, (FILE,)), "bytes written to the file": (1, WRITES, (FILE,)),
         "reads of the log and the file": (0, READS, (LOG, FILE))}


def show_calls(traces):
    """Calls and bytes of a bid, by who, of two traces of which one has so many bids more."""
    found = {who: of_a_bid(few, many) for who, (few, many) in traces.items()}
    for what, (place, names, files) in SHOWN.items():
        sums = {who: sum(value for (name, file), value in one[place].items() if (names is None or name in names) and file in files)
                for who, one in found.items()}
        shown(what, sums, "a bid", 2)
    backs = {who: 1_000 * (bursts(many) - bursts(few)) / (MANY - FEW) for who, (few, many) in traces.items()}
    shown("the log is written back", backs, "times in 1000 bids", 2)


def show_times(programs, traces, folder):
    """How long a bid takes, by the clock, and one that has the log written back."""
    found = in_turn({name: name for name in programs}, lambda name: bids_of(name, programs[name], folder, MANY), ROUNDS)
    places = {name: write_backs(traces[name][1]) for name in programs}

    def middle(name, times, back):
        return statistics.median(time for place, time in enumerate(times) if (place in places[name]) == back)

    for what, of_round in (("a bid", lambda name, times, _: middle(name, times, False)),
                           ("a bid that has the log written back", lambda name, times, _: middle(name, times, True)),
                           ("the mean of all", lambda name, times, _: statistics.mean(times)),
                           ("the server's time of one", lambda name, _, spent: spent)):
        shown_rounds(what, {name: [of_round(name, *one) for one in rounds] for name, rounds in found.items()}, "us", 1)


def main(path, *bench):
    programs = {"ours": str(pathlib.Path(path).resolve()), **auctionmark.plain_house()}
    with kept("writes", "bench/writes.py"), tempfile.TemporaryDirectory() as name:
        folder = pathlib.Path(name)
        traces = {who: [trace_house(who, program, folder, count) for count in (FEW, MANY)] for who, program in programs.items()}
        alone = {"sqlite": [sys.executable, str(SQLITE)], **{"kit": [str(pathlib.Path(path).resolve())] for path in bench}}
        for who, words in alone.items():
            traces[who] = [trace_alone(words, Program(programs["ours"], folder), folder, count) for count in (FEW, MANY)]
        show_calls(traces)
        show_times(programs, traces, folder)


if __name__ == "__main__":
    main(*sys.argv[1:])
