"""How many requests a second `auction serve` answers over TCP, how soon it begins, and how much memory it takes.

`serve.py PROGRAM [PLAIN]` measures the program that `make test` leaves, or `make auction`, and beside it PLAIN: a house in
plain Rust that takes the same words, `serve FILE --port P --count N`, makes the file where there is none, and is sent
the same messages. A bid is accepted, committed and answered before the next is sent; beside it are commits of one row
by Python's `sqlite3` on the same disk, with the same log and `synchronous=FULL`. Reads, and the mixed stream of
`workload.py`, are sent all at once over one connection. Each figure is the median of some runs of both programs in turn: by
the clock, so that it is one of an idle machine or of none, and of what is sent at once also by the server's processor
time. Houses of many items are made in memory, copied to the disk, opened, and asked for the pages of some items. Answers
of both programs are compared.
"""
import pathlib
import re
import shutil
import socket
import sqlite3
import statistics
import subprocess
import sys
import tempfile
import threading
import time

ROOT = pathlib.Path(__file__).resolve().parent.parent
sys.path.insert(0, str(ROOT / "tests"))
import workload  # noqa: E402
from lib.sent import command, compact, read  # noqa: E402
from lib.serving import PRESET, Program  # noqa: E402
from measured import in_turn, paths, seconds_of, shown_rounds, without_lacking  # noqa: E402

RUNS, BIDS, READS, MIXED = 5, 2_000, 9_999, 9_999
# How many messages one connection may send.
MOST = 10_000
SIZES = [1_000, 100_000]
MIXED_ITEMS, CATEGORIES, PAGES = 500, 20, 2_000
SETTINGS = ["--bands", ROOT / "examples" / "bands.csv", "--rate", "1000", "--zone", "UTC0"]


def bid(place):
    return command("/items/1/bids", 2 + place % 2, 1_001, compact({"maximum": 100_000 + 10_000 * place})).text()


def most_held(process):
    """The most memory that a running process has held, in MB."""
    return int(re.search(r"^VmHWM:\s+(\d+) kB", pathlib.Path(f"/proc/{process.pid}/status").read_text(), re.M)[1]) / 1024


def connect(port):
    connection = socket.create_connection(("127.0.0.1", port))
    connection.setsockopt(socket.IPPROTO_TCP, socket.TCP_NODELAY, 1)
    return connection


def bid_in_turn(server):
    """Bids a second, each answered before the next is sent, and the processor time of one."""
    with connect(server.port) as connection:
        began, spent = time.monotonic(), seconds_of(server.process)
        for place in range(BIDS):
            connection.sendall(bid(place))
            if not connection.recv(4096).startswith(b"HTTP/1.1 201 "):
                sys.exit("serve.py: a bid is not accepted")
        return BIDS / (time.monotonic() - began), (seconds_of(server.process) - spent) / BIDS * 1e6


def exchanged(port, texts):
    """What messages are answered that are sent while the answers come."""
    with connect(port) as connection:
        def send():
            connection.sendall(b"".join(texts))
            connection.shutdown(socket.SHUT_WR)
        sender = threading.Thread(target=send)
        sender.start()
        received = b"".join(iter(lambda: connection.recv(1 << 20), b""))
        sender.join()
    if received.count(b"HTTP/1.1 ") != len(texts):
        sys.exit("serve.py: a message is not answered")
    return received


def asked_at_once(server, texts):
    """Messages a second, all sent while the answers come, by the clock and by the server's processor time; and the answers."""
    began, spent = time.monotonic(), seconds_of(server.process)
    answers = exchanged(server.port, texts)
    taken, spent = time.monotonic() - began, seconds_of(server.process) - spent
    return len(texts) / taken, len(texts) / spent, answers


def commits(folder):
    """Commits of a row a second, by Python's `sqlite3`."""
    database = sqlite3.connect(folder / "beside", isolation_level=None)
    for line in ("PRAGMA journal_mode=WAL", "PRAGMA synchronous=FULL",
                 "CREATE TABLE IF NOT EXISTS bid (item INTEGER, no INTEGER, member INTEGER, maximum INTEGER)"):
        database.execute(line)
    began = time.monotonic()
    for place in range(BIDS):
        database.execute("INSERT INTO bid VALUES (1, ?, ?, ?)", (place, 2 + place % 2, 100_000 + 10_000 * place))
    return BIDS / (time.monotonic() - began)


def new_file(name, program, file):
    """A file for a new house: ours is made by `init`, plain Rust's by `serve`."""
    for path in pathlib.Path(program.folder).glob(f"{file}*"):
        path.unlink()
    if name == "ours":
        subprocess.run([program.path, "init", file, *SETTINGS], cwd=program.folder, check=True, capture_output=True)


def item_text(number):
    """The message that lists an item."""
    return command("/items", number % 3 + 1, 1_000, compact(
        {"category": number % CATEGORIES + 1, "end": workload.FAR, "lot": f"L{number}", "start": 500,
         "text": "Text" * 20, "title": "Title"})).text()


def house_texts(items):
    """The messages that make a house of so many items, in parts that one connection may send."""
    texts = PRESET[:3]
    texts = texts + [command("/categories", 0, 1_000, compact({"name": f"C{number}"})).text()
                     for number in range(1, CATEGORIES + 1)]
    texts += [item_text(number) for number in range(1, items + 1)]
    return [texts[at:at + MOST] for at in range(0, len(texts), MOST)]


def served(programs):
    """Bids in turn, reads at once and the mixed stream, over houses in new files."""
    before, mixed = workload.made("mixed", MIXED, MIXED_ITEMS)
    reads = [read("/items/1", 2).text()] * READS
    answers = {}

    def once(of):
        name, program = of
        new_file(name, program, "house")
        with program.serving("house", 4, 600) as server:
            exchanged(server.port, PRESET)
            bids = bid_in_turn(server)
            read_so = asked_at_once(server, reads)
            held = most_held(server.process)
            exchanged(server.port, reads[:1])
        new_file(name, program, "house")
        with program.serving("house", 2, 600) as server:
            exchanged(server.port, PRESET + before)
            mixed_so = asked_at_once(server, mixed)
        answers.setdefault(name, set()).update((without_lacking(read_so[2])[-1000:], without_lacking(mixed_so[2])))
        return (*bids, *read_so[:2], *mixed_so[:2], held)

    found = in_turn({name: (name, program) for name, program in programs.items()}, once, RUNS)
    if len(set(map(frozenset, answers.values()))) != 1:
        sys.exit("serve.py: the programs answer differently")
    return columns(found)


def large(programs, folder, items):
    """How long a house of so many items takes to begin, by the clock and by processor time, and the memory that it takes."""
    pages = [read(f"/items/{1 + place * items // PAGES % items}", 2).text() for place in range(PAGES)]
    with tempfile.TemporaryDirectory(dir="/dev/shm") as memory:
        for name, program in programs.items():
            making = Program(program.path, memory)
            new_file(name, making, name)
            parts = house_texts(items)
            with making.serving(name, len(parts), 3_000) as server:
                for part in parts:
                    if exchanged(server.port, part).count(b"HTTP/1.1 201 ") != len(part):
                        sys.exit("serve.py: a house is not made")
            for path in pathlib.Path(memory).glob(f"{name}*"):
                shutil.copy(path, folder / path.name.replace(name, f"{name}-{items}"))

    def once(of):
        name, program = of
        began = time.monotonic()
        with program.serving(f"{name}-{items}", 2, 600) as server:
            ready, spent = time.monotonic() - began, seconds_of(server.process)
            exchanged(server.port, pages)
            held = most_held(server.process)
            # It ends after its last connection.
            exchanged(server.port, pages[:1])
        return 1e3 * ready, 1e3 * spent, held

    return columns(in_turn({name: (name, program) for name, program in programs.items()}, once, RUNS))


def columns(found):
    """For each name, what was found of each thing, round by round."""
    return {name: [list(column) for column in zip(*runs)] for name, runs in found.items()}


def times(programs):
    """Shows all figures; gives how many commits of a row a second Python's `sqlite3` made on the same disk."""
    with tempfile.TemporaryDirectory() as name:
        folder = pathlib.Path(name)
        programs = {name: Program(path, folder) for name, path in programs.items()}
        found = served(programs)
        for place, (what, unit, digits) in enumerate((
                ("bids, each in its turn", "a second", 0), ("the server's time of one", "us", 1),
                ("reads at once", "a second", 0), ("reads, by the server's time", "a second", 0),
                ("mixed at once", "a second", 0), ("mixed, by the server's time", "a second", 0), ("memory", "MB", 1))):
            shown_rounds(what, {name: figures[place] for name, figures in found.items()}, unit, digits)
        made = statistics.median(commits(folder) for _ in range(RUNS))
        print(f"{made:,.0f} commits of a row a second by Python's sqlite3")
        for items in SIZES:
            found = large(programs, folder, items)
            for place, (what, unit) in enumerate((("to listening", "ms"), ("its processor time", "ms"), ("memory", "MB"))):
                shown_rounds(f"{items} items, {what}", {name: figures[place] for name, figures in found.items()}, unit, 1)
    return made


def main(*programs):
    times(paths(*programs))


if __name__ == "__main__":
    main(*sys.argv[1:])
