#!/usr/bin/env python3
"""Does what docs/RUNNING.md says: `running_doc.py PROGRAM`.

The sessions of the page print what it shows; a comment in front of one, `<!-- after: COMMAND -->`, has what was done before. The
table of lines has each line of the program's faults, as the help has, and a comment in each row names scripts that have the line.
Causes that no other script has are brought about: a port that the user may not use, too many open files, standard error that
takes nothing, a sale whose row is spoiled. A server that gets a signal leaves both files with all that it answered, which an
opening takes; then a statement makes one file of two, of which a backup is a copy. Needs curl and sqlite3. The last line is 'N
checks, M wrong'.

Promise: none
"""
import contextlib
import os
import pathlib
import re
import resource
import shutil
import signal
import socket
import subprocess
import sys
import tempfile

from lib.checks import check, verdict
from lib.confined import as_nobody
from lib.house_files import SMALL_LOG
from lib.places import ROOT
from lib.sent import PATIENCE
from lib.serving import PRESET, Program, exchange, fault, message, served
from lib.sessions import played

PAGE = (ROOT / "docs" / "RUNNING.md").read_text()
BEFORE = re.compile(r"^<!-- after: (.*) -->\n```text\n", re.M)
INIT = ["--bands", "bands.csv", "--rate", "1000", "--zone", "UTC0"]
DAYS = ["--from", "1970-01-01", "--to", "1970-01-01"]
ITEM = message("GET", "/items/1", 2)
BID = message("POST", "/items/1/bids", 2, 1001, '{"maximum":500}')
# How many files may be open: too few for the file and its log, enough to listen, enough for a connection.
FILES = range(5, 9)


def pages(program):
    """The sessions of the page."""
    for command, printed, wanted in played(BEFORE.sub(r"```text\n$ \1 > /dev/null\n", PAGE), program):
        check(f"$ {command}", trimmed(printed), trimmed(wanted))


def trimmed(text):
    return "\n".join(line.rstrip() for line in text.splitlines())


def lines(program):
    """The table and the help have each line of the faults, and each script that the table names has the line."""
    help_text = subprocess.run([program, "--help"], capture_output=True, text=True, timeout=60).stdout
    source = (ROOT / "crates" / "auction_runs" / "src" / "fault.rt").read_text()
    rows = re.findall(r"^\|([^|]*)\|[^|]*\|[^|]*<!--([^|]*)--> \|$", PAGE, re.M)
    named, line = {}, ""
    for first, scripts in rows:
        line = first.strip(" `") or line
        named.setdefault(line, set()).update(scripts.split())
    texts = {re.sub(r"\{.*?\}", "..", text).replace("LEFT", "..")
            for text in re.findall(r'"(auction: [^"]*)"', source)}
    for text in sorted(texts):
        begins = text.split("..")[0].rstrip()
        check(f"the table has {text}", any(row.startswith(begins) for row in named), True)
        check(f"the help has {text}", begins in help_text, True)
    for row, scripts in named.items():
        if not row.startswith("auction: "):
            continue
        # A fault of bands is with its row's number in the scripts.
        word = re.sub(r" [0-9]+$", "", row.removeprefix("auction: ")).removeprefix("bands: ")
        for script in scripts:
            path, = (ROOT / "tests").glob(f"*/{script}")
            text = path.read_text()
            check(f"{script} has {row}", word in text or "memory" in script, True)


def limited(count):
    return lambda: resource.setrlimit(resource.RLIMIT_NOFILE, (count, count))


def sockets(program, folder):
    """A port that isn't the user's to take, and a process that may open few files."""
    first = pathlib.Path("/proc/sys/net/ipv4/ip_unprivileged_port_start")
    if first.exists() and int(first.read_text()) > 80:
        nobody = Program(program.path, folder, as_nobody)
        check("port 80", nobody.ended("serve", "house", "--port", "80", "--count", "1"), fault("socket"))
    endings = [few_files(program, folder, count) for count in FILES]
    check("few open files", {ending[2] for ending in endings}, {fault("file: Store")[2], fault("socket")[2], b""})
    check("few open files, a connection", (1, b"listening\n", fault("socket")[2]) in endings, True)


def few_files(program, folder, count):
    """How serving one connection ends where so many files may be open."""
    with Program(program.path, folder, limited(count)).serving("house", 1) as server:
        if server.is_listening:
            with contextlib.suppress(ConnectionError):
                exchange(server.port, ITEM)
    return server.ending


def untold(program, folder):
    """A fault that nobody can read has its status."""
    with open("/dev/full", "wb") as full:
        result = subprocess.run([program.path, "statement", "missing", "--member", "1", *DAYS], cwd=folder,
                                stderr=full, stdout=subprocess.PIPE, timeout=PATIENCE)
    check("nobody to tell", (result.returncode, result.stdout), (1, b""))


def spoiled(program, folder):
    """A sale whose price no bids leave."""
    check("sold made", program.ended("init", "sold", *INIT), (0, b"created\n", b""))
    program.answers("sold", [b"".join([*PRESET, BID, message("POST", "/close", 0, 5000)])])
    subprocess.run(["sqlite3", "sold", "UPDATE item SET price = price + 1"], cwd=folder, check=True)
    check("a spoiled sale", program.ended("statement", "sold", "--member", "1", *DAYS), fault("file: Damaged"))


def interruptible():
    """Has a process take SIGINT as ever, also where this one was started in the background, and so takes none."""
    signal.signal(signal.SIGINT, signal.SIG_DFL)


def signals(program, folder):
    """What a signal leaves, and the next start."""
    program = Program(program.path, folder, interruptible)
    statement = ["--member", "2", *DAYS]
    for number in (signal.SIGTERM, signal.SIGINT, signal.SIGKILL):
        name = number.name.lower()
        check(f"{name} made", program.ended("init", name, *INIT), (0, b"created\n", b""))
        with program.serving(name, 5) as server:
            exchange(server.port, b"".join([*PRESET, BID]))
            before = exchange(server.port, ITEM)
            # A client that is connected, and sends nothing, when the signal comes.
            with socket.create_connection(("127.0.0.1", server.port)):
                server.process.send_signal(number)
                server.process.wait(PATIENCE)
        check(f"{name} ends it", server.ending, (-number, b"listening\n", b""))
        check(f"{name} leaves a log", (folder / f"{name}-wal").stat().st_size > SMALL_LOG, True)
        check(f"{name}, served again", program.answers(name, [ITEM]), ([before], served(1)))
        alone(program, folder, name, statement, before)


def alone(program, folder, name, statement, before):
    """After a statement one file is the house; a copy of it and of its log is a backup."""
    with program.serving(name, 2) as server:
        exchange(server.port, message("POST", "/items/1/bids", 3, 1002, '{"maximum":500}'))
        server.process.kill()
    for part in ("", "-wal"):
        shutil.copy(folder / f"{name}{part}", folder / f"{name}-kept{part}")
    check(f"{name}, a statement", program.ended("statement", name, *statement)[0], 0)
    log = folder / f"{name}-wal"
    check(f"{name}, a small log", not log.exists() or log.stat().st_size < SMALL_LOG, True)
    log.unlink(missing_ok=True)
    for file in (name, f"{name}-kept"):
        check(f"{file} is whole", program.answers(file, [ITEM]), ([before], served(1)))
    check(f"{name} is sound", subprocess.run(["sqlite3", name, "PRAGMA integrity_check"], cwd=folder,
                                             capture_output=True).stdout, b"ok\n")


def main():
    path = str(pathlib.Path(sys.argv[1]).resolve())
    pages(path)
    lines(path)
    with tempfile.TemporaryDirectory() as name:
        os.chmod(name, 0o777)
        folder = pathlib.Path(name)
        shutil.copy(path, folder / "auction")
        (folder / "auction").chmod(0o755)
        shutil.copy(ROOT / "examples" / "bands.csv", folder / "bands.csv")
        program = Program(str(folder / "auction"), name)
        check("made", program.ended("init", "house", *INIT), (0, b"created\n", b""))
        for file in folder.glob("house*"):
            file.chmod(0o666)
        sockets(program, folder)
        untold(program, folder)
        spoiled(program, folder)
        signals(program, folder)
    return verdict()


if __name__ == "__main__":
    sys.exit(main())
