#!/usr/bin/env python3
"""Serves houses whose disk fails under bids: `failed_disk.py PROGRAM`, as root.

A house lies on a small file system in memory, which it fills up; or on one that begins to answer writes, syncs or all changes
with an I/O error, by failing_files.py; or on a block device of a network, by NBD without the kernel's module, which is cut off.
Members bid over one connection, or over one for each bid. A bid is then answered 500 `store`, and so is all that follows on its
connection; the server takes no other connection, and ends with `auction: file: Store` and status 1. Once the disk takes writes
again the house is started anew: SQLite finds it sound, each answered bid is in it, with at most the one more that was answered
500, and bids go on.

house.sh of the gateway starts a house again by itself whose disk another file has filled, and members go on through its queue
once that file is gone.

The Debian packages are python3-fusepy; nbdkit, libnbd-bin, fuse2fs and e2fsprogs; haproxy and curl. What needs one that is
missing is left out, with a line. The last line is 'N checks, M wrong'.

Promise: bytes to bytes
"""
import contextlib
import json
import os
import pathlib
import shutil
import signal
import socket
import subprocess
import sys
import tempfile
import threading
import time

from lib.checks import check, verdict
from lib.machines import await_bid, bids_in, first_of, waited_for
from lib.noted_bids import MOST, House, bid, fill
from lib.places import ROOT
from lib.sent import PATIENCE, compact, read
from lib.serving import SETTINGS, STORE_FAILED, Program, served

ENVIRONMENT = {**os.environ, "PATH": os.environ["PATH"] + ":/usr/sbin:/sbin"}
# Debian's Python has Debian's packages.
PYTHON = "/usr/bin/python3"
FAILING = ROOT / "tests" / "files" / "failing_files.py"
GATEWAY = ROOT / "deploy" / "gateway"
BANDS = ROOT / "examples" / "bands.csv"
LINE = b"auction: file: Store\n"
STORE = (500, {"error": "store"})
ITEMS, PORT, CONNECTIONS, SMALL, ROOMY, IMAGE = 20, "18080", 1_000_000, "2m", "64m", 64 << 20
# How long bids are sent once a disk is well again, in seconds.
AFTER = 1
WAYS = {"one connection": MOST, "a connection each": 1}


def run(*words):
    subprocess.run(list(map(str, words)), check=True, capture_output=True, timeout=PATIENCE, env=ENVIRONMENT)


def started(*words):
    """A process that keeps a file system, and tells nobody how that fails."""
    return subprocess.Popen(list(map(str, words)), stderr=subprocess.DEVNULL, env=ENVIRONMENT)


def has(*programs):
    return all(shutil.which(program, path=ENVIRONMENT["PATH"]) for program in programs)


class Memory:
    """A small file system in memory, which the house fills up."""

    def __init__(self, folder):
        self.place = folder / "memory"

    def __enter__(self):
        self.place.mkdir(exist_ok=True)
        run("mount", "-t", "tmpfs", "-o", f"size={SMALL}", "tmpfs", self.place)
        return self

    def __exit__(self, *_):
        run("umount", self.place)

    def fail(self):
        """The bids alone do so."""

    def mend(self):
        run("mount", "-o", f"remount,size={ROOMY}", self.place)


class Failing:
    """A file system of which some calls fail when they are told to."""

    def __init__(self, folder, calls):
        self.folder, self.calls = folder / f"failing {calls}", calls
        self.place, self.switch = self.folder / "place", self.folder / "switch"

    def __enter__(self):
        for name in ("under", "place"):
            (self.folder / name).mkdir(parents=True, exist_ok=True)
        self.process = started(PYTHON, FAILING, self.folder / "under", self.place, self.switch)
        waited_for(self.place.is_mount)
        return self

    def __exit__(self, *_):
        run("umount", self.place)
        self.process.wait(PATIENCE)
        shutil.rmtree(self.folder)

    def fail(self):
        self.switch.write_text(self.calls)

    def mend(self):
        self.switch.unlink()


class Cut:
    """A file system on a block device of a network: a server of NBD has its bytes, and is killed. The file system is checked then,
    as after a crash of its machine."""

    def __init__(self, folder):
        self.folder = folder / "network"
        self.place, self.image, self.block, self.socket = (self.folder / name for name in ("place", "image", "block", "socket"))

    def __enter__(self):
        self.place.mkdir(parents=True)
        self.image.touch()
        os.truncate(self.image, IMAGE)
        run("mkfs.ext4", "-q", "-O", "^has_journal", self.image)
        self.connect()
        return self

    def __exit__(self, *_):
        self.disconnect()
        shutil.rmtree(self.folder)

    def connect(self):
        self.server = started("nbdkit", "--foreground", "--unix", self.socket, "file", self.image)
        waited_for(self.socket.exists)
        self.block.touch()
        self.client = started("nbdfuse", self.block, f"nbd+unix:///?socket={self.socket}")
        waited_for(lambda: self.block.stat().st_size)
        self.system = started("fuse2fs", "-f", "-o", "rw", self.block, self.place)
        waited_for(self.place.is_mount)

    def disconnect(self):
        """Takes all down: what is mounted on what, the upper first."""
        for place, process in ((self.place, self.system), (self.block, self.client)):
            run("umount", place)
            process.wait(PATIENCE)
        self.fail()
        self.socket.unlink()

    def fail(self):
        self.server.kill()
        self.server.wait(PATIENCE)

    def mend(self):
        self.disconnect()
        repair = subprocess.run(["e2fsck", "-fy", self.image], capture_output=True, env=ENVIRONMENT, timeout=PATIENCE)
        check("the file system is sound, or put right", repair.returncode in (0, 1), True)
        self.connect()


def make(program):
    """A house with items, on which nobody has bid."""
    check("made", program.ended("init", "house", "--bands", BANDS, *SETTINGS), (0, b"created\n", b""))
    with program.serving("house", 1) as server, contextlib.closing(House(server.port)) as house:
        fill(house, ITEMS)
    check("filled", server.ending, served(1))


def bids(house, acked, seconds):
    """How many bids are answered in some seconds, and the fault that ends them."""
    with acked.open("a", buffering=1) as file:
        count, _, fault = bid(house, file, seconds, ITEMS)
    return count, fault


def fail_under_bids(disk, acked):
    """Has a disk fail after the first of the bids."""
    await_bid(acked)
    disk.fail()


def is_refused(port):
    try:
        socket.create_connection(("127.0.0.1", port), timeout=PATIENCE).close()
    except ConnectionRefusedError:
        return True
    return False


def fails(program, disk, acked, most):
    """Bids until the disk fails, which ends the server."""
    with program.serving("house", CONNECTIONS) as server:
        with contextlib.closing(House(server.port, most)) as house:
            failing = threading.Thread(target=fail_under_bids, args=(disk, acked))
            failing.start()
            count, fault = bids(house, acked, PATIENCE)
            failing.join()
            check("a bid on a disk that fails", fault, f"{STORE[0]} {STORE[1]}")
            if most > 1:
                later = [house.ask(read("/house", 0)), house.command("/members", 0, {"name": "Zoe"})]
                check("later on its connection", later, [STORE, STORE])
        server.process.wait(PATIENCE)
        check("another connection is refused", is_refused(server.port), True)
    check("the server ends", server.ending, STORE_FAILED)
    return count


def goes_on(program, acked, most):
    """The house is started anew, and bids go on."""
    with program.serving("house", CONNECTIONS) as server:
        check("listens again", server.is_listening, True)
        with contextlib.closing(House(server.port, most)) as house:
            count, fault = bids(house, acked, AFTER)
            check("bids go on", (count > 0, fault), (True, None))
        server.process.terminate()
    check("stopped", server.ending, (-signal.SIGTERM, b"listening\n", b""))


def look(place, acked, folder):
    """Each answered bid is in a copy of the house, with at most one that wasn't."""
    for name in ("house", "house-wal"):
        shutil.copy(place / name, folder / name)
    answered, there = bids_in(folder / "house", acked)
    check("bids that were not answered", there - answered in (0, 1), True)
    return answered, there


def serve_on(disk, path, folder, name):
    """A house on a disk that fails and is well again, by each way to send bids."""
    for way, most in WAYS.items():
        with disk:
            program, acked = Program(path, disk.place), folder / f"acked {name} {way}"
            make(program)
            before = fails(program, disk, acked, most)
            disk.mend()
            goes_on(program, acked, most)
            answered, there = look(disk.place, acked, folder)
            print(f"{name}, {way}: {before} bids answered before, {answered - before} after it, {there} are there")


class Gateway:
    """house.sh of the gateway, with a house of this folder, in a network of its own."""

    def __init__(self, path, place):
        self.place, self.log = place, place.parent / "house.log"
        (place / "run").mkdir()
        for name in ("queue.cfg", "sign_in.conf"):
            shutil.copy(GATEWAY / name, place)
        with self.log.open("wb") as log:
            words = ["unshare", "--net", "--pid", "--fork", "--kill-child", "sh", GATEWAY / "house.sh", path, PORT, CONNECTIONS]
            self.process = subprocess.Popen(list(map(str, words)), cwd=place, stdout=log, stderr=log,
                                            env={**ENVIRONMENT, "CLOSE": "0", "CATALOGUE": "0"})

    def ask(self, method, path, member, value=None):
        """What the queue answers: a status and a value."""
        body = [] if value is None else ["--data-binary", compact(value).decode()]
        words = ["curl", "--silent", "--unix-socket", self.place / "run" / "queue.sock", "--request", method, "--header",
                 f"x-member: {member}", "--write-out", "\n%{http_code}", *body, f"http://house{path}"]
        lines = subprocess.run(words, capture_output=True, text=True, timeout=PATIENCE).stdout.rsplit("\n", 1)
        return int(lines[1]), json.loads(lines[0] or "null")

    def bid(self, acked, number):
        """The answer to a bid of what leading takes, which is noted where it was taken."""
        item = number % ITEMS + 1
        standing = self.ask("GET", f"/items/{item}", 2)[1]
        member, maximum = 3 if standing["leader"] == 2 else 2, standing["floor"]
        status, answer = self.ask("POST", f"/items/{item}/bids", member, {"maximum": maximum})
        if status == 201:
            with acked.open("a") as file:
                file.write(f"{item} {answer['count']} {member} {maximum}\n")
        return status, answer

    def has_said(self, line, count):
        return self.log.read_bytes().count(line) >= count

    def end(self):
        os.kill(int(first_of(self.process)), signal.SIGKILL)
        self.process.wait(PATIENCE)


def take_room(file):
    """Writes a file until the disk is full."""
    with contextlib.suppress(OSError), file.open("wb", buffering=0) as filler:
        while True:
            filler.write(bytes(4096))


def starts_again(path, folder):
    """house.sh starts a house anew whose disk was full."""
    with Memory(folder) as disk:
        make(Program(path, disk.place))
        acked, gateway = folder / "acked by the gateway", Gateway(path, disk.place)
        try:
            waited_for(lambda: (disk.place / "run" / "queue.sock").exists())
            # The queue takes no command until it knows the house's clock.
            check("the house", gateway.ask("GET", "/house", 2)[0], 200)
            check("a bid through the queue", gateway.bid(acked, 0)[0], 201)
            take_room(disk.place / "filler")
            answer = next(answer for answer in (gateway.bid(acked, number) for number in range(1, 10_000)) if answer[0] != 201)
            check("a bid on a full disk", answer, STORE)
            waited_for(lambda: gateway.has_said(LINE, 1))
            (disk.place / "filler").unlink()
            begun = time.monotonic()
            check("a bid with room again", gateway.bid(acked, 0)[0], 201)
            print(f"house.sh: taken again after {time.monotonic() - begun:.1f} s")
            check("was started again", gateway.has_said(b"listening\n", 2), True)
        finally:
            gateway.end()
        look(disk.place, acked, folder)


def has_fuse():
    words = [PYTHON, "-c", "import fusepy"]
    return os.path.exists("/dev/fuse") and subprocess.run(words, capture_output=True).returncode == 0


def main():
    path = str(pathlib.Path(sys.argv[1]).resolve())
    if os.geteuid() != 0:
        print("left out: that needs a superuser, who mounts file systems")
        return 0
    with tempfile.TemporaryDirectory() as name:
        folder = pathlib.Path(name)
        serve_on(Memory(folder), path, folder, "full")
        if has_fuse():
            for calls in ("write", "fsync", "write fsync truncate"):
                serve_on(Failing(folder, calls), path, folder, f"failing {calls}")
        else:
            print("I/O errors are left out: /dev/fuse or python3-fusepy is missing")
        if os.path.exists("/dev/fuse") and has("nbdkit", "nbdfuse", "fuse2fs", "mkfs.ext4"):
            serve_on(Cut(folder), path, folder, "cut off")
        else:
            print("a network's block device is left out: /dev/fuse, nbdkit, libnbd-bin, fuse2fs or e2fsprogs is missing")
        if has("haproxy", "curl", "unshare"):
            starts_again(path, folder)
        else:
            print("house.sh is left out: haproxy or curl is missing")
    return verdict()


if __name__ == "__main__":
    sys.exit(main())
