"""Machines that are namespaces of this one, on which a house is served and bid in."""
import collections
import contextlib
import os
import pathlib
import select
import signal
import sqlite3
import subprocess
import sys
import time

from lib.checks import check
from lib.places import ROOT
from lib.sent import PATIENCE

CITY, PLACE, PORT, ITEMS = "lindow", pathlib.Path("/var/lib/auction/lindow"), 8080, 50
# How long a server may say nothing before it listens, in seconds.
SILENCE = 30
HOLD = "import signal, time; signal.signal(signal.SIGCHLD, signal.SIG_IGN); time.sleep(3600)"


class Machine:
    """A network, mounts and processes of their own, as of a machine with an address."""

    def __init__(self, switch, number, disk):
        self.address, self.disk = f"198.51.100.{number}", disk / str(number)
        self.outer = subprocess.Popen(["unshare", "--mount", "--net", "--uts", "--pid", "--fork", "--mount-proc", "--kill-child",
                                       sys.executable, "-c", HOLD], stderr=subprocess.DEVNULL)
        self.process = first_of(self.outer)
        link = f"machine{number}"
        run("ip", "link", "add", link, "netns", switch, "type", "veth", "peer", "name", "eth0", "netns", self.process)
        run("nsenter", "-t", switch, "-n", "ip", "link", "set", link, "master", "switch", "up")
        self.runs("sh", "-ec", f"ip addr add {self.address}/24 dev eth0; ip link set eth0 up; ip link set lo up; hostname {link}")

    def words(self, *words):
        return ["nsenter", "-t", self.process, "-m", "-n", "-u", "-p", "--", *map(str, words)]

    def runs(self, *words, **environment):
        return subprocess.run(self.words(*words), env=os.environ | environment, capture_output=True, text=True, timeout=PATIENCE)

    def keep(self):
        """Starts GlusterFS on a disk of its own."""
        for folder in ("lib", "log", "part", "city"):
            (self.disk / folder).mkdir(parents=True)
        (self.disk / "fstab").touch()
        check("GlusterFS starts", self.runs("sh", "-ec", f"""
            mount --make-rprivate /
            mount -t tmpfs tmpfs /run; mkdir -p /run/gluster /run/lock
            mkdir -p /var/lib/glusterd /var/log/glusterfs /var/lib/auction
            mount --bind {self.disk}/lib /var/lib/glusterd
            mount --bind {self.disk}/log /var/log/glusterfs
            mount -t tmpfs tmpfs /var/lib/auction
            mount --bind {self.disk}/fstab /etc/fstab
            glusterd --log-level WARNING""").returncode, 0)

    def serve(self, program):
        """Starts a server, whose first line comes once it listens; its output is to be read."""
        return subprocess.Popen(self.words(program, "serve", PLACE / "house", "--port", PORT, "--count", 1000),
                                stdout=subprocess.PIPE, stderr=subprocess.PIPE, text=True)

    def opened(self, program, seconds=240):
        """Serves as soon as the house can be opened, and tells how long that took. Who says nothing meanwhile is killed, as by the
        watch of the service."""
        begun, faults = time.monotonic(), collections.Counter()
        while time.monotonic() - begun < seconds:
            server = self.serve(program)
            if first_line(server) == "listening\n":
                print(f"not opened before: {dict(faults)}" if faults else "opened at once")
                return server, time.monotonic() - begun
            self.runs("pkill", "-9", "-x", "auction")
            faults[server.communicate(timeout=PATIENCE)[1].strip() or "nothing said"] += 1
            time.sleep(0.2)
        raise TimeoutError("the house can't be opened")

    def bids(self, acked, seconds):
        """A client on this machine that bids for some seconds."""
        return subprocess.Popen(["nsenter", "-t", self.process, "-n", sys.executable, ROOT / "tests" / "files" / "replica_bids.py",
                                 str(PORT), acked, str(seconds), str(ITEMS)], stdout=subprocess.PIPE, text=True)

    def kill(self):
        """Ends all that runs on it, at once."""
        os.kill(int(self.process), signal.SIGKILL)
        self.outer.wait()

    def cut_off(self):
        self.runs("ip", "link", "set", "eth0", "down")

    def end(self):
        with contextlib.suppress(ProcessLookupError):
            os.kill(int(self.process), signal.SIGKILL)
        self.outer.wait()


def first_line(server):
    """What a server writes first, or nothing where it ends before, or has said nothing for a while."""
    return server.stdout.readline() if select.select([server.stdout], [], [], SILENCE)[0] else ""


def run(*words):
    subprocess.run(words, check=True, capture_output=True)


def first_of(outer):
    """The number of the first process of a space, which `unshare` has made: with it the others end."""
    children = pathlib.Path(f"/proc/{outer.pid}/task/{outer.pid}/children")
    return waited_for(lambda: children.read_text().split()[:1])[0]


def waited_for(found, seconds=PATIENCE):
    """What is found, once it is."""
    deadline = time.monotonic() + seconds
    while time.monotonic() < deadline:
        value = found()
        if value:
            return value
        time.sleep(0.1)
    raise TimeoutError("waited in vain")


def await_bid(acked):
    """Waits until a bid was answered."""
    waited_for(lambda: acked.exists() and acked.stat().st_size)


def bids_in(house, acked):
    """How many bids were answered, and how many are in a copy of the house: each answered one is, and SQLite finds no fault."""
    with contextlib.closing(sqlite3.connect(house)) as database:
        check("sound", database.execute("PRAGMA integrity_check").fetchone(), ("ok",))
        rows = set(database.execute("SELECT item, no, member, maximum FROM bid"))
    answered = [tuple(map(int, line.split())) for line in acked.read_text().splitlines()]
    check("answered bids that are lost", [row for row in answered if row not in rows], [])
    return len(answered), len(rows)
