#!/usr/bin/env python3
"""Serves a house on a volume of GlusterFS that three machines keep, and ends them: `replica.py PROGRAM`, as root.

The machines are namespaces of this one, with a network, mounts and processes of their own, and their disks are folders of one
disk. The scripts of deploy/replica make and mount the volume. Bids go to the house that one machine serves, and each answered
one is noted. A second server at another machine is refused. A machine that only keeps is killed under bids, which go on, and the
volume heals. The machine that serves is killed, or cut off, under bids, and the house is opened on another one. Each bid that was
answered has to be in the house then. One that is cut off takes no bid after another machine has opened it, and its server ends
with `auction: file: Store`. The same, killed, is done with an arbiter for the third machine. The Debian package is
glusterfs-server. The last line is 'N checks, M wrong'.

Promise: none
"""
import contextlib
import json
import os
import pathlib
import shutil
import signal
import subprocess
import sys
import tempfile
import threading
import time

from lib.checks import check, verdict
from lib.machines import CITY, PLACE, Machine, await_bid, bids_in, run, waited_for
from lib.places import ROOT
from lib.sent import PATIENCE
from lib.serving import SETTINGS

SCRIPTS = ROOT / "deploy" / "replica"
# How long bids are sent for, in seconds.
PERIOD = 6


@contextlib.contextmanager
def machines(disk):
    """Three machines that keep a volume, and reach one another alone."""
    switch = subprocess.Popen(["unshare", "--net", "sleep", "3600"])
    own = os.readlink("/proc/self/ns/net")
    waited_for(lambda: os.readlink(f"/proc/{switch.pid}/ns/net") != own)
    made = []
    try:
        run("nsenter", "-t", str(switch.pid), "-n", "sh", "-ec", "ip link add switch type bridge; ip link set switch up")
        for number in (1, 2, 3):
            made.append(Machine(str(switch.pid), number, disk))
            made[-1].keep()
        yield made
    finally:
        for machine in made:
            machine.end()
        switch.kill()
        switch.wait()


def make_volume(kept, disk, **settings):
    """The two commands of README.md."""
    addresses = [machine.address for machine in kept]
    for machine in kept:
        machine.runs("sh", "-c", f"mkdir -p /srv && mount -t tmpfs tmpfs /srv && mkdir /srv/replica && mount --bind {machine.disk}/part /srv/replica")
    waited_for(lambda: all(machine.runs("gluster", "peer", "status").returncode == 0 for machine in kept))
    made = kept[0].runs("sh", SCRIPTS / "make_volume.sh", CITY, "/srv/replica/city", *addresses, FORCE="force", **settings)
    check("a volume", (made.returncode, made.stderr), (0, ""))
    for number, machine in enumerate(kept):
        others = addresses[:number] + addresses[number + 1:]
        mounted = machine.runs("sh", SCRIPTS / "mount_volume.sh", CITY, machine.address, *others)
        check("mounted", (mounted.returncode, machine.runs("findmnt", "-n", "-o", "FSTYPE", PLACE).stdout.strip()),
              (0, "fuse.glusterfs"))


def made_and_served(machine, program):
    """The server of a new house. Where who made it has only just ended, the volume may still have the lock, so it is begun until
    it listens, as the service begins it."""
    result = machine.runs(program, "init", PLACE / "house", "--bands", ROOT / "examples" / "bands.csv", *SETTINGS)
    check("made", result.returncode, 0)
    server, seconds = machine.opened(program)
    print(f"opened {seconds:.1f} s after it was made")
    return server


def ended(server):
    """How a server ends by itself: its status, and what it wrote to standard error."""
    return server.wait(PATIENCE), server.stderr.read()


def all_are_there(machine, acked, folder):
    """Each answered bid is in the house, which nobody serves."""
    for name in ("house", "house-wal"):
        with (folder / name).open("wb") as file:
            subprocess.run(machine.words("cat", PLACE / name), stdout=file, stderr=subprocess.DEVNULL)
    return bids_in(folder / "house", acked)[0]


def told(what, client):
    """What a client of bids tells."""
    result = json.loads(client.communicate(timeout=PATIENCE)[0])
    print(f"{what}: {result}")
    return result


def a_keeper_dies(kept, acked):
    """The third machine is killed under bids that the first serves, and its part of the volume heals."""
    client = kept[0].bids(acked, PERIOD)
    time.sleep(PERIOD / 2)
    kept[2].runs("sh", "-c", "kill -9 $(pgrep -x glusterfsd)")
    check("bids go on without a keeper", told("a keeper killed", client)["fault"], None)
    check("started again", kept[0].runs("gluster", "volume", "start", CITY, "force").returncode, 0)
    begun = time.monotonic()
    waited_for(lambda: "/" not in "".join(line for line in kept[0].runs("gluster", "volume", "heal", CITY, "info").stdout
                                          .splitlines() if line.startswith("/")), 120)
    print(f"healed within {time.monotonic() - begun:.0f} s")


def the_server_dies(program, kept, acked, folder, what):
    """The machine that serves is killed under bids, and the second goes on."""
    client = kept[0].bids(acked, PERIOD)
    threading.Timer(PERIOD / 2, kept[0].kill).start()
    check("bids end with the machine", told(what, client)["fault"] is not None, True)
    server, seconds = kept[1].opened(program)
    print(f"{what}: opened on another after {seconds:.1f} s")
    check("bids go on at another", told("at another", kept[1].bids(acked, 3))["fault"], None)
    kept[1].runs("pkill", "-x", "auction")
    server.wait(PATIENCE)
    print(f"{what}: {all_are_there(kept[1], acked, folder)} answered bids, each of them looked for")


def killed(program, folder, **settings):
    """A keeper is killed, then the machine that serves."""
    what = "killed, with an arbiter" if settings else "killed"
    disk, acked = folder / what.replace(" ", "-").replace(",", ""), folder / f"acked {what}"
    with machines(disk) as kept:
        make_volume(kept, disk, **settings)
        first = made_and_served(kept[0], program)
        check("a second server", ended(kept[1].serve(program)), (1, "auction: file: Store\n"))
        check("bids", told("three machines", kept[0].bids(acked, PERIOD))["fault"], None)
        a_keeper_dies(kept, acked)
        the_server_dies(program, kept, acked, folder, what)
        check("the first ended with its machine", first.wait(PATIENCE), -signal.SIGKILL)


def cut_off(program, folder):
    """The machine that serves is cut off, and goes on running."""
    disk, acked, old = folder / "cut", folder / "acked cut", folder / "acked old"
    with machines(disk) as kept:
        make_volume(kept, disk)
        server = made_and_served(kept[0], program)
        client = kept[0].bids(acked, 60)
        await_bid(acked)
        time.sleep(PERIOD / 2)
        kept[0].cut_off()
        begun = time.monotonic()
        other, _ = kept[1].opened(program)
        print(f"cut off: opened on another {time.monotonic() - begun:.1f} s after the cut")
        answered = len(acked.read_text().splitlines())
        check("bids at the one that is cut off", told("cut off", client)["fault"] is not None, True)
        check("none was taken after the other opened", len(acked.read_text().splitlines()), answered)
        check("bids at the other", told("at the other", kept[1].bids(acked, 3))["fault"], None)
        kept[1].runs("pkill", "-x", "auction")
        other.wait(PATIENCE)
        print(f"cut off: {all_are_there(kept[1], acked, folder)} answered bids, each of them looked for")
        check("the one that is cut off has ended", ended(server), (1, "auction: file: Store\n"))


def main():
    program = pathlib.Path(sys.argv[1]).resolve()
    if os.geteuid() != 0 or not shutil.which("glusterd", path=f"{os.environ['PATH']}:/usr/sbin"):
        print("left out: that needs a superuser and glusterfs-server")
        return 0
    with tempfile.TemporaryDirectory() as name:
        folder = pathlib.Path(name)
        killed(program, folder)
        killed(program, folder, ARBITER="1")
        cut_off(program, folder)
    return verdict()


if __name__ == "__main__":
    sys.exit(main())
