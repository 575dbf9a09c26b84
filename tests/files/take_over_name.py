#!/usr/bin/env python3
"""Has keepalived give a city's address to one of two machines: `take_over_name.py PROGRAM`, as root.

The machines are namespaces of this one, as in replica.py, and the house lies in a folder that both see. keepalived runs on both
by deploy/replica/keepalived.conf, and so do the scripts that it calls; in the place of systemd a script starts and ends the
house, which takes three seconds more to open. A client on a third machine bids at the address, and notes each answered bid. The
machine that serves is killed; another one's house ends and does not come back; another one is cut off. Each time the other machine
has to have the address and all bids that were answered, its house has to be open before the city is set up, and the one that was
cut off may serve no more. keepalived and haproxy are of Debian's packages. The last line is 'N checks, M wrong'.

Promise: none
"""
import contextlib
import json
import os
import pathlib
import re
import shutil
import subprocess
import sys
import tempfile
import time

from lib.checks import RUN, check, verdict
from lib.machines import Machine, run, waited_for
from lib.places import ROOT
from lib.serving import SETTINGS

QUEUE = ROOT / "deploy" / "gateway" / "queue.cfg"
SCRIPTS = [str(ROOT / "deploy" / name)
           for name in ("replica/answers.sh", "replica/give_up.sh", "replica/take_over.sh", "service/units.sh")]
PLACES = [pathlib.Path(name) for name in ("/usr/share/auction", "/etc/auction", "/var/lib/auction")]
ADDRESS, PORT = "198.51.100.100", 80
# In the place of systemd: the house of the folder is the one unit. Its program takes its time to open the house.
SYSTEMCTL = """#!/bin/sh
case $1 in
    start) kill -0 "$(cat /run/house.pid)" 2> /dev/null || {
        (sleep 3; exec "$AUCTION" serve /var/lib/auction/house --port 8080 --count 1000000) > /run/house.log 2>&1 &
        echo $! > /run/house.pid
    } ;;
    stop) cd /run && kill -9 $(cat house.pid haproxy.pid) 2> /dev/null; rm -rf house.pid haproxy.pid auction ;;
    show) cat /run/house.pid ;;
esac
"""
# In the place of setup.sh: haproxy by queue.cfg, and a frontend of it in the place of nginx, for which every client is a member.
# It notes a house that is set up before it answers.
SETUP = """#!/bin/sh
curl -s -f -m 2 -o /dev/null -H 'x-member: 0' http://127.0.0.1:8080/house || touch /run/too-soon
mkdir -p /run/auction/lindow
SOCKETS=/run/auction/lindow SOCKET_MODE=600 HOUSE_PORT=8080 SIGN_IN_PORT=9 MESSAGES=5000 \
    haproxy -D -p /run/haproxy.pid -f QUEUE -f /run/haproxy.cfg
"""
HAPROXY = f"""
frontend city
    bind :{PORT}
    http-request set-header x-member 2 unless {{ path /house /members /items /categories }}
    http-request set-header x-moment %[date()]
    default_backend house
"""


def configuration(own, other):
    """keepalived.conf of one machine, which asks sooner than each ten seconds."""
    text = (ROOT / "deploy" / "replica" / "keepalived.conf").read_text()
    values = {"CITY": "lindow", "ADDRESS": f"{ADDRESS}/24", "INTERFACE": "eth0", "OWN": own, "OTHER": other}
    for word, value in values.items():
        text = re.sub(rf"\b{word}\b", value, text)
    return re.sub(r"interval \d+", "interval 2", text)


@contextlib.contextmanager
def places():
    """The folders over which the machines mount their own."""
    made = [place for place in PLACES if not place.exists()]
    for place in made:
        place.mkdir()
    try:
        yield
    finally:
        for place in made:
            place.rmdir()


class Server(Machine):
    """A machine that may serve the city."""

    def begin(self, program, folder, other):
        """Starts keepalived on it."""
        self.folder = folder / self.address
        self.folder.mkdir()
        for name, text in (("systemctl", SYSTEMCTL), ("setup.sh", SETUP.replace("QUEUE", str(QUEUE))), ("haproxy.cfg", HAPROXY)):
            (self.folder / name).write_text(text)
            (self.folder / name).chmod(0o755)
        (self.folder / "keepalived.conf").write_text(configuration(self.address, other))
        made = self.runs("sh", "-ec", f"""
            mount --make-rprivate /
            mount -t tmpfs tmpfs /run
            mount -t tmpfs -o mode=755 tmpfs /usr/share/auction
            cp {" ".join(SCRIPTS)} {self.folder}/setup.sh /usr/share/auction/
            chmod 755 /usr/share/auction/*
            mount -t tmpfs -o mode=755 tmpfs /etc/auction
            mkdir /etc/auction/lindow; echo lindow.example > /etc/auction/lindow/host
            mount --bind {folder}/house /var/lib/auction
            mount --bind {self.folder}/systemctl /usr/bin/systemctl
            cp {self.folder}/haproxy.cfg /run/""")
        check("a machine is set up", (made.returncode, made.stderr), (0, ""))
        environment = os.environ | {"AUCTION": str(program), "PATH": os.environ["PATH"] + ":/usr/sbin"}
        words = self.words("keepalived", "-n", "-l", "-D", "-f", self.folder / "keepalived.conf")
        with (self.folder / "log").open("w") as log:
            subprocess.Popen(words, env=environment, stdout=log, stderr=log)

    def has_address(self):
        return ADDRESS in self.runs("ip", "-o", "addr", "show", "dev", "eth0").stdout

    def serves(self):
        return self.runs("sh", "-c", 'kill -0 "$(cat /run/house.pid)"').returncode == 0


@contextlib.contextmanager
def machines():
    """Two machines, one for the client, and a switch between them."""
    switch = subprocess.Popen(["unshare", "--net", "sleep", "3600"])
    own = os.readlink("/proc/self/ns/net")
    waited_for(lambda: os.readlink(f"/proc/{switch.pid}/ns/net") != own)
    made = []
    try:
        run("nsenter", "-t", str(switch.pid), "-n", "sh", "-ec", "ip link add switch type bridge; ip link set switch up")
        for number in (1, 2, 3):
            made.append(Server(str(switch.pid), number, pathlib.Path("/")))
        yield made
    finally:
        for machine in made:
            machine.end()
        switch.kill()


class Client:
    """Asks at the address, and notes the bids that were answered."""

    def __init__(self, machine):
        self.machine, self.maximum = machine, 0

    def ask(self, path, body=None, seconds=2):
        words = ["curl", "-s", "-m", seconds, f"http://{ADDRESS}{path}", "-H", f"x-member: {int(path == '/items')}"]
        answer = self.machine.runs(*words, *(["-d", json.dumps(body)] if body else [])).stdout
        return json.loads(answer) if answer.startswith("{") else {}

    def bid(self):
        """Bids more than before, and tells whether that was answered."""
        is_taken = "count" in self.ask("/items/1/bids", {"maximum": self.maximum + 10_000})
        if is_taken:
            self.maximum += 10_000
        return is_taken

    def bid_for(self, seconds):
        ends = time.monotonic() + seconds
        while time.monotonic() < ends:
            self.bid()

    def highest(self):
        return max((bid["maximum"] for bid in self.ask("/me/bids/1").get("bids", [])), default=0)


def taken_over(client, name, by):
    """The other machine has the address and what was answered. How long that took."""
    begun = time.monotonic()
    waited_for(client.bid, 120)
    took = time.monotonic() - begun
    check(f"{name}: who has the address", by.has_address(), True)
    check(f"{name}: set up before the house is open", by.runs("test", "-e", "/run/too-soon").returncode == 0, False)
    check(f"{name}: no bid is lost", client.highest() >= client.maximum, True)
    print(f"{name}: the next bid was taken after {took:.1f} s")


def first_items(client):
    waited_for(lambda: client.ask("/house"), 60)
    for name in ("Ana", "Ben"):
        client.ask("/members", {"name": name})
    client.ask("/categories", {"name": "Books"})
    item = {"category": 1, "end": 4_102_444_800, "lot": "A1", "start": 500, "text": "", "title": "Atlas"}
    check("an item", client.ask("/items", item), {"item": 1})


def other_of(servers):
    """Who serves, and who doesn't."""
    one = waited_for(lambda: [server for server in servers if server.has_address()], 60)
    return one[0], next(server for server in servers if server is not one[0])


def play(program, folder):
    with places(), machines() as (one, two, third):
        one.begin(program, folder, two.address)
        two.begin(program, folder, one.address)
        client = Client(third)
        first_items(client)
        server, other = other_of([one, two])
        client.bid_for(3)
        check("one has the address", (server.has_address(), other.has_address(), other.serves()), (True, False, False))
        # Its house ends, and does not come back.
        server.runs("sh", "-c", 'kill -9 "$(cat /run/house.pid)"')
        taken_over(client, "the house ends", other)
        server, other = other, server
        client.bid_for(3)
        server.cut_off()
        taken_over(client, "cut off", other)
        waited_for(lambda: not server.serves(), 30)
        check("cut off: it serves no more", server.serves(), False)
        server.runs("ip", "link", "set", "eth0", "up")
        server, other = other, server
        client.bid_for(3)
        check("the other one came back, and leaves the address", (server.has_address(), other.has_address()), (True, False))
        server.kill()
        taken_over(client, "the machine is killed", other)


def main():
    if os.geteuid() != 0 or not shutil.which("keepalived", path=os.environ["PATH"] + ":/usr/sbin"):
        print("keepalived is missing, or this is no superuser")
        return 1
    program = pathlib.Path(sys.argv[1]).resolve()
    with tempfile.TemporaryDirectory() as name:
        folder = pathlib.Path(name)
        (folder / "house").mkdir()
        (folder / "bands.csv").write_text("at,step\n0,5\n100,25\n500,50\n")
        made = subprocess.run([program, "init", folder / "house" / "house", "--bands", folder / "bands.csv", *SETTINGS], capture_output=True)
        check("made", made.returncode, 0)
        try:
            play(program, folder)
        finally:
            if RUN.wrong() or sys.exc_info()[0]:
                for log in folder.glob("*/log"):
                    print(log.read_text())
    return verdict()


if __name__ == "__main__":
    sys.exit(main())
