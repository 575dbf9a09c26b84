#!/usr/bin/env python3
"""Asks a house through the queue of deploy/gateway, as the service runs it: `service_queue.py PROGRAM`.

haproxy is started with queue.cfg before a house in a file. 12,000 commands of ten clients at once go through it, none of which is
lost where the house ends a connection after 10,000 messages, since the queue has it end each after 5,000. A command is taken
after the kept connection was idle for longer than the house waits, and after the house was killed and started again. Where the
clock of the house and that of the machine are three days apart, either way, no command is let through, but for one that says that
the clock is right, and reads are. A house whose file may not grow has a line for its 500, after which the queue leaves its
connection, so that it ends. Once it is started again it takes a command. haproxy is of Debian's package. The last line is 'N
checks, M wrong'.

Promise: none
"""
import collections
import concurrent.futures
import contextlib
import copy
import os
import pathlib
import re
import shutil
import socket
import subprocess
import sys
import tempfile
import threading
import time

from lib.checks import check, verdict
from lib.confined import limited
from lib.places import ROOT
from lib.sent import PATIENCE, next_answer
from lib.serving import SETTINGS, Program, exchange, held_port, message

QUEUE = ROOT / "deploy" / "gateway" / "queue.cfg"
HAPROXY = shutil.which("haproxy", path=f"{os.environ['PATH']}:/usr/sbin")
# What the unit of the queue sets. Nobody listens on the port of the sign-in.
SETTING = {"SOCKETS": ".", "SOCKET_MODE": "600", "MESSAGES": "5000", "SIGN_IN_PORT": "9"}
DAY = 86_400
# A connection that was idle for so long is ended by the house.
IDLE = 31
COMMANDS, CLIENTS, CONNECTIONS = 12_000, 10, 3
APART = (503, b'{"error":"gateway","why":"clock"}')
CLOSED = (200, b'{"sold":0,"unsold":0}')


class Queue:
    """haproxy before the house of a port, in a folder of its own, and a client of it."""

    def __init__(self, port, folder):
        self.folder = pathlib.Path(folder)
        with (self.folder / "lines").open("ab") as lines:
            self.process = subprocess.Popen([HAPROXY, "-db", "-f", QUEUE], cwd=folder, stdout=lines, stderr=lines,
                                            env={**os.environ, **SETTING, "HOUSE_PORT": str(port)})
        self.connection = self.answers = None

    def another(self):
        """Another client of it."""
        client = copy.copy(self)
        client.connection = client.answers = None
        return client

    def connect(self):
        deadline = time.monotonic() + PATIENCE
        while True:
            self.connection = socket.socket(socket.AF_UNIX)
            self.connection.settimeout(PATIENCE)
            try:
                self.connection.connect(str(self.folder / "queue.sock"))
                break
            except OSError:
                self.connection.close()
                if time.monotonic() > deadline:
                    raise
                time.sleep(0.05)
        self.answers = self.connection.makefile("rb")

    def ask(self, method, path, body="", fields=""):
        """What the queue answers: a status and a body."""
        if self.connection is None:
            self.connect()
        head = f"{method} {path} HTTP/1.1\r\nhost: h\r\nx-member: 0\r\n{fields}content-length: {len(body)}\r\n\r\n"
        self.connection.sendall((head + body).encode())
        answer = next_answer(self.answers)
        if answer is None:
            self.connection = None
            return None
        head, body = answer.split(b"\r\n\r\n", 1)
        return int(head.split()[1]), body

    def tells(self, pattern):
        """Whether a line comes that is wanted: haproxy writes one once its answer was sent."""
        deadline = time.monotonic() + PATIENCE
        while time.monotonic() < deadline:
            if re.search(pattern, (self.folder / "lines").read_text()):
                return True
            time.sleep(0.05)
        return False

    def end(self):
        self.process.terminate()
        self.process.wait()


class House:
    """A house in a file, and the server of it, which is started and ended on one port."""

    def __init__(self, program, port, file="house", before=None):
        self.program, self.port, self.file, self.before, self.process = program, port, file, before, None

    def serve(self, count):
        self.process = subprocess.Popen([self.program.path, "serve", self.file, "--port", str(self.port), "--count", str(count)],
                                        cwd=self.program.folder, stdout=subprocess.PIPE, preexec_fn=self.before)
        check("listens", self.process.stdout.readline(), b"listening\n")

    def kill(self):
        self.process.kill()
        self.process.wait()


@contextlib.contextmanager
def queued(program, folder, port, name):
    """The queue before a house of this name, which is made, and its end."""
    check(f"{name} made", program.ended("init", name, "--bands", "bands.csv", *SETTINGS)[0], 0)
    place = folder / f"queue of {name}"
    place.mkdir()
    queue = Queue(port, place)
    try:
        yield queue
    finally:
        queue.end()


def crowded(queue):
    """What commands are answered that some clients send at once, each its own one after the other."""
    clients = [queue.another() for _ in range(CLIENTS)]
    with concurrent.futures.ThreadPoolExecutor(CLIENTS) as pool:
        parts = pool.map(lambda client: [client.ask("POST", "/close") for _ in range(COMMANDS // CLIENTS)], clients)
        return [answer for part in parts for answer in part]


def kept(program, folder, port):
    """Messages through few connections."""
    house = House(program, port)
    with queued(program, folder, port, "house") as queue:
        house.serve(CONNECTIONS)
        check("a command before the clock is known", queue.ask("POST", "/close"), APART)
        check("the first look", queue.ask("GET", "/house")[0], 200)
        check("a command of a new house", queue.ask("POST", "/close"), CLOSED)
        check("all are answered", collections.Counter(crowded(queue)), {CLOSED: COMMANDS})
        queue.end()
    check("in three connections", (house.process.communicate(timeout=PATIENCE)[0], house.process.returncode),
          (b"served %d\n" % CONNECTIONS, 0))


def starts(program, folder, port):
    """Commands after a long silence, and after a start."""
    house = House(program, port, "still")
    with queued(program, folder, port, "still") as queue:
        house.serve(1_000)
        check("known", queue.ask("GET", "/house")[0], 200)
        time.sleep(IDLE)
        check("after a silence", queue.ask("POST", "/members", '{"name":"Ana"}'), (201, b'{"member":1}'))
        house.kill()
        again = threading.Timer(5, house.serve, [1_000])
        again.start()
        check("after a start", queue.ask("POST", "/members", '{"name":"Ben"}'), (201, b'{"member":2}'))
        again.join()
        house.kill()


def apart(program, folder, port, days):
    """Commands while the clocks are some days apart."""
    name = f"apart by {days}"
    house = House(program, port, name)
    with queued(program, folder, port, name) as queue:
        house.serve(1_000)
        exchange(port, message("POST", "/close", 0, int(time.time()) + days * DAY))
        check("a look", queue.ask("GET", "/house")[0], 200)
        check(f"a close, {days} days apart", queue.ask("POST", "/close"), APART)
        check("its line", queue.tells("status 503 to POST /close after [0-9]+ ms: clock"), True)
        status = queue.ask("POST", "/close", fields="x-clock: right\r\n")[0]
        # The house takes no command that lies before its clock.
        check(f"the clock is right, {days} days apart", status, 200 if days < 0 else 409)
        check("a close after it", queue.ask("POST", "/close")[0], 200 if days < 0 else 503)
        house.kill()


def failing(program, folder, port):
    """A house whose file failed has a line of the queue, which then leaves its connection. So it ends, and is started again."""
    house = House(program, port, "full", limited(300_000))
    with queued(program, folder, port, "full") as queue:
        house.serve(1_000)
        check("a look", queue.ask("GET", "/house")[0], 200)
        for number in range(10_000):
            answer = queue.ask("POST", "/members", f'{{"name":"member {number}"}}')
            if answer[0] != 201:
                break
        check("the file is full", answer, (500, b'{"error":"store"}'))
        check("its line", queue.tells("status 500 to POST /members after [0-9]+ ms: store"), True)
        check("the house ends", house.process.wait(PATIENCE), 1)
        roomy = House(program, port, "full")
        again = threading.Timer(1, roomy.serve, [1_000])
        again.start()
        queue.connect()
        check("a command after it", queue.ask("POST", "/members", '{"name":"Zoe"}')[0], 201)
        again.join()
        roomy.kill()


def main():
    with tempfile.TemporaryDirectory() as name, held_port() as port:
        folder = pathlib.Path(name)
        (folder / "bands.csv").write_text("at,step\n0,5\n100,25\n500,50\n")
        program = Program(str(pathlib.Path(sys.argv[1]).resolve()), name)
        kept(program, folder, port)
        starts(program, folder, port)
        apart(program, folder, port, -3)
        apart(program, folder, port, 3)
        failing(program, folder, port)
    return verdict()


if __name__ == "__main__":
    sys.exit(main())
