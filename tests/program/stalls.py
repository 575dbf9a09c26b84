#!/usr/bin/env python3
"""Has clients that stall in front of one that asks: `stalls.py PROGRAM`, for some two minutes.

Connections are served one after the other, so who sends nothing, or reads none of its answers, holds up all others until nothing
has moved for 30 seconds; then the next is answered. What a write had taken by then counts as a move, so the second may hold them
up for some times 30 seconds. Who goes on sending after its last answer, a byte now and then, holds up the others for a minute at
most. The last line is 'N checks, M wrong'.

Promise: none
"""
import contextlib
import pathlib
import socket
import sys
import tempfile
import threading
import time

from lib.checks import RUN, check, verdict
from lib.sent import PATIENCE
from lib.serving import MESSAGES, Program, exchange, message, served

# For how long a connection may be still, how long one of these may hold up the others, and how long one that has had its
# last answer, with some seconds for the rest; in seconds.
STILL, LONGEST, LONGEST_AFTER = 30, 240, 75
# A page of twenty items, so that the answers to all messages of a connection find no room in the system's buffers.
FILLING = MESSAGES[:3] + [
    message("POST", "/items", 1, 1000, '{"category":1,"end":5000,"lot":"A%d","start":500,"text":"","title":"Atlas"}'
            % number) for number in range(20)]
READ = message("GET", "/categories/1/items/1", 2)


def send_nothing(connection):
    """Keeps quiet."""


def read_nothing(connection):
    """Asks until nothing more is taken, and reads no answer."""
    connection.settimeout(2)
    try:
        while True:
            connection.sendall(READ * 100)
    except TimeoutError:
        pass


def dribble(connection):
    """Has its last answer, to what is no message, and sends a byte each five seconds."""
    connection.sendall(b"GET\r\n\r\n")
    threading.Thread(target=drip, args=(connection,), daemon=True).start()


def drip(connection):
    with contextlib.suppress(OSError):
        while True:
            time.sleep(5)
            connection.sendall(b"x")


# Each with the least and the most seconds for which it may hold up the next.
WAYS = {send_nothing: (STILL - 1, LONGEST), read_nothing: (STILL - 1, LONGEST), dribble: (0, LONGEST_AFTER)}


def stall(program, file, way):
    """What the client is answered that comes after one that stalls."""
    init = ["--bands", "bands.csv", "--rate", "1000", "--zone", "UTC0"]
    check(f"{file} made", program.ended("init", file, *init), (0, b"created\n", b""))
    with program.serving(file, 3) as server:
        exchange(server.port, b"".join(FILLING))
        wanted = program.ended("replay", *init, given=b"".join([*FILLING, READ]))[1]
        # The clock begins before the connection does, so that no pause of this process makes the wait look short.
        began = time.monotonic()
        with socket.create_connection(("127.0.0.1", server.port), timeout=PATIENCE) as first:
            way(first)
            check(f"{file} answered", wanted.endswith(exchange(server.port, READ)), True)
            waited = time.monotonic() - began
        least, most = WAYS[way]
        check(f"{file} waited", least <= waited <= most, True)
        print(f"{file}: {waited:.0f} s")
    check(f"{file} ended", server.ending, served(3))


def main():
    with tempfile.TemporaryDirectory() as folder:
        (pathlib.Path(folder) / "bands.csv").write_text("at,step\n0,5\n100,25\n500,50\n")
        program = Program(str(pathlib.Path(sys.argv[1]).resolve()), folder)
        stalls = [threading.Thread(target=stall, args=(program, way.__name__, way)) for way in WAYS]
        for thread in stalls:
            thread.start()
        for thread in stalls:
            thread.join()
    status = verdict()
    return status if len(RUN.found) == 4 * len(WAYS) else 1


if __name__ == "__main__":
    sys.exit(main())
