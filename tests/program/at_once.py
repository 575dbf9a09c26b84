#!/usr/bin/env python3
"""Sends a hundred bids over one connection, one at a time and all at once: `at_once.py PROGRAM`.

Both ways each bid is answered 201, and all at once takes no longer than one at a time: the last piece of the answers must not
wait until the client has acknowledged the one before. The last line is 'N checks, M wrong'.

Promise: none
"""
import pathlib
import socket
import sys
import tempfile
import time

from lib.checks import check, verdict
from lib.places import ROOT
from lib.sent import PATIENCE
from lib.serving import MESSAGES, SETTINGS, Program, message

BANDS = ROOT / "examples" / "bands.csv"
BIDS = 100
# Of each so many batches the fastest is taken, and as often as this where others keep the machine busy.
BATCHES, ROUNDS = 5, 8

# Two members, a category and an item that goes on long enough.
SETUP = [*MESSAGES[:3], message("POST", "/items", 1, 1000,
                                '{"category":1,"end":5000,"lot":"A1","start":100,"text":"","title":"Atlas"}')]


def bids(first):
    """Bids that Ben raises, from this amount on."""
    return [message("POST", "/items/1/bids", 2, 1001, '{"maximum":%d}' % (first + k)) for k in range(BIDS)]


def read_answers(connection, count):
    """So many answers' statuses, of answers that have small bodies."""
    received = b""
    while received.count(b"HTTP/1.1 ") < count or not received.endswith(b"}"):
        piece = connection.recv(65536)
        if not piece:
            break
        received += piece
    return [part[:3] for part in received.split(b"HTTP/1.1 ")[1:]]


def timed(connection, pieces, count):
    """How many seconds it takes until so many messages are answered, which are sent in these pieces, each once the one
    before is answered; and the statuses."""
    statuses, begun = [], time.perf_counter()
    for piece in pieces:
        connection.sendall(piece)
        statuses += read_answers(connection, count // len(pieces))
    return time.perf_counter() - begun, statuses


def a_round(connection, first):
    """The fastest of some batches, one at a time and at once: what others do on the machine makes any of them slower."""
    single, together = [], []
    for batch in range(BATCHES):
        for times, pieces in ((single, bids(first + 2 * batch * BIDS)),
                              (together, [b"".join(bids(first + (2 * batch + 1) * BIDS))])):
            seconds, statuses = timed(connection, pieces, BIDS)
            times.append(seconds)
            check("bids", statuses, [b"201"] * BIDS)
    return min(single), min(together)


def main():
    with tempfile.TemporaryDirectory() as folder:
        program = Program(pathlib.Path(sys.argv[1]).resolve(), folder)
        check("init", program.ended("init", "house", "--bands", str(BANDS), *SETTINGS)[0], 0)
        with program.serving("house", 1) as server:
            with socket.create_connection(("127.0.0.1", server.port), timeout=PATIENCE) as connection:
                connection.setsockopt(socket.IPPROTO_TCP, socket.TCP_NODELAY, 1)
                connection.sendall(b"".join(SETUP))
                check("set up", read_answers(connection, len(SETUP)), [b"201"] * len(SETUP))
                for number in range(ROUNDS):
                    single, together = a_round(connection, 1000 + 2 * number * BATCHES * BIDS)
                    if together <= single:
                        break
        check("ending", server.ending, (0, b"listening\nserved 1\n", b""))
        check(f"at once {together:.4f} s, one at a time {single:.4f} s", together <= single, True)
    sys.exit(verdict())


if __name__ == "__main__":
    main()
