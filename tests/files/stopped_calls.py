#!/usr/bin/env python3
"""Stops the program at each call on the files of a house: `stopped_calls.py PROGRAM [EVERY]`. It needs a C compiler, `cc`.

For `init`, for `serve` of each of the thirteen commands and for `upgrade` of each house that is kept, the k-th call fails and
each later one on the same file, k from 1 on until a run ends with no stop; or each EVERYth k. A write at which it stops writes
half. In the opening, `serve` ends with `file: Store`. Else the answer is the command's own, or that the store failed. Then a read
and a command on its connection are answered so too, no other connection is taken, and `serve` ends with `file: Store`. The files
that are left, as they are and without what was not synced, are opened again: SQLite finds a sound database, both it and the
program find the house before the command or after it, after it where that was answered as accepted, and the program takes another
command. Of an upgrade they find the house as it was or upgraded, and that where it was reported. The last five commands are
stopped again, each fourth of these times, over a house in which a row that they don't name is one of no house's: it stays so. The
last lines tell what was found by command, and 'S stops, W wrong'.

Promise: bytes to bytes
"""
import collections
import socket
import sys

from lib.checks import check, verdict
from lib.file_calls import COMMANDS, NONE, SPOILED, Disk, Versions, prepared
from lib.first_version import UPGRADED
from lib.growing import Client
from lib.sent import next_answer
from lib.serving import FAILED, MESSAGES, STORE_FAILED, exchange, fault, served

READ = MESSAGES[-1]
LATER = MESSAGES[0].replace(b"Ana", b"Eve")


def on_one_connection(port, command):
    """What a command is answered, and what two messages after it are: where it failed a read and another command, else reads."""
    client, replies = Client(port), []
    for text in (command, READ, None):
        client.connection.sendall(text or (LATER if replies[0] == FAILED else READ))
        replies.append(next_answer(client.answers))
    client.connection.shutdown(socket.SHUT_WR)
    return replies


class Stops:
    def __init__(self, calls, every):
        self.calls, self.every, self.stops = calls, every, 0
        # How often the house was found before a command, and how often after it, by the command's first line.
        self.found = collections.defaultdict(collections.Counter)

    def places(self, first, last, shift=0):
        """The numbers of calls, each EVERYth."""
        return range(first + shift % self.every, last + 1, self.every)

    def judge(self, name, disk, allowed):
        """Opens what is left, as it is and without what was not synced."""
        for call in self.calls.noted("house"):
            disk.call(*call)
        for contents in (self.calls.contents("house"), disk.left([])):
            found = self.calls.look(contents)
            check(f"{name}: one of {allowed}", (found, found in allowed), (found, True))
            self.found[name]["after" if found == allowed[-1] else "before"] += 1

    def make(self):
        """Stops `init`."""
        calls = self.calls
        calls.lay("house", (b"", b""))
        check("made", calls.noting().ended("init", "house", *calls.init), (0, b"created\n", b""))
        for stop in self.places(1, len(calls.noted())):
            self.stops += 1
            calls.lay("house", (b"", b""))
            ending = calls.noting(STOP=str(stop)).ended("init", "house", *calls.init)
            made = ending == (0, b"created\n", b"")
            check(f"init, stopped at {stop}", ending if not made else fault("file: Store"), fault("file: Store"))
            self.judge("init", Disk((b"", b"")), [0] if made else [NONE, 0])

    def session(self, place, stop):
        """Serves a command, two messages after it, and a read on another connection, unless the store failed before: what these
        are answered, and how serving ends."""
        calls = self.calls
        calls.lay("house", calls.states[place][0])
        with calls.noting(**stop).serving("house", 2) as server:
            self.opening = len(calls.trace.read_bytes())
            replies = on_one_connection(server.port, COMMANDS[place]) if server.is_listening else [FAILED]
            if FAILED not in replies:
                replies.append(exchange(server.port, READ))
        return replies if server.is_listening else [], server.ending

    def serve(self, place):
        """Stops `serve` of one command, in its opening only of the first."""
        calls, name = self.calls, COMMANDS[place].split(b" HTTP")[0].decode()
        own, _ = self.session(place, {})
        trace = calls.trace.read_bytes()[:self.opening]
        last = len(calls.noted())
        calls.trace.write_bytes(trace)
        first = len(calls.noted()) + 1
        for stop in self.places(1 if place == 0 else first, last, place):
            self.stops += 1
            replies, ending = self.session(place, {"STOP": str(stop)})
            if not replies:
                check(f"{name}, stopped at {stop}", ending, fault("file: Store"))
            else:
                # The call may be one of the end, which nobody is answered.
                endings = [STORE_FAILED] if FAILED in replies else [STORE_FAILED, served(2)]
                check(f"{name}, stopped at {stop}, ends", ending in endings or ending, True)
                first = replies.index(FAILED) if FAILED in replies else len(replies)
                check(f"{name}, stopped at {stop}, answers", replies, own[:first] + [FAILED] * (len(replies) - first))
            acted = bool(replies) and replies[0] == own[0]
            self.judge(name, Disk(calls.states[place][0]), [place + 1] if acted else [place, place + 1])

    def upgrade(self, kept):
        """Stops `upgrade` of a kept house."""
        calls, versions = self.calls, Versions(self.calls, kept)
        calls.lay("house", versions.first)
        check("upgraded", calls.noting().ended("upgrade", "house"), UPGRADED)
        for stop in self.places(1, len(calls.noted())):
            self.stops += 1
            calls.lay("house", versions.first)
            ending = calls.noting(STOP=str(stop)).ended("upgrade", "house")
            check(f"upgrade, stopped at {stop}", ending, UPGRADED if ending == UPGRADED else fault("file: Store"))
            disk = Disk(versions.first)
            for call in calls.noted("house"):
                disk.call(*call)
            for contents in (calls.contents("house"), disk.left([])):
                version = versions.look(contents)
                check(f"upgrade, stopped at {stop}: {version}", version in ([2] if ending == UPGRADED else [1, 2]), True)
                self.found[f"upgrade of {kept}"]["after" if version == 2 else "before"] += 1


def main():
    every = int(sys.argv[2]) if len(sys.argv) > 2 else 1
    with prepared(sys.argv[1]) as calls:
        stops = Stops(calls, every)
        stops.make()
        for place in range(len(COMMANDS)):
            stops.serve(place)
        for kept in ("house", "stopped"):
            stops.upgrade(kept)
    with prepared(sys.argv[1], SPOILED) as calls:
        spoiled = Stops(calls, 4 * every)
        for place in range(SPOILED[0], len(COMMANDS)):
            spoiled.serve(place)
    for house, run in (("", stops), (", a row spoiled", spoiled)):
        for name, found in run.found.items():
            print(f"{name}{house}: {found['before']} before, {found['after']} after")
    return verdict(f"{stops.stops + spoiled.stops} stops")


if __name__ == "__main__":
    sys.exit(main())
