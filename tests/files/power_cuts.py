#!/usr/bin/env python3
"""Models power cuts of `init`, `serve` and `upgrade`: `power_cuts.py PROGRAM [EVERY]`. It needs a C compiler, `cc`.

The calls on its files of a house that is made, served all thirteen commands and ended are noted once. After each of them, or each
EVERYth, the power is cut: what was synced is there, and of the changes since then nothing, all, each beginning, all but any one,
any one alone, those of either file alone, and every other sector of all. Each pair of files that may be left is opened by SQLite,
which has to find a sound database, and by the program: both have to find the house after the commands that were answered, or
after one more, and the program has to take another command. Files of a house that was being made hold no house, and one can be
made there, or a house with no history. So it is with the calls of an upgrade of each house of version 1 that is kept: what is
left is the house as it was or as it is upgraded, and the program upgrades it, or finds it of version 2. The last line is 'N
calls, C cuts, F pairs of files, M of them with one command more than answered, W wrong'.

The model takes a sync at its word, and a device to finish each sector of 512 bytes that it begins; no power is cut, and no device
is tested.

Promise: bytes to bytes
"""
import socket
import sys

from lib.checks import check, verdict
from lib.file_calls import COMMANDS, NONE, Disk, Versions, prepared
from lib.first_version import UPGRADED
from lib.growing import Client
from lib.serving import served


class Cuts:
    def __init__(self, calls, every):
        self.calls, self.every = calls, every
        self.count = self.cuts = self.more = 0

    def follow(self, disk, calls, counts):
        """Cuts the power after each call, where so many commands may be found."""
        for call in calls:
            disk.call(*call)
            self.count += 1
            if self.count % self.every == 0:
                self.cut(disk, counts)

    def cut(self, disk, counts):
        self.cuts += 1
        for contents in disk.cuts():
            before = len(self.calls.found)
            found = self.calls.look(contents)
            self.more += len(self.calls.found) > before and found == counts[-1] != counts[0]
            check(f"after {self.count} calls one of {counts}", (found, found in counts), (found, True))

    def parts(self):
        """Makes, serves and ends a house. Gives the calls of each part, with the numbers of commands that may be found in it and
        after it."""
        calls, traced = self.calls, self.calls.noting()
        check("made", traced.ended("init", "house", *calls.init), (0, b"created\n", b""))
        yield calls.noted("house"), [NONE, 0], [0]
        with traced.serving("house", 1) as server:
            client = Client(server.port)
            yield calls.noted("house"), [0], [0]
            for answered, text in enumerate(COMMANDS):
                check("accepted", client.asks(text), True)
                yield calls.noted("house"), [answered, answered + 1], [answered + 1]
            client.connection.shutdown(socket.SHUT_WR)
        check("served", server.ending, served(1))
        yield calls.noted("house"), [len(COMMANDS)], [len(COMMANDS)]

    def run(self):
        disk = Disk((b"", b""))
        # All calls are made before the first cut, since a connection that waits is ended.
        for calls, within, later in list(self.parts()):
            self.follow(disk, calls, within)
            self.cut(disk, later)


class UpgradeCuts(Cuts):
    """Cuts the power in the upgrade of a kept house, where one version or the other is found."""

    def __init__(self, calls, every, kept):
        super().__init__(calls, every)
        self.kept, self.versions = kept, Versions(calls, kept)

    def cut(self, disk, versions):
        self.cuts += 1
        for contents in disk.cuts():
            version = self.versions.look(contents)
            check(f"{self.kept}: after {self.count} calls one of {versions}", (version, version in versions), (version, True))

    def run(self):
        self.calls.lay("house", self.versions.first)
        check("upgraded", self.calls.noting().ended("upgrade", "house"), UPGRADED)
        disk = Disk(self.versions.first)
        self.follow(disk, self.calls.noted("house"), [1, 2])
        self.cut(disk, [2])
        found = list(self.versions.found.values())
        print(f"upgrade of {self.kept}: {self.count} calls, {self.cuts} cuts, {len(found)} pairs of files, {found.count(2)} of "
              f"them of version 2")


def main():
    with prepared(sys.argv[1]) as calls:
        every = int(sys.argv[2]) if len(sys.argv) > 2 else 1
        cuts = Cuts(calls, every)
        cuts.run()
        for kept in ("house", "stopped"):
            UpgradeCuts(calls, every, kept).run()
    return verdict(f"{cuts.count} calls, {cuts.cuts} cuts, {len(calls.found)} pairs of files, {cuts.more} of them with one command "
                   "more than answered")


if __name__ == "__main__":
    sys.exit(main())
