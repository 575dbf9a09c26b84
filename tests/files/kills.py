#!/usr/bin/env python3
"""Kills `serve` and `upgrade` at random moments, and looks what is left: `kills.py PROGRAM [KILLS [SEED]]`.

A client sends commands one after the other, each of which makes one row, and counts those that were answered. The server is
killed by SIGKILL, and the house's file with its log has to be sound for SQLite, and to hold what the commands that were answered
make, each item with its reserve, or one command more: the rows of a house that took as many and was never killed. Then the same
file is served again. This shows a killed process, not a power cut: what was written is there though nobody had synced it. A
quarter as many servers are killed over a house in which the row of the first item is one of no house's, which stays as it is.

As many upgrades of each house of version 1 that is kept are killed within the time that one takes. Each leaves the house as it
was, or upgraded, and it is then upgraded, or of version 2. A line tells how many left which. KILLS is 200 without it. The last
line is 'K kills, N commands, M of them more than answered, W wrong'.

Promise: bytes to bytes
"""
import pathlib
import random
import subprocess
import sys
import tempfile
import threading
import time

from lib.checks import check, verdict
from lib.first_version import IS_VERSION_2, UPGRADED, found, laid, upgraded
from lib.growing import Client, commands, made
from lib.house_files import change, rows
from lib.serving import SETTINGS, Program, served

# The most that passes before a server is killed, in seconds.
LONGEST = 0.08
# After how many commands a row is spoiled that no later one names: the price of an item is then that of no bids.
SPOILED = 8, "UPDATE item SET price = price + 1 WHERE id = 1"


class Kills:
    def __init__(self, program, folder, seed):
        self.program, self.folder, self.random = program, folder, random.Random(seed)
        self.texts, self.cached = commands(), []
        self.answered = self.whole = self.more = 0
        for file in ("killed", "whole"):
            for ending in ("", "-wal"):
                (folder / (file + ending)).unlink(missing_ok=True)
            check(f"{file} made", program.ended("init", file, "--bands", "bands.csv", *SETTINGS),
                  (0, b"created\n", b""))

    def spoil(self, count, statement):
        """Has both houses take so many commands, and a row of each spoiled."""
        stream = b"".join(self.text(number) for number in range(count))
        for file in ("killed", "whole"):
            _, ending = self.program.answers(file, [stream])
            check("spoiled later", ending, served(1))
            change(self.folder / file, statement)
        self.answered = self.whole = count

    def text(self, place):
        while len(self.cached) <= place:
            self.cached.append(next(self.texts).text())
        return self.cached[place]

    def kill_once(self):
        """Sends commands until the server is killed."""
        with self.program.serving("killed", 1) as server:
            client = Client(server.port)
            timer = threading.Timer(self.random.uniform(0, LONGEST), server.process.kill)
            timer.start()
            while client.asks(self.text(self.answered)):
                self.answered += 1
            timer.join()

    def catch_up(self, count):
        """Has the house that is never killed take commands up to a number."""
        replies, ending = self.program.answers("whole", [b"".join(self.text(n) for n in range(self.whole, count))])
        check("never killed", ending, served(1))
        self.whole = count

    def look(self):
        """Compares the killed house with the one that is never killed."""
        tables = rows(self.folder, "killed")
        count = made(tables)
        check("commands", count - self.answered in (0, 1), True)
        self.more += count - self.answered
        self.answered = count
        self.catch_up(count)
        check("rows", tables, rows(self.folder, "whole"))


class Upgrades:
    """Upgrades of a kept house, which are killed."""

    def __init__(self, program, folder, seed, kept):
        self.program, self.path, self.random, self.kept = program, folder / kept, random.Random(seed), kept
        self.first = found(laid(kept, self.path))[1]
        self.second = upgraded(self.first)
        begun = time.monotonic()
        check("upgraded", program.ended("upgrade", kept), UPGRADED)
        self.longest = time.monotonic() - begun
        # How many were of which version, and of how many of these the program reported so.
        self.left, self.reported = {1: 0, 2: 0}, 0

    def kill_once(self):
        """Upgrades the house until the program is killed, and looks what is left."""
        laid(self.kept, self.path)
        process = subprocess.Popen([self.program.path, "upgrade", self.kept], cwd=self.path.parent, stdout=subprocess.PIPE)
        time.sleep(self.random.uniform(0, self.longest))
        process.kill()
        printed = process.communicate()[0]
        rows = found(self.path)[1]
        check("printed", printed, UPGRADED[1] if printed and rows == self.second else b"")
        check("one or the other", rows in (self.first, self.second), True)
        self.left[1 if rows == self.first else 2] += 1
        self.reported += bool(printed)
        check("again", self.program.ended("upgrade", self.kept), UPGRADED if rows == self.first else IS_VERSION_2)
        check("whole", found(self.path)[1], self.second)


def main():
    kills, seed = (int(word) for word in (sys.argv[2:] + ["200", "2026"][len(sys.argv) - 2:]))
    with tempfile.TemporaryDirectory() as path:
        folder = pathlib.Path(path)
        (folder / "bands.csv").write_text("at,step\n0,5\n100,25\n500,50\n")
        program = Program(str(pathlib.Path(sys.argv[1]).resolve()), path)
        answered = more = 0
        for times, spoiled in ((kills, ()), (-(-kills // 4), SPOILED)):
            run = Kills(program, folder, seed)
            if spoiled:
                run.spoil(*spoiled)
            for _ in range(times):
                run.kill_once()
                run.look()
            answered, more = answered + run.answered, more + run.more
        for kept in ("house", "stopped"):
            upgrades = Upgrades(program, folder, seed, kept)
            for _ in range(kills):
                upgrades.kill_once()
            print(f"{kills} upgrades of {kept}: {upgrades.left[1]} of version 1, {upgrades.left[2]} of version 2, of which "
                  f"{upgrades.reported} had reported so")
    return verdict(f"{kills + -(-kills // 4)} kills, {answered} commands, {more} of them more than answered")


if __name__ == "__main__":
    sys.exit(main())
