"""The calls of the program on the two files of a house, noted or stopped, and what of its writes a power cut leaves.

It needs a C compiler, `cc`.
"""
import contextlib
import hashlib
import os
import pathlib
import subprocess
import tempfile

from lib.checks import check
from lib.first_version import IS_VERSION_2, UPGRADED, found, laid, upgraded
from lib.house_files import change, rows
from lib.places import LIB
from lib.serving import MESSAGES, READS, SETTINGS, SIGHTS, Program, exchange, fault, message, served

# All thirteen commands, none of them refused; the close closes three items.
COMMANDS = [text for text in MESSAGES[:-len(READS)] if b'"maximum":400' not in text]
CLOSE = next(place for place, text in enumerate(COMMANDS) if text.startswith(b"POST /close "))
COMMANDS[CLOSE:CLOSE] = [
    message("POST", "/items", 1, 1005,
            '{"category":1,"end":5000,"lot":"%s","reserve":%s,"start":500,"text":"","title":"Map"}' % row)
    for row in (("C3", "900"), ("D4", "null"))]
NEXT = message("POST", "/members", 0, 9000, '{"name":"Zoe"}')
# After how many commands a row is spoiled that no later one names: item 2 was bought at another price.
SPOILED = 13, "UPDATE item SET price = price + 1 WHERE id = 2"
BANDS = "at,step\n0,5\n100,25\n500,50\n"
FILES = ("", "-wal")
# A device finishes each sector that it begins.
SECTOR = 512
# What is found where a house can be made.
NONE = -1


def torn(old, new, first):
    """What is left where every other sector is the old one, and junk where there was none."""
    old += b"\xa5" * max(0, len(new) - len(old))
    return b"".join((old if at // SECTOR % 2 == first else new)[at:at + SECTOR] for at in range(0, len(new), SECTOR))


def put(content, kind, place, data):
    """A file's content after one call."""
    filled = content[:place] + bytes(max(0, place - len(content)))
    return filled if kind == "length" else filled + data + content[place + len(data):]


class Disk:
    """Two files: what of each is synced, and the changes since, in their order."""

    def __init__(self, contents):
        self.synced, self.later = list(contents), []

    def call(self, kind, file, place, data):
        if kind == "sync":
            self.synced[file] = self.left([change for change in self.later if change[1] == file])[file]
            self.later = [change for change in self.later if change[1] != file]
        elif kind != "read":
            self.later.append((kind, file, place, data))

    def left(self, changes):
        """The files where of the changes since the syncs these are there."""
        contents = list(self.synced)
        for kind, file, place, data in changes:
            contents[file] = put(contents[file], kind, place, data)
        return tuple(contents)

    def cuts(self):
        """What a power cut may leave, by the ways to lose changes that are tried."""
        changes = self.later
        yield from (self.left(changes[:count]) for count in range(len(changes) + 1))
        for number, change in enumerate(changes):
            yield self.left(changes[:number] + changes[number + 1:])
            yield self.left([change])
        for file in range(len(FILES)):
            yield self.left([change for change in changes if change[1] == file])
        for first in range(2):
            yield tuple(torn(old, new, first) for old, new in zip(self.synced, self.left(changes)))


class Calls:
    """The program in a folder, and the same with its calls on files noted. Where a row is spoiled after so many commands, by a
    statement, it is so in each house that took as many or more."""

    def __init__(self, path, folder, library, spoiled=None):
        self.folder, self.library, self.spoiled = pathlib.Path(folder).resolve(), library, spoiled
        (self.folder / "bands.csv").write_text(BANDS)
        self.trace = self.folder / "calls"
        self.trace.touch()
        self.program = Program(path, self.folder)
        self.init = ["--bands", "bands.csv", *SETTINGS]
        # After each number of commands the files of the house, its rows by SQLite, and what it shows.
        self.states = [self.state(count) for count in range(len(COMMANDS) + 1)]
        # How many commands were found in each pair of files that was opened.
        self.found = {}

    def noting(self, **stop):
        """The program with its calls noted, which stops at a call if it is told to."""
        return Program(self.program.path, self.folder,
                       environment={"LD_PRELOAD": self.library, "CALLS": str(self.trace), **stop})

    def noted(self, name=None):
        """The calls that are new, of all files or on those of a name: kind, file, offset or length, and bytes."""
        paths = [str(self.folder / f"{name}{ending}") for ending in FILES]
        data, start, calls = self.trace.read_bytes(), 0, []
        while start < len(data):
            end = data.index(b"\n", start)
            kind, place, size, path = data[start:end].decode().split(" ", 3)
            start = end + 1 + int(size)
            if name is None or path in paths:
                calls.append((kind, paths.index(path) if name else path, int(place), data[end + 1:start]))
        os.truncate(self.trace, 0)
        return calls

    def contents(self, name):
        return tuple((self.folder / f"{name}{ending}").read_bytes() for ending in FILES)

    def lay(self, name, contents):
        for ending, content in zip(FILES, contents):
            (self.folder / f"{name}{ending}").write_bytes(content)

    def state(self, count):
        self.lay("state", (b"", b""))
        check("made", self.program.ended("init", "state", *self.init), (0, b"created\n", b""))
        _, ending = self.program.answers("state", [b"".join(COMMANDS[:count])])
        check("ended", ending, served(1))
        if self.spoiled and count >= self.spoiled[0]:
            change(self.folder / "state", self.spoiled[1])
        files = self.contents("state")
        replies, ending = self.program.answers("state", [b"".join(SIGHTS)])
        check("ended again", ending, served(1))
        return files, rows(self.folder, "state"), replies[0]

    def look(self, contents):
        """How many commands are found in two files, by the program and by SQLite, or NONE where a house can be made; the
        program has to take another command."""
        key = tuple(hashlib.sha256(content).digest() for content in contents)
        if key not in self.found:
            self.found[key] = self.opened(contents)
        return self.found[key]

    def opened(self, contents):
        self.lay("left", contents)
        self.lay("read", contents)
        with self.program.serving("left", 2) as server:
            shown = [exchange(server.port, text) for text in (b"".join(SIGHTS), NEXT)] if server.is_listening else []
        if not shown:
            check("no house", server.ending, fault("file: Damaged"))
            check("made there", self.program.ended("init", "left", *self.init), (0, b"created\n", b""))
            return NONE
        check("ended", server.ending, served(2))
        check("another command", shown[1][:12], b"HTTP/1.1 201")
        seen = rows(self.folder, "read"), shown[0]
        return next((count for count, state in enumerate(self.states) if state[1:] == seen), None)


class Versions:
    """Which version is found of a kept house that is being upgraded."""

    def __init__(self, calls, kept):
        self.calls, self.found = calls, {}
        self.rows = found(laid(kept, calls.folder / "house"))[1]
        self.upgraded = upgraded(self.rows)
        (calls.folder / "house-wal").touch()
        self.first = calls.contents("house")

    def look(self, contents):
        """The version in two files, by SQLite and by the program, after which all of the house is there."""
        key = tuple(hashlib.sha256(content).digest() for content in contents)
        if key not in self.found:
            self.calls.lay("left", contents)
            path = self.calls.folder / "left"
            version = {repr(self.rows): 1, repr(self.upgraded): 2}.get(repr(found(path)[1]))
            check("upgraded then", self.calls.program.ended("upgrade", "left"), UPGRADED if version == 1 else IS_VERSION_2)
            check("its rows", found(path)[1], self.upgraded)
            self.found[key] = version
        return self.found[key]


@contextlib.contextmanager
def prepared(path, spoiled=None):
    """The program of a path in a folder that goes again."""
    with tempfile.TemporaryDirectory() as folder:
        library = f"{folder}/calls.so"
        subprocess.run(["cc", "-shared", "-fPIC", "-O1", "-o", library, str(LIB / "file_calls.c"), "-ldl"], check=True)
        yield Calls(str(pathlib.Path(path).resolve()), folder, library, spoiled)
