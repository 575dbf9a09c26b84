"""A program that runs under callgrind, which counts the statements that it makes of a house in a file."""
import pathlib
import re
import shutil

from lib.checks import check
from lib.serving import Program, message, served

BINDS = "sqlite::connection::Connection::bind"
INIT = ["--bands", "bands.csv", "--rate", "1000", "--zone", "UTC0"]
ITEMS = 60
SETUP = b"".join([
    message("POST", "/members", 0, 1000, '{"name":"Ana"}'),
    message("POST", "/members", 0, 1000, '{"name":"Ben"}'),
    message("POST", "/categories", 0, 1000, '{"name":"Books"}'),
    *(message("POST", "/bands", 0, 1000, '{"bands":[{"at":0,"step":%d}]}' % step) for step in (5, 9)),
    *(message("POST", "/items", 1, 1000,
              f'{{"category":1,"end":5000,"lot":"A{number}","reserve":600,"start":500,"text":"","title":"Atlas"}}')
      for number in range(1, ITEMS + 1)),
    *(message("POST", f"/items/{number}/bids", 2, 1001, '{"maximum":700}') for number in range(1, ITEMS + 1)),
])


def calls(dump, name):
    """How often a function was called, by what callgrind wrote."""
    names, called, count = {}, None, 0
    for line in dump.read_text().splitlines():
        if line.startswith("cfn="):
            number, given = re.fullmatch(r"cfn=\((\d+)\)(?: (.*))?", line).groups()
            called = names.setdefault(number, given)
        elif line.startswith("fn="):
            number, given = re.fullmatch(r"fn=\((\d+)\)(?: (.*))?", line).groups()
            names.setdefault(number, given)
        elif line.startswith("calls=") and re.split(r"::<|'", called)[0] == name:
            count += int(line[6:].split()[0])
    return count


class Counted:
    """A program that runs under callgrind, over a house with items and bids."""

    def __init__(self, path, folder):
        self.folder, self.dump = pathlib.Path(folder), pathlib.Path(folder, "dump")
        (self.folder / "bands.csv").write_text("at,step\n0,5\n100,25\n500,50\n")
        plain = Program(path, folder)
        check("made", plain.ended("init", "house", *INIT), (0, b"created\n", b""))
        check("set up", plain.answers("house", [SETUP])[1], served(1))
        watched = self.folder / "watched"
        watched.write_text(f"#!/bin/sh\nexec valgrind --tool=callgrind --callgrind-out-file={self.dump} '{path}' \"$@\"\n")
        watched.chmod(0o755)
        self.program = Program(str(watched), folder)

    def statements(self, stream):
        """How many statements answering a stream takes, with the opening of the house."""
        shutil.copy(self.folder / "house", self.folder / "copy")
        replies, ending = self.program.answers("copy", [stream])
        check("ended", ending[:2], served(1)[:2])
        return replies[0], calls(self.dump, BINDS)
