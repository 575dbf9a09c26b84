#!/usr/bin/env python3
"""Makes the houses that tests/lib/version-1 keeps: `make_first_version.py PROGRAM`, with a program of version 1.

Both take the commands of tests/lib/routes.py, so that they have a row of every kind. `house` was served to its end, and is the
house alone. The server of `stopped` got SIGTERM, so that the log beside it belongs to it.

Promise: none
"""
import pathlib
import shutil
import signal
import sys
import tempfile

from lib.checks import RUN, check
from lib.first_version import KEPT, by_key, found, plain_rows
from lib.plain_house import BANDS
from lib.plain_site import setup
from lib.routes import commands
from lib.serving import Program, exchange, served


def messages():
    return b"".join(request.text() for request in (*setup(), *commands()))


def make(program):
    """Makes both houses."""
    init = ["--bands", "bands.csv", "--rate", "1000", "--zone", "UTC0"]
    for name in ("house", "stopped"):
        check(f"{name} made", program.ended("init", name, *init), (0, b"created\n", b""))
    _, ending = program.answers("house", [messages()])
    check("served", ending, served(1))
    with program.serving("stopped", 2) as server:
        exchange(server.port, messages())
        server.process.send_signal(signal.SIGTERM)
        server.process.wait()
    check("stopped", server.ending, (-signal.SIGTERM, b"listening\n", b""))


def main():
    with tempfile.TemporaryDirectory() as name:
        folder = pathlib.Path(name)
        (folder / "bands.csv").write_text("at,step\n" + "".join(f"{at},{step}\n" for at, step in BANDS))
        make(Program(str(pathlib.Path(sys.argv[1]).resolve()), name))
        KEPT.mkdir(exist_ok=True)
        for file in ("house", "stopped", "stopped-wal"):
            shutil.copy(folder / file, KEPT / file)
    for kept in ("house", "stopped"):
        check(f"{kept}: the rows", by_key(found(KEPT / kept)[1]), plain_rows())
    return 1 if RUN.wrong() else 0


if __name__ == "__main__":
    sys.exit(main())
