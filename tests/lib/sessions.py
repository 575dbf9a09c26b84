"""Sessions of a shell in a page, played on the program."""
import os
import pathlib
import re
import subprocess
import tempfile

from lib.places import ROOT
from lib.serving import held_port

END = "--- the command has ended ---"
PORT = "8080"


def sessions(text):
    """Each session, as commands and what they print."""
    for block in re.findall(r"^```text\n(\$ .*?)^```$", text, re.M | re.S):
        parts = [part.split("\n", 1) for part in block.removeprefix("$ ").split("\n$ ")]
        yield [(command, printed.rstrip("\n")) for command, printed in (part + [""] * (2 - len(part)) for part in parts)]


class Shell:
    """A shell that runs commands; a pipe has what the one in the background prints."""

    def __init__(self, folder, program):
        (folder / "bin").mkdir()
        (folder / "bin" / "auction").symlink_to(pathlib.Path(program).resolve())
        for part in ("deploy", "examples"):
            (folder / part).symlink_to(ROOT / part)
        path = f"{folder / 'bin'}:{os.environ['PATH']}"
        self.process = subprocess.Popen(["bash"], cwd=folder, env={**os.environ, "PATH": path}, text=True,
                                        stdin=subprocess.PIPE, stdout=subprocess.PIPE, stderr=subprocess.STDOUT)
        self.pipe, self.background = folder / "bin" / "background", None
        os.mkfifo(self.pipe)

    def run(self, command):
        """What a command prints."""
        if command.endswith("&"):
            return self.begin(command.removesuffix("&"))
        self.send(f"{command}\necho; echo '{END}'\n")
        printed = "".join(iter(self.process.stdout.readline, f"{END}\n")).rstrip("\n")
        if self.background and command.endswith("wait"):
            with self.background:
                printed = f"{printed}\n{self.background.read()}".strip("\n")
            self.background = None
        return printed

    def begin(self, command):
        """The first line that a command prints which runs in the background."""
        self.send(f"{command} > '{self.pipe}' 2>&1 &\n")
        self.background = self.pipe.open()
        return self.background.readline().rstrip("\n")

    def send(self, text):
        self.process.stdin.write(text)
        self.process.stdin.flush()


def in_place(text, old, new):
    """A text in which another number is in the place of one."""
    return re.sub(rf"\b{old}\b", new, text)


def played(text, program):
    """Plays the sessions of a page: each command, what it printed, and what it has to print."""
    for session in sessions(text):
        with tempfile.TemporaryDirectory() as folder, held_port() as held:
            shell, port = Shell(pathlib.Path(folder), program), str(held)
            for command, wanted in session:
                yield command, in_place(shell.run(in_place(command, PORT, port)), port, PORT), wanted
            shell.process.communicate()
