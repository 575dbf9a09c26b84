"""PostgreSQL from Debian's package `postgresql-15`, in a cluster of its own, asked through `psql`.

The cluster has the settings that it comes with, so a commit is on the disk before it is answered: `fsync` and `synchronous_commit`
are on. It listens on 127.0.0.1, as the house does. Root runs it as the user postgres, whom the package makes.
"""
import contextlib
import os
import pathlib
import shutil
import subprocess
import sys
import time

from auctionmark_stream import COMMANDS
from lib.serving import held_port

SCHEMA = pathlib.Path(__file__).with_suffix(".sql")
MAKER = next(iter(sorted(pathlib.Path("/usr/lib/postgresql").glob("*/bin/initdb"), reverse=True)), None)
PSQL = ["psql", "-qAtX", "-v", "ON_ERROR_STOP=1"]


def is_there():
    return MAKER is not None and shutil.which("psql") is not None


def values(message):
    """What a message's function is given."""
    return [message.member, *([message.moment] if message.name in COMMANDS else []), *message.words, *message.body.values()]


def literal(value):
    return str(value) if isinstance(value, int) else "'{}'".format(value.replace("'", "''"))


def call(message):
    return f"execute do_{message.name}({', '.join(map(literal, values(message)))});\n"


def preparations(messages):
    """What a session begins with, so that each call is read and planned once."""
    counts = {message.name: len(values(message)) for message in messages}
    return "".join(f"prepare do_{name} as select house_{name}({', '.join(f'${place + 1}' for place in range(count))});\n"
                   for name, count in counts.items())


class Cluster:
    """A cluster that runs."""

    def __init__(self, folder, port):
        self.folder = folder
        self.user = ["setpriv", "--reuid=postgres", "--regid=postgres", "--init-groups"] if os.getuid() == 0 else []
        self.environment = {**os.environ, "PGHOST": "127.0.0.1", "PGPORT": str(port), "LC_ALL": "C.UTF-8",
                            **({"PGUSER": "postgres"} if self.user else {})}

    def run(self, *words, text=""):
        result = subprocess.run([*self.user, *map(str, words)], cwd=self.folder, env=self.environment, input=text.encode(),
                                stdout=subprocess.PIPE, stderr=subprocess.STDOUT)
        if result.returncode:
            sys.exit(f"postgres.py: {words[0]}: {result.stdout[-500:].decode()}")
        return result.stdout

    def psql(self, database, text):
        return self.run(*PSQL, "-d", database, text=text)

    def load(self, database, messages):
        """Makes a database in which the messages were answered; their answers."""
        self.psql("postgres", f"create database {database}")
        self.psql(database, SCHEMA.read_text())
        calls = "".join(map(call, messages))
        answers = self.psql(database, f"{preparations(messages)}begin;\n{calls}commit;\n").splitlines()
        self.psql(database, "vacuum full analyze")
        return answers

    def timed(self, database, messages):
        """The seconds that messages take over a copy of a database, each answered before the next is sent; their answers."""
        self.psql("postgres", f"drop database if exists copy;\ncreate database copy template {database};\ncheckpoint;\n")
        first, seconds = preparations(messages), []
        for calls in "", "".join(map(call, messages)):
            began = time.monotonic()
            answers = self.psql("copy", first + calls)
            seconds.append(time.monotonic() - began)
        return seconds[1] - seconds[0], answers.splitlines()


@contextlib.contextmanager
def running(folder):
    """A cluster in a folder, which it may write."""
    programs = MAKER.parent
    with held_port() as port:
        cluster = Cluster(folder, port)
        if cluster.user:
            shutil.chown(folder, "postgres", "postgres")
        cluster.run(MAKER, "-D", folder / "data", "-A", "trust", "-N", "-E", "UTF8")
        options = f"-k {folder} -h 127.0.0.1 -p {port}"
        cluster.run(programs / "pg_ctl", "-D", folder / "data", "-w", "-l", folder / "log", "-o", options, "start")
        try:
            yield cluster
        finally:
            cluster.run(programs / "pg_ctl", "-D", folder / "data", "-m", "fast", "-w", "stop")
