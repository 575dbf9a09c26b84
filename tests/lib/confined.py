"""Processes that may do less: of another user, with short files, or with a full output."""
import os
import resource
import signal
import subprocess

from lib.sent import PATIENCE

NOBODY = 65_534


def limited(size):
    """What keeps a process from making a file longer than so many bytes: it gets an error, as of a full disk."""
    def limit():
        signal.signal(signal.SIGXFSZ, signal.SIG_IGN)
        resource.setrlimit(resource.RLIMIT_FSIZE, (size, size))
    return limit


def as_nobody():
    """Makes a process nobody's, if it was the superuser's."""
    if os.geteuid() == 0:
        os.setgroups([])
        os.setgid(NOBODY)
        os.setuid(NOBODY)


def on_full_device(program, *words):
    """How a run ends whose output is full."""
    with open("/dev/full", "wb") as full:
        result = subprocess.run([program.path, *words], cwd=program.folder, stdout=full, stderr=subprocess.PIPE,
                                timeout=PATIENCE)
    return result.returncode, result.stderr
