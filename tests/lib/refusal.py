"""Runs of a program with each of its allocations refused in turn. It needs a C compiler, `cc`."""
import concurrent.futures
import contextlib
import os
import subprocess
import tempfile

from lib.places import LIB
from lib.sent import PATIENCE

def run(command, given=b"", **environment):
    return subprocess.run(command, input=given, capture_output=True,
                          env={**os.environ, **environment}, timeout=PATIENCE)


@contextlib.contextmanager
def built_library():
    """The library that refuses, built from refuse_allocation.c into a folder that goes again."""
    with tempfile.TemporaryDirectory() as folder:
        library = f"{folder}/refuse.so"
        subprocess.run(["cc", "-shared", "-fPIC", "-O1", "-o", library,
                        str(LIB / "refuse_allocation.c"), "-ldl"], check=True)
        yield library


def in_turn(call, numbers, at_once=os.cpu_count()):
    """What a call gives for each number, in their order; so many are called at once, or as many as there are processors."""
    with concurrent.futures.ThreadPoolExecutor(at_once) as pool:
        yield from pool.map(call, numbers)


def refused_runs(command, library, given=b"", every=1):
    """For each allocation of a command, or one in so many, its number, counted from 1, and the run that is refused it."""
    def refused(number):
        return number, run(command, given, LD_PRELOAD=library, REFUSE=str(number))

    return in_turn(refused, range(1, allocations(command, library, given) + 1, every))


def allocations(command, library, given=b""):
    """How many allocations a run of the command makes."""
    with tempfile.NamedTemporaryFile() as count:
        run(command, given, LD_PRELOAD=library, REFUSE="0", REFUSE_COUNT=count.name)
        return int(count.read())


def ended(result):
    """How a run ended: its status and what it wrote."""
    return result.returncode, result.stdout, result.stderr


def report(runs, wrong):
    """Prints which of so many runs were wrong, by what each was refused: the exit status."""
    for what, result in wrong:
        print(f"allocation {what}: {result}")
    print(f"{runs} runs, {len(wrong)} wrong")
    return 1 if wrong else 0
