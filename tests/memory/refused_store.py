#!/usr/bin/env python3
"""Refuses allocations of a house's runs in a file, one in so many: `refused_store.py PROGRAM [EVERY [OPENING]]`.

The program is that of the crate `test_store`. With a refusal a house is made in a new file, and then asked without one: it
answers as the same house in memory does, which got every command but the one that was answered `Memory`. Then a house that is
there is asked with a refusal: the answers break off with status 1, or all come, and the file is as it was. So it is where no more
is asked than that it opens and tells its clock, with one allocation in OPENING refused. A run that ends with status 1 tells that
memory is wanted. EVERY and OPENING are 1 where they are left out. It needs a C compiler, `cc`. The last line is 'N runs, M
wrong'.

Promise: safe and total
"""
import contextlib
import pathlib
import shutil
import sys
import tempfile

from lib.house_lines import SCRIPT
from lib.refusal import allocations, built_library, in_turn, report, run

COMMANDS = [line for line in SCRIPT if not line.startswith("?") and line not in ("record", "fill")]
QUESTIONS = [line for line in SCRIPT if line.startswith("?")]
# A house's file, and its log, which belongs to it.
FILES = ("", "-wal")
# What a run tells that is out of memory: for the script itself, or for anything else.
WANTED = ("the script can't be read", "memory is wanted")


def answers(program, words, lines, **environment):
    """How a run ends that plays lines: its status, and its answers. Status 1 is only for memory that ran out."""
    result = run([program, *words], "\n".join(lines).encode(), **environment)
    fault = result.stderr.decode().strip().partition(": ")[2]
    status = "another fault" if result.returncode == 1 and fault not in WANTED else result.returncode
    return status, result.stdout.decode().splitlines()


def asked_without(program, place):
    """What the house in memory answers that didn't get the command at a place."""
    status, printed = answers(program, ["sqlite"], COMMANDS[:place] + COMMANDS[place + 1:] + QUESTIONS)
    return printed[-len(QUESTIONS):]


def made(program, library, number, folder, asked):
    """Makes a house with an allocation refused: whether it is then asked as it has to be, and which commands were refused."""
    path = f"{folder}/made{number}"
    with gone(path):
        return made_at(path, program, library, number, asked)


@contextlib.contextmanager
def gone(path):
    """Has a house's files go again."""
    try:
        yield
    finally:
        for ending in FILES:
            pathlib.Path(path + ending).unlink(missing_ok=True)


def made_at(path, program, library, number, asked):
    status, printed = answers(program, ["make", path], COMMANDS, LD_PRELOAD=library, REFUSE=str(number))
    if status == 1 and not printed:
        return True, []
    refused = [place for place, answer in enumerate(printed) if answer == "Memory"]
    place = refused[0] if refused else len(COMMANDS)
    right = (status == 0 and len(refused) <= 1 and len(printed) == len(COMMANDS)
             and answers(program, ["ask", path], QUESTIONS) == (0, asked[place]))
    return right, refused


def asked(program, library, number, folder, questions, whole):
    """Asks a copy of a house with an allocation refused: whether the answers are, or begin, those of the house."""
    path = f"{folder}/asked{number}"
    with gone(path):
        for ending in FILES:
            shutil.copy(f"{folder}/counted{ending}", path + ending)
        content = pathlib.Path(path).read_bytes()
        status, printed = answers(program, ["ask", path], questions, LD_PRELOAD=library, REFUSE=str(number))
        begun = status == 1 and printed == whole[:len(printed)] and len(printed) < len(whole)
        return (begun or (status, printed) == (0, whole)) and pathlib.Path(path).read_bytes() == content


def askings(program, library, folder, questions, whole, every):
    """Each run that is asked questions: its number, and whether it was as it has to be."""
    count = allocations([program, "ask", f"{folder}/counted"], library, "\n".join(questions).encode())

    def right(number):
        return asked(program, library, number, folder, questions, whole)

    numbers = range(1, count + 1, every)
    return zip(numbers, in_turn(right, numbers))


def runs(program, library, folder, every, opening):
    """Each run's number, whether it was as it has to be, and which commands it was refused."""
    without = {place: asked_without(program, place) for place in range(len(COMMANDS) + 1)}
    making = allocations([program, "make", f"{folder}/counted"], library, "\n".join(COMMANDS).encode())
    numbers = range(1, making + 1, every)
    for number, end in zip(numbers, in_turn(lambda number: made(program, library, number, folder, without), numbers)):
        yield f"{number} of making", *end
    whole = without[len(COMMANDS)]
    for number, right in askings(program, library, folder, QUESTIONS, whole, every):
        yield f"{number} of asking", right, []
    for number, right in askings(program, library, folder, QUESTIONS[:1], whole[:1], opening):
        yield f"{number} of opening", right, []


def main():
    program = str(pathlib.Path(sys.argv[1]).resolve())
    every, opening = (int(word) for word in [*sys.argv[2:], "1", "1"][:2])
    with built_library() as library, tempfile.TemporaryDirectory() as folder:
        ends = list(runs(program, library, folder, every, opening))
    refused = {place for _, _, places in ends for place in places}
    print(f"{len(refused)} of {len(COMMANDS)} commands were answered Memory")
    wrong = [(what, "wrong") for what, right, _ in ends if not right]
    return report(len(ends), wrong) or len(refused) < len(COMMANDS) - 2


if __name__ == "__main__":
    sys.exit(main())
