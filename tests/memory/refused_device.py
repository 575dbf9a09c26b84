#!/usr/bin/env python3
"""Refuses each allocation of a sink in memory in turn: `refused_device.py PROGRAM`.

The program is that of the crate `test_values`. A run that is refused memory ends before its next answer, with status 1 and
`test_values: memory is wanted`; or a sink was to grow, and then it has failed: from that line on each call of it is
`Err(Failure)`, and it has a beginning of the bytes that it was given, in order. Or all lines are answered as ever, where the
memory was not needed. It needs a C compiler, `cc`. The last line is 'N runs, M wrong'.

Promise: safe and total
"""
import pathlib
import re
import sys

from lib.refusal import built_library, ended, refused_runs, report, run

SCRIPT = """\
section devices
sink - -
give 100
all 99
all 1000
flush
bytes
sink 7 -
all 93
bytes
all 5000
flush
bytes
"""
WANTED = b"test_values: memory is wanted\n"
UNREAD = b"test_values: a line is no part of a script\n"


def stopped(result, whole):
    """Whether a run ended before an answer."""
    status, answers, fault = result
    if fault == UNREAD:
        return (status, answers) == (1, b"")
    return (status, fault) == (1, WANTED) and whole.startswith(answers)


def sinks(answers):
    """The answers to the calls of each sink."""
    lines = answers.decode().splitlines()
    return lines[:5], lines[5:]


def failed(answers, whole):
    """Whether a sink's answers are those of one that has failed at a call, and had a beginning by then."""
    has_failed = False
    for answer, expected in zip(answers, whole):
        count = re.fullmatch(r"(\d+) in order", answer)
        if count:
            if int(count[1]) > int(expected.split()[0]):
                return False
        elif answer == "Err(Failure)":
            has_failed = True
        elif has_failed or answer != expected:
            return False
    return has_failed and len(answers) == len(whole)


def is_right(result, whole):
    status, answers, fault = result
    if result == whole or stopped(result, whole[1]):
        return True
    return (status, fault) == (0, b"") and all(
        sink == expected or failed(sink, expected)
        for sink, expected in zip(sinks(answers), sinks(whole[1])))


def main():
    program = str(pathlib.Path(sys.argv[1]).resolve())
    whole = ended(run([program], SCRIPT.encode()))
    with built_library() as library:
        refused = list(refused_runs([program], library, SCRIPT.encode()))
    wrong = [(number, result) for number, result in refused if not is_right(ended(result), whole)]
    failures = sum(b"Err(Failure)" in result.stdout for _, result in refused)
    print(f"{failures} sinks failed")
    return report(len(refused), wrong) or failures == 0


if __name__ == "__main__":
    sys.exit(main())
