#!/usr/bin/env python3
"""Refuses each allocation of a run of three messages in turn: `refused_memory.py PROGRAM`.

The run is two bids and a read, by the example table and by one of a file, and with the public record. Each message has to be
answered 503, and has then not acted, or as in the run of the messages that were not answered 503, whose record follows; or the
run ends with `auction: memory`, and has written nothing, or these answers and no record. A run without random bytes ends so too,
and has written nothing. It needs a C compiler, `cc`. The last line is 'N runs, M wrong'.

Promise: safe and total, bytes to bytes
"""
import itertools
import pathlib
import re
import sys
import tempfile

from lib.refusal import built_library, ended, refused_runs, run

REFUSED = (b"HTTP/1.1 503 Service Unavailable\r\ncontent-type: application/json\r\n"
           b'content-length: 18\r\n\r\n{"error":"memory"}')


def bid(member, moment, maximum):
    body = b'{"maximum":%d}' % maximum
    return (b"POST /items/1/bids HTTP/1.1\r\nhost: h\r\nx-member: %d\r\nx-moment: %d\r\n"
            b"content-length: %d\r\n\r\n%s" % (member, moment, len(body), body))


MESSAGES = [bid(2, 1001, 500), bid(3, 1002, 1000),
            b"GET /items/1 HTTP/1.1\r\nhost: h\r\nx-member: 2\r\n\r\n"]


def allowed_outputs(command):
    """For each set of messages that find memory: their answers, and 503 for the others; and the record."""
    outputs = set()
    for kept in itertools.product([True, False], repeat=len(MESSAGES)):
        given = b"".join(itertools.compress(MESSAGES, kept))
        written = run([word for word in command if word != "--record"], given).stdout
        record = run(command, given).stdout[len(written):]
        answers = iter(re.findall(rb"HTTP/1\.1 .*?(?=HTTP/1\.1 |\Z)", written, re.S))
        outputs.add((b"".join(next(answers) if keep else REFUSED for keep in kept), record))
    return outputs


def refuse_each(command, library):
    """Refuses each allocation of a command in turn: how many runs there were, and how many wrong."""
    allowed = allowed_outputs(command)
    done = {(0, answers + record, b"") for answers, record in allowed}
    stopped = {(1, output, b"auction: memory\n")
               for output in [b"", *(answers for answers, record in allowed if record)]}
    runs = wrong = unavailable = stops = 0
    for number, result in refused_runs(command, library, b"".join(MESSAGES)):
        runs += 1
        unavailable += REFUSED in result.stdout
        ending = ended(result)
        stops += ending in stopped
        if ending not in done | stopped:
            wrong += 1
            print(f"allocation {number}: {result}")
    print(f"{unavailable} answered 503, {stops} ended with auction: memory")
    return runs, wrong + (unavailable == 0)


def refuse_random(command, library):
    """Refuses a command its random bytes: one run, and whether it was wrong."""
    result = run(command, b"".join(MESSAGES), LD_PRELOAD=library, REFUSE_RANDOM="1")
    is_wrong = ended(result) != (1, b"", b"auction: memory\n")
    if is_wrong:
        print(f"random bytes: {result}")
    return 1, is_wrong


def main():
    program = str(pathlib.Path(sys.argv[1]).resolve())
    with built_library() as library, tempfile.NamedTemporaryFile(suffix=".csv") as table:
        table.write(b"at,step\n0,100\n2000,100\n")
        table.flush()
        results = [refuse_each([program, "replay", "--preset", *more], library)
                   for more in ([], ["--bands", table.name], ["--record"])]
        results.append(refuse_random([program, "replay", "--preset"], library))
    runs, wrong = (sum(column) for column in zip(*results))
    print(f"{runs} runs, {wrong} wrong")
    return 1 if wrong else 0


if __name__ == "__main__":
    sys.exit(main())
