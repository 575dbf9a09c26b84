#!/usr/bin/env python3
"""Refuses each allocation of the reading of messages in turn: `refused_asks.py PROGRAM`.

The program is that of the crate `test_messages`, and tells what each message of a script asks. A run that is refused memory ends
with status 1 and `test_messages: memory is wanted`, and what it printed before is as ever. So it has to be for each message of
the script: those of one field, of many, with an escape and with an object inside, a read and a fault. It needs a C compiler,
`cc`. The last line is 'N runs, M wrong'.

Promise: safe and total
"""
import pathlib
import sys

from lib.refusal import built_library, ended, refused_runs, report, run

SCRIPT = r"""
section asks
send POST /members
head \r\nx-member: 0\r\nx-moment: 1000
body {"name":"Ana"}
body {"name":"A\x5cu006ea"}
body {"name":"Ana","of":{"age":[1,2]}}
body {"name":7}
send POST /items
head \r\nx-member: 1\r\nx-moment: 1000
body {"category":1,"end":5000,"lot":"A1","start":500,"text":"Good.","title":"Atlas","buy_now":2000,"reserve":900}
send POST /items/1/bids
body {"maximum":500}
body { "maximum":500}
send POST /items/1/questions
body {"text":"Is it signed?"}
send POST /items/1/questions/3/4/answer
body {"text":"1952"}
send POST /items/1/feedback
body {"rating":1,"text":"fine"}
send GET /items/1
body
send GET /nowhere
body
""".lstrip()
MESSAGES = SCRIPT.count("\nbody")
WANTED = b"test_messages: memory is wanted\n"
UNREAD = b"test_messages: a line is no part of a script\n"


def is_right(result, whole):
    status, answers, fault = result
    if fault == UNREAD:
        return (status, answers) == (1, b"")
    lines = whole.splitlines(keepends=True)
    return (status, fault) == (1, WANTED) and answers == b"".join(lines[:answers.count(b"\n")])


def main():
    program = str(pathlib.Path(sys.argv[1]).resolve())
    whole = run([program], SCRIPT.encode()).stdout
    if whole.count(b"\n") != MESSAGES:
        sys.exit("refused_asks.py: not every message is reported")
    with built_library() as library:
        refused = list(refused_runs([program], library, SCRIPT.encode()))
    wrong = [(number, result) for number, result in refused if not is_right(ended(result), whole)]
    ends = {result.stdout.count(b"\n") for _, result in refused}
    print(f"{len(ends)} of {MESSAGES} messages were refused memory")
    return report(len(refused), wrong) or ends != set(range(MESSAGES))


if __name__ == "__main__":
    sys.exit(main())
