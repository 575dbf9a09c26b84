#!/usr/bin/env python3
"""Audits lists of messages over the house in a file: `living_house.py PROGRAM`.

A list is cut at each of its places: what comes before is answered by a house in a file, and what is left is audited over that
file. It has to get what `audit` prints of the whole lists over new houses, less the replies and places before the cut; and so a
raised bid. A house whose server was killed has some of its messages in its log alone: they count. The file and its log have to be
the same bytes afterwards, and of the same time; where there is no log, an empty one is made. Each fault of the file has its line,
and comes before those of the lists. While the house is served it is refused. Words that set up a new house are no words beside
`--house`. The last line is 'N checks, M wrong'.

Promise: isolation, surplus
"""
import pathlib
import signal
import sys
import tempfile

from lib.checks import check, verdict
from lib.sales import READ_ITEM, house, printed, written
from lib.serving import EXAMPLE, PRESET, Program, exchange, fault, message

INIT = ["--bands", "bands.csv", "--rate", "1000", "--zone", "UTC0"]
BEN, CID = "2", "3"
# What comes before both bids, and Ben's bid, which is the same in both lists.
FIRST = [*PRESET, message("POST", "/items/1/bids", 2, 1001, '{"maximum":1000}')]


def bid(maximum):
    return message("POST", "/items/1/bids", 3, 1002, '{"maximum":%d}' % maximum)


def files(folder, name):
    """The bytes and the times of a house's file and of its log."""
    there = sorted(folder.glob(f"{name}*"))
    return [(file.name, file.read_bytes(), file.stat().st_mtime_ns) for file in there]


def audit(program, left, right, member, *words):
    return program.ended("audit", left, right, "--member", member, *words)


def surplus(program, name, place, maximum, member, *words):
    return program.ended("surplus", name, "--place", str(place), "--maximum", str(maximum), "--member", member, *words)


def cut_lists(program, folder):
    """Lists that are cut at a place, over the house that their beginning makes."""
    for cut in range(len(FIRST) + 1):
        name, left = f"cut-{cut}", FIRST[cut:]
        own = sum(b"x-member: 2" in text for text in left)
        house(program, name, INIT, FIRST[:cut])
        for side, maximum in (("left", 3000), ("right", 8000), ("near", 1040)):
            written(folder, side, b"".join([*left, bid(maximum), READ_ITEM]))
        begun = files(folder, name)
        over = ["--house", name]
        result = audit(program, "left", "right", BEN, *over)
        check(f"{name}: equal", result, printed(b"equal, %d replies\n" % (own + 1)))
        there = files(folder, name)
        check(f"{name}: the file stays", there[0], begun[0])
        check(f"{name}: an empty log is made", [(file, data) for file, data, _ in there[1:]], [(f"{name}-wal", b"")])
        step = len(left) + 1
        check(f"{name}: apart for who bids", audit(program, "left", "right", CID, *over),
              printed(b"apart at step %d\n" % step, 1))
        check(f"{name}: another price", audit(program, "left", "near", BEN, *over),
              printed(b"apart at step %d\n" % step, 1))
        check(f"{name}: same", surplus(program, "left", step, 8000, BEN, *over),
              printed(b"same, %d replies\n" % (own + 1)))
        none = printed(b"not covered\n", 1)
        check(f"{name}: for who bid it", surplus(program, "left", step, 8000, CID, *over), none)
        check(f"{name}: too near", surplus(program, "near", step, 8000, BEN, *over), none)
        check(f"{name}: no bid", surplus(program, "left", step + 1, 8000, BEN, *over), none)
        check(f"{name}: all stays", files(folder, name), there)


def killed(program, folder):
    """A house whose server was killed: its log has what the file has not."""
    check("killed made", program.ended("init", "killed", *INIT), (0, b"created\n", b""))
    with program.serving("killed", 2) as server:
        exchange(server.port, b"".join(FIRST))
        server.process.send_signal(signal.SIGKILL)
    before = files(folder, "killed")
    check("the log has something", len(before[1][1]) > 100, True)
    written(folder, "left", bid(3000) + READ_ITEM)
    written(folder, "right", bid(8000) + READ_ITEM)
    over = ["--house", "killed"]
    check("killed: equal", audit(program, "left", "right", BEN, *over), printed(b"equal, 1 replies\n"))
    check("killed: same", surplus(program, "left", 1, 8000, BEN, *over), printed(b"same, 1 replies\n"))
    check("killed: all stays", files(folder, "killed"), before)
    # Without its log the house has no item, so a bid on it is refused whatever its maximum is.
    for name, data, _ in before:
        written(folder, name.replace("killed", "alone"), data)
    (folder / "alone-wal").unlink()
    check("without its log", audit(program, "left", "right", BEN, "--house", "alone"), printed(b"equal, 1 replies\n"))
    check("and no bid is covered", surplus(program, "left", 1, 8000, BEN, "--house", "alone"),
          printed(b"not covered\n", 1))


def faults(program, folder):
    """What is no house, or can't be had."""
    written(folder, "left", READ_ITEM)
    written(folder, "broken", b"GET")
    written(folder, "text", b"This is no house. " * 1000)
    written(folder, "empty", b"")
    for name, line in (("missing", "file: Store"), (".", "file: Store"), ("empty", "file: Damaged"),
                       ("text", "file: Damaged")):
        over = ["--house", name]
        check(f"audit, {name}", audit(program, "broken", "none", BEN, *over), fault(line))
        check(f"surplus, {name}", surplus(program, "broken", 1, 1, BEN, *over), fault(line))
        check(f"{name} stays", (folder / name).exists(), name != "missing")
    over = ["--house", "killed"]
    check("a broken list", audit(program, "left", "broken", BEN, *over), fault("RIGHT is no list of messages"))
    check("no list", surplus(program, "none", 1, 1, BEN, *over), fault("input: Read"))
    with program.serving("killed", 1) as server:
        check("served", audit(program, "left", "left", BEN, *over), fault("file: Store"))
        exchange(server.port, READ_ITEM)
    for words in (["--bands", "bands.csv"], ["--rate", "1000"], ["--zone", "UTC0"]):
        for result in (audit(program, "left", "left", BEN, *over, *words), surplus(program, "left", 1, 1, BEN, *over, *words)):
            check(f"beside {words[0]}", (result[0], result[1], b"cannot be used with" in result[2]), (2, b"", True))


def settings(program, folder):
    """A house goes by its own bands: a step over 1000 is 1050 by the example table, and 2000 by the wide one."""
    written(folder, "wide.csv", "at,step\n0,1000\n")
    house(program, "wide", ["--bands", "wide.csv", "--rate", "1000", "--zone", "UTC0"], FIRST)
    house(program, "example", INIT, FIRST)
    written(folder, "left", bid(1500) + READ_ITEM)
    written(folder, "right", bid(3000) + READ_ITEM)
    check("narrow bands", audit(program, "left", "right", BEN, "--house", "example"), printed(b"equal, 1 replies\n"))
    check("wide bands", audit(program, "left", "right", BEN, "--house", "wide"), printed(b"apart at step 1\n", 1))
    check("a surplus by narrow bands", surplus(program, "left", 1, 8000, BEN, "--house", "example"),
          printed(b"same, 1 replies\n"))
    check("and by wide ones", surplus(program, "left", 1, 8000, BEN, "--house", "wide"), printed(b"not covered\n", 1))


def main():
    with tempfile.TemporaryDirectory() as name:
        folder = pathlib.Path(name)
        program = Program(str(pathlib.Path(sys.argv[1]).resolve()), name)
        written(folder, "bands.csv", "at,step\n" + "".join(f"{at},{step}\n" for at, step in EXAMPLE))
        cut_lists(program, folder)
        killed(program, folder)
        faults(program, folder)
        settings(program, folder)
    return verdict()


if __name__ == "__main__":
    sys.exit(main())
