#!/usr/bin/env python3
"""Says for what reason each wrong body is refused: `reasons.py [--kept] [--must-fail] [NAME..]`.

The gate takes it that an edit of must-fail/ or wrong/ is refused. Here each of named crates, or of all, is put into a copy, and the
functions that it changes are checked alone; edits of different functions are checked together. What is left of their goals says why
an edit is refused. It counts as refused only

- at a clause: what the function promises, or what a callee asks for, is false, or stays open with each answer applied; or
- at a panic: an index, a sum, a cast or the like.

It is no evidence where a search gave up at a limit; where an answer names what is gone; or where only the proof's own part fails,
as the invariant of a loop. Where answers don't fit any more, the check is made once more without them, so that a body that the
tactics then prove is told as PROVED. What the checks said is kept in out/wrong-bodies by a sum of the crate's text and the edit,
so that a run begins where the one before it stopped, and several can run side by side. With --kept nothing is checked, and with
--must-fail those of wrong/ are left out. It needs the kit, with its `rt` on the path. The last line is 'N edits, M not refused for
their own reason'.

Promise: none
"""
import collections
import sys

from lib.crates import dependencies
from lib.places import ROOT
from lib.wrong_bodies import CLASSES, CRATES, REFUSED, Unfit, edited, edits_of, found, rows_of, table, try_bodies

NOT_TRIED = "can't be put in"


def bodies_of(crate, folders):
    """The bodies of a crate's edits in these folders, and why one can't be put in."""
    for path in [path for path in edits_of(crate) if path.parent.name in folders]:
        name = f"{path.parent.name}/{path.stem}"
        try:
            yield edited(crate, tuple(rows_of(path.read_text())), name), None
        except Unfit as fault:
            yield None, f"{crate}/{name}: {NOT_TRIED}: {fault}"


def line(body, one):
    shape = ", by its answers alone" if one.kind in REFUSED and one.by_shape() else ""
    return f"{body.crate}/{body.name}: {one.kind}{shape}{f' ({one.told()})' if one.told() else ''}"


def summary(results, faults):
    """Lines that count by crate what the edits came to."""
    columns = [*CLASSES, NOT_TRIED]
    counts = {}
    for body, one in results:
        counts.setdefault(body.crate, collections.Counter())[one.kind] += 1
    for fault in faults:
        counts.setdefault(fault.split("/")[0], collections.Counter())[NOT_TRIED] += 1
    rows = [["crate", *columns], *([crate, *(str(count[name] or "-") for name in columns)] for crate, count in counts.items())]
    return table([*rows, ["sum", *(str(sum(count[name] for count in counts.values())) for name in columns)]])


def main():
    words = [word for word in sys.argv[1:] if not word.startswith("--")]
    folders = ["must-fail"] if "--must-fail" in sys.argv else ["must-fail", "wrong"]
    unknown = [name for name in words if not (CRATES / name / "src").is_dir()]
    if unknown:
        sys.exit(f"no crate: {' '.join(unknown)}")
    bodies, faults = [], []
    for crate in dict.fromkeys(words or dependencies(ROOT)):
        for body, fault in bodies_of(crate, folders):
            bodies += [body] if body else []
            faults += [fault] if fault else []
    for fault in faults:
        print(fault)
    if "--kept" not in sys.argv:
        try_bodies(bodies, told=lambda body: print(line(body, found(body)), flush=True))
    results = [(body, one) for body in bodies if (one := found(body))]
    if "--kept" in sys.argv:
        print("\n".join(line(*result) for result in results))
    print("\n".join(["", *summary(results, faults)]))
    shaped = sum(one.kind in REFUSED and one.by_shape() for _, one in results)
    print(f"refused only because an answer no longer fits its goal: {shaped}; not tried yet: {len(bodies) - len(results)}")
    wrong = len(faults) + sum(one.kind not in REFUSED for _, one in results)
    print(f"{len(results) + len(faults)} edits, {wrong} not refused for their own reason")
    return 1 if wrong else 0


if __name__ == "__main__":
    sys.exit(main())
