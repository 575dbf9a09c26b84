#!/usr/bin/env python3
"""Tries the wrong bodies that the gate leaves out, those of crates/NAME/wrong: `wrong.py [NAME..]`.

They are apart for the gate's time alone, and are tried on demand: those of named crates, or of all. On a copy of the checkout
they take the place of must-fail, and `rt must-fail` has to find each refused. A crate that has none is no fault, and is reported.
It needs the kit, with its `rt` on the path. The last line tells how many were tried, and how long it took.

Promise: none
"""
import pathlib
import shutil
import subprocess
import sys
import tempfile
import time

from lib.places import ROOT



def try_bodies(names):
    """The exit status of a try of these crates' wrong bodies."""
    with tempfile.TemporaryDirectory() as folder:
        copy = pathlib.Path(folder) / "house"
        shutil.copytree(ROOT, copy, symlinks=True, ignore=shutil.ignore_patterns("out", "bin", "target"))
        for edits in copy.glob("crates/*/must-fail"):
            shutil.rmtree(edits)
        for name in names:
            (copy / "crates" / name / "wrong").rename(copy / "crates" / name / "must-fail")
        return subprocess.run(["rt", "must-fail", *names], cwd=copy).returncode


def main():
    begun, crates = time.monotonic(), ROOT / "crates"
    named = list(dict.fromkeys(sys.argv[1:])) or sorted(path.parent.name for path in crates.glob("*/wrong"))
    unknown = [name for name in named if not (crates / name / "src").is_dir()]
    if unknown:
        print(f"no crate: {' '.join(unknown)}")
        return 2
    names = [name for name in named if any((crates / name).glob("wrong/*.edit"))]
    for name in named:
        if name not in names:
            print(f"{name} has no wrong bodies that make test leaves out", flush=True)
    status = try_bodies(names) if names else 0
    bodies = sum(len(list((crates / name).glob("wrong/*.edit"))) for name in names)
    ending = "" if status == 0 else f", ended with {status}"
    minutes = (time.monotonic() - begun) / 60
    print(f"wrong bodies: {bodies}, crates: {len(names)}, minutes: {minutes:.1f}{ending}")
    return status


if __name__ == "__main__":
    sys.exit(main())
