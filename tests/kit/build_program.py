#!/usr/bin/env python3
"""Proves and builds a program: `build_program.py NAME`, as `build_program.py auction`.

`rt ci NAME` proves crates side by side, but removes the copy that it works on, and the program with it. `rt run` leaves a
program, but proves one crate after the other. So this copies the crate, and all that it stands on, to a folder of its own, runs
`rt ci` there, and takes the program out: to crates/NAME/out, where the tests look for it, and to bin/. It leaves the wrong bodies
in must-fail/ to `make test`. rt keeps what is proved here, so `make test` proves only the other crates. While it runs it says how
far it is, as run.py does.

Promise: none
"""
import pathlib
import shutil
import sys
import tempfile

from lib.crates import copy_below
from lib.places import ROOT
from lib.progress import run


def main(name):
    if not (ROOT / "crates" / name / "src" / "main.rt").exists():
        sys.exit(f"crates/{name} is no program")
    with tempfile.TemporaryDirectory(prefix=f"{name}-") as place:
        folder = pathlib.Path(place)
        copy_below(name, folder)
        status = run(["rt", "ci"], folder)
        if status == 0:
            for target in (ROOT / "crates" / name / "out", ROOT / "bin"):
                target.mkdir(exist_ok=True)
                shutil.copy(folder / "crates" / name / "out" / name, target / name)
            print(f"bin/{name} is proved and built")
    return status


if __name__ == "__main__":
    sys.exit(main(sys.argv[1]))
