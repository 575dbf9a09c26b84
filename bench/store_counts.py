"""How many instructions a question costs the house in a file at several sizes, and how often it misses the caches.

`store_counts.py PROGRAM [SIZE..]` makes the houses of `store.py` by the program `test_store`, and then asks them under
valgrind, as `house_counts.py` does. It needs `valgrind`.
"""
import pathlib
import subprocess
import sys
import tempfile

import house
import house_counts
import store


def measured(program, items):
    """Instructions and misses a line of each kind that asks."""
    made = house.House(items, house.NAMED)
    with tempfile.TemporaryDirectory() as folder:
        path = f"{folder}/house"
        subprocess.run([program, "make", path], input="\n".join(made.made()), text=True, check=True,
                       stdout=subprocess.DEVNULL)
        lines = house_counts.timed(made, house.ASKED)
        return house_counts.counted([program, "ask", path], lines, house.ASKED, items)


def main(program, sizes):
    program = str(pathlib.Path(program).resolve())
    house_counts.show([measured(program, items) for items in sizes], sizes)


if __name__ == "__main__":
    main(sys.argv[1], [int(size) for size in sys.argv[2:]] or store.SIZES)
