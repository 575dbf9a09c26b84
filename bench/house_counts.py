"""How many instructions a line costs the house in memory at several sizes, and how often it misses the caches.

`house_counts.py PROGRAM [SIZE..]` plays the scripts of `house.py` under valgrind, which counts whatever else the
machine does. Shown are instructions a line at each size, less those of `? clock`, which any line takes to be
read and answered; the greatest size's over the least's; and misses of the last level's cache a line at the
least and the greatest size. A house of a million items takes some ten minutes. It needs `valgrind`.
"""
import pathlib
import re
import subprocess
import sys
import tempfile

import house

# How many lines of a kind there are, by how many `house.py` has.
LINES = {house.LINES: 1_000, house.LISTS: 100}


def script(items):
    """The lines that make a house of so many items, and those of each kind between two that tell the time."""
    made = house.House(items, house.NAMED)
    yield from made.made()
    yield from timed(made, house.KINDS)


def timed(made, kinds):
    """The lines of each kind between two that tell the time."""
    for count, line in kinds.values():
        yield "time"
        for _ in range(LINES.get(count, count)):
            yield line(made)
        yield "time"


def totals(dump):
    """Instructions, and misses of the last level's cache, of what valgrind wrote since the dump before."""
    text = dump.read_text()
    events = re.search(r"^events: (.*)$", text, re.M)[1].split()
    counts = dict(zip(events, map(int, re.search(r"^totals: (.*)$", text, re.M)[1].split())))
    return counts["Ir"], sum(counts.get(event, 0) for event in ("ILmr", "DLmr", "DLmw"))


def counted(command, lines, kinds, items):
    """Instructions and misses a line of each kind, where a command plays lines that tell the time around each kind."""
    with tempfile.TemporaryDirectory() as folder:
        given = pathlib.Path(folder, "script")
        given.write_text("\n".join(lines) + "\n")
        with given.open() as opened:
            subprocess.run(["valgrind", "--tool=callgrind", "--cache-sim=yes", "--dump-before=clock_gettime*",
                            f"--callgrind-out-file={folder}/dump", *command],
                           stdin=opened, stdout=subprocess.DEVNULL, stderr=subprocess.DEVNULL, check=True)
        dumps = sorted(pathlib.Path(folder).glob("dump.*"), key=lambda path: int(path.suffix[1:]))
        # The dump before the second time of a kind has that kind's lines.
        sums = [totals(dump) for dump in dumps[1::2]]
    if len(sums) < len(kinds):
        sys.exit("a time was not printed")
    return {kind: [count / (items if kind == house.CLOSE else LINES.get(often, often)) for count in counts]
            for (kind, (often, _)), counts in zip(kinds.items(), sums)}


def show(runs, sizes):
    """The counts of each kind at each size, and the greatest size's over the least's."""
    print(f"{'instructions a line':22}" + "".join(f"{items:>12,}" for items in sizes) + f"{'ratio':>8}{'misses a line':>20}")
    for kind in runs[0]:
        reading = None if kind in ("clock", house.CLOSE) else "clock"
        counts = [run[kind][0] - (run[reading][0] if reading else 0) for run in runs]
        misses = f"{runs[0][kind][1]:.1f} to {runs[-1][kind][1]:.1f}"
        print(f"{kind:22}" + "".join(f"{count:12,.0f}" for count in counts) + f"{counts[-1] / counts[0]:8.2f}{misses:>20}")


def main(program, sizes):
    show([counted([program, "memory"], script(items), house.KINDS, items) for items in sizes], sizes)


if __name__ == "__main__":
    main(sys.argv[1], [int(size) for size in sys.argv[2:]] or house.SIZES)
