"""How long statements of several sizes take: medians of processor time in interleaved runs.

`lines` makes a statement, `text` and `csv` make it and write it. The making of the sales is taken
off: it is the time of a run that makes no statement.
"""
import resource
import statistics
import subprocess
import sys

RUNS = 7
SALES = [10_000, 100_000, 1_000_000]
# How many statements of a million sales a run makes; of fewer sales accordingly more.
ROUNDS = {"lines": 40, "text": 8, "csv": 4}


def seconds(program, sales, what, rounds):
    """The processor time of a run, and how many lines it made."""
    before = resource.getrusage(resource.RUSAGE_CHILDREN)
    words = [program, str(sales), what, str(rounds)]
    lines = int(subprocess.run(words, check=True, capture_output=True).stdout)
    after = resource.getrusage(resource.RUSAGE_CHILDREN)
    return after.ru_utime + after.ru_stime - before.ru_utime - before.ru_stime, lines


def measure(program, what):
    """For each number of sales the time that a statement takes, and its lines."""
    times, lines = {sales: [] for sales in SALES}, {}
    for _ in range(RUNS):
        for sales in SALES:
            rounds = ROUNDS[what] * SALES[-1] // sales
            without, _ = seconds(program, sales, what, 0)
            whole, made = seconds(program, sales, what, rounds)
            times[sales].append((whole - without) / rounds)
            lines[sales] = made // rounds
    return [(sales, statistics.median(times[sales]), lines[sales]) for sales in SALES]


program = sys.argv[1]
for what in ROUNDS:
    for sales, time, lines in measure(program, what):
        print(f"{what:5} {sales:7} sales, {lines:6} lines: {time * 1e3:6.2f} ms, "
              f"{time / sales * 1e9:5.1f} ns a sale, {lines / time:9,.0f} lines/s")
