#!/usr/bin/env python3
"""Has pages of one item open in its last minute, while a member bids: `gateway_load.py PROGRAM [PAGES [SECONDS]]`.

A page takes two reads a second, the item and the member's own bids, over two connections: the second one because somebody bids.
Sixty members have 1,000 pages open where no number is given, for 30 seconds. It prints how soon reads were answered, as wrk
counts them, and how soon the bids of another member were, each of which has to be taken within a second. It needs wrk, and what
gateway.py needs. The last line is 'N checks, M wrong'.

Promise: none
"""
import collections
import itertools
import pathlib
import shutil
import subprocess
import sys
import tempfile
import time

from lib.checks import check, verdict
from lib.gateway_run import folder_of_nobody, missing_packages, running
from parts.gateway_cases import first_steps
from parts.gateway_clients import STEP

MEMBERS = 60
# So many seconds the pages take to open.
OPENING = 5
# Within so many seconds each bid has to be taken.
SOON = 1
# What wrk is told: every connection asks once a second, by the token of some member.
SCRIPT = """
local tokens = {%s}
local count = 0
function delay() return 950 + math.random(100) end
function request()
  count = count + 1
  local path = count %% 2 == 0 and "/api/items/1" or "/api/me/bids/1"
  return wrk.format("GET", path, {["Authorization"] = "Bearer " .. tokens[math.random(#tokens)]})
end
function done(summary, latency)
  print(string.format("half within %%.0f ms, 99 of 100 within %%.0f ms, %%d refused, %%d without an answer", latency:percentile(50) / 1000,
    latency:percentile(99) / 1000, summary.errors.status, summary.errors.timeout + summary.errors.read))
end
"""


def bids_until(gateway, process):
    """A member bids twice a second, once all pages are open. How often each status came, and the longest wait."""
    time.sleep(OPENING)
    statuses, longest, maxima = collections.Counter(), 0, itertools.count(STEP, STEP)
    while process.poll() is None:
        began = time.monotonic()
        statuses[gateway.ask("ben", "POST", "/api/items/1/bids", {"maximum": next(maxima)}).status] += 1
        longest = max(longest, time.monotonic() - began)
        time.sleep(0.5)
    return statuses, longest


def load(gateway, pages, seconds):
    names = [f"p{number}" for number in range(MEMBERS)]
    gateway.enrol(*names)
    tokens = ", ".join(f'"{gateway.token(name)}"' for name in names)
    with tempfile.NamedTemporaryFile("w", suffix=".lua") as script:
        script.write(SCRIPT % tokens)
        script.flush()
        words = ["wrk", "-t", "2", "-c", str(2 * pages), "-d", str(seconds), "--timeout", "10", "-s", script.name]
        process = subprocess.Popen([*words, f"https://localhost:{gateway.port}/"], stdout=subprocess.PIPE, text=True)
        statuses, longest = bids_until(gateway, process)
        lines = process.stdout.read().splitlines()
    rate = next(line.split()[1] for line in lines if line.startswith("Requests/sec"))
    print(f"{pages} pages: {rate} of {2 * pages} reads a second, {lines[-1]}")
    print(f"{sum(statuses.values())} bids, each within {longest:.2f} s")
    check("all bids are taken", list(statuses), [201])
    check(f"each within {SOON} s", longest < SOON, True)
    check("all reads are answered", lines[-1].endswith("0 refused, 0 without an answer"), True)


def main():
    pages, seconds = int((sys.argv[2:] + ["1000"])[0]), int((sys.argv[3:] + ["30"])[0])
    missing = missing_packages() + ([] if shutil.which("wrk") else ["wrk"])
    if missing:
        print(f"Debian's packages that are missing: {' '.join(missing)}")
        return 1
    with folder_of_nobody() as folder, running(pathlib.Path(sys.argv[1]), folder) as gateway:
        first_steps(gateway)
        load(gateway, pages, seconds)
    return verdict()


if __name__ == "__main__":
    sys.exit(main())
