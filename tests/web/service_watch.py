#!/usr/bin/env python3
"""Has the watch of deploy/service look at houses that are well, away or failed: `service_watch.py`.

In the place of curl and systemctl are scripts: the one ends, at each look at the house, as is said, and the other notes what it is
told to do. A house that is silent for a minute has to be asked once, and one whose queue breaks off twice. What Prometheus reads,
the status, and what is started anew have to be those that the page of the service names. The watch writes below /run, which is
made anew for it by unshare. The last line is 'N checks, M wrong'.

Promise: none
"""
import os
import pathlib
import subprocess
import sys
import tempfile
import time

from lib.checks import check, verdict
from lib.places import ROOT
from lib.sent import PATIENCE

WATCH = ROOT / "deploy" / "service" / "watch.sh"
# Each look at the house takes a line of `looks`: how curl ends, and what it prints. A queue that is there has no other answer.
CURL = """#!/bin/sh
case $* in
    *http://house/house) ;;
    *http://house/session) printf "$SESSION"; exit ;;
    *) exit ;;
esac
line=$(head -n 1 looks)
sed -i 1d looks
echo "${line#* }"
exit "${line%% *}"
"""
SYSTEMCTL = """#!/bin/sh
[ "$1" = is-failed ] && exit "$IS_FAILED"
echo "$*" >> told
"""
TRIAL = """
mount -t tmpfs tmpfs /run
mkdir /run/auction-watch
sh "$0" lindow > said
echo $?
sed -n 's/^auction_up //p' /run/auction-watch/lindow.prom
wc -l < looks
cat told
"""
UNIT = "auction@lindow.service"
OWN_RUN = ["unshare", "--mount", *(["--user", "--map-root-user"] if os.geteuid() else [])]
# How curl ends where a minute has passed, and where a queue broke off.
LATE, BROKEN = "28", "52"
DAY = 86_400


def seen(looks, session="401", is_failed=False):
    """The status of the watch, whether the house is up to Prometheus, how many looks are left, and what systemctl was told."""
    with tempfile.TemporaryDirectory() as name:
        folder = pathlib.Path(name)
        for command, text in (("curl", CURL), ("systemctl", SYSTEMCTL)):
            (folder / command).write_text(text)
            (folder / command).chmod(0o755)
        (folder / "looks").write_text("".join(f"{look}\n" for look in looks))
        (folder / "told").touch()
        settings = {"PATH": f"{name}:{os.environ['PATH']}", "SESSION": session, "IS_FAILED": str(int(not is_failed))}
        result = subprocess.run([*OWN_RUN, "sh", "-c", TRIAL, WATCH], cwd=folder, env=os.environ | settings,
                                capture_output=True, text=True, timeout=PATIENCE)
        status, is_up, left, *told = result.stdout.splitlines()
        return int(status), int(is_up), int(left), told


def well(clock):
    return f'0 {{"categories":1,"clock":{clock},"items":1}}'


def main():
    now = int(time.time())
    check("a house that is well", seen([well(now), well(now)]), (0, 1, 1, []))
    check("a new one", seen([well(0)]), (0, 1, 0, []))
    check("silent for a minute", seen([f"{LATE} ", well(now)]), (1, 0, 1, []))
    check("a queue that is started anew", seen([f"{BROKEN} ", well(now)]), (0, 1, 0, []))
    check("a queue that is away", seen([f"{BROKEN} ", f"{BROKEN} ", well(now)]), (1, 0, 1, []))
    check("a house that has failed", seen([f"{LATE} "], is_failed=True), (1, 0, 0, [f"start {UNIT}"]))
    check("a failed file", seen(['0 {"error":"store"}']), (0, 0, 0, [f"restart {UNIT}"]))
    check("another answer", seen(['0 {"error":"memory"}']), (1, 0, 0, []))
    for days in (-2, 2):
        check(f"clocks apart by {days} days", seen([well(now + days * DAY)]), (1, 1, 0, []))
    check("nobody can sign in", seen([well(now)], session="503"), (1, 1, 0, []))
    return verdict()


if __name__ == "__main__":
    sys.exit(main())
