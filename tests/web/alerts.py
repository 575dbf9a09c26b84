#!/usr/bin/env python3
"""Reads the alert rules of deploy/service by promtool, and plays each: `alerts.py`.

Each rule is given a quarter of an hour in which its signal is well, and one in which it is not, and has to be silent in the first
and to fire in the second. A signal that nobody gives has to fire as well. promtool is of Debian's package prometheus. The last
line is 'N checks, M wrong'.

Promise: none
"""
import json
import pathlib
import re
import subprocess
import sys
import tempfile

from lib.checks import check, verdict
from lib.places import ROOT

RULES = ROOT / "deploy" / "service" / "alerts.yml"
QUEUE = '{job="auction-queue", city="lindow", proxy="house"}'
WATCH = '{job="auction-watch", city="lindow"}'
ERRORS = '{job="auction-queue", city="lindow", proxy="queue", code="5xx"}'
# Of each alert: a series, its values at each minute where all is well, and where it isn't.
SIGNALS = {
    "AuctionAway": ("auction_up" + WATCH, "1x15", "0x15"),
    "AuctionUnwatched": ("auction_watched_seconds" + WATCH, "0+60x15", "0x15"),
    "AuctionErrors": ("haproxy_frontend_http_responses_total" + ERRORS, "7x15", "7+1x15"),
    "AuctionQueueLong": ("haproxy_backend_current_queue" + QUEUE, "100x15", "101x15"),
    "AuctionSlow": ("haproxy_backend_total_time_average_seconds" + QUEUE, "1x15", "1.5x15"),
    "AuctionStartsAgain": ("haproxy_backend_retry_warnings_total" + QUEUE, "5+1x60", "5+2x60"),
    "AuctionConnections": ("auction_connections" + WATCH, "1000x15", "1001x15"),
    "AuctionDiskFull": ("auction_disk_free_bytes" + WATCH, "1000000000x15", "999999999x15"),
    "AuctionCopyOld": ("auction_newest_copy_seconds" + WATCH, "0+60x180", "0x240"),
    "AuctionClockApart": ("auction_clock_seconds" + WATCH, "1+60x15", "1000+60x15"),
}


def fires(folder, alert, series, values):
    """Whether an alert fires at the end of some values of a series, by promtool, which is told that none does."""
    minutes = int(values.split("x")[1])
    case = {"interval": "1m", "input_series": [{"series": series, "values": values}],
            "alert_rule_test": [{"eval_time": f"{minutes}m", "alertname": alert, "exp_alerts": []}]}
    file = folder / "case.yml"
    file.write_text(json.dumps({"rule_files": [str(RULES)], "evaluation_interval": "1m", "tests": [case]}))
    result = subprocess.run(["promtool", "test", "rules", file], capture_output=True, text=True)
    found = result.stdout + result.stderr
    if result.returncode == 0:
        return "silent"
    return "fires" if re.search(rf'got:\[\s*0:\s*Labels:{{alertname="{alert}"', found) else found


def main():
    rules = set(re.findall(r"- alert: (\w+)", RULES.read_text()))
    check("each rule has a signal", rules, set(SIGNALS))
    with tempfile.TemporaryDirectory() as name:
        folder = pathlib.Path(name)
        for alert, (series, well, ill) in SIGNALS.items():
            check(f"{alert} where all is well", fires(folder, alert, series, well), "silent")
            check(f"{alert} where it isn't", fires(folder, alert, series, ill), "fires")
        check("no copy", fires(folder, "AuctionCopyOld", "auction_up" + WATCH, "1x90"), "fires")
        unread = 'up{job="auction-watch", city="lindow"}'
        check("nothing can be read", fires(folder, "AuctionUnwatched", unread, "0x15"), "fires")
    return verdict()


if __name__ == "__main__":
    sys.exit(main())
