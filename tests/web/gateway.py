#!/usr/bin/env python3
"""Drives the gateway, through which nobody can speak for another member: `gateway.py PROGRAM [SECONDS [RESTARTS]]`.

start.sh, first_bids.sh, account.sh and stop.sh of deploy/gateway run as an ordinary user: as nobody where a superuser runs this. Then signed-in
clients show what the page of the gateway says:

- who isn't signed in gets 401, and who is can't speak for another by any spelling of the two headers
- members sign in by the form and out again, choose a password, and are kept out by account.sh; a run of it that was killed is
  ended by the next, and where a superuser runs it, it follows no link; on a phone's width too, where chromedriver is there
- odd messages have each their status: two lengths, a length and a coding, chunks, HEAD, too large ones
- of 242 hostile requests the house sees what a member meant, as its own and now, or nothing (parts/gateway_hostile.py)
- pages of other sites bid for nobody; in Chromium too, where chromedriver is there
- another user of the machine reaches neither the house nor its queue; a house that was made open to others is shut
- 50 clients for SECONDS (60 where none are given), and 300 for a third of them, lose nothing and see no MomentBehind
- 60 clients that dribble hold nobody up; nor do 4,000 connections that say nothing, 50,000 wrong passwords of a member from its
  own address, wrong ones from 200 addresses, and a member or a stranger that asks as fast as it can from 40
- the kernel lets a hundred connections of an address in, by connections.nft, where nft is there
- RESTARTS restarts (20 where none are given) under 50 clients, one of them by SIGKILL, lose no answer
- houses behind one gateway are distinguished by host name, and each comes and goes alone: one whose file is damaged keeps none of
  the others down, and haproxy and Apache are begun again when they end
- what is due is closed, and what was taken is there after stop.sh and start.sh
- no command is let through while the house's clock and the machine's are more than a day apart

It needs nginx, haproxy, apache2, htpasswd, sqlite3, openssl, curl, ip, setsid, flock and unshare. The last line is 'N checks, M
wrong'.

Promise: none
"""
import socket
import sys
import time

from lib import browser
from lib.checks import check, verdict
from lib.gateway_run import folder_of_nobody, missing_packages, running
from lib.places import ROOT
from parts.gateway_accounts import ACCOUNTS
from parts.gateway_attacks import attacks
from parts.gateway_cases import CASES, MINE, NAMES
from parts.gateway_cities import cities
from parts.gateway_connections import connections
from parts.gateway_crowds import crowds, dribblers, restarts
from parts.gateway_files import away, half_started, open_houses
from parts.gateway_form import foreign_form
from parts.gateway_hostile import hostile
from parts.gateway_sign_in import SIGN_IN
from parts.gateway_visit import visit


def stop_and_start(gateway):
    """What was taken is there again, also for who signed in before. The clock may go on, since the house closes what is due."""
    pages = ["/api/items/1", "/api/house", MINE]
    before = [gateway.ask("cid", "GET", page).value for page in pages]
    check("started twice", gateway.start()[0], 1)
    check("stopped", gateway.stop(), (0, [], ""))
    with socket.socket() as probe:
        check("nobody listens", probe.connect_ex(("127.0.0.1", gateway.port)) != 0, True)
    check("started again, without a warning", gateway.start()[::2], (0, ""))
    after = [gateway.ask("cid", "GET", page).value for page in pages]
    check("the clock is not turned back", after[1]["clock"] >= before[1]["clock"], True)
    check("it is all there", [{**page, "clock": None} for page in after], [{**page, "clock": None} for page in before])


def lists_what_ends(gateway):
    """An item that ends in a moment, and the number that it has."""
    item = {"category": 1, "end": int(time.time()) + 3, "lot": "Ends", "start": 500, "text": "", "title": "Globe"}
    return gateway.ask("ana", "POST", "/api/items", item).value["item"]


def is_closed(gateway, number):
    """house.sh closes it, within a minute of its end."""
    state = lambda: gateway.ask("ana", "GET", f"/api/items/{number}").value["state"]
    gateway.wait(lambda: state() != "open")
    check("what is due is closed", state(), "unsold")


def main():
    program, length, count = sys.argv[1], float((sys.argv[2:] + ["60"])[0]), int((sys.argv[3:] + ["20"])[0])
    missing = missing_packages()
    if missing:
        print(f"Debian's packages that are missing: {' '.join(missing)}")
        return 1
    with folder_of_nobody() as folder, running(program, folder) as gateway:
        # Wrong passwords count by address, so each case has its own.
        for place, case in enumerate((*CASES, *ACCOUNTS, *SIGN_IN), 1):
            gateway.address = f"127.0.0.{place}"
            case(gateway)
        gateway.enrol(*NAMES)
        due = lists_what_ends(gateway)
        crowds(gateway, length)
        dribblers(gateway, length / 3)
        attacks(gateway)
        is_closed(gateway, due)
        stop_and_start(gateway)
        if browser.is_there():
            foreign_form(gateway)
            visit(gateway)
        else:
            print("no chromedriver, so no browser signed in, and none sent the form of another site")
    with folder_of_nobody() as folder, running(program, folder, count=20, messages=25) as gateway:
        check("a category", gateway.ask("house", "POST", "/api/categories", {"name": "Books"}).status, 201)
        gateway.enrol(*NAMES)
        restarts(gateway, count)
    with folder_of_nobody() as folder:
        cities(program, folder)
    for case in (open_houses, half_started, away):
        with folder_of_nobody() as folder:
            case(program, folder)
    with folder_of_nobody() as folder:
        hostile(ROOT / "tests" / "web" / "parts" / "seen_house.py", folder)
    connections()
    return verdict()


if __name__ == "__main__":
    sys.exit(main())
