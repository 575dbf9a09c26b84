"""Notices: by mail, each once, to whom it concerns and gave an address; and in a window that nobody sees.

The gateway's job gives mails to a program in the place of sendmail, which keeps them.
"""
import collections
import email
import email.policy
import json
import os
import pathlib
import subprocess
import sys
import tempfile

from lib.checks import check
from lib.places import ROOT
from parts import page_sealed as sealed
from parts.page_truth import go

JOB = ROOT / "deploy" / "gateway" / "notices" / "notices.py"
KEEPS = """#!/bin/sh
cat > "$(dirname "$0")/mails/$(date +%s%N).$$"
"""
HIDES = """performance.clearResourceTimings();
Object.defineProperty(document, "hidden", { get: () => arguments[0], configurable: true });
document.dispatchEvent(new Event("visibilitychange"));"""
# Whether bids were read since the window is hidden.
READ = """return performance.getEntriesByType("resource").some(one => one.name.includes("/me/bids/"))"""
# A browser that is allowed to tell, and what it was told to tell.
TOLD = """window.told = [];
window.Notification = class { static permission = "granted"; constructor(text) { window.told.push(text); } };"""
WRONG = ["ben", "ben@", "@city.example", "-f@city.example", "ben@city.example\nBcc: all@city.example", "ben@city", "a b@city.example"]


def mailbox(folder, owner=None):
    """A program in the place of sendmail, and the folder in which it keeps mails."""
    program, mails = folder / "sendmail", folder / "mails"
    mails.mkdir()
    program.write_text(KEEPS)
    program.chmod(0o755)
    if owner is not None and os.geteuid() == 0:
        os.chown(mails, owner, owner)
    return program, mails


def read_mails(mails):
    return [email.message_from_bytes(file.read_bytes(), policy=email.policy.default) for file in sorted(mails.iterdir())]


def told(mails):
    """Who was told what, and how often."""
    return collections.Counter((mail["To"], mail["Subject"]) for mail in read_mails(mails))


def put(gateway, name, body):
    """A member's address, sent as the page does."""
    return gateway.raw(gateway.head(name, "PUT /address HTTP/1.1", ["Connection: close", f"Content-Length: {len(body)}"]) + body)


def gives_an_address(ben, gateway):
    """A member fills in its address, which nobody else gets."""
    go(ben, "notices", "Notices")
    ben.write("textbox", "Your mail address", "ben@")
    ben.press("button", "Keep it")
    ben.wait_for_text("Write a mail address, such as ana@city.example, or nothing.")
    ben.write("textbox", "Your mail address", "ben@city.example")
    ben.press("button", "Keep it")
    ben.wait_for_text("Mail goes to ben@city.example.")
    check("the notices", ben.looks(), [])
    for name in ("ana", "cid", "house"):
        check(f"{name} is not shown it", b"ben@" in gateway.raw(gateway.head(name, "GET /address HTTP/1.1", ["Connection: close"])), False)
    stranger = gateway.raw(gateway.head(None, "GET /address HTTP/1.1", ["Connection: close"]))
    check("who has not signed in", stranger[:12] in (b"HTTP/1.1 401", b"HTTP/1.1 403"), True)
    foreign = gateway.raw(gateway.head("ben", "PUT /address HTTP/1.1", ["Connection: close", "Origin: https://other.example",
                                                                        "Content-Length: 1"]) + "x")
    check("another site", foreign[:12], b"HTTP/1.1 403")


def tells_members(ben, gateway, listings, mails):
    """Outbid, won, lost, sold, not sold, settled, and that the end is near: each to whom it concerns, once."""
    for name in ("ana", "cid"):
        check(f"{name}'s address", put(gateway, name, f"{name}@city.example")[:12], b"HTTP/1.1 201")
    title, unwanted = "A map of mails \u2029 and more", "A map that stays"
    number = listings.list(title, seconds=25)
    listings.list(unwanted, seconds=4)
    listings.bid("ben", number, 5_000)
    ben.wait(lambda: ("ben@city.example", f"Ends within the hour: {plain(title)}") in told(mails), "the end is near")
    listings.bid("cid", number, 9_417)
    ben.wait(lambda: ("ben@city.example", f"You were outbid: {plain(title)}") in told(mails), "outbid")
    ben.wait(lambda: gateway.ask("house", "POST", "/api/close", {}).value["sold"] > 0, "the end")
    gateway.ask("house", "POST", f"/api/items/{number}/settle", {})
    ben.wait(lambda: ("ana@city.example", f"Settled: {plain(title)}") in told(mails), "settled")
    counts = told(mails)
    for whom, words in (("cid", "You won"), ("ana", "Sold"), ("ana", "Settled"), ("ben", "Ends within the hour")):
        check(f"{whom}: {words}", counts[f"{whom}@city.example", f"{words}: {plain(title)}"], 1)
    check("not sold", counts["ana@city.example", f"Not sold: {unwanted}"], 1)
    check("each once", [one for one, count in collections.Counter(mail["Message-ID"] for mail in read_mails(mails)).items() if count > 1], [])
    outbid = next(mail for mail in read_mails(mails) if mail["Subject"] == f"You were outbid: {plain(title)}")
    check("a mail", [f"{gateway.port}/#/item/{number}" in outbid.get_content(), "50.50" in outbid.get_content()], [True, True])
    sealed.never_written(mails, 6)


def plain(title):
    return title.replace("\u2029", " ")


def tells_the_window(ben, gateway, listings):
    """A window that nobody sees reads once a minute, says in its title that one was outbid, and has the browser tell."""
    title = lambda: ben.page.run("return document.title")
    ben.page.run(TOLD)
    for part, heading in (("listings", "My listings"), ("item", "A map in the background")):
        number = listings.list("A map in the background")
        listings.bid("ben", number, 1_500)
        go(ben, part if part != "item" else f"item/{number}", heading)
        ben.page.run(HIDES, True)
        # What leads is read when the window is left. An outbid after that is told.
        ben.wait(lambda: ben.page.run(READ), "the first look")
        listings.bid("cid", number, 3_000)
        ben.wait(lambda: title().startswith(f"(outbid) {heading}"), "the title")
        ben.wait(lambda: ben.page.run("return window.told.length"), "a notice of the browser")
        check("the browser tells", ben.page.run("return window.told.splice(0)"), ["You were outbid: A map in the background"])
        ben.page.run(HIDES, False)
    ben.write("textbox", "Your maximum", "100")
    ben.press("button", "Bid")
    ben.wait(lambda: title().startswith("A map in the background"), "the title of now")


# Rounds over items that are made up: restarts, and a mail that can't be sent.

ITEM = {"count": 1, "end": 10**10, "item": 1, "leader": 2, "price": 500, "seller": 1, "state": "open", "title": "Atlas"}


def write_items(house, items):
    folder = house / "catalogue" / "items"
    folder.mkdir(parents=True, exist_ok=True)
    (folder / "0.json").write_text(json.dumps(items))


def run(house, program):
    result = subprocess.run([sys.executable, "-B", JOB, house], capture_output=True, text=True,
                            env={**os.environ, "SENDMAIL": str(program)})
    return result.stdout


def unsold_after_an_outbid(house, program, mails):
    """Who led at the last round is told of the outbid also where the item has ended since, and is not sold."""
    led = {**ITEM, "item": 2, "title": "Globe"}
    write_items(house, [led])
    run(house, program)
    write_items(house, [{**led, "leader": 3, "count": 2, "state": "unsold"}])
    check("an outbid before the end", run(house, program), "1 sent, 0 wait\n")
    check("its mail", told(mails)["ben@city.example", "You were outbid: Globe"], 1)


def told_once():
    """What can't be sent waits, and is sent once. Nothing is told of what was there before, nor to whom gave no address."""
    with tempfile.TemporaryDirectory() as name:
        house = pathlib.Path(name)
        program, mails = mailbox(house)
        (house / "addresses").mkdir()
        (house / "origin").write_text("https://localhost:8443\n")
        (house / "addresses" / "2").write_text("ben@city.example")
        write_items(house, [ITEM])
        check("a first round", run(house, program), "0 sent, 0 wait\n")
        write_items(house, [{**ITEM, "leader": 3, "count": 2}])
        check("sendmail fails", run(house, "/bin/false"), "0 sent, 1 wait\n")
        check("and is killed", run(house, "/nowhere"), "0 sent, 1 wait\n")
        check("the next round", run(house, program), "1 sent, 0 wait\n")
        check("another one", run(house, program), "0 sent, 0 wait\n")
        check("one mail", told(mails), {("ben@city.example", "You were outbid: Atlas"): 1})
        unsold_after_an_outbid(house, program, mails)
        for wrong in WRONG:
            (house / "addresses" / "3").write_text(wrong)
            (house / "notices.json").unlink()
            write_items(house, [{**ITEM, "leader": 3}])
            run(house, program)
            write_items(house, [ITEM])
            check(f"the address {wrong!r}", run(house, program), "0 sent, 0 wait\n")
