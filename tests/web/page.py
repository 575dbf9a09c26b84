#!/usr/bin/env python3
"""Drives the page of deploy/gateway in Chromium: `page.py PROGRAM [PICTURES]`.

The house, a seller and two who bid play an auction from its listing to its statement, each in a browser of its own, over a house
with some history behind nginx and haproxy. They find all by roles and names of the accessibility tree alone. The files that are
named lie in parts/, and page_looks.js in lib/.

- a whole bid by the keyboard; a purchase after a second question; a button that waits while the house is still, and bids once
- nobody is sent a digit of what another has sealed, a maximum or a reserve: in no answer, nowhere on a page, and in no file that
  is written for all (page_sealed.py)
- what one won and listed, accounts, settling, a new band table, the city's own words (page_pages.py)
- mails and other notices, each once, to whom they concern (page_notices.py)
- the catalogue has all items, is written whole or not at all, and the page does without it (page_catalogue.py)
- the countdown goes by the gateway's clock, also where the browser's is an hour wrong
- names and texts that would do harm as HTML stay text, and turn nothing around them
- all parts, light and dark, 360, 390 and 1280 wide: names, roles, contrast, sizes, nothing wider than the window (page_looks.js)
- the console has nothing of the page's own making
- the file of a statement is the program's own, and the public record is what all reads tell
- of many items and bids the youngest are shown, and the others when they are asked for
- amounts, zones (beside the C library) and refusals (page_words.py)
- all of it in German, its mails too, by one word of the city's (page_german.py)
- what the page says is true at once: after an outbid, an end, a failed read, a lost answer, a sleep, a way back (page_truth.py)

PICTURES is a folder for pictures of some parts. It needs what gateway.py needs, and chromedriver. The last line is 'N checks, M
wrong'.

Promise: none
"""
import contextlib
import os
import pathlib
import sys
import tempfile

from lib import browser
from lib.checks import check, verdict
from lib.confined import NOBODY
from lib.gateway_run import folder_of_nobody, missing_packages
from lib.screen_reader import ENGLISH, Reader
from parts import (page_catalogue as catalogue, page_german as german, page_notices as notices, page_pages as pages,
                   page_play as play, page_sealed as sealed, page_truth as truth, page_words as words)
from parts.page_house import (BEN, EVIL, EVIL_CATEGORY, EVIL_NAME, EVIL_TEXTS, EVIL_TITLES, MANY, MANY_BIDS, OPEN, PAST, furnished,
                              with_many)

WIDTHS = (360, 390, 1280)
POLICY = ("default-src 'none'; script-src 'self'; style-src 'self'; connect-src 'self'; img-src 'self'; form-action 'self'; "
          "base-uri 'none'; frame-ancestors 'none'")
TYPES = {"/": "text/html", "/main.js": "application/javascript", "/style.css": "text/css", "/icon.svg": "image/svg+xml",
         "/api/house": "application/json"}
# Elements that would be there if what members wrote were read as HTML.
THEIRS = "img, main script, main svg, main i, main b"
SEED = 2026
# An address that stays is read again only if that is asked for.
SHOW = """document.querySelector("h1")?.remove();
if (location.hash === arguments[0]) { dispatchEvent(new HashChangeEvent("hashchange")); }
location.hash = arguments[0];"""
EVIL_ITEM = len(PAST) + len(OPEN) + 1
# The parts of the page, by who looks at them.
PARTS = {
    "ana": ["", "category/1", "category/4", "search/globe%20gores", "listings", "sell/1", "item/1", f"item/{EVIL_ITEM}", "questions", "sell", "statement", "notices", "house",
            "member/2", "nothing", "constructor"],
    "ben": ["bids", "won", "watches", "questions", "statement", "item/14", "item/15", "item/13", f"item/{EVIL_ITEM + 1}",
            f"item/{EVIL_ITEM + 2}", "member/1", "item/999", "statement/2020-01-01/2020-12-31"],
    "house": ["", "members", "settling", "accounts", "house", "item/12", "member/4", "bids"],
}


def show(reader, part):
    """Shows a part by its address, and waits until it is there."""
    reader.page.run(SHOW, f"#/{part}")
    reader.wait(lambda: reader.page.run("return Boolean(document.querySelector('h1'))"), part)


def looks(reader):
    """What is wrong with each part that a member sees, in each width and scheme."""
    for part in PARTS[reader.name]:
        for width in WIDTHS:
            reader.resize(width)
            show(reader, part)
            check(f"{reader.name}, {part or 'front'}, {width}", reader.looks_of(width), [])
    reader.resize(1280)
    show(reader, "")


def stays_text(reader):
    """What would do harm as HTML is read letter by letter, and made no element."""
    for number, (title, text) in enumerate(zip(EVIL_TITLES, EVIL_TEXTS), EVIL_ITEM):
        show(reader, f"item/{number}")
        check(f"item {number}: its title", reader.find("heading", title) is not None, True)
        check(f"item {number}: its text", all(line in reader.text() for line in text.split("\u2029")), True)
    show(reader, f"item/{EVIL_ITEM}")
    reader.wait(lambda: reader.text().count(EVIL) >= 2, "a question and its answer")
    show(reader, "member/2" if reader.name == "house" else "member/1")
    show(reader, "member/4")
    check("a name", reader.find("heading", EVIL_NAME) is not None, True)
    show(reader, "")
    check("a category", reader.find("link", EVIL_CATEGORY) is not None, True)
    check("no element of theirs", reader.page.run(f"return document.querySelectorAll('{THEIRS}').length"), 0)
    check("no script of theirs", reader.page.run("return document.title"), "Items | The auction house")


def comes_back_down(ben):
    """Back leads to the same list, as long as it was, and to the same place in it."""
    ben.press("link", "Print 200")
    ben.wait_for("heading", "Print 200")
    ben.page.run("history.back()")
    ben.wait_for_text(f"{MANY} of {MANY} items")
    link = ben.wait_for("link", "Print 200")
    ben.wait(lambda: 0 < ben.box(link)[1] < 900, "the place in the list")


def long_lists(program, folder):
    """Of many items and bids the youngest are shown, where there is no catalogue, and the others when they are asked for.
    With a catalogue all are there, and what ends soonest is first."""
    with furnished(program, folder, with_many, catalogue=0) as gateway, readers(gateway, "ben", wrong=None) as [ben]:
        show(ben, "category/1")
        ben.wait_for_text("200 of 200 items that were listed last")
        ben.press("button", "Show more items")
        ben.wait_for_text(f"{MANY} of {MANY} items")
        comes_back_down(ben)
        check("what ends first comes first", ben.all("heading")[2].name, "Print 1")
        ben.write("searchbox", "Find in titles", "Print 26")
        ben.wait_for_text(f"4 of {MANY} items")
        show(ben, "bids")
        check("bids that are shown", len(ben.all("row")), 1 + 100)
        ben.press("button", f"Read {MANY_BIDS - 100} older ones")
        ben.wait_for_text("All your bids are here.")
        check("all bids", len(ben.all("row")), 1 + MANY_BIDS)
        show(ben, "")
        ben.wait_for_text("These are those that were listed last.")
        catalogue.written(gateway)
        ben.page.run(truth.ASKED)
        show(ben, "")
        catalogue.shown(ben)
        catalogue.searched(ben)
        play.no_faults([ben])


def true_at_once(program, folder):
    """What the page says goes with what is so."""
    program_of_mail, mails = notices.mailbox(folder, NOBODY)
    os.environ["SENDMAIL"] = str(program_of_mail)
    with furnished(program, folder) as gateway:
        with readers(gateway, "house", "ana", "ben", "cid", wrong=None, before=truth.BEFORE) as all_of_them:
            house, ana, ben, cid = all_of_them
            listings = truth.all_of_it(gateway, *all_of_them)
            pages.all_of_it(gateway, listings, *all_of_them)
            notices.gives_an_address(ben, gateway)
            notices.tells_members(ben, gateway, listings, mails)
            notices.tells_the_window(ben, gateway, listings)
            for reader in all_of_them:
                sealed.never_sent(reader, gateway.numbers[reader.name])
            play.no_faults(all_of_them)


def in_german(program, folder, pictures):
    """The whole page speaks the language that the city chose."""
    program_of_mail, mails = notices.mailbox(folder, NOBODY)
    os.environ["SENDMAIL"] = str(program_of_mail)
    with furnished(program, folder) as gateway:
        german.speaks_german(gateway)
        with readers(gateway, "house", "ana", "ben", form=german.FORM) as all_of_them:
            number = german.all_of_it(gateway, mails, *all_of_them)
            picture(all_of_them[-1], pictures, "german", f"item/{number}", 760)
            play.no_faults(all_of_them)


def policy(gateway):
    """Each file has its type, and lets no script but the page's own run."""
    for path, kind in TYPES.items():
        head = gateway.ask("ben", "GET", path).head + "\r\n"
        check(f"{path}: policy", f"content-security-policy: {POLICY}\r\n" in head, True)
        check(f"{path}: type", f"content-type: {kind}\r\n" in head and "x-content-type-options: nosniff\r\n" in head, True)


def picture(reader, folder, name, part=None, height=900):
    if folder is not None:
        reader.resize(1080, height)
        reader.page.tool("Emulation.setScrollbarsHidden", hidden=True)
        if part is not None:
            show(reader, part)
        (folder / f"{name}.png").write_bytes(reader.page.picture())
        reader.resize(1280)


@contextlib.contextmanager
def readers(gateway, *names, wrong=None, before="", form=ENGLISH):
    """A browser for each, all of which end after this. The clock of one is wrong. A script may run before the page's own."""
    with browser.driver() as address, contextlib.ExitStack() as ending:
        found = []
        for name in names:
            found.append(Reader(address, gateway, name, play.WRONG_CLOCK if name == wrong else before, form))
            ending.callback(found[-1].end)
            found[-1].resize(1280)
        yield found


def auction(gateway, house, ana, ben, cid, pictures):
    """The auction up to what Cid seals and Ben is shown."""
    end = play.end_of_auction()
    number = play.lists_an_item(ana, end)
    play.bids_by_keys(ben)
    play.seals(cid)
    play.is_outbid(ben)
    play.waits(gateway, ben, number)
    play.is_unsure(ben)
    play.talks(ana, ben)
    picture(ben, pictures, "item", f"item/{number}")
    picture(ben, pictures, "items", "")
    sealed.never_sent(ben, BEN)
    play.countdown(cid, end)
    return number


def meanwhile(gateway, house, ana, ben):
    """What is done and looked at until the end comes."""
    play.buys(gateway, ben)
    play.reads_bids(ben)
    words.amounts(ana.page)
    words.zones(ana.page, SEED)
    words.refusals(ana.page)
    words.reserves(ana.page)
    stays_text(ana)
    for reader in (ana, ben, house):
        looks(reader)
    stays_text(house)


def after_the_end(gateway, house, ana, ben, cid, pictures, folder):
    play.ends(cid)
    play.closes(house)
    play.wins(cid)
    play.loses(ben)
    play.is_to_rate(ana)
    play.statements(gateway, ana, ben, cid)
    picture(ana, pictures, "statement", "statement", 1000)
    picture(ben, pictures, "bids", "bids", 820)
    picture(ben, pictures, "won", "won", 640)
    picture(ana, pictures, "listings", "listings", 900)
    picture(house, pictures, "accounts", "accounts", 760)
    picture(house, pictures, "settling", "settling", 620)
    play.registers(house)
    play.allow_saving(house, folder)
    play.record(gateway, house, folder)
    play.allow_saving(ana, folder)
    show(ana, "statement")
    return play.saved(ana, "Save as CSV", folder, r"statement-.*\.csv")


def main():
    program, pictures = sys.argv[1], pathlib.Path(sys.argv[2]) if len(sys.argv) > 2 else None
    missing = missing_packages() + ([] if browser.is_there() else ["chromium-driver"])
    if missing:
        print(f"Debian's packages that are missing: {' '.join(missing)}")
        return 1
    words.files()
    catalogue.whole_or_not()
    notices.told_once()
    with folder_of_nobody() as folder, tempfile.TemporaryDirectory() as saved, furnished(program, folder) as gateway:
        policy(gateway)
        with readers(gateway, "house", "ana", "ben", "cid", wrong="cid") as all_of_them:
            house, ana, ben, cid = all_of_them
            auction(gateway, house, ana, ben, cid, pictures)
            meanwhile(gateway, house, ana, ben)
            spreadsheet = after_the_end(gateway, house, ana, ben, cid, pictures, pathlib.Path(saved))
            truth.named_spreadsheet(spreadsheet, gateway)
            for reader in all_of_them:
                sealed.never_sent(reader, gateway.numbers[reader.name])
            sealed.never_written(gateway.house() / "catalogue", 20)
            play.is_shown(cid)
            play.no_faults(all_of_them)
        gateway.stop()
        play.same_as_the_program(gateway, spreadsheet)
    with folder_of_nobody() as folder:
        long_lists(program, folder)
    with folder_of_nobody() as folder:
        true_at_once(program, folder)
    with folder_of_nobody() as folder:
        in_german(program, folder, pictures)
    return verdict()


if __name__ == "__main__":
    sys.exit(main())
