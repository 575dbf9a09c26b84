"""A house with some history, behind a gateway: what the page of deploy/gateway is shown on.

Its zone is not that of the browser, and its sales lie on several days. Ana sells old books and maps. Ben and Cid buy them.
Three lots and one member have names and texts that would do harm if they were read as HTML.
"""
import contextlib
import json
import os
import sqlite3
import subprocess
import time

from lib.checks import check
from lib.confined import as_nobody
from lib.gateway_run import Gateway, running
from lib.places import ROOT
from lib.serving import Program, message

ZONE = "CET-1CEST,M3.5.0,M10.5.0/3"
NAMES = ["Ana", "Ben", "Cid"]
ANA, BEN, CID, HOUSE = 1, 2, 3, 0
DAY, HOUR = 86_400, 3_600
MAPS, BOOKS, INSTRUMENTS, STRANGE = 1, 2, 3, 4
TURN = "\u202e"
EVIL_NAME = f"<i>{TURN}Eve</i>"
EVIL_CATEGORY = "<svg onload=document.title=1>"
EVIL_TITLES = ["<img src=x onerror=document.title=1>", f"</script><script>document.title=1</script>{TURN}abc", "W" * 80]
EVIL_TEXTS = ["<img src=x onerror=document.title=1>" * 20,
              f"</script><script>document.title=1</script>{TURN}{TURN}\u2067abc\u2029<b>two</b>", "W" * 1000]
EVIL = f"</p><img src=x onerror=document.title=1>{TURN}turned"

# Sold before: how many days ago, who sold it, the category, the title, the start, and the maxima of the two others.
PAST = [
    (38, ANA, MAPS, "Plan of the harbour, 1851", 4_000, 9_000, 7_500),
    (36, BEN, BOOKS, "Almanac for the year 1790", 1_500, 2_400, 3_100),
    (33, ANA, BOOKS, "Travels in the Levant, two volumes", 6_000, 14_000, 12_000),
    (31, ANA, INSTRUMENTS, "Brass sextant in its case", 18_000, 26_000, 31_000),
    (27, CID, MAPS, "Chart of the Baltic, coloured", 8_000, 11_500, 9_000),
    (26, ANA, BOOKS, "Herbal with woodcuts, lacking a leaf", 9_000, 9_500, 0),
    (19, ANA, MAPS, "Road book of the counties", 3_000, 6_200, 5_800),
    (17, BEN, INSTRUMENTS, "Pocket compass", 1_900, 2_000, 4_200),
    (12, ANA, BOOKS, "Sermons, in vellum", 1_000, 0, 1_800),
    (6, ANA, MAPS, "Globe gores, unmounted", 22_000, 30_000, 28_500),
    (3, CID, BOOKS, "Cookery book of a great house", 2_500, 5_200, 3_900),
]
# Open: in how many hours it ends, the category, the title, the text, the start, the buy-now price, and what Cid and Ben bid.
OPEN = [
    (160, MAPS, "Survey of the marshes, in manuscript", "Six sheets. The reserve is well over the start.", 5_000, None,
     [(CID, 868_417)]),
    (30, MAPS, "View of the city from the river, engraved", "A panorama in two sheets, joined. Some spots at the margin.",
     9_000, None, [(BEN, 14_000)]),
    (52, INSTRUMENTS, "Telescope of three draws, signed", "Brass and mahogany. The lens cap is lost.", 26_000, 60_000, []),
    (75, BOOKS, "Fables, with wood engravings", "Half calf, a little worn, and clean within.", 3_500, None,
     [(CID, 4_000), (BEN, 9_000)]),
    (98, MAPS, "Celestial chart of the northern sky", "Linen backed, folding into its slipcase.", 12_000, None,
     [(BEN, 12_500), (CID, 18_000)]),
    (140, INSTRUMENTS, "Globe of twelve inches, about 1890", "On a turned stand. The horizon ring has a crack.", 20_000,
     45_000, []),
]
# What Ana has sealed.
RESERVES = {"Survey of the marshes, in manuscript": 947_613}
GLOBE = "Globe of twelve inches, about 1890"
MANY, MANY_BIDS = 260, 110


@contextlib.contextmanager
def in_zone(rule):
    """Has the C library go by a zone."""
    before = os.environ.get("TZ")
    os.environ["TZ"] = rule
    time.tzset()
    try:
        yield
    finally:
        os.environ.pop("TZ")
        os.environ.update({"TZ": before} if before is not None else {})
        time.tzset()


def command(member, path, moment, **words):
    return message("POST", path, member, moment, json.dumps(words))


def others(seller):
    return [member for member in (ANA, BEN, CID) if member != seller]


def offered(number, seller, moment, end, category, title, text, start, buy_now=None):
    return command(seller, "/items", moment, category=category, end=end, lot=f"L{number}", title=title, text=text,
                   start=start, buy_now=buy_now, reserve=RESERVES.get(title))


def begun(now):
    """The members and categories, before all sales."""
    moment = now - 60 * DAY
    for name in NAMES:
        yield command(HOUSE, "/members", moment, name=name)
    for name in ("Maps", "Books", "Instruments", EVIL_CATEGORY):
        yield command(HOUSE, "/categories", moment, name=name)
    yield command(HOUSE, "/members", moment, name=EVIL_NAME)


def sold_before(now):
    """Sales on several days, each settled."""
    for number, (days, seller, category, title, start, first, second) in enumerate(PAST, 1):
        end = now - days * DAY
        yield offered(number, seller, end - HOUR, end, category, title, "", start)
        for member, maximum in zip(others(seller), (first, second)):
            if maximum:
                yield command(member, f"/items/{number}/bids", end - HOUR, maximum=maximum)
        yield command(HOUSE, "/close", end)
        yield command(HOUSE, f"/items/{number}/settle", end)


def open_now(now):
    """Items that are open, and what was bid for them; then those that would do harm."""
    moment = now - HOUR
    for number, (hours, category, title, text, start, buy_now, bids) in enumerate(OPEN, len(PAST) + 1):
        yield offered(number, ANA, moment, now + hours * HOUR, category, title, text, start, buy_now)
        for member, maximum in bids:
            yield command(member, f"/items/{number}/bids", moment, maximum=maximum)
    first = len(PAST) + len(OPEN) + 1
    for number, (title, text) in enumerate(zip(EVIL_TITLES, EVIL_TEXTS), first):
        yield offered(number, ANA, moment, now + 200 * HOUR, STRANGE, title, text, 100)
    yield command(BEN, f"/items/{first}/questions", moment, text=EVIL)
    yield command(ANA, f"/items/{first}/questions/{BEN}/1/answer", moment, text=EVIL)
    yield command(CID, f"/items/{first}/questions", moment, text=EVIL)
    yield command(BEN, "/items/1/feedback", moment, rating=1, text=EVIL)


def with_history(now):
    """Sales of several days, and what is open."""
    return [*begun(now), *sold_before(now), *open_now(now)]


def with_many(now):
    """More items than a list has, and than the page reads at first, and bids of Ben for more of them than it shows."""
    moment = now - HOUR
    items = [offered(number, ANA, moment, now + number * HOUR, MAPS, f"Print {number}", "", 100) for number in range(1, MANY + 1)]
    bids = [command(BEN, f"/items/{number}/bids", moment, maximum=200) for number in range(1, MANY_BIDS + 1)]
    return [*begun(now), *items, *bids]


def write_passwords(house):
    """Lets the members sign in whom the house knows, as account.sh does, by hashes that take less time."""
    tables = ROOT / "deploy" / "gateway" / "accounts.sql"
    lines = []
    with contextlib.closing(sqlite3.connect(house / "accounts")) as accounts:
        accounts.executescript(tables.read_text())
        for number, name in enumerate(["house", *map(str.lower, NAMES)]):
            password = os.urandom(12).hex()
            digest = subprocess.run(["htpasswd", "-niBC", "4", name], input=password, capture_output=True, text=True, check=True)
            accounts.execute("INSERT INTO account (login, member, hash) VALUES (?, ?, ?)",
                             (name, number, digest.stdout.strip().partition(":")[2]))
            lines.append(f"{name} {number} {password}\n")
        accounts.commit()
    (house / "passwords").write_text("".join(lines))


def make_house(program, folder, history):
    """Makes a house of some messages in the place where start.sh looks for it."""
    gateway = Gateway(program, folder, 0, 0)
    house = gateway.house()
    subprocess.run(["mkdir", "-p", house], check=True, preexec_fn=as_nobody)
    tool = Program(gateway.program, house, before=as_nobody)
    words = ["--bands", str(gateway.bands), "--rate", "1000", "--zone", ZONE]
    check("a house is made", tool.ended("init", "house", *words)[0], 0)
    [answers], _ = tool.answers("house", [b"".join(history(int(time.time())))])
    check("its history is taken", answers.count(b"HTTP/1.1 20"), answers.count(b"HTTP/1.1 "))
    write_passwords(house)
    for file in house.iterdir():
        if os.geteuid() == 0:
            os.chown(file, *as_owner(house))
    return house


def as_owner(folder):
    return folder.stat().st_uid, folder.stat().st_gid


@contextlib.contextmanager
def furnished(program, folder, history=with_history, catalogue=3):
    """A gateway of a house with a history, which is stopped after this. What is due is closed on the page alone. Its
    catalogue is written each so many seconds, or never, where that is 0."""
    make_house(program, folder, history)
    os.environ["CATALOGUE"] = str(catalogue)
    with running(program, folder, closes=0) as gateway:
        yield gateway
