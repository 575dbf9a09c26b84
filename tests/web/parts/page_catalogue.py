"""The catalogue that deploy/gateway/catalogue writes: it has what the house tells, is whole or as it was, and is shown."""
import http.server
import json
import os
import pathlib
import shutil
import socketserver
import subprocess
import sys
import tempfile
import threading

from lib.checks import check
from lib.confined import as_nobody
from lib.places import ROOT
from parts.page_house import MANY
from parts.page_truth import ASKED

JOB = ROOT / "deploy" / "gateway" / "catalogue"
PART = 200


def run(house, python=sys.executable, job=JOB, **words):
    """One round of the job: how it ended, and what it said."""
    result = subprocess.run([python, "-B", job / "catalogue.py", house], capture_output=True, text=True, **words)
    return result.returncode, result.stdout, result.stderr


def round_of(gateway):
    """A round by the user who runs the gateway, who may not reach the Python of this test."""
    python = shutil.which("python3", path="/usr/bin:/usr/local/bin")
    return run(gateway.house(), python, gateway.scripts / "catalogue", preexec_fn=as_nobody)[:2]


def tree(folder):
    """All bytes of a catalogue, by name."""
    return {file.relative_to(folder).as_posix(): file.read_bytes() for file in folder.rglob("*") if file.is_file()}


def value(files, name):
    return json.loads(files[name])


def written(gateway):
    """The catalogue of a house has each item as the house tells it, open ones by their end."""
    house = gateway.house()
    check("a round", round_of(gateway), (0, f"{MANY} items, {2 + 3 + MANY // 50 + 1} reads\n"))
    files = tree(house / "catalogue")
    lists = [gateway.ask("ben", "GET", f"/api/categories/1/items/{first}").value["items"] for first in range(1, MANY, 50)]
    wanted = [{key: item[key] for key in item if key not in ("edition", "floor", "lot", "text")} for some in lists for item in some]
    check("as many as there are", len(wanted), MANY)
    check("all items", value(files, "items/0.json"), wanted)
    by_end = sorted(wanted, key=lambda item: item["end"])
    check("what ends soonest", value(files, "open/1.json"), by_end[:PART])
    check("and then", value(files, "open/2.json"), by_end[PART:])
    check("of the seller", value(files, "seller/1/2.json"), by_end[PART:])
    check("of the category", value(files, "category/1/1.json"), by_end[:PART])
    check("a second round", round_of(gateway), (0, f"{MANY} items, {2 + 3 + MANY // 50 + 1} reads\n"))
    check("no other folder stays", len(list(house.glob("catalogue-*"))), 1)


def shown(ben):
    """What ends soonest is first, though 259 items are younger, and the age of the list is told. No list of the house is read."""
    ben.wait_for_text("This list is")
    check("lists of the house", [path for path in ben.page.run(ASKED) if "/items/" in path], [])
    check("what ends soonest", ben.all("heading")[2].name, "Print 1")
    ben.press("button", "Show more items")
    ben.wait_for("link", f"Print {MANY}")
    ben.wait_for_text("All items are here.")


def searched(ben):
    """Words are found in all titles."""
    ben.write("searchbox", "Find in all titles", "print 25")
    ben.press("button", "Find")
    ben.wait_for_text(f"13 items of {MANY}")
    ben.wait_for("link", "Print 259")


# A house that fails: answers that were recorded, up to one after which each read is refused.

ITEM = {"buy_now": None, "category": 1, "closed": None, "count": 0, "edition": 1, "end": 5_000, "floor": 500, "leader": None,
        "lot": "A", "met": None, "price": 500, "seller": 1, "start": 500, "state": "open", "text": "long", "title": "Atlas"}


def pages_of(items):
    """What a house of some items answers: two categories, of which the second has none."""
    pages = {"/house": {"items": len(items)}, "/categories": {"categories": [{"category": 1}, {"category": 2}]}}
    for first in range(1, len(items) + 2):
        pages[f"/categories/1/items/{first}"] = {"items": items[first - 1:first + 49]}
        pages[f"/categories/2/items/{first}"] = {"items": []}
    return pages | {f"/items/{item['item']}": item for item in items}


class Server(socketserver.UnixStreamServer):
    """A house of pages in the place of a queue, which refuses all reads but so many."""
    request_queue_size = 64

    def __init__(self, path, pages, most):
        self.pages, self.left = pages, most
        super().__init__(str(path), Handler)


class Handler(http.server.BaseHTTPRequestHandler):
    protocol_version = "HTTP/1.1"

    def do_GET(self):
        self.server.left -= 1
        page = self.server.pages.get(self.path)
        body = json.dumps(page).encode()
        self.send_response(200 if page and self.server.left >= 0 else 503)
        self.send_header("content-length", str(len(body)))
        self.end_headers()
        self.wfile.write(body)

    def log_message(self, *words):
        pass


def round_over(house, pages, most):
    """One round over a house that answers so many reads."""
    queue = house / "run" / "queue.sock"
    queue.unlink(missing_ok=True)
    with Server(queue, pages, most) as server:
        thread = threading.Thread(target=server.serve_forever)
        thread.start()
        try:
            return run(house)
        finally:
            server.shutdown()
            thread.join()


def whole_or_not(enough=1_000):
    """Where a read fails, whichever, or a write, the catalogue stays as it was."""
    items = [{**ITEM, "item": number, "title": f"Atlas {number}", "end": 5_000 + number} for number in range(1, 121)]
    with tempfile.TemporaryDirectory() as name:
        house = pathlib.Path(name)
        (house / "run").mkdir()
        check("a first round", round_over(house, pages_of(items), enough)[0], 0)
        before = tree(house / "catalogue")
        items = [{**item, "price": 900, "state": "sold", "leader": 2, "closed": 6_000} for item in items]
        reads = next(count for count in range(enough) if stays(house, before, pages_of(items), count))
        check("reads of a round", reads, 2 + 3 + 1)
        no_room(house, pages_of([{**item, "state": "settled"} for item in items]), enough)
        keeps_what_is_final(house, items, enough)


def stays(house, before, pages, count):
    """Whether a round over so many reads succeeds. Else all is as it was."""
    status, _, error = round_over(house, pages, count)
    if status == 0:
        return True
    check(f"after {count} reads", (tree(house / "catalogue") == before, "Refused" in error), (True, True))
    return False


def no_room(house, pages, enough):
    """Where no file may be written the catalogue stays as it was."""
    before = tree(house / "catalogue")
    limited = ["prlimit", "--fsize=4096", sys.executable, "-B", JOB / "catalogue.py", house]
    queue = house / "run" / "queue.sock"
    queue.unlink()
    with Server(queue, pages, enough) as server:
        thread = threading.Thread(target=server.serve_forever)
        thread.start()
        result = subprocess.run(limited, capture_output=True)
        server.shutdown()
        thread.join()
    check("no room", (result.returncode != 0, tree(house / "catalogue") == before), (True, True))


def keeps_what_is_final(house, items, enough):
    """What is over is read once. An older copy of the house is read from its beginning."""
    settled = [{**item, "state": "settled"} for item in items]
    check("all is settled", round_over(house, pages_of(settled), enough)[:2], (0, "120 items, 6 reads\n"))
    inode = os.stat(house / "catalogue" / "items" / "0.json").st_ino
    check("nothing is read again", round_over(house, pages_of(settled), enough)[:2], (0, "120 items, 5 reads\n"))
    check("a file that is the same stays", os.stat(house / "catalogue" / "items" / "0.json").st_ino, inode)
    (house / "catalogue" / "items" / "0.json").write_bytes(b"")
    check("after a power cut", round_over(house, pages_of(settled), enough)[:2], (0, "120 items, 6 reads\n"))
    check("its items", len(value(tree(house / "catalogue"), "items/0.json")), 120)
    check("an older copy", round_over(house, pages_of(items[:60]), enough)[:2], (0, "60 items, 5 reads\n"))
    check("its items", len(value(tree(house / "catalogue"), "items/0.json")), 60)
