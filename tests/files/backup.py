#!/usr/bin/env python3
"""Copies a house that is served, and restores it, by the scripts of deploy/backup: `backup.py PROGRAM [COPIES]`.

A client sends commands one after the other, each of which makes a row, while the house is copied COPIES times (20 where none are
given) with a pause between file and log, so that the log is written into the file meanwhile now and then. Each copy has to be one
file, sound for SQLite, with the rows of all that was answered before it was begun, and of no more than what was sent before it
was done. What SQLite itself says of a served house is that it is locked, and that disturbs nobody. A copy is not restored over a
house that is served; over one that isn't, or that is damaged, it is, and the program serves it; no link is followed meanwhile. What
is no house of this version is neither copied nor restored, and a copy that finds no room leaves nothing behind. A city's copy has
its house, its accounts and its settings, and old ones are dropped; none is made while a link lies in the place of accounts or
addresses. A house that VACUUM has compacted is one. One that has lost a page is none, and the rows that SQLite reads are made one
again, by the script and by `.recover`, where the command `sqlite3` has that. Where a superuser runs this, a restored house is its
folder's owner's; and where btrfs-progs is there, snapshots of a file system of its own are copied too, also beside what a killed
one has left. The last line is 'N checks, M wrong'.

Promise: none
"""
import contextlib
import datetime
import json
import os
import pathlib
import shutil
import sqlite3
import subprocess
import sys
import tempfile
import threading
import time

from lib import written_anew
from lib.checks import check, verdict
from lib.confined import limited
from lib.growing import Client, commands, made
from lib.house_files import rows
from lib.places import ROOT
from lib.sent import PATIENCE
from lib.serving import SETTINGS, Program, exchange, message, served

SCRIPTS = ROOT / "deploy" / "backup"
sys.path.insert(0, str(SCRIPTS))
import copy_city  # noqa: E402
import copy_house  # noqa: E402

LOCKED = "database is locked"
HOUSE = message("GET", "/house", 0)


def script(name, *words, before=None, **environment):
    result = subprocess.run([sys.executable if name.endswith(".py") else "sh", SCRIPTS / name, *words], capture_output=True,
                          text=True, timeout=PATIENCE, preexec_fn=before, env={**os.environ, **environment})
    return result.returncode, result.stdout.strip(), result.stderr.strip()


# How many seconds pass between two commands: 10,000 are answered over a connection, and must outlast all copies.
PAUSE = 0.004


class Sender(threading.Thread):
    """Sends commands over one connection until it is told to stop, and counts those that were answered."""

    def __init__(self, port, texts):
        super().__init__(daemon=True)
        self.client, self.texts = Client(port), texts
        self.answered, self.is_over = 0, False

    def run(self):
        while not self.is_over and self.client.asks(next(self.texts).text()):
            self.answered += 1
            time.sleep(PAUSE)
        self.client.connection.close()

    def stop(self):
        self.is_over = True
        self.join()


def copied(folder, sender, number, copy):
    """Makes a copy while commands are sent, looks at it, and tells how often it was begun."""
    name, before = folder / f"copy{number}", sender.answered
    times = copy(name)
    after = sender.answered
    check("no log beside the copy", (folder / f"copy{number}-wal").exists(), False)
    (folder / f"copy{number}-wal").touch()
    count = made(rows(folder, f"copy{number}"))
    check("as many rows as commands", before <= count <= after + 1, True)
    return times


def slowly(house):
    """Makes copies with a pause between file and log."""
    whole = shutil.copyfile

    def paused(source, target):
        whole(source, target)
        time.sleep(0.05)

    def copy(name):
        copy_house.shutil.copyfile = paused
        try:
            return copy_house.copy_house(house, name)
        finally:
            copy_house.shutil.copyfile = whole

    return copy


def locked(folder, sender):
    """What SQLite says of a served house, and that commands are taken meanwhile."""
    before = sender.answered
    for words in ("SELECT count(*) FROM member", ".backup other", "VACUUM INTO 'another'", "PRAGMA wal_checkpoint"):
        result = subprocess.run(["sqlite3", "house", words], cwd=folder, capture_output=True, text=True, timeout=PATIENCE)
        check(f"sqlite3 {words}", LOCKED in result.stdout + result.stderr, True)
    deadline = time.monotonic() + PATIENCE
    while sender.answered == before and time.monotonic() < deadline:
        time.sleep(0.01)
    check("commands are taken on", sender.answered > before, True)


def copies(program, folder, count):
    with program.serving("house", 1) as server:
        sender = Sender(server.port, commands())
        sender.start()
        begun = [copied(folder, sender, number, slowly(folder / "house")) for number in range(count)]
        check("by the script", script("copy_house.py", folder / "house", folder / "kept")[::2], (0, ""))
        check("there already", script("copy_house.py", folder / "house", folder / "kept")[0], 1)
        check("no house", script("copy_house.py", folder / "none", folder / "copy")[0], 1)
        check("restored while it is served", script("restore_house.py", folder / "kept", folder / "house"),
              (1, "", f"restore_house.py: {LOCKED}"))
        if shutil.which("sqlite3"):
            locked(folder, sender)
        sender.stop()
    check("served on", server.ending, served(1))
    print(f"{count} copies beside {sender.answered} commands, {sum(begun) - count} begun again")


def restored(program, folder):
    """The copy is the house again, and what was there is kept."""
    answers = {}
    for name in ("house", "kept"):
        with program.serving(name, 1) as server:
            answers[name] = exchange(server.port, HOUSE)
    check("more was taken after the copy", answers["house"] != answers["kept"], True)
    (folder / "spoiled").write_bytes((folder / "kept").read_bytes()[:20_000])
    check("a spoiled copy", script("restore_house.py", folder / "spoiled", folder / "house")[0], 1)
    check("restored", script("restore_house.py", folder / "kept", folder / "house"), (0, "restored", ""))
    check("restored again", script("restore_house.py", folder / "kept", folder / "house")[0], 1)
    for name, wanted in (("house", "kept"), ("house.before", "house")):
        with program.serving(name, 1) as server:
            check(f"{name} is {wanted}", exchange(server.port, HOUSE), answers[wanted])


def changed(folder, name, change):
    """A copy of the kept house with a change made in SQL."""
    shutil.copyfile(folder / "kept", folder / name)
    with contextlib.closing(sqlite3.connect(folder / name)) as database:
        database.execute(change)
        database.commit()


def refused(folder):
    """What is no house is neither copied nor restored, and nothing is left of it."""
    (folder / "empty").touch()
    (folder / "noise").write_bytes(os.urandom(8192))
    with contextlib.closing(sqlite3.connect(folder / "other")) as database:
        database.execute("CREATE TABLE house (version)")
        database.commit()
    changed(folder, "earlier", "UPDATE house SET version = 1")
    changed(folder, "more", "CREATE TABLE more (id)")
    before = sorted(folder.iterdir())
    for name, why in (("empty", "it is no house"), ("noise", "file is not a database"), ("other", "it is no house"),
                      ("earlier", "it is a house of version 1, not of 2"), ("more", "it is no house")):
        check(f"{name} copied", script("copy_house.py", folder / name, folder / "new copy"), (1, "", f"copy_house.py: {why}"))
        check(f"{name} restored", script("restore_house.py", folder / name, folder / "new house"), (1, "", f"restore_house.py: {why}"))
    status, _, error = script("copy_house.py", folder / "kept", folder / "new copy", before=limited(50_000))
    check("no room", (status, "File too large" in error), (1, True))
    check("nothing is left", sorted(folder.iterdir()), before)
    for name in ("copy_house.py", "restore_house.py", "copy_city.py"):
        check(f"{name} without words", script(name)[0], 2)


def replaced(program, folder):
    """A damaged house, with its log, gives way to a copy; a restored house is its folder's owner's."""
    place = folder / "place"
    place.mkdir()
    (place / "house").write_text("damaged")
    (place / "house-wal").write_bytes(bytes(5000))
    check("restored over what is damaged", script("restore_house.py", folder / "kept", place / "house"), (0, "restored", ""))
    check("what is kept", sorted(file.name for file in place.iterdir()), ["house", "house.before", "house.before-wal"])
    linked(folder)
    if os.geteuid() == 0:
        other = folder / "of another"
        other.mkdir()
        os.chown(other, 1234, 5678)
        script("restore_house.py", folder / "kept", other / "house")
        status = (other / "house").stat()
        check("its owner and rights", (status.st_uid, status.st_gid, status.st_mode & 0o777), (1234, 5678, 0o600))


def linked(folder):
    """No link is followed that lies where a restore writes."""
    place, behind = folder / "linked", folder / "behind links"
    place.mkdir()
    behind.write_text("kept")
    (place / "house").write_text("damaged")
    words = "restore_house.py", folder / "kept", place / "house"
    for name, to in (("house.before", "nothing"), ("house.before-wal", behind.name)):
        (place / name).symlink_to(folder / to)
        check(f"{name} is a link", script(*words), (1, "", f"restore_house.py: {place.resolve() / name} is there already"))
        (place / name).unlink(missing_ok=True)
    for name in ("house.begun", "house.begun-wal"):
        (place / name).symlink_to(behind)
    check("restored beside links", script(*words), (0, "restored", ""))
    check("behind them", (behind.read_text(), (folder / "nothing").exists()), ("kept", False))


def make_city(root, house):
    """The files of a city, and its accounts, which are open."""
    settings, sign_in, page, live = (root / place / "lindow" for place in (
        "etc/auction", "var/lib/auction-sign-in", "var/lib/auction-page", "var/lib/auction"))
    for place in (settings, sign_in, page / "addresses", live):
        place.mkdir(parents=True)
    shutil.copyfile(house, live / "house")
    (settings / "key.pem").write_text("key")
    (settings / "key.pem").chmod(0o640)
    (settings / "run").symlink_to("/run/auction/lindow")
    (settings / "accounts").symlink_to(sign_in / "accounts")
    (page / "notices.json").write_text("{}")
    (page / "addresses" / "2").write_text("ben@lindow.example")
    (page / "origin").write_text("https://lindow.example")
    accounts = sqlite3.connect(sign_in / "accounts", isolation_level=None)
    accounts.execute("PRAGMA journal_mode = WAL")
    accounts.execute("CREATE TABLE account (login)")
    accounts.execute("INSERT INTO account VALUES ('ana')")
    return accounts


def logins(copy):
    with contextlib.closing(sqlite3.connect(copy / "accounts")) as accounts:
        return accounts.execute("SELECT login FROM account").fetchall()


def cities(program, folder):
    """Copies of a city, with its accounts and its settings."""
    root = folder / "root"
    live, copies = root / "var" / "lib" / "auction" / "lindow", root / "var" / "backups" / "auction" / "lindow"
    with contextlib.closing(make_city(root, folder / "kept")):
        status, said, _ = script("copy_city.py", "lindow", root)
    check("a city copied", (status, said.endswith("Z, 0 minutes old")), (0, True))
    copy = next(copies.iterdir())
    check("its files", sorted(str(file.relative_to(copy)) for file in copy.rglob("*") if file.is_file()),
          ["accounts", "house", "page/addresses/2", "page/notices.json", "settings/key.pem"])
    check("its rights", ((copy / "settings" / "key.pem").stat().st_mode & 0o777, copy.stat().st_mode & 0o777), (0o640, 0o700))
    check("its house", (copy / "house").read_bytes() == (folder / "kept").read_bytes(), True)
    check("its accounts", logins(copy), [("ana",)])
    time.sleep(1)
    check("copied while nobody can sign in", script("copy_city.py", "lindow", root)[0], 0)
    check("its accounts then", logins(max(copies.iterdir())), [("ana",)])
    shutil.rmtree(max(copies.iterdir()))
    linked_city(root)
    check("what is left where links lie", list(copies.iterdir()), [copy])
    (copies / "begun").mkdir()
    (live / "house").write_text("damaged")
    status, said, error = script("copy_city.py", "lindow", root)
    check("a copy that fails", (status, said.startswith(f"the newest copy is {copy.name}"), error),
          (1, True, "copy_city.py: file is not a database"))
    check("what is left of it", list(copies.iterdir()), [copy])


def linked_city(root):
    """A city is not copied where a user other than root has put a link in the place of what it owns."""
    for place in ("auction-sign-in/lindow/accounts", "auction-page/lindow/addresses"):
        file = root / "var" / "lib" / place
        behind = file.rename(root / "behind")
        file.symlink_to(behind)
        status, _, error = script("copy_city.py", "lindow", root)
        check(f"{place} is a link", (status, error), (1, f"copy_city.py: {file} is a link"))
        file.unlink()
        behind.rename(file)


ITEMS = 30


def make_questions(program, house):
    """A house in which a member has asked a question about each of some items."""
    texts = [message("POST", "/members", 0, 1, json.dumps({"name": name})) for name in ("Ana", "Ben")]
    texts.append(message("POST", "/categories", 0, 1, '{"name":"Books"}'))
    for number in range(1, ITEMS + 1):
        item = {"category": 1, "end": 5_000, "lot": f"A{number}", "start": 500, "text": "", "title": "Atlas"}
        texts.append(message("POST", "/items", 1, 1, json.dumps(item)))
        texts.append(message("POST", f"/items/{number}/questions", 2, 1, '{"text":"Who bound it?"}'))
    check(f"{house} made", program.ended("init", house, "--bands", "bands.csv", *SETTINGS)[0], 0)
    with program.serving(house, len(texts), PATIENCE) as server:
        check(f"{house} filled", {exchange(server.port, text)[:12] for text in texts}, {b"HTTP/1.1 201"})


def dumped(house):
    with contextlib.closing(sqlite3.connect(house)) as database:
        return sorted(database.iterdump())


def is_house(program, name):
    """Whether the program reads a house in a file."""
    status, _, error = program.ended("statement", name, "--member", "1", "--from", "1970-01-01", "--to", "1970-01-01")
    check(f"{name} is a house, or Damaged", (status, error) in [(0, b""), (1, b"auction: file: Damaged\n")], True)
    return status == 0


def overwrite(house, table):
    """Has a page of a table lost."""
    with contextlib.closing(sqlite3.connect(house)) as database:
        page, = database.execute("SELECT rootpage FROM sqlite_schema WHERE name = ?", [table]).fetchone()
        size, = database.execute("PRAGMA page_size").fetchone()
    with house.open("r+b") as file:
        file.seek((page - 1) * size)
        file.write(b"\xff" * size)


def sqlite(house, words):
    subprocess.run(["sqlite3", house, words], check=True, capture_output=True, timeout=PATIENCE)


def questionless(house):
    return [line for line in dumped(house) if not line.startswith('INSERT INTO "question"')]


def compacted(program, folder):
    """A house is compacted in its place and into another file, is one in both, and is copied."""
    shutil.copyfile(folder / "asked", folder / "in its place")
    sqlite(folder / "in its place", "VACUUM")
    sqlite(folder / "in its place", f"VACUUM INTO '{folder / 'into another'}'")
    for name in ("in its place", "into another"):
        check(f"{name}: a house", is_house(program, name), True)
        check(f"{name}: all rows", dumped(folder / name), dumped(folder / "asked"))
        check(f"{name}: copied", script("copy_house.py", folder / name, folder / f"{name} copied"), (0, "copied", ""))
        check(f"{name} copied: a house", is_house(program, f"{name} copied"), True)


def rescued(program, folder):
    """Rows of a house that lost a page are made a house again: by the script, and by `.recover`, where that is there. An index that
    lost its page is made anew by a dump, with all rows; where one is missing, or a table is there that is none of a house, the
    script has all rows too."""
    path = f"{pathlib.Path(program.path).parent}:{os.environ['PATH']}"
    for name, lost in (("broken", "question"), ("unsorted", "item_by_end")):
        shutil.copyfile(folder / "asked", folder / name)
        overwrite(folder / name, lost)
        check(f"{name}: a house", is_house(program, name), False)
    ending = script("rescue_house.sh", folder / "broken", folder / "rescued", PATH=path)
    check("rescued", ending, (0, f"some rows can't be read, and are lost\n{ITEMS} items", ""))
    written_anew.dumped(folder / "unsorted", folder / "sorted", None)
    houses = {"rescued": questionless, "sorted": dumped}
    for name, change in (("unindexed", "DROP INDEX item_by_end"), ("enlarged", "CREATE TABLE more (id)")):
        shutil.copyfile(folder / "asked", folder / name)
        sqlite(folder / name, change)
        check(f"{name}: a house", is_house(program, name), False)
        ending = script("rescue_house.sh", folder / name, folder / f"{name} rescued", PATH=path)
        check(f"{name}: rescued", ending, (0, f"{ITEMS} items", ""))
        houses[f"{name} rescued"] = dumped
    if written_anew.can_recover():
        written_anew.recovered(folder / "broken", folder / "recovered", None)
        written_anew.recovered(folder / "unsorted", folder / "recovered sorted", None)
        houses.update({"recovered": questionless, "recovered sorted": dumped})
    else:
        print("left out: .recover, which the command sqlite3 here can't")
    for name, kept in houses.items():
        check(f"{name}: a house again", is_house(program, name), True)
        check(f"{name}: what was left", dumped(folder / name), kept(folder / "asked"))
    (folder / "no house").write_text("This is no house." * 1000)
    status, said, error = script("rescue_house.sh", folder / "no house", folder / "none", PATH=path)
    check("no house", (status, said, "no settings of a house" in error, (folder / "none").exists()), (1, "", True, False))


def lost_and_found(program, folder):
    """A table that a rescue has left, and its gap in the list once it is taken away."""
    shutil.copyfile(folder / "asked", folder / "found")
    sqlite(folder / "found", "CREATE TABLE lost_and_found (rootpgno INTEGER, pgno INTEGER, nfield INTEGER, id INTEGER, c0)")
    check("found: a house", is_house(program, "found"), False)
    sqlite(folder / "found", "DROP TABLE lost_and_found; VACUUM")
    check("found: a house again", is_house(program, "found"), True)


def turned_over():
    """Of a copy each hour for twenty days the newest 24 are kept, and the last of each of fourteen days."""
    last = datetime.datetime(2026, 3, 20, 12)
    hours = [(last - datetime.timedelta(hours=past)).strftime(copy_city.TIME) for past in range(20 * 24)]
    days = [f"2026-03-{day:02}T23:00:00Z" for day in range(7, 19)]
    check("kept", copy_city.kept(hours), {*hours[:24], *days})


@contextlib.contextmanager
def file_system(folder):
    """A file system of btrfs in a file, with a folder that has snapshots."""
    image, place = folder / "image", folder / "mounted"
    image.touch()
    os.truncate(image, 256 * 2**20)
    place.mkdir()
    subprocess.run(["mkfs.btrfs", "-q", image], check=True, capture_output=True)
    subprocess.run(["mount", "-o", "loop", image, place], check=True)
    try:
        subprocess.run(["btrfs", "-q", "subvolume", "create", place / "live"], check=True)
        yield place / "live"
    finally:
        subprocess.run(["umount", place], check=True)


def snapshots(path, folder, count):
    with file_system(folder) as live:
        (live / "bands.csv").write_text("at,step\n0,5\n100,25\n500,50\n")
        program = Program(path, str(live))
        check("made", program.ended("init", "house", "--bands", "bands.csv", *SETTINGS)[0], 0)
        with program.serving("house", 1) as server:
            sender = Sender(server.port, commands())
            sender.start()
            subprocess.run(["btrfs", "-q", "subvolume", "snapshot", "-r", live, f"{live}.snapshot"], check=True)
            for number in range(count):
                copied(folder, sender, f"-of-a-snapshot{number}",
                       lambda name: check("a snapshot", script("snapshot_house.sh", live, name)[::2], (0, "")))
            sender.stop()
        print(f"{count} snapshots beside {sender.answered} commands")


def main():
    path, count = str(pathlib.Path(sys.argv[1]).resolve()), int((sys.argv[2:] + ["20"])[0])
    with tempfile.TemporaryDirectory() as name:
        folder = pathlib.Path(name)
        (folder / "bands.csv").write_text("at,step\n0,5\n100,25\n500,50\n")
        program = Program(path, name)
        check("made", program.ended("init", "house", "--bands", "bands.csv", *SETTINGS)[0], 0)
        copies(program, folder, count)
        restored(program, folder)
        refused(folder)
        replaced(program, folder)
        cities(program, folder)
        make_questions(program, "asked")
        compacted(program, folder)
        rescued(program, folder)
        lost_and_found(program, folder)
        turned_over()
        if os.geteuid() == 0 and shutil.which("mkfs.btrfs"):
            snapshots(path, folder, count)
        else:
            print("no snapshots: they need a superuser and btrfs-progs")
    return verdict()


if __name__ == "__main__":
    sys.exit(main())
