"""account.sh: who may sign in to a house, and what is left where one of its runs is killed."""
import contextlib
import os
import signal
import sqlite3
import subprocess
import time

from lib.checks import check
from lib.confined import NOBODY, as_nobody
from lib.gateway_run import PATH
from parts.gateway_sign_in import WRONG, asked, leads_to, number

# A public name is no login: it has what a login can't have, and what quotes might let through.
NAME = "Dora \"D\\\" O'Neil, Åse; DROP"
REFUSED = {
    "a login that is there": ("add", "ben", "Ben Second"), "a capital": ("add", "Dan", "Dan"), "two words": ("add", "d n", "Dan"),
    "two lines": ("add", "d\nn", "Dan"), "a quote": ("add", "d'n", "Dan"), "none": ("add", "", "Dan"), "a dot first": ("add", ".d", "Dan"),
    "41 letters": ("add", "d" * 41, "Dan"), "a name that is taken": ("add", "dan", "Ben"), "no name": ("add", "dan", ""),
    "a name of 41 bytes": ("add", "dan", "D" * 41), "a number that is none": ("adopt", "dan", "999"),
    "a number with a login": ("adopt", "dan", "2"), "the house twice": ("adopt", "dan", "0"), "no number": ("adopt", "dan", "2x"),
    "a login that isn't there": ("lock", "dan"), "SQL": ("remove", "x' OR '1'='1")}
MISUSED = [("add", "dan"), ("add", "dan", "Dan", "more"), ("adopt", "dan"), ("list", "dan"), ("lock",), ("forget", "ben")]


def listed(gateway):
    return gateway.account("list")[1]


def add(gateway):
    """A member is registered under its public name, and signs in by its login."""
    check("the first members", [line.split()[:2] for line in listed(gateway)],
          [["house", "0"], ["ana", "1"], ["ben", "2"], ["cid", "3"]])
    status, lines, error = gateway.account("add", "dora", NAME)
    check("added", (status, [line.split()[:2] for line in lines], error), (0, [["dora", "4"]], ""))
    check("its public name", gateway.ask("ben", "GET", "/api/members/4").value["name"], NAME)
    check("it signs in", number(gateway, gateway.sign_in("dora")[1]), 4)
    before = listed(gateway)
    for name, words in REFUSED.items():
        status, lines, error = gateway.account(*words)
        check(f"refused: {name}", (status, lines, error[:12]), (1, [], "account.sh: "))
    for words in MISUSED:
        check(f"misused: {words}", gateway.account(*words)[:2], (2, []))
    check("nothing was changed", listed(gateway), before)


def adopt(gateway):
    """A member that the house registered on the page is let in by its number."""
    answer = gateway.ask("house", "POST", "/api/members", {"name": "Emil"}).value
    check("registered on the page", answer, {"member": 5})
    check("adopted", gateway.account("adopt", "emil", "5")[0], 0)
    check("it signs in", number(gateway, gateway.sign_in("emil")[1]), 5)


def shut_out(gateway):
    """Who is locked is out at once, however it was signed in, and in again when it is unlocked."""
    shown = [gateway.sign_in("emil")[1], gateway.field("emil")]
    check("signed in", [number(gateway, field) for field in shown], [5, 5])
    check("locked", gateway.account("lock", "emil"), (0, [], ""))
    check("out", [asked(gateway, field).status for field in shown], [401, 401])
    check("its password is wrong", leads_to(gateway.sign_in("emil")[0]), WRONG)
    check("listed as locked", listed(gateway)[-1], "emil 5 locked token")
    check("unlocked", gateway.account("unlock", "emil"), (0, [], ""))
    check("in again", [number(gateway, field) for field in shown], [5, 5])


def new_password(gateway):
    """Who has lost its password gets a new one, and whoever was signed in by the old one is out. So it is with a token."""
    old, shown = gateway.passwords["emil"], [gateway.sign_in("emil")[1], gateway.field("emil")]
    check("a new password", gateway.account("password", "emil")[0], 0)
    check("out", [asked(gateway, field).status for field in shown], [401, 401])
    check("the old one is wrong", leads_to(gateway.sign_in("emil", old)[0]), WRONG)
    check("the new one is right", number(gateway, gateway.sign_in("emil")[1]), 5)
    tokens = [f"Authorization: Bearer {gateway.token('emil')}" for _ in range(2)]
    check("a token in the place of another", [number(gateway, field) for field in tokens], [None, 5])


def remove(gateway):
    """A login that is removed is nobody's. Its member stays, and may be adopted by another login."""
    shown = [gateway.sign_in("emil")[1], f"Authorization: Bearer {gateway.token('emil')}"]
    check("removed", gateway.account("remove", "emil"), (0, [], ""))
    check("out", [asked(gateway, field).status for field in shown], [401, 401])
    check("its password is wrong", leads_to(gateway.sign_in("emil")[0]), WRONG)
    check("adopted again", gateway.account("adopt", "emil.second", "5")[0], 0)
    check("the old session stays out", asked(gateway, shown[0]).status, 401)
    check("in by another login", number(gateway, gateway.sign_in("emil.second")[1]), 5)


def half_done(gateway):
    """An add that was stopped after the house had registered is ended by the next; one that was stopped before is forgotten."""
    with contextlib.closing(sqlite3.connect(gateway.house() / "accounts")) as accounts, accounts:
        accounts.execute("INSERT INTO begun VALUES ('fay', 'Fay', 5), ('gus', 'Gus', 5)")
    check("registered, and not let in", gateway.ask("house", "POST", "/api/members", {"name": "Fay"}).value, {"member": 6})
    away = gateway.house() / "run" / "away.sock"
    queue = (gateway.house() / "run" / "queue.sock").rename(away)
    status, lines, error = gateway.account("add", "hal", "Hal")
    check("without the house", (status, lines, error), (1, [], "account.sh: the house isn't served\n"))
    queue.rename(gateway.house() / "run" / "queue.sock")
    check("listed as begun", listed(gateway)[-2:], [f"{name} is begun, and the next add ends it" for name in ("fay", "gus")])
    status, lines, _ = gateway.account("add", "hal", "Hal")
    check("the next run ends it", (status, [line.split()[:2] for line in lines]), (0, [["fay", "6"], ["hal", "7"]]))
    check("fay signs in", number(gateway, gateway.sign_in("fay")[1]), 6)
    with contextlib.closing(sqlite3.connect(gateway.house() / "accounts")) as accounts, accounts:
        accounts.execute("INSERT INTO begun VALUES ('ida', 'Ida', 7)")
    check("registered too", gateway.ask("house", "POST", "/api/members", {"name": "Ida"}).value, {"member": 8})
    status, lines, _ = gateway.account("add", "ida", "Ida")
    check("the same run again", (status, [line.split()[:2] for line in lines]), (0, [["ida", "8"]]))
    check("nothing is begun", [line for line in listed(gateway) if "begun" in line or "gus" in line], [])


def killed(gateway):
    """Runs are killed at ten moments. After the next run each member of the house has its login, and no other is there."""
    for count in range(10):
        words = ["sh", gateway.scripts / "account.sh", "add", gateway.house(), f"k{count}", f"Kim {count}"]
        process = subprocess.Popen(words, preexec_fn=as_nobody, env={**os.environ, "PATH": PATH}, start_new_session=True,
                                   stdout=subprocess.DEVNULL, stderr=subprocess.DEVNULL)
        time.sleep(0.05 + 0.08 * count)
        os.killpg(process.pid, signal.SIGKILL)
        process.wait()
    check("the next run", gateway.account("add", "last", "Last")[0], 0)
    members = gateway.ask("house", "GET", "/api/house").value["members"]
    check("each has its login", sorted(int(line.split()[1]) for line in listed(gateway)), list(range(members + 1)))
    print(f"of 10 runs that were killed {members - 9} had registered a member")


def by_root(gateway):
    """Root reads the accounts of a house as the owner of its folder, who may have put a link to another file in their place."""
    if os.geteuid() != 0:
        return
    words = ["sh", gateway.scripts / "account.sh", "list"]
    accounts, behind = gateway.house() / "accounts", gateway.folder.parent / "behind"
    result = subprocess.run([*words, gateway.house()], capture_output=True, text=True, env={**os.environ, "PATH": PATH})
    check("listed by root", result.stdout.splitlines(), listed(gateway))
    with contextlib.closing(sqlite3.connect(accounts)) as source, contextlib.closing(sqlite3.connect(behind)) as target:
        source.backup(target)
    behind.chmod(0o600)
    linked = gateway.folder / "linked"
    linked.mkdir()
    os.chown(linked, NOBODY, NOBODY)
    (linked / "accounts").symlink_to(behind)
    result = subprocess.run([*words, linked], capture_output=True, text=True, env={**os.environ, "PATH": PATH})
    check("nothing behind a link", (result.returncode != 0, result.stdout), (True, ""))


ACCOUNTS = add, adopt, shut_out, new_password, remove, half_done, killed, by_root
