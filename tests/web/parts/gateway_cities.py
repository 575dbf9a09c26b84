"""Several houses behind one gateway: nothing of one shows in another, and each comes and goes alone."""
import contextlib
import ssl
import threading
import time

from lib.checks import check
from lib.gateway_run import kill_all, processes, reply, running
from parts.gateway_cases import MINE, fault
from parts.gateway_sign_in import WRONG, asked, leads_to, number

HOSTS = "lindow.localhost", "tarn.localhost", "mere.localhost"
LINDOW, TARN, MERE = HOSTS


def apart(gateway):
    """Names, numbers, items and sessions of one are nothing in the other."""
    shown, passwords = {}, {}
    for host in (LINDOW, TARN):
        gateway.visit(host)
        check(f"{host}: a category", gateway.ask("house", "POST", "/api/categories", {"name": host}).status, 201)
        answer = gateway.ask("ana", "GET", "/api/categories").value
        check(f"{host}: its own categories", answer, {"categories": [{"category": 1, "name": host}]})
        shown[host], passwords[host] = [gateway.field("ana"), gateway.sign_in("ana")[1]], gateway.passwords["ana"]
    gateway.visit(LINDOW)
    check("added in one", gateway.account("add", "dora", "Dora")[0], 0)
    shown[LINDOW].append(gateway.field("dora"))
    for host, other in ((LINDOW, TARN), (TARN, LINDOW)):
        gateway.visit(other)
        check(f"a password of {host}", leads_to(gateway.sign_in("ana", passwords[host])[0]), WRONG)
        check(f"what shows who it is at {host}", {asked(gateway, field).status for field in shown[host]}, {401})
    text = gateway.head("ana", f"GET {MINE} HTTP/1.1", ["Connection: close"])
    check("the other's host", reply(gateway.raw(text.replace("lindow", "tarn", 1))).status, 401)
    check("nobody's host", reply(gateway.raw(text.replace("lindow", "other", 1)))[::2], (421, fault("host")))


@contextlib.contextmanager
def goes_on(gateway, host, what):
    """A member of a host is answered all the while."""
    gateway.visit(host)
    text, statuses = gateway.head("ana", f"GET {MINE} HTTP/1.1", ["Connection: close"]), []
    is_over = threading.Event()

    def ask():
        while not is_over.wait(0.05):
            try:
                statuses.append(reply(gateway.raw(text, host)).status)
            except OSError as error:
                statuses.append(repr(error))

    asking = threading.Thread(target=ask)
    asking.start()
    try:
        yield
        gateway.wait(lambda: len(statuses) > 5)
    finally:
        is_over.set()
        asking.join()
        check(f"{host} goes on: {what}", set(statuses), {200})


def is_open(gateway, host):
    """Whether the gateway has a house of this name."""
    gateway.visit(host)
    try:
        return gateway.ask("ana", "GET", MINE).status == 200
    except ssl.SSLError:
        return False


def come_and_go(gateway):
    """A house is begun beside others, ended, and begun again, and nobody waits for it but its own members."""
    with goes_on(gateway, LINDOW, "another is begun"):
        check("begun", gateway.start(MERE)[0], 0)
        check("it is open", is_open(gateway, MERE), True)
    with goes_on(gateway, LINDOW, "another is ended"):
        check("ended", gateway.stop(MERE), (0, [], ""))
        check("it is gone", is_open(gateway, MERE), False)
    status, _, error = gateway.start(LINDOW, MERE)
    check("one that runs is left alone", (status, error), (1, "start.sh: lindow.localhost runs already\n"))
    check("both are open", [is_open(gateway, host) for host in HOSTS], [True] * 3)


def damaged(gateway):
    """A house whose file is damaged isn't served, and says so. The others are."""
    check("all ended", gateway.stop(), (0, [], ""))
    gateway.host = TARN
    file = gateway.house() / "house"
    kept = file.read_bytes()
    file.write_bytes(b"This is no house. " * 1000)
    status, lines, error = gateway.start()
    check("one of three is damaged", (status, len(lines), error.splitlines()[-1]),
          (1, 3, "start.sh: the house of tarn.localhost has a fault: docs/RUNNING.md has its words"))
    gateway.know_certificates()
    check("the others are open", [is_open(gateway, host) for host in HOSTS], [True, False, True])
    file.write_bytes(kept)
    with goes_on(gateway, LINDOW, "the damaged one is mended"):
        check("mended", gateway.start(TARN)[0], 0)
        check("it is open again", is_open(gateway, TARN), True)


def killed(gateway):
    """haproxy and Apache are begun again when they end, as the house is."""
    gateway.visit(MERE)
    for name in ("haproxy", "apache2"):
        before = processes(name, gateway.house())
        check(f"{name} runs", len(before) > 0, True)
        kill_all(before)
        began = time.monotonic()
        gateway.wait(lambda: asked(gateway, gateway.field("ana")).status == 200)
        check(f"{name} is begun again soon", time.monotonic() - began < 10, True)
        check(f"{name}: others", before & processes(name, gateway.house()), set())
    check("signed in by what was begun again", number(gateway, gateway.sign_in("ana")[1]), gateway.numbers["ana"])


def without_number(gateway):
    """Where Apache tells no number, the house is told of nobody. Where it tells nothing, nobody is let in."""
    gateway.visit(MERE)
    file, field = gateway.house() / "sign_in.conf", gateway.field("ana")
    text = file.read_text()
    for line, wanted in (("Header always set X-Member", (400, {"error": "member"})), ("RewriteRule ^", (503, fault("house")))):
        file.write_text(text.replace(line, f"# {line}"))
        kill_all(processes("apache2", gateway.house()))
        gateway.wait(lambda: asked(gateway, field)[::2] == wanted)
        check(f"without {line}", asked(gateway, field)[::2], wanted)
    file.write_text(text)
    kill_all(processes("apache2", gateway.house()))
    gateway.wait(lambda: asked(gateway, field).status == 200)


def cities(program, folder):
    with running(program, folder, hosts=(LINDOW, TARN)) as gateway:
        apart(gateway)
        come_and_go(gateway)
        gateway.hosts = HOSTS
        damaged(gateway)
        killed(gateway)
        without_number(gateway)
