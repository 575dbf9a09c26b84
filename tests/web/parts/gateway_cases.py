"""What a gateway answers to one client that is signed in, or isn't, and what another user of the machine reaches."""
import contextlib
import os
import socket
import time

from lib.checks import check
from lib.gateway_run import reply
from lib.sent import PATIENCE

# Twenty members that sign in, beside those of start.sh.
NAMES = [f"m{number}" for number in range(1, 21)]
# A page that tells whose it is.
MINE = "/api/me/statement/1970-01-01/1970-01-01"
FAR = 4_102_444_800
OTHER_USER = 65_533


def fault(why):
    return {"error": "gateway", "why": why}


def first_steps(gateway):
    """Two signed-in members bid through TLS by the two commands of the page."""
    status, lines, error = gateway.script("first_bids.sh", gateway.folder)
    check("first_bids.sh", (status, error), (0, ""))
    check("first bids", lines[2:], [
        'ben: {"count":1,"floor":550,"leader":2,"price":500}', 'cid: {"count":2,"floor":600,"leader":3,"price":550}',
        'ben: {"bids":[{"item":1,"leading":false,"maximum":500,"mine":1,"price":550,"state":"open"}]}'])


def unsigned(gateway):
    """Who shows nothing that the house's gateway gave is nobody, whatever else it shows."""
    wanted = 401, fault("sign-in")
    key = gateway.token("cid")
    lies = ["", "Cookie: __Host-house=", f"Cookie: house={key}", f"Cookie: __Host-house={key[:-1]}", f"Cookie: __Host-house={key}0",
            f"Cookie: __Host-house={key[::-1]}", f"Cookie: __Host-house={key}; __Host-house={key[::-1]}", "Cookie: house-user=cid",
            "Cookie: __Host-house=house-user=cid", f"Authorization: Bearer {key[:-1]}", f"Authorization: Bearer {key}, {key}",
            f"Authorization: Basic {key}", f"Authorization: {key}", "Authorization: Bearer x; house-user=cid",
            "Authorization: Basic Y2lkOng=", "X-Member: 3", "REMOTE_USER: cid", "x-remote-user: cid", "MEMBER: 3"]
    for lie in lies:
        answer = gateway.ask(None, "GET", MINE, fields=[lie] if lie else [])
        check(f"{lie or 'nothing'}: nobody", answer[::2], wanted)
        check(f"{lie or 'nothing'}: no browser asks for a password", "www-authenticate" in answer.head, False)
    for name in (f"Cookie: __Host-house={key}", f"Authorization: Bearer {key}", f"Cookie: a=b; __Host-house={key}; c=d"):
        check(f"{name} is cid", gateway.ask(None, "GET", MINE, fields=[name]).value["member"], gateway.numbers["cid"])
    check("a session of a house that isn't asked", gateway.ask("ben", "GET", "/session").status, 404)


LIES = ["x-member: 0", "x-member: 1", "X-MEMBER: 1", "X-Member:1", "x_member: 1", "x-member: 1\r\nx-member: 3",
        "x-member: 2, 1", "x-member:\t1", "x-member : 1", " x-member: 1", "x-a: b\r\n x-member: 1",
        "x-a: b\nx-member: 1", "x-a: b\rx-member: 1", "Connection: x-member", "x-member", "x-member:", "x-member: 1\0",
        "Forwarded: for=1", "x-remote-user: ana", "X-Member: 1\r\nx-member: 1", "REMOTE_USER: ana", "MEMBER: 1", "x-address: 1",
        "Cookie: house-user=ana", "Content-Length: 0\r\nx-member: 1", "Trailer: x-member", "\xefx-member: 1"]
REFUSED = fault("head"), fault("sign-in")


def spellings(gateway):
    """Whatever ben says under the names of the two headers, he is ben, and it is now; or his message is refused."""
    for lie in LIES:
        answer = gateway.ask("ben", "GET", MINE, fields=[lie])
        check(f"{lie!r} is ben", answer.value in REFUSED or answer.value.get("member") == 2, True)
        answer = gateway.ask("ben", "POST", "/api/close", fields=[lie])
        check(f"{lie!r} isn't the house", answer.value in REFUSED or answer.status == 403, True)
    for spelling in ("x-moment", "X-MOMENT", "x_moment"):
        for lie in (FAR, 0, -1):
            answer = gateway.ask("house", "POST", "/api/close", fields=[f"{spelling}: {lie}"])
            check(f"{spelling}: {lie}", answer.status, 200)
            clock = gateway.ask("house", "GET", "/api/house").value["clock"]
            check(f"{spelling}: {lie} is now", abs(clock - time.time()) < PATIENCE, True)
    target = f"{MINE}%20HTTP/1.1%0d%0ax-member:%201%0d%0a%0d%0a"
    check("a target with lines", gateway.ask("ben", "GET", target).status in (400, 404), True)


BID, ITEM = "POST /api/items/1/bids HTTP/1.1", "GET /api/items/1 HTTP/1.1"
BODY, CHUNKS = '{"maximum":1}', '5\r\n{"max\r\n8\r\nimum":1}\r\n0\r\n'
LONG_CHUNK = f"4268\r\n{' ' * 17_000}\r\n0\r\n\r\n"
LOW = 409, {"error": "Low", "floor": 600, "number": 9}
# What is sent, fields and a body, and what is answered: a status, and a body that is JSON, or None where it may be any.
ODD = {
    "two lengths": (BID, ["Content-Length: 13", "Content-Length: 13"], BODY, (400, fault("head"))),
    "two lengths that differ": (BID, ["Content-Length: 13", "Content-Length: 12"], BODY, (400, fault("head"))),
    "a length and a coding": (BID, ["Content-Length: 13", "Transfer-Encoding: chunked"], CHUNKS, (400, fault("head"))),
    "chunks": (BID, ["Transfer-Encoding: chunked"], CHUNKS + "\r\n", LOW),
    "chunks with a trailer": (BID, ["Transfer-Encoding: chunked"], CHUNKS + "x-member: 1\r\n\r\n", LOW),
    "another coding": (BID, ["Transfer-Encoding: gzip"], BODY, (400, fault("head"))),
    "another version": ("GET /api/items/1 HTTP/3.0", [], "", (400, fault("head"))),
    "the interface itself": ("GET /api HTTP/1.1", [], "", (404, fault("path"))),
    "chunks that are none": (BID, ["Transfer-Encoding: chunked"], "zz\r\n", (400, fault("head"))),
    "chunks of 17 kB": (BID, ["Transfer-Encoding: chunked"], LONG_CHUNK, (413, fault("size"))),
    "a body of 17 kB": (BID, ["Content-Length: 17000"], " " * 17_000, (413, fault("size"))),
    "a body of 16 kB": (BID, ["Content-Length: 16384"], " " * 16_384, (400, {"error": "json"})),
    "a field of 9 kB": (ITEM, ["x-a: " + "a" * 9000], "", (400, fault("head"))),
    "expects 100": (BID, ["Expect: 100-continue", "Content-Length: 13"], BODY, LOW),
    "a query": ("GET /api/items/1?a=b HTTP/1.1", [], "", (404, {"error": "path"})),
    "no path": ("GET /api/nothing HTTP/1.1", [], "", (404, {"error": "path"})),
    "a folder of the catalogue": ("GET /catalogue/open HTTP/1.1", [], "", (404, fault("path"))),
    "a folder of the page": ("GET /elements HTTP/1.1", [], "", (404, fault("path"))),
    "out of the interface": ("GET /api/../items/1 HTTP/1.1", [], "", (404, fault("path"))),
    "TRACE": ("TRACE /api/items/1 HTTP/1.1", [], "", (405, fault("method"))),
    "OPTIONS": ("OPTIONS /api/items/1 HTTP/1.1", [], "", (405, {"error": "method"})),
    "no HTTP": ("GET", [], "", (400, fault("head"))),
}
# Each is the item, beside seventy fields that the house would not read.
PLAIN = {"plain": ITEM, "HTTP/1.0": "GET /api/items/1 HTTP/1.0", "an escape": "GET /api/items/%31 HTTP/1.1",
         "two slashes": "GET /api//items/1 HTTP/1.1", "dots": "GET /api/me/../items/1 HTTP/1.1"}


def odd_messages(gateway):
    """Messages that a client would not send by mistake, each with what it is answered."""
    for name, (first, fields, body, wanted) in ODD.items():
        answer = reply(gateway.raw(gateway.head("ben", first, ["Connection: close", *fields]) + body))
        check(name, (answer.status, answer.value if wanted[1] else None), wanted)
    for name, first in PLAIN.items():
        fields = ["Connection: close", *(f"x-{number}: a" for number in range(70))]
        answer = reply(gateway.raw(gateway.head("ben", first, fields)))
        check(name, (answer.status, answer.value and answer.value.get("item")), (200, 1))


def together(gateway):
    """Messages on one connection: neither HEAD nor a body that looks like a message leaves anything behind."""
    close = gateway.head("ben", ITEM, ["Connection: close"])
    answer = gateway.raw(gateway.head("ben", "HEAD /api/items/1 HTTP/1.1") + close)
    first, _, rest = answer.partition(b"\r\n\r\n")
    check("HEAD", (first.split(b" ")[1], reply(rest).status, reply(rest).value["item"]), (b"405", 200, 1))
    inner = gateway.head("ana", "POST /api/close HTTP/1.1", ["x-member: 0", "x-moment: 1"])
    for name, first, status in (("a message in a body", BID, b"400"), ("a message in a read's body", ITEM, b"200")):
        answers = gateway.raw(gateway.head("ben", first, [f"Content-Length: {len(inner)}"]) + inner + close)
        check(name, (answers.count(b"HTTP/1.1 "), answers.split(b" ")[1]), (2, status))


def origins(gateway):
    """Commands of the gateway's own pages, and of none, are taken; those of other pages get 403, and aren't."""
    own = f"https://localhost:{gateway.port}"
    foreign = ["null", "https://localhost", f"http://localhost:{gateway.port}", f"{own}.evil", f"{own} {own}", own.upper(),
               "https://evil.example", f"https://evil.example {own}", f"https://127.0.0.1:{gateway.port}"]
    before = gateway.ask("ben", "GET", "/api/items/1").value
    for origin in foreign:
        answer = gateway.ask("ben", "POST", "/api/items/1/bids", {"maximum": 60_000}, [f"Origin: {origin}"])
        check(f"origin {origin}", answer[::2], (403, fault("foreign")))
    check("no foreign bid", gateway.ask("ben", "GET", "/api/items/1").value, before)
    for fields in ([], [f"Origin: {own}"]):
        check(f"own origin {fields}", gateway.ask("ben", "POST", "/api/items/1/bids", {"maximum": 1}, fields)[::2], LOW)


@contextlib.contextmanager
def as_another_user():
    """This process is another user's meanwhile, if it was the superuser's."""
    if os.geteuid() != 0:
        yield
        return
    groups = os.getgroups()
    os.setgroups([])
    os.setegid(OTHER_USER)
    os.seteuid(OTHER_USER)
    try:
        yield
    finally:
        os.seteuid(0)
        os.setegid(0)
        os.setgroups(groups)


def hindrance(family, address):
    """What hinders another user of the machine from connecting, or None."""
    with as_another_user(), socket.socket(family) as connection:
        try:
            connection.connect(address)
        except OSError as error:
            return type(error)
    return None


def another_user(gateway):
    """Who else uses the machine reaches neither the port of the house nor its queue, and reads no file of it."""
    for name, port in (("house", gateway.house_port), ("sign-in", gateway.house_port + 1)):
        check(f"the port of the {name}", hindrance(socket.AF_INET, ("127.0.0.1", port)), ConnectionRefusedError)
    check("the gateway", hindrance(socket.AF_INET, ("127.0.0.1", gateway.port)), None)
    if os.geteuid() != 0:
        return
    for name in ("queue", "session", "password"):
        check(f"the socket of {name}", hindrance(socket.AF_UNIX, str(gateway.house() / "run" / f"{name}.sock")), PermissionError)
    for file in ("houses/localhost/key.pem", "houses/localhost/house", "houses/localhost/accounts", "houses/localhost/passwords"):
        with as_another_user():
            check(f"reads {file}", os.access(gateway.folder / file, os.R_OK, effective_ids=True), False)


CASES = first_steps, unsigned, spellings, odd_messages, together, origins, another_user
