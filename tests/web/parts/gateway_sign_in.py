"""Signing in by the form, out again, and choosing a password: what a member, a stranger and another site are answered."""
import contextlib
import sqlite3
import statistics
import time
import urllib.parse

from lib.checks import check
from lib.gateway_run import cookie_of
from parts.gateway_cases import MINE, fault

CHOSEN = "grünes Haus & 12+"
FOREIGN = ["Origin: https://evil.example", "Origin: null", "Sec-Fetch-Site: cross-site", "Sec-Fetch-Site: same-site"]


def asked(gateway, field):
    """What somebody is answered to the page that tells whose it is."""
    return gateway.ask(None, "GET", MINE, fields=[field] if field else [])


def number(gateway, field):
    """Whose page is shown to somebody, or None."""
    answer = asked(gateway, field)
    return answer.value["member"] if answer.status == 200 else None


def leads_to(answer):
    """Where an answer of a form leads: its status and its place."""
    place = [line.split(": ")[1] for line in answer.head.split("\r\n") if line.startswith("location: ")]
    return answer.status, place


WRONG, HOME = (303, ["/sign-in.html#wrong"]), (302, ["/"])


def pages(gateway):
    """Who isn't signed in is led to the form, and to nothing else."""
    check("the page of nobody", leads_to(gateway.ask(None, "GET", "/")), (303, ["/sign-in.html"]))
    check("where to change a password", leads_to(gateway.ask(None, "GET", "/.well-known/change-password")),
          (303, ["/password.html"]))
    for page in ("/sign-in.html", "/password.html"):
        check(f"{page} is there", gateway.ask(None, "GET", page).status, 200)
    answer, cookie = gateway.sign_in("ben")
    check("signed in", leads_to(answer), HOME)
    kept = answer.head.split("set-cookie: ")[1].split("\r\n")[0]
    check("how the cookie is kept", sorted(kept.split(";"))[1:], ["httponly", "max-age=43200", "path=/", "samesite=lax", "secure"])
    page = gateway.raw(gateway.head(None, "GET / HTTP/1.1", [cookie, "Connection: close"]))
    check("the page of ben", (page[:15], b'src="main.js"' in page), (b"HTTP/1.1 200 OK", True))
    check("nobody keeps it", b"Cache-Control: no-store" in page, True)
    link = gateway.raw(gateway.head(None, "GET / HTTP/1.1", [cookie, "Sec-Fetch-Site: cross-site", "Connection: close"]))
    check("a link on another site leads to the page", link[:15], b"HTTP/1.1 200 OK")
    check("ben is himself", [number(gateway, cookie) for _ in range(5)], [gateway.numbers["ben"]] * 5)


def address(gateway):
    """A member's address is its own, and no browser that others use keeps it."""
    sent = "ben@city.example"
    put = gateway.head("ben", "PUT /address HTTP/1.1", [f"Content-Length: {len(sent)}", "Connection: close"]) + sent
    check("an address is taken", gateway.raw(put)[:12], b"HTTP/1.1 201")
    answer = gateway.raw(gateway.head("ben", "GET /address HTTP/1.1", ["Connection: close"]))
    check("it is shown to ben", answer.split(b"\r\n\r\n")[1], sent.encode())
    check("nobody keeps the address", b"Cache-Control: no-store" in answer, True)
    check("it is taken away", gateway.ask("ben", "DELETE", "/address").status, 204)


def wrong(gateway):
    """Whatever is wrong leads to the form again, says nothing else, and opens no session."""
    right = gateway.passwords["ben"]
    pairs = {"another password": ("ben", gateway.passwords["cid"]), "another name": ("nobody", right), "no name": ("", right),
             "another case": ("Ben", right), "a quote": ("ben' OR '1'='1", right), "a mark": ("ben&house-user=cid", "x"),
             "more": ("ben", right + "x"), "less": ("ben", right[:-1])}
    for name, pair in pairs.items():
        answer = gateway.send_form("/sign-in", urllib.parse.urlencode(dict(zip(("httpd_username", "httpd_password"), pair))))
        check(f"sign-in: {name}", (leads_to(answer), cookie_of(answer)), (WRONG, None))
    check("sign-in: nothing", leads_to(gateway.send_form("/sign-in")), WRONG)
    check("sign-in by its address", leads_to(gateway.send_form(f"/sign-in?httpd_username=ben&httpd_password={right}")), WRONG)
    check("sign-in by GET", gateway.ask(None, "GET", "/sign-in")[::2], (405, fault("method")))


def elsewhere(gateway):
    """A form leads nowhere but to the page, whatever it names; the forms of other sites are refused."""
    form = {"httpd_username": "ben", "httpd_location": "https://evil.example/", "httpd_method": "GET"}
    for password in (gateway.passwords["ben"], "wrong"):
        answer = gateway.send_form("/sign-in", urllib.parse.urlencode({**form, "httpd_password": password}))
        check("no form leads elsewhere", (leads_to(answer), bool(cookie_of(answer))), (HOME, password != "wrong"))
    for field in FOREIGN:
        for path in ("/sign-in", "/sign-out", "/password"):
            check(f"{path}, {field}", gateway.send_form(path, "a=b", [field])[::2], (403, fault("foreign")))
        for page in (MINE, "/catalogue/about.json", "/address"):
            check(f"{page}, {field}", gateway.ask("ben", "GET", page, fields=[field])[::2], (403, fault("foreign")))
    for field in ("Sec-Fetch-Site: same-origin", "Sec-Fetch-Site: none"):
        check(f"a read, {field}", gateway.ask("ben", "GET", MINE, fields=[field]).status, 200)


def sign_out(gateway):
    """Who signs out is out at once, and so is whoever has copied the cookie. Another session goes on."""
    cookies = [gateway.sign_in("ben")[1] for _ in range(2)]
    check("two sessions", len(set(cookies)), 2)
    check("signed out", leads_to(gateway.send_form("/sign-out", fields=[cookies[0]])), (303, ["/sign-in.html"]))
    check("the one is over", asked(gateway, cookies[0])[::2], (401, fault("sign-in")))
    check("the other goes on", number(gateway, cookies[1]), gateway.numbers["ben"])
    check("nobody signs out", leads_to(gateway.send_form("/sign-out")), (303, ["/sign-in.html"]))
    check("ben is signed in again", leads_to(gateway.sign_in("ben")[0]), HOME)


def change(gateway, old, new, **more):
    form = {"httpd_username": "dora", "httpd_password": old, "httpd_method": "POST", "httpd_mimetype": "text/plain", "new": new}
    return leads_to(gateway.send_form("/password", urllib.parse.urlencode({**form, **more})))


def own_password(gateway):
    """A member that shows its old password has another one, and whoever was signed in by the old one is out."""
    old, cookie, token = gateway.passwords["dora"], gateway.sign_in("dora")[1], gateway.field("dora")
    unfit = {"short": "123456789", "long": "x" * 73, "the name": "dora", "two lines": "0123456789\nx", "none": ""}
    for name, new in unfit.items():
        check(f"a new password that is unfit: {name}", change(gateway, old, new), (303, ["/password.html#unfit"]))
    check("the old one is wrong", change(gateway, "wrong", CHOSEN), (303, ["/password.html#wrong"]))
    check("no session is enough", leads_to(gateway.send_form("/password", f"new={CHOSEN}", [cookie])), (303, ["/password.html#wrong"]))
    check("nothing was changed", (number(gateway, cookie), number(gateway, token)), (gateway.numbers["dora"],) * 2)
    check("changed", change(gateway, old, CHOSEN), (303, ["/sign-in.html#changed"]))
    check("the old session is over", asked(gateway, cookie).status, 401)
    check("so is the token", asked(gateway, token).status, 401)
    check("the old password is wrong", leads_to(gateway.sign_in("dora", old)[0]), WRONG)
    check("the new one is right", number(gateway, gateway.sign_in("dora", CHOSEN)[1]), gateway.numbers["dora"])
    del gateway.shown["dora"]
    gateway.passwords["dora"] = CHOSEN


def kept(gateway):
    """What is kept has neither a password nor a cheap hash of one."""
    house = gateway.house()
    written = b"".join(file.read_bytes() for file in house.glob("accounts*"))
    for name in ("ana", "ben", "dora"):
        password = gateway.passwords[name]
        check(f"{name}'s password isn't kept", [text.encode() in written for text in (password, urllib.parse.quote_plus(password))],
              [False, False])
    with contextlib.closing(sqlite3.connect(house / "accounts")) as accounts:
        hashes = [row[0] for row in accounts.execute("SELECT hash FROM account WHERE hash != ''")]
    check("bcrypt of cost 12", {text[:7] for text in hashes}, {"$2y$12$"})
    log = (house / "sign-in.log").read_text()
    check("no password in the log", [name for name, password in gateway.passwords.items() if password in log], [])


def took(gateway, name):
    began = time.monotonic()
    gateway.sign_in(name, "wrong")
    return time.monotonic() - began


def by_the_time(gateway):
    """A name that is none is refused as late as one that is."""
    times = {name: statistics.median(took(gateway, name) for _ in range(3)) for name in ("ana", "nobody")}
    check(f"refused after {times}", 0.25 < times["ana"] / times["nobody"] < 4, True)


def often(gateway):
    """Who tries many passwords from an address has to wait. Who is signed in there is not held up."""
    cookie = gateway.sign_in("ana")[1]
    places = {leads_to(gateway.sign_in("ben", "wrong")[0])[1][0] for _ in range(25)}
    check("too many wrong passwords", "/sign-in.html#often" in places, True)
    check("a right one has to wait too", leads_to(gateway.sign_in("ben")[0]), (303, ["/sign-in.html#often"]))
    check("so has a change of a password", leads_to(gateway.send_form("/password"))[1], ["/password.html#often"])
    check("ana is signed in", number(gateway, cookie), gateway.numbers["ana"])
    check("ben's program goes on", number(gateway, gateway.field("ben")), gateway.numbers["ben"])
    gateway.address = "127.0.9.1"
    check("ben signs in elsewhere", leads_to(gateway.sign_in("ben")[0]), HOME)


SIGN_IN = pages, address, wrong, elsewhere, sign_out, own_password, kept, by_the_time, often
