"""A form of another site, in a browser in which a member is signed in.

The other site has the name of the gateway, and another port: to a browser they are one site, so it sends the member's
cookie, and without the gateway's rule on origins the form bids.
"""
import http.server
import os
import ssl
import threading

from lib import browser
from lib.checks import check

# Its one field has JSON for its name, and the rest of it for its value.
FORM = ("<!doctype html><form method=post enctype=text/plain action='{url}'>"
        "<input name='{{\"maximum\":{maximum},\"x\":\"' value='\"}}'></form>")
REFUSED = '{"error":"gateway","why":"foreign"}'


class OtherSite:
    """A site with one page, on a port of its own, with the certificate of the gateway."""

    def __init__(self, gateway, page):
        class Handler(http.server.BaseHTTPRequestHandler):
            def do_GET(self):
                self.send_response(200)
                self.send_header("content-type", "text/html")
                self.end_headers()
                self.wfile.write(page.encode())

            def log_message(self, *_):
                """Keeps quiet."""

        self.server = http.server.ThreadingHTTPServer(("127.0.0.1", 0), Handler)
        tls = ssl.create_default_context(ssl.Purpose.CLIENT_AUTH)
        tls.load_cert_chain(gateway.house() / "cert.pem", gateway.house() / "key.pem")
        self.server.socket = tls.wrap_socket(self.server.socket, server_side=True)
        self.url = f"https://localhost:{self.server.server_port}/"

    def __enter__(self):
        threading.Thread(target=self.server.serve_forever, daemon=True).start()
        return self

    def __exit__(self, *_):
        self.server.shutdown()


def submitted(page, url):
    """What a browser shows after it sent the form of a page."""
    page.go(url)
    page.run("document.forms[0].submit()")
    return page.wait_for("return location.pathname.endsWith('/bids') && document.body.innerText")


def form(gateway, maximum):
    return FORM.format(url=f"https://localhost:{gateway.port}/api/items/1/bids", maximum=maximum)


def greatest(gateway):
    """What ben bid at most for the first item."""
    return gateway.ask("ben", "GET", "/api/me/bids/1").value["bids"][0]["maximum"]


def without_rule(gateway):
    """Takes the rule on origins out of the gateway that runs."""
    file = gateway.folder / "auction" / "api.conf"
    file.write_text(file.read_text().replace("if ($foreign)", 'if ($foreign = "never")'))
    gateway.reload()


def sign_in(page, gateway, name):
    """Signs in by the form, as a member does."""
    page.go(f"https://localhost:{gateway.port}/")
    page.wait_for("return location.pathname === '/sign-in.html'")
    page.run("""const [name, password] = arguments;
        document.getElementById("login").value = name;
        document.getElementById("password").value = password;
        document.forms[0].requestSubmit();""", name, gateway.passwords[name])
    page.wait_for("return location.pathname === '/'")


def foreign_form(gateway):
    """The form of another site is refused, where the same form on a page of the gateway bids."""
    own = gateway.house() / "page" / "form.html"
    own.write_text(form(gateway, 70_000))
    # The superuser wrote it, and the gateway has to read it.
    os.chmod(own, 0o644)
    before = greatest(gateway)
    with (browser.browsing() as page, OtherSite(gateway, form(gateway, 60_000)) as one,
          OtherSite(gateway, form(gateway, 80_000)) as two):
        sign_in(page, gateway, "ben")
        check("the form of another site", submitted(page, one.url), REFUSED)
        check("it bid nothing", greatest(gateway), before)
        answer = submitted(page, f"https://localhost:{gateway.port}/form.html")
        check("the same form on a page of the gateway", ('"leader":2' in answer, greatest(gateway)), (True, 70_000))
        without_rule(gateway)
        answer = submitted(page, two.url)
        check("without the rule", ('"leader":2' in answer, greatest(gateway)), (True, 80_000))
