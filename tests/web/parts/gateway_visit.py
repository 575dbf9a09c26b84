"""A member on a phone: signs in, signs out, chooses a password, and is let in again by who runs the house.

It finds all by roles and names of the accessibility tree, as a screen reader does.
"""
from lib import browser
from lib.checks import check
from lib.screen_reader import Reader

CHOSEN = "four words on paper"
SIGNED_OUT = "You are not signed in any more."
# The forms lead to no other pages.
ALONE = "0 navigations with a name"


def phone(reader, scheme="light"):
    reader.page.tool("Emulation.setDeviceMetricsOverride", width=360, height=740, deviceScaleFactor=2, mobile=True)
    reader.page.tool("Emulation.setEmulatedMedia", features=[{"name": "prefers-color-scheme", "value": scheme}])


def looks(reader, what):
    for scheme in ("light", "dark"):
        phone(reader, scheme)
        check(f"{what}, {scheme}", [wrong for wrong in reader.looks() if wrong != ALONE], [])


def fill(reader, button, **fields):
    """Fills in a form, whose fields are named by words with _ for spaces, and sends it."""
    for name, text in fields.items():
        reader.write("textbox", name.replace("_", " "), text)
    reader.press("button", button)


def sign_in(reader, name, password):
    fill(reader, "Sign in", Name_for_signing_in=name, Password=password)


def signs_out(reader):
    """After signing out neither the page nor what the browser kept of it is shown."""
    reader.press("button", "Sign out")
    reader.wait_for("heading", "Sign in")
    looks(reader, "the form")
    reader.page.run("history.back()")
    reader.wait(lambda: reader.page.run("return document.readyState === 'complete'"), "a page")
    reader.wait_for("heading", "Sign in")
    check("nothing of the page is left", reader.find("navigation", "Pages"), None)


def chooses(gateway, reader):
    """It is told what was wrong, chooses a password, and signs in by it."""
    sign_in(reader, "ana", "a wrong one")
    reader.wait_for_text("The name or the password is wrong.")
    looks(reader, "a wrong password")
    reader.go_to("Change your password")
    old = {"Name_for_signing_in": "ana", "Old_password": gateway.passwords["ana"]}
    fill(reader, "Change it", **old, New_password=CHOSEN)
    reader.wait_for_text("Your password is changed. Sign in with it.")
    sign_in(reader, "ana", CHOSEN)
    reader.wait_for("navigation", "Pages")
    reader.wait_for_text("Signed in as Ana")
    reader.wait(lambda: reader.page.run("return document.querySelector('h1') !== null"), "a heading")
    looks(reader, "the page")
    reader.go_to("Change password", "Change your password")
    looks(reader, "the form of a new password")


def is_let_in(gateway, reader):
    """A new password puts out whoever is signed in. The page says so, and leads to the form."""
    reader.page.go(reader.root)
    reader.wait_for("link", "My bids")
    check("a new password", gateway.account("password", "ana")[0], 0)
    reader.press("link", "My bids")
    reader.wait_for_text(SIGNED_OUT)
    reader.page.go(reader.root)
    sign_in(reader, "ana", gateway.passwords["ana"])
    reader.wait_for_text("Signed in as Ana")


def visit(gateway):
    with browser.driver() as address:
        reader = Reader(address, gateway, "ana")
        try:
            phone(reader)
            signs_out(reader)
            chooses(gateway, reader)
            is_let_in(gateway, reader)
            faults = [line["message"] for line in reader.page.log("browser") if line["source"] != "network"]
            check("the console", faults, [])
        finally:
            reader.end()
