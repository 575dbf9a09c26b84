"""The page in German: by one word in the city's file all of it speaks that language, its mails too, and nothing English is
left that somebody could read.
"""
import json
import re

from lib.checks import check
from lib.places import ROOT
from lib.screen_reader import ENTER, Reader
from parts import page_notices as notices
from parts.page_truth import Listings, go

PAGE = ROOT / "deploy" / "gateway" / "page"
FORM = {"login": "Anmeldename", "password": "Passwort", "button": "Anmelden", "pages": "Seiten"}
CITY = {"currency": "Taler", "fetch": "In der alten Münze.", "language": "de", "pay": "An die Stadtkasse.",
        "terms": "Ein Gebot bindet.", "write": "haus@stadt.example"}
TITLE = "Karte der Marschen"
# The parts of the page, by who looks at them, and the heading of each.
PARTS = {
    "ana": {"": "Artikel", "category/1": "Maps", "search/karte": "Gefunden: karte", "listings": "Meine Angebote", "sell": "Verkaufen",
            "questions": "Fragen", "statement": "Abrechnung", "notices": "Nachrichten", "house": "Das Haus", "member/2": "Ben"},
    "ben": {"bids": "Meine Gebote", "won": "Gewonnen und gekauft", "watches": "Beobachtet", "item/13": "View of the city from the river, engraved",
            "item/999": "Das lässt sich nicht anzeigen"},
    "house": {"members": "Mitglieder", "settling": "Schließen und abrechnen", "accounts": "Konten", "house": "Das Haus",
              "bids": "Für Mitglieder"},
}


def speaks_german(gateway):
    (gateway.house() / "page" / "city.json").write_text(json.dumps(CITY))


def sentences(language):
    """What a language says, without values: the pieces of at least two words."""
    words = json.loads((PAGE / "words" / f"{language}.json").read_text())
    forms = [form for group in words.values() for word in group.values() for form in (word.values() if isinstance(word, dict) else [word])]
    return {piece.strip() for form in forms for piece in re.split(r"\{\w+\}", form) if len(piece.split()) > 1}


def nothing_english(reader):
    """No part says a sentence of the English words, and none has a key in the place of a word."""
    english = sentences("en") - sentences("de")
    heard = [node.name for node in reader.tree()]
    check("English sentences", sorted({one for one in english for name in heard if one in name}), [])
    check("keys", [name for name in heard if re.fullmatch(r"[a-z_]+\.[a-z_]+", name)], [])


def signs_in(address, gateway):
    """The form for signing in, and what it says of a wrong password, in a browser of its own."""
    reader = Reader(address, gateway, "cid", form=FORM)
    try:
        reader.wait_for_text("Angemeldet: Cid")
        reader.press("button", "Abmelden")
        is_refused(reader)
    finally:
        reader.end()


def is_refused(reader):
    reader.wait_for("heading", "Anmelden")
    check("the language of the form", reader.page.run("return [document.documentElement.lang, document.title]"),
          ["de-DE", "Anmelden | Das Auktionshaus"])
    reader.write("textbox", "Anmeldename", reader.name)
    reader.write("textbox", "Passwort", "ein falsches")
    reader.press("button", "Anmelden")
    reader.wait_for_text("Name oder Passwort stimmt nicht.")
    nothing_english(reader)
    reader.go_to("Passwort ändern")
    reader.wait_for("textbox", "Neues Passwort")
    nothing_english(reader)


def sells(ana):
    """The form of a listing: what goes to the house, and a price that is none."""
    ana.go_to("Verkaufen")
    ana.wait_for_text("Vom Preis, zu dem verkauft wird, behält das Haus 10 %.")
    ana.write("textbox", "Titel", "Karte")
    ana.write("textbox", "Startpreis", "1.200")
    ana.press("button", "Anbieten")
    ana.wait_for_text("Schreiben Sie einen Betrag, etwa 12 oder 12,50.")
    ana.write("textbox", "Titel", "")
    ana.write("textbox", "Startpreis", "")


def bids(ben, listings, mails):
    """An item, a bid, an outbid, and what the window and the browser say of one that nobody sees."""
    number = listings.list(TITLE, start=123_450)
    ben.page.run(notices.TOLD)
    go(ben, f"item/{number}", TITLE)
    region = ben.wait_for("region", "Preis und Gebote")
    shown = " ".join(ben.said(region).split())
    check("an item", [words in shown for words in ("Offen", "Startpreis", "1.234,50 Taler", "Noch keine Gebote", "Restzeit:")], [True] * 5)
    ben.write("textbox", "Ihr Höchstbetrag", "1300,50 Taler")
    ben.page.keys([ENTER])
    ben.wait_for_text("Ihr Gebot ist angenommen, und Sie führen mit 1.234,50 Taler.")
    ben.wait_for_text("Sie führen. Ihr Höchstbetrag ist 1.300,50 Taler, und niemand sonst sieht ihn.")
    ben.wait_for("button", "Meinen Höchstbetrag erhöhen")
    is_mailed(ben, mails, f"Endet in der nächsten Stunde: {TITLE}", "Sie führen. Der Preis ist 1.234,50 Taler, und")
    listings.bid("cid", number, 141_719)
    ben.wait(lambda: "Sie wurden überboten." in ben.announced(), "überboten")
    title = ben.page.run("return document.title")
    check("the title", title, f"(überboten) {TITLE} | Das Auktionshaus")
    check("the browser tells", ben.page.run("return window.told"), [f"Sie wurden überboten: {TITLE}"])
    nothing_english(ben)
    is_mailed(ben, mails, f"Sie wurden überboten: {TITLE}", "Der Preis ist jetzt 1.325,50 Taler.")
    return number


def gives_an_address(ben):
    go(ben, "notices", "Nachrichten")
    ben.write("textbox", "Ihre E-Mail-Adresse", "ben@city.example")
    ben.press("button", "Behalten")
    ben.wait_for_text("E-Mails gehen an ben@city.example.")


def is_mailed(ben, mails, subject, sentence):
    ben.wait(lambda: ("ben@city.example", subject) in notices.told(mails), subject)
    mail = next(one for one in notices.read_mails(mails) if one["Subject"] == subject)
    check(f"the mail {subject}", sentence in mail.get_content(), True)


def sees_all(reader):
    """Each part has its heading, looks right on a phone and on a desk, light and dark, and says nothing in English."""
    for width in (390, 1280):
        for part, heading in PARTS[reader.name].items():
            reader.resize(width)
            go(reader, part, heading)
            check(f"{reader.name}, {part or 'front'}, {width}", reader.looks_of(width), [])
            nothing_english(reader)
    reader.resize(1280)


def settles(house, ben, gateway, listings):
    """The clerk settles a sale in German, and the accounts and the statement have it."""
    number = listings.list("Karte zum Abrechnen", buy_now=4_321)
    gateway.ask("ben", "POST", f"/api/items/{number}/purchase", {})
    go(house, "settling", "Schließen und abrechnen")
    house.wait_for("table", "Abzurechnende Verkäufe")
    house.wait_for("link", "Karte zum Abrechnen")
    go(house, f"item/{number}", "Karte zum Abrechnen")
    house.press("button", "Diesen Verkauf abrechnen")
    house.wait_for("dialog", "Diesen Verkauf abrechnen?")
    house.press("button", "Es ist bezahlt, abrechnen")
    house.wait_for_text("Abgerechnet: 43,21 Taler bezahlt, 4,32 Taler Gebühr, 38,89 Taler für den Verkäufer.")
    go(house, "accounts", "Konten")
    house.wait_for("table", "Nach Mitgliedern")
    go(house, "house", "Das Haus")
    house.write("textbox", "Neue Tabelle", "0: 1\n0: 2")
    house.press("button", "Die neue Tabelle setzen")
    house.wait_for_text("Die Beträge steigen von Zeile zu Zeile. Dieser nicht: 0,00 Taler")
    go(ben, "statement", "Abrechnung")
    ben.wait_for("table", "Verkäufe und Käufe")
    names = [node.name for node in ben.all("cell")]
    place = names.index("Karte zum Abrechnen")
    check("a line of the statement", [re.fullmatch(r"\d{1,2}\. \w+ \d{4}", names[place - 1]) is not None, *names[place + 1:place + 4]],
          [True, "Gekauft", "Ana", "43,21\u00a0Taler"])
    go(ben, "won", "Gewonnen und gekauft")
    ben.wait_for_text("Sie schulden 0,00 Taler")


def all_of_it(gateway, mails, house, ana, ben):
    listings = Listings(gateway)
    sells(ana)
    gives_an_address(ben)
    number = bids(ben, listings, mails)
    settles(house, ben, gateway, listings)
    signs_in(ana.page.url.rpartition("/session/")[0], gateway)
    for reader in (ana, ben, house):
        sees_all(reader)
    return number
