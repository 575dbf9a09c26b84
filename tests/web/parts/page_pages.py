"""Pages on what is over: what one won and owes, what one listed, the house's accounts, settling, a new band table; and the
city's own words."""
import csv
import io
import json
import pathlib
import tempfile
import time

from lib.checks import check
from lib.screen_reader import Reader
from parts.page_play import YEAR, allow_saving, money, saved
from parts.page_truth import go

ALWAYS = "1970-01-01/2100-12-31"
CITY = {"currency": "Thaler", "fetch": "At the old mint, on Fridays.", "pay": "To the town's purse.", "terms": "A bid binds.",
        "write": "office@town.example"}


def rows_of(reader, table, columns):
    """The rows of a table, each the names of its cells."""
    tree = reader.tree()
    start = next(place for place, node in enumerate(tree) if node.role == "table" and node.name == table)
    rest = [node for node in tree[start + 1:]]
    stop = next((place for place, node in enumerate(rest) if node.role == "table"), len(rest))
    cells = [node.name for node in rest[:stop] if node.role == "cell"]
    return [cells[at:at + columns] for at in range(0, len(cells), columns)]


def settles(house, ben, gateway, listings):
    """A sale shows both parties and all sums, and is settled after a second question."""
    number = listings.list("A map to settle", buy_now=4_321)
    gateway.ask("ben", "POST", f"/api/items/{number}/purchase", {})
    go(ben, "won", "Won and bought")
    ben.wait_for_text("You owe 43.21")
    go(house, "settling", "Close and settle")
    house.wait_for("link", "A map to settle")
    rows = rows_of(house, "Sales to settle", 8)
    row = next(row for row in rows if row[0] == "A map to settle")
    check("a sale", row[1:3] + row[4:7], ["Ben", "Ana", "43.21", "4.32", "38.89"])
    place = rows.index(row)
    answers(house, place, "Not yet")
    house.wait_for_text("Nothing was settled.")
    check("a no", listings.item(number)["state"], "sold")
    answers(house, place, "It is paid, settle it")
    house.wait_for_text("Settled: 43.21 paid, 4.32 fee, 38.89 for the seller.")
    check("a yes", listings.item(number)["state"], "settled")
    house.wait(lambda: not house.find("link", "A map to settle"), "a sale that is settled is listed no more")
    ben.wait_for_text("You owe 0.00")


def answers(house, place, words):
    """Presses the button of a row, and answers the question."""
    house.press_node([node for node in house.all("button") if node.name == "Settle this sale"][place])
    house.wait_for("dialog", "Settle this sale?")
    house.press("button", words)


def lists_again(ana, gateway, listings):
    """What was not sold is listed again with what it had."""
    number = listings.list("A map that nobody wants", seconds=2, text="Torn.\u2029Folded.", buy_now=9_000, reserve=8_000)
    time.sleep(2.5)
    gateway.ask("house", "POST", "/api/close", {})
    go(ana, "listings", "My listings")
    unsold = lambda: ana.find("table", "Not sold") and [row[0] for row in rows_of(ana, "Not sold", 6)]
    titles = ana.wait(lambda: "A map that nobody wants" in (unsold() or []) and unsold(), "what was not sold")
    again = [node for node in ana.all("link") if node.name == "List again"]
    ana.press_node(again[titles.index("A map that nobody wants")])
    ana.wait_for("heading", "Sell")
    ana.press("button", "List it")
    ana.wait_for("heading", "A map that nobody wants")
    new = listings.item(int(ana.page.run("return location.hash").rpartition("/")[2]))
    before = listings.item(number)
    check("listed again", [new[key] for key in ("title", "text", "start", "buy_now", "category", "met")],
          [before[key] for key in ("title", "text", "start", "buy_now", "category", "met")])
    check("it is another", new["item"] > number and new["state"] == "open", True)
    ana.wait_for_text("Your reserve is 80.00")


def nobody_got_it(ben, gateway, listings):
    """Whoever led an item that was not sold has not lost it to anybody."""
    number = listings.list("A map below its reserve", seconds=8, reserve=9_000)
    listings.bid("ben", number, 1_200)
    time.sleep(max(0, listings.item(number)["end"] + 0.5 - time.time()))
    gateway.ask("house", "POST", "/api/close", {})
    go(ben, "bids", "My bids")
    ben.wait_for("table", "Over")
    row = next(row for row in rows_of(ben, "Over", 5) if row[0] == "A map below its reserve")
    check("how it stands", row[3], "Not sold")


def accounts(house, gateway, folder):
    """The accounts are the sums of what each member's own statement says, with what is not settled of it, and the file has
    each sale."""
    go(house, "accounts", "Accounts")
    house.wait_for("table", "By member")
    rows = {row[0]: row[1:] for row in rows_of(house, "By member", 6)}
    totals = [0, 0, 0, 0, 0]
    for name in ("ana", "ben", "cid"):
        value = gateway.ask(name, "GET", f"/api/me/statement/{YEAR}-01-01/{YEAR}-12-31").value
        sums = [value[key] for key in ("sold", "fees", "net", "bought")] + [owed(gateway, value["lines"])]
        check(f"{name}'s account", rows[name.capitalize()], [money(cents) for cents in sums])
        totals = [one + two for one, two in zip(totals, sums)]
    check("all accounts", rows["All members"], [money(cents) for cents in totals])
    allow_saving(house, folder)
    table = list(csv.reader(io.StringIO(saved(house, "Save all sales as CSV", folder, r"accounts-.*\.csv").decode())))
    check("sums in the file", [sum(int(row[column].replace(".", "")) for row in table[1:]) for column in (7, 8, 9)], totals[:3])
    for row in table[1:]:
        item = gateway.ask("ana", "GET", f"/api/items/{row[1]}").value
        check(f"item {row[1]} in the file", row[2].lstrip("'") == item["title"] and row[10] == item["state"]
              and [row[3], row[5]] == [str(item["seller"]), str(item["leader"])], True)


def owed(gateway, lines):
    """What of the purchases of a statement is not settled yet."""
    state = lambda line: gateway.ask("house", "GET", f"/api/items/{line['item']}").value["state"]
    return sum(line["price"] for line in lines if line["role"] == "buy" and state(line) == "sold")


def sets_bands(house, gateway):
    """A new band table is judged line by line, asked about, and set."""
    house.go_to("The house")
    before = gateway.ask("house", "GET", "/api/bands").value["bands"]
    for lines, mistake in (("1.00: 1.00", "The first line begins at 0.00."), ("0: 1\n5 2", "This is none: 5 2"),
                           ("0: 1\n0: 2", "Amounts rise from line to line."), ("0: 2\n5: 1", "No step is smaller"),
                           ("0: 0", "A step is 0.01 or more")):
        house.write("textbox", "New table", lines)
        house.press("button", "Set the new table")
        house.wait_for_text(mistake)
    house.write("textbox", "New table", "0: 0.50\n100.00: 5")
    house.press("button", "Set the new table")
    house.wait_for("dialog", "Set this table?")
    house.press("button", "Don't set it")
    house.wait_for_text("Nothing was set.")
    check("a no", gateway.ask("house", "GET", "/api/bands").value["bands"], before)
    house.press("button", "Set the new table")
    house.press("button", "Set it")
    house.wait_for_text("The table is set, as edition 2.")
    check("a yes", gateway.ask("house", "GET", "/api/bands").value["bands"], [{"at": 0, "step": 50}, {"at": 10_000, "step": 500}])
    check("it is shown", rows_of(house, "By how much prices rise", 2), [["0.00", "0.50"], ["100.00", "5.00"]])


def city_words(reader, gateway, listings):
    """The city's own words stand at what was won and at the foot, and its money has its name. They are read with the page,
    so they are seen in another browser."""
    (gateway.house() / "page" / "city.json").write_text(json.dumps(CITY))
    number = listings.list("A map of the city", buy_now=1_250)
    gateway.ask("ben", "POST", f"/api/items/{number}/purchase", {})
    ben = Reader(reader.page.url.rpartition("/session/")[0], gateway, "ben")
    try:
        go(ben, "won", "Won and bought")
        for words in (CITY["pay"], CITY["fetch"], CITY["terms"], CITY["write"], "12.50 Thaler"):
            ben.wait_for_text(words)
        check("words of the city", ben.looks(), [])
        go(ben, f"item/{number}", "A map of the city")
        ben.wait_for_text(CITY["fetch"])
        check("where to pay", CITY["pay"] in ben.text(), True)
        gateway.ask("house", "POST", f"/api/items/{number}/settle", {})
        go(ben, "won", "Won and bought")
        go(ben, f"item/{number}", "A map of the city")
        ben.wait_for_text(CITY["fetch"])
        check("where to pay what is paid", CITY["pay"] in ben.text(), False)
    finally:
        ben.end()


SLIP = '{ "language": "de", }'


def slips_of_the_city(reader, gateway):
    """A file of the city that is none leaves the page in English, and one of words that is none a sentence in both languages.
    The console has why."""
    page = gateway.house() / "page"
    before = {page / name: (page / name).read_text() for name in ("city.json", "words/en.json")}
    (page / "city.json").write_text(SLIP)
    ben = Reader(reader.page.url.rpartition("/session/")[0], gateway, "ben")
    try:
        ben.wait_for("heading", "Items")
        ben.listen()
        check("what the console has of the form and the page", ["SyntaxError" in fault for fault in ben.faults], [True, True])
        (page / "words" / "en.json").write_text(SLIP)
        ben.page.go(ben.root)
        ben.wait_for_text("The page can't be read just now. Load it again.")
        ben.wait_for_text("Die Seite ist gerade nicht zu lesen. Laden Sie sie neu.")
    finally:
        ben.end()
        for file, text in before.items():
            file.write_text(text)


def all_of_it(gateway, listings, house, ana, ben, cid):
    settles(house, ben, gateway, listings)
    lists_again(ana, gateway, listings)
    nobody_got_it(ben, gateway, listings)
    with tempfile.TemporaryDirectory() as folder:
        accounts(house, gateway, pathlib.Path(folder))
    sets_bands(house, gateway)
    city_words(ben, gateway, listings)
    slips_of_the_city(ben, gateway)
