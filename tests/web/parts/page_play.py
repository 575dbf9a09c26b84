"""An auction from its listing to its statement, played on the page by the house, a seller and two who bid.

Each has a browser, and uses the page by roles and names alone. Cid seals a maximum whose digits are nowhere else:
Ben, who loses, must never be shown them.
"""
import csv
import io
import re
import signal
import time

from lib.checks import check
from lib.confined import as_nobody
from lib.screen_reader import ENTER, ESCAPE
from lib.sent import compact
from lib.serving import Program
from parts.page_house import EVIL_NAME, GLOBE, OPEN, PAST, ZONE, in_zone

TITLE = "Atlas of the northern sea, 1782"
TEXT = "Forty engraved maps, coloured by hand, in half leather.\nSpine rubbed. Map 13 has a tear at the fold."
# What Cid seals, as it may be written anywhere.
SECRET = "7,391.57"
WRITTEN = ["739157", "7391.57", "7391,57", SECRET, "7.391,57", "7 391.57"]
# In so many minutes and part of one the auction ends: all that is done before has to fit.
MINUTES = 3
YEAR = time.strftime("%Y")


def has_secret(text):
    return any(one in text for one in WRITTEN)


def end_of_auction():
    return (int(time.time()) // 60 + 1 + MINUTES) * 60


def lists_an_item(ana, end):
    """The seller fills in the form, after a price that is none."""
    ana.go_to("Sell")
    ana.write("textbox", "Title", TITLE)
    ana.write("textbox", "About it", TEXT)
    ana.write("textbox", "Start price", "1,200")
    with in_zone(ZONE):
        shown = time.localtime(end)
    ana.type("Date", "Ends on", time.strftime("%m%d%Y", shown))
    ana.type("InputTime", "Ends at", time.strftime("%I%M%p", shown))
    ana.press("button", "List it")
    ana.wait_for_text("Write an amount, such as 12 or 12.50.")
    check("a wrong field", ana.looks(), [])
    check("the field that is wrong has the keyboard", ana.focused().name, "Start price")
    ana.write("textbox", "Start price", "120")
    ana.write("textbox", "Reserve price", "120")
    ana.press("button", "List it")
    ana.wait_for_text("Write 120.01 or more: it is over the start price.")
    ana.write("textbox", "Reserve price", "121")
    ana.press("button", "List it")
    ana.wait_for("heading", TITLE)
    ana.wait_for_text("Your reserve is 121.00, and nobody else sees it.")
    ana.wait_for_text("Reserve not met")
    ana.wait_for_text("Your item is listed.")
    check("the text has two paragraphs", all(line in ana.text() for line in TEXT.split("\n")), True)
    check("the seller can't bid", ana.find("button", "Bid"), None)
    return int(ana.page.run("return location.hash").rpartition("/")[2])


def bids_by_keys(ben):
    """A whole bid by the keyboard: to the list, to the item, to the field, and Enter."""
    way = ben.tab_to("link", "Items")
    ben.page.keys([ENTER])
    ben.wait_for("link", TITLE)
    way += ben.tab_to("link", TITLE)
    ben.page.keys([ENTER])
    ben.wait_for("heading", TITLE)
    check("the heading has the keyboard", ben.focused().name, TITLE)
    way += ben.tab_to("textbox", "Your maximum")
    check("all that Tab reaches has a name", [one for one in way if one and not one.name], [])
    check("all that Tab reaches is marked", ben.page.run(MARKED), True)
    ben.page.keys("150")
    ben.page.keys([ENTER])
    ben.wait_for_text("Your bid is taken, and you lead at 121.00.")
    ben.wait_for_text("You lead. Your maximum is 150.00, and nobody else sees it.")
    ben.wait_for_text("Reserve met")


MARKED = """const style = getComputedStyle(document.activeElement);
return style.outlineStyle !== 'none' && parseFloat(style.outlineWidth) >= 2"""


def seals(cid):
    """A maximum far above the price is asked about first."""
    cid.go_to("Items")
    cid.go_to(TITLE)
    cid.write("textbox", "Your maximum", "121")
    cid.press("button", "Bid")
    cid.wait_for_text("The next bid is 123.50 or more.")
    cid.write("textbox", "Your maximum", SECRET)
    cid.press("button", "Bid")
    dialog = cid.wait_for("dialog", f"Bid up to {SECRET}?")
    check("the question is before the page", dialog.properties.get("modal"), True)
    check("a question", cid.looks(), [])
    cid.press("button", "Change it")
    cid.wait_for_text("Nothing was bid.")
    cid.press("button", "Bid")
    cid.press("button", f"Bid up to {SECRET}")
    cid.wait_for_text("Your bid is taken, and you lead at 152.50.")
    check("the leader is shown its own maximum", has_secret(cid.text()), True)


def is_outbid(ben):
    """What changed is announced without being asked."""
    announced = ben.wait(lambda: "You were outbid" in ben.announced() and ben.announced(), "outbid")
    check("the price that rose is announced", "The price is now 152.50." in announced, True)
    ben.wait_for_text("Bid 155.00 or more.")


def waits(gateway, ben, number):
    """While the house is still the button says that it waits, and pressing it twice bids once."""
    before = gateway.ask("ana", "GET", f"/api/items/{number}").value["count"]
    ben.write("textbox", "Your maximum", "200")
    gateway.kill_house(signal.SIGSTOP)
    try:
        ben.press("button", "Bid")
        waiting = ben.wait_for("button", "Bidding..")
        check("the button can't be pressed", waiting.properties.get("disabled"), True)
        check("a button that waits", ben.looks(), [])
        ben.press("button", "Bidding..")
        ben.page.keys([ENTER])
        ben.wait_for_text("The house has not answered yet.")
    finally:
        gateway.kill_house(signal.SIGCONT)
    ben.wait_for_text("Your bid is taken, but another maximum is as high or higher. The next bid is 205.00 or more.")
    check("one bid", gateway.ask("ana", "GET", f"/api/items/{number}").value["count"], before + 1)
    ben.listen()
    check("bids that were sent", [status for url, status, _ in ben.answers if url.endswith("/bids")], [201, 201])


def is_unsure(ben):
    """Where no answer comes the page doesn't know whether something was done, and says so. Then it goes on."""
    line = {"latency": 0, "downloadThroughput": -1, "uploadThroughput": -1}
    ben.page.tool("Network.emulateNetworkConditions", offline=True, **line)
    ben.press("button", "Watch")
    ben.wait_for_text("No answer came, so the house has done it, or it has not.")
    ben.page.tool("Network.emulateNetworkConditions", offline=False, **line)


def talks(ana, ben):
    """A question, an answer, and a watch."""
    ben.write("textbox", "Ask the seller", "Is map 13 whole?")
    ben.press("button", "Ask")
    ben.wait_for_text("Your question is with the seller.")
    ben.press("button", "Watch")
    ben.wait_for("button", "Stop watching")
    ana.go_to("Items")
    ana.wait_for("link", "Questions (2)")
    ana.go_to("Questions (2)", "Questions")
    ana.wait_for_text("Is map 13 whole?")
    ana.write("textbox", "Your answer to Ben", "But for the tear, yes.")
    ana.press("button", "Answer Ben")
    ana.wait_for_text("Your answer is published.")
    ben.go_to("Questions")
    ben.wait_for_text("But for the tear, yes.")
    ben.go_to("Watching")
    ben.wait_for("link", TITLE)


def buys(gateway, ben):
    """A purchase is asked about, and then made."""
    ben.go_to("Items")
    ben.go_to(GLOBE)
    ben.press("button", "Buy now for 450.00")
    ben.wait_for("dialog", "Buy this for 450.00?")
    ben.page.keys([ESCAPE])
    ben.wait_for_text("Nothing was bought.")
    ben.press("button", "Buy now for 450.00")
    ben.press("button", "Buy for 450.00")
    ben.wait_for_text("You bought this for 450.00.")
    number = len(PAST) + len(OPEN)
    check("it is Ben's", gateway.ask("ana", "GET", f"/api/items/{number}").value["leader"], gateway.numbers["ben"])


def reads_bids(ben):
    """The list of bids has titles, and says how each stands."""
    ben.go_to("My bids")
    cells = [node.name for node in ben.all("cell")]
    place = cells.index(TITLE)
    check("my bids", cells[place + 1:place + 4], ["202.50", "200.00", "You were outbid"])


def countdown(cid, end):
    """The countdown goes by the gateway's clock, and promises no second that is over: Cid's own clock is wrong."""
    text = cid.wait_for_text("Ends in")
    left = time_in(re.search(r"Ends in (.*?) (?:Sun|Mon|Tues|Wednes|Thurs|Fri|Satur)day", text)[1])
    really = end - time.time()
    check(f"the countdown: {left} of {really:.1f} s", really - 8 < left <= really + 1, True)
    check("a wrong clock is reported", "Your clock is 1 hour" in cid.wait_for_text("ahead of the house's."), True)


def time_in(words):
    seconds = {"day": 86_400, "days": 86_400, "hour": 3_600, "hours": 3_600, "min": 60, "s": 1}
    return sum(int(number) * seconds[unit] for number, unit in re.findall(r"([0-9]+) (\w+)", words))


WRONG_CLOCK = "const right = Date.now; Date.now = () => right() + 3600000"


def ends(cid):
    """The end comes by itself on a page that is open."""
    cid.wait(lambda: cid.find("heading", TITLE) and "The end came" in cid.text(), "the end")
    cid.wait_for_text("You led at the end. The house has yet to close this auction.")
    check("nobody bids after the end", cid.find("button", "Raise my maximum"), None)


def closes(house):
    """The house closes and settles."""
    house.go_to("Close and settle")
    house.wait_for("table", "Due to be closed")
    house.press("button", "Close what is due")
    house.wait_for_text("Closed: 1 sold, 0 not sold.")
    # The purchase waits too, and was sold first.
    house.wait_for("table", "Sales to settle")
    house.go_to(TITLE)
    house.press("button", "Settle this sale")
    house.wait_for("dialog", "Settle this sale?")
    house.wait_for_text("202.50 from Cid , 182.25 for Ana , and 20.25 for the house. It can't be taken back.")
    house.press("button", "It is paid, settle it")
    house.wait(lambda: any("Settled" in node.name for node in house.all("StaticText")), "settled")


def wins(cid):
    cid.wait_for_text("You won this for 202.50.")
    cid.press("combobox", "How was it?")
    cid.page.keys([*"Good", ENTER])
    cid.write("textbox", "In a few words", "Well packed")
    cid.press("button", "Rate this sale")
    cid.wait_for_text("Good. Well packed")
    cid.go_to("Ana")
    cid.wait_for_text(f"Good : Well packed for {TITLE} , by Cid")
    cid.go_to(TITLE)
    cid.wait_for_text("from Ana (2 good, 0 neither, 0 bad)")


def loses(ben):
    ben.go_to("My bids")
    ben.go_to(TITLE)
    ben.wait_for_text("Somebody else got this. Your maximum was 200.00.")


def is_to_rate(ana):
    """The seller is asked to rate the buyer, below the button by which it watches, and with room between both."""
    ana.go_to("My listings")
    ana.go_to(TITLE)
    heading, button = ana.wait_for("heading", "Rate Cid"), ana.wait_for("button", "Watch")
    check("room above the rating", ana.box(heading)[1] - ana.box(button)[3] >= 8, True)


def statements(gateway, ana, ben, cid):
    """What each is shown of the sale, line by line."""
    line = {}
    for one in (ana, ben, cid):
        one.go_to("Statement")
        one.wait_for("table", "Sales and purchases")
        cells = [node.name for node in one.all("cell")]
        rows = [cells[at:at + 7] for at in range(0, len(cells), 7)]
        line[one.name] = next((row for row in rows if row[1] == TITLE), None)
        value = gateway.ask(one.name, "GET", f"/api/me/statement/{YEAR}-01-01/{YEAR}-12-31").value
        check(f"{one.name}: as many lines as there are", len(rows) - 2, len(value["lines"]))
        check(f"{one.name}: totals", rows[-2][4:], [money(value[key]) for key in ("sold", "fees", "net")])
        check(f"{one.name}: bought", rows[-1][4], money(value["bought"]))
        check(f"{one.name}: a chart", len(one.all("image")) + len(one.all("img")), 1)
    check("the seller's line", line["ana"][2:], ["Sold", "Cid", "202.50", "20.25", "182.25"])
    check("the loser has no line", line["ben"], None)
    check("the buyer's line", line["cid"][2:], ["Bought", "Ana", "202.50", "", ""])


def money(cents):
    return f"{cents / 100:,.2f}"


def saved(reader, button, folder, pattern):
    """The file that a button saves."""
    before = set(folder.iterdir())
    reader.press("button", button)
    ready = lambda: [file for file in set(folder.iterdir()) - before if re.fullmatch(pattern, file.name)]
    return reader.wait(ready, pattern)[0].read_bytes()


def allow_saving(reader, folder):
    reader.page.tool("Browser.setDownloadBehavior", behavior="allow", downloadPath=str(folder))


def record(gateway, house, folder):
    """The public record is what the reads tell, put together."""
    read = lambda path: gateway.ask("house", "GET", f"/api{path}").value
    table = read("/bands")
    check("a second band table", gateway.ask("house", "POST", "/api/bands", table).value, {"edition": 2})
    house.go_to("The house")
    text = saved(house, "Save the public record", folder, r"record-.*\.json")
    house.wait_for_text("The record is saved.")
    state = read("/house")
    items = [read(f"/items/{number}") for number in range(1, state["items"] + 1)]
    members = [read(f"/members/{number}") for number in range(1, state["members"] + 1)]
    feedback = [one for member in members for one in read(f"/members/{member['member']}/feedback/1")["feedback"]]
    wanted = {**table, **read("/categories"), "clock": state["clock"], "rate": state["rate"], "zone": state["zone"],
              "editions": [{**table, "edition": number} for number in (1, 2)], "items": items,
              "members": [{key: one[key] for key in ("member", "name")} for one in members],
              "feedback": sorted(feedback, key=lambda one: (one["item"], one["from"])),
              "questions": [one for item in items for one in read(f"/items/{item['item']}/questions/1")["questions"]]}
    check("the public record", text, compact(wanted))


def registers(house):
    """The house adds a member and a category, and is refused a name that is taken."""
    house.go_to("Members")
    house.wait_for("link", EVIL_NAME)
    house.write("textbox", "Name", "Dora")
    house.press("button", "Register")
    house.wait_for_text("Registered as member 5.")
    house.write("textbox", "Name", "Dora")
    house.press("button", "Register")
    house.wait_for_text("This name is taken. Choose another.")
    house.go_to("The house")
    house.write("textbox", "Name of the category", "Prints")
    house.press("button", "Add")
    house.wait_for_text("The category is there.")
    house.wait_for("link", "Prints")


def same_as_the_program(gateway, spreadsheet):
    """But for titles and names the file for a spreadsheet is the one that the program makes of the house, once it is
    served no more."""
    columns = io.StringIO()
    rows = [row[:-2] for row in csv.reader(io.StringIO(spreadsheet.decode()))]
    csv.writer(columns, lineterminator="\n").writerows(rows)
    tool = Program(gateway.program, gateway.house(), before=as_nobody)
    words = ["--member", "1", "--from", f"{YEAR}-01-01", "--to", f"{YEAR}-12-31", "--csv"]
    check("the same spreadsheet", tool.ended("statement", "house", *words), (0, columns.getvalue().encode(), b""))


def is_shown(cid):
    """The leader is shown its own maximum, by the same look at answers and page."""
    cid.listen()
    check("answers to the leader", any(has_secret(body) for _, _, body in cid.answers), True)
    cid.go_to("My bids")
    check("the leader's page", has_secret(cid.text()), True)


def no_faults(readers):
    """The console has nothing of the page's own making. What the house refuses the browser writes there by itself."""
    for one in readers:
        one.listen()
        check(f"{one.name}: the console", one.faults, [])
        api = [(url, status) for url, status, _ in one.answers if "/api/" in url]
        print(f"{one.name} was given {len(api)} answers of the interface")
