"""What a page says has to be true at once, after whatever others do and whatever goes wrong.

Others act by the interface itself. A script that is there before the page's own lets reads fail, loses the answer to a
command that the house has taken, and lets a minute pass in six seconds.
"""
import csv
import io
import time

from lib.checks import check
from lib.screen_reader import USABLE, Reader
from parts.page_house import HOUR, MAPS, PAST

# Before the page's own scripts: reads that fail, one that isn't answered, a command whose answer is lost, and long pauses that
# are a tenth as long.
BEFORE = """const reallyAsk = fetch, reallyWait = setTimeout;
window.lost = "";
window.held = "";
window.ended = [];
window.failing = [];
window.fetch = async (address, words = {}) => {
  if (words.method !== "POST" && window.failing.some(one => new RegExp(`/api/${one}$`).test(address))) {
    throw new TypeError("failed");
  }
  if (window.held && String(address).endsWith(window.held)) {
    await new Promise((_, fail) => words.signal.addEventListener("abort", () => {
      window.ended.push(window.held);
      fail(words.signal.reason);
    }));
  }
  const answer = await reallyAsk(address, words);
  if (window.lost && words.method === "POST" && String(address).endsWith(window.lost)) {
    window.lost = "";
    throw new TypeError("lost");
  }
  return answer;
};
window.setTimeout = (work, pause, ...words) => reallyWait(work, pause >= 30000 ? pause / 10 : pause, ...words);"""
# The machine slept an hour.
SLEEP = "const right = Date.now; Date.now = () => right() + 3600000"
# The clock turns the page within this, and a machine that is busy takes its time.
TURN = 2.0
BLANK = "\u00a0\u2029\ufeff"


# How far down the heading is.
HEIGHT = "return document.querySelector('h1').getBoundingClientRect().top + scrollY"


class Listings:
    """Items that a test has listed by the interface, each under a code of its own."""

    def __init__(self, gateway):
        self.gateway, self.count = gateway, 0

    def list(self, title, seconds=HOUR, **words):
        self.count += 1
        body = {"category": MAPS, "end": int(time.time()) + seconds, "lot": f"T{self.count}", "title": title, "text": "",
                "start": 1_000, **words}
        return self.gateway.ask("ana", "POST", "/api/items", body).value["item"]

    def bid(self, name, item, maximum):
        answer = self.gateway.ask(name, "POST", f"/api/items/{item}/bids", {"maximum": maximum})
        check(f"{name} bids {maximum}", answer.status, 201)

    def item(self, number):
        return self.gateway.ask("ana", "GET", f"/api/items/{number}").value


def go(reader, part, heading):
    """Goes to a part by the address, as a link does."""
    reader.page.run("location.hash = arguments[0]", f"#/{part}")
    reader.wait_for("heading", heading)


def block(reader, *addresses):
    """Lets reads of some addresses fail, and no others."""
    reader.page.run("window.failing = arguments[0]", addresses)


def overlap(one, two):
    return one and two and one[0] < two[2] and two[0] < one[2] and one[1] < two[3] and two[1] < one[3]


def outcome_goes(ben, listings):
    """What came of a bid is said no more once it is true no more."""
    number = listings.list("A map of the outcome")
    go(ben, f"item/{number}", "A map of the outcome")
    ben.write("textbox", "Your maximum", "12")
    ben.press("button", "Bid")
    ben.wait_for_text("Your bid is taken, and you lead at 10.00.")
    listings.bid("cid", number, 2_000)
    text = ben.wait_for_text("You were outbid.")
    check("an outcome that was true", "you lead" in text, False)
    return number


def news_cover_nothing(ben, number):
    """What is announced lies over nothing that is used, and goes with the next own bid."""
    news = next(node for node in ben.all("status") if "The price is now" in ben.said(node))
    height = ben.page.run(HEIGHT)
    covered = [node for node in ben.tree() if node.role in USABLE and overlap(ben.box(news), ben.box(node))]
    check("the news cover", covered, [])
    ben.write("textbox", "Your maximum", "30")
    ben.press("button", "Bid")
    ben.wait_for_text("Your bid is taken, and you lead at")
    check("stale news", "The price is now" in ben.announced(), False)
    check("what is below the news stays where it was", ben.page.run(HEIGHT), height)


def short_of_the_reserve(ben, listings):
    """Who leads below the reserve is told that this doesn't buy it."""
    number = listings.list("A map with a reserve", reserve=5_000)
    listings.bid("ben", number, 1_500)
    go(ben, f"item/{number}", "A map with a reserve")
    text = ben.wait_for_text("You lead, but the reserve is not met: at this price it is not sold.")
    check("no other word of leading", "You lead. Your" in text, False)
    go(ben, "bids", "My bids")
    ben.wait_for_text("You lead, reserve not met")


def about_it(reader):
    """What an item's page says of price and bids, without the other items beside it."""
    return reader.said(reader.find("region", "Price and bids"))


def purchase_has_no_bids(ben, gateway, listings):
    """What was bought at once, and what nobody wanted, says so."""
    bought = listings.list("A map to buy", buy_now=2_000)
    gateway.ask("cid", "POST", f"/api/items/{bought}/purchase", {})
    go(ben, f"item/{bought}", "A map to buy")
    ben.wait_for_text("Bought at once")
    check("a purchase has no bids to come", "No bids yet" in about_it(ben), False)
    unwanted = listings.list("A map for nobody", seconds=2)
    time.sleep(2.5)
    gateway.ask("house", "POST", "/api/close", {})
    go(ben, f"item/{unwanted}", "A map for nobody")
    ben.wait_for_text("Started at")
    check("what nobody wanted gets no bids", "No bids yet" in about_it(ben), False)


def ends_by_the_clock(ben, listings):
    """The end turns the page, not the next read."""
    number = listings.list("A map that ends", seconds=12)
    end = listings.item(number)["end"]
    go(ben, f"item/{number}", "A map that ends")
    ben.wait_for("button", "Bid")
    time.sleep(max(0, end + TURN - time.time()))
    check("a live button after the end", ben.find("button", "Bid"), None)
    check("open after the end", "Open" in about_it(ben), False)
    ben.wait_for_text("The end came")


def ends_of_others(ben, listings):
    """The end of another item of the seller is not told as that of this one, and takes that item's card away."""
    ending, staying = listings.list("A map that ends beside", seconds=15), listings.list("A map that stays open")
    end = listings.item(ending)["end"]
    go(ben, f"item/{staying}", "A map that stays open")
    ben.wait_for("link", "A map that ends beside")
    time.sleep(max(0, end + TURN - time.time()))
    check("a card of what has ended", ben.find("link", "A map that ends beside"), None)
    check("the end of another", "The end of this auction has come." in ben.announced(), False)
    check("the item goes on", ben.find("button", "Bid") is not None, True)


def failed_read(ben, listings):
    """One read that fails leaves nothing half new: the name of who leads comes later."""
    number = listings.list("A map of one failure")
    listings.bid("ben", number, 1_200)
    go(ben, f"item/{number}", "A map of one failure")
    ben.wait_for("button", "Raise my maximum")
    block(ben, "members/3")
    listings.bid("cid", number, 3_000)
    ben.wait_for_text("You were outbid.")
    ben.wait_for("button", "Bid")
    ben.wait_for_text("Bid 13.00 or more.")
    check("who leads is not the one before", "Led by you" in ben.text(), False)
    block(ben)
    ben.wait_for("link", "Cid")


def taken_and_unread(ben, listings):
    """A bid that was taken is told so, also where the read after it fails."""
    number = listings.list("A map of a lost read")
    go(ben, f"item/{number}", "A map of a lost read")
    ben.write("textbox", "Your maximum", "12")
    block(ben, f"items/{number}", f"me/bids/{number}")
    ben.press("button", "Bid")
    ben.wait_for_text("Your bid is taken, and you lead at 10.00.")
    block(ben)
    ben.wait_for_text("You lead. Your maximum is 12.00")


def made_and_unread(house):
    """A member and a category that the house has made are told so, also where the read after it fails."""
    for part, field, name, button, done in (("Members", "Name", "Dora", "Register", "Registered as member 5."),
                                            ("The house", "Name of the category", "Prints", "Add", "The category is there.")):
        house.go_to(part)
        house.write("textbox", field, name)
        block(house, "house")
        house.press("button", button)
        house.wait_for_text(done)
        block(house)
        house.go_to("Items")
        house.go_to(part)
        house.wait_for("link", name)


def lists_come_anew(cid, ana, gateway, listings):
    """Lists, answers and counts come anew by themselves."""
    number = listings.list("A map in lists", seconds=600)
    listings.bid("cid", number, 1_217)
    gateway.ask("cid", "POST", f"/api/items/{number}/watch", {})
    for part, heading in (("", "Items"), ("watches", "Watching"), ("bids", "My bids")):
        go(cid, part, heading)
        cid.wait_for("link", "A map in lists")
        listings.bid("ben", number, listings.item(number)["price"] + 717)
        price = f"{listings.item(number)['price'] / 100:.2f}"
        cid.wait(lambda: price in cid.text(), f"the price {price} in {heading}")
        listings.bid("cid", number, listings.item(number)["price"] + 717)
    go(cid, "house", "The house")
    items = gateway.ask("cid", "GET", "/api/house").value["items"]
    cid.wait_for_text(f"Items {items}")
    listings.list("One more map")
    cid.wait_for_text(f"Items {items + 1}")
    answers_come_anew(cid, ana, number)


def answers_come_anew(cid, ana, number):
    go(cid, f"item/{number}", "A map in lists")
    cid.write("textbox", "Ask the seller", "Is it large?")
    cid.press("button", "Ask")
    cid.wait_for_text("Your question is with the seller.")
    go(ana, f"item/{number}", "A map in lists")
    waiting = ana.wait(lambda: ana.find("link", "Questions (*"), "a question that waits").name
    ana.write("textbox", "Your answer to Cid", "As large as a table.")
    ana.press("button", "Answer Cid")
    ana.wait(lambda: ana.find("link", "Questions*").name != waiting, "one question less")
    cid.wait_for_text("As large as a table.")


def sleeps(ben):
    """After a sleep of the machine the countdowns hear of the clock again."""
    go(ben, "", "Items")
    ben.wait_for_text("ends in")
    ben.page.run(SLEEP)
    ben.wait_for_text("Your clock is 1 hour")
    time.sleep(1)
    check("countdowns after a sleep", "has not given yet" in ben.text(), False)


def comes_back(ben, ana, gateway, listings):
    """Back leads to the place, and to what was written; a question that was left is no yes."""
    ana.go_to("Sell")
    ana.write("textbox", "Title", "A half-written map")
    ana.go_to("The house")
    ana.page.run("history.back()")
    ana.wait_for("heading", "Sell")
    check("what was written", ana.wait_for("textbox", "Title").value, "A half-written map")
    go(ben, "", "Items")
    ben.wait_for_text("ends in")
    ben.page.run("scrollTo(0, 500)")
    number = listings.list("A map to leave", buy_now=2_000)
    go(ben, f"item/{number}", "A map to leave")
    ben.press("button", "Buy now for 20.00")
    ben.wait_for("dialog", "Buy this for 20.00?")
    ben.page.run("history.back()")
    ben.wait_for("heading", "Items")
    check("a question that was left", ben.find("dialog", "Buy this for 20.00?"), None)
    check("nothing was bought", listings.item(number)["state"], "open")
    ben.wait(lambda: abs(ben.page.run("return scrollY") - 500) < 20, "the place in the list")


def reads_end_with_the_page(ben):
    """What a page asks for is ended when one leaves it."""
    ben.page.run("window.held = '/api/categories'; location.hash = '#/category/1'")
    go(ben, "watches", "Watching")
    check("reads that ended", ben.page.run("window.held = ''; return window.ended"), ["/api/categories"])


# What was asked of the house since the last time.
ASKED = """const found = performance.getEntriesByType("resource").map(one => new URL(one.name).pathname);
performance.clearResourceTimings();
return found.filter(path => path.startsWith("/api/")).map(path => path.slice(4));"""


def reads_what_changed(ben, listings):
    """An open page reads its item again and again, and own bids once somebody has bid."""
    number = listings.list("A map that is looked at")
    listings.bid("ben", number, 1_500)
    go(ben, f"item/{number}", "A map that is looked at")
    ben.wait_for("button", "Watch")
    ben.wait_for_text("No question was answered yet.")
    time.sleep(4)
    ben.page.run(ASKED)
    time.sleep(10)
    found = ben.page.run(ASKED)
    check(f"reads of ten seconds in which nobody bids: {found}", [1 <= found.count(f"/items/{number}") <= 4,
                                                                  found.count(f"/me/bids/{number}")], [True, 0])
    listings.bid("cid", number, 3_000)
    ben.wait_for_text("You were outbid.")
    check("reads of own bids after a bid", ben.page.run(ASKED).count(f"/me/bids/{number}"), 1)


# Four hundred reads at once, of a member that may ask 200 times in a second.
MANY_READS = """const done = arguments[0];
import("/exchange/api.js").then(({ each, read }) => each(Array.from({ length: 400 }), () => read("/house"), 100))
  .then(answers => done(answers.length), fault => done(String(fault.answer?.why ?? fault)))"""


def reads_as_often_as_it_may(ben):
    """A long list is read though the gateway takes no more of a member in a second: the rest is asked again."""
    check("four hundred reads", ben.page.run_until_done(MANY_READS), 400)


# A line of 150 ms, of 200 KB a second; and none.
LINE = {"offline": False, "latency": 150, "downloadThroughput": 200_000, "uploadThroughput": -1}
NO_LINE = {"offline": False, "latency": 0, "downloadThroughput": -1, "uploadThroughput": -1}
# How many milliseconds after the page was asked for it has the price.
PRICED = """const done = arguments[0];
const look = () => document.querySelector(".amount-now")?.textContent ? done(performance.now()) : setTimeout(look, 5);
look();"""


def price_after(reader, line, times=3):
    """The shortest of some times in which a browser that keeps nothing has the price of an item."""
    found = []
    for _ in range(times):
        reader.page.tool("Network.emulateNetworkConditions", **NO_LINE)
        reader.page.go("about:blank")
        reader.page.tool("Network.emulateNetworkConditions", **line)
        reader.page.tool("Page.navigate", url=f"{reader.root}#/item/{len(PAST) + 1}")
        found.append(reader.page.run_until_done(PRICED))
    return min(found)


def price_comes_soon(address, gateway):
    """The price is there within two seconds on such a line, beside what this machine takes without one."""
    reader = Reader(address, gateway, "ben")
    try:
        reader.page.tool("Network.enable")
        reader.page.tool("Network.setCacheDisabled", cacheDisabled=True)
        without, on_line = price_after(reader, NO_LINE), price_after(reader, LINE)
        print(f"the price of an item is there after {on_line:.0f} ms on a line of 150 ms, and {without:.0f} ms without one")
        check(f"the line takes two seconds at most: {without}, {on_line}", on_line - without < 2_000, True)
    finally:
        reader.end()


def lost_listings(ana, gateway):
    """A listing whose answer was lost is found by its code, at once or when it is sent again, and is there once."""
    for title, blocked in (("A lost map", []), ("A map that is lost twice", ["house"])):
        before = gateway.ask("ana", "GET", "/api/house").value["items"]
        ana.go_to("Sell")
        ana.write("textbox", "Title", title)
        ana.write("textbox", "Start price", "5 000")
        block(ana, *blocked)
        ana.page.run("window.lost = '/api/items'")
        ana.press("button", "List it")
        if blocked:
            ana.wait_for_text("No answer came")
            block(ana)
            ana.press("button", "List it")
        ana.wait_for("heading", title)
        check(f"{title}: items", gateway.ask("ana", "GET", "/api/house").value["items"], before + 1)


def room_in_titles(ana):
    """A title is counted as the house counts it, while it is written."""
    ana.go_to("Sell")
    ana.wait_for_text("Room for 80 more letters.")
    ana.write("textbox", "Title", "Ω" * 39)
    ana.wait_for_text("Room for 2 more letters.")
    ana.write("textbox", "Title", "Ω" * 42)
    ana.wait_for_text("4 letters too long.")
    ana.write("textbox", "Title", "")


def blank_titles(ben, listings):
    """A title that nobody can see is a link all the same."""
    number = listings.list(BLANK)
    go(ben, f"category/{MAPS}", "Maps")
    ben.wait_for("link", "(no title)")
    go(ben, f"item/{number}", "(no title)")
    check("a blank title", ben.looks(), [])


def named_spreadsheet(text, gateway):
    """The seller's spreadsheet names item and party, and runs nothing."""
    rows = list(csv.reader(io.StringIO(text.decode())))
    check("the head", rows[0][-2:], ["title", "name"])
    for row in rows[1:]:
        title = gateway.ask("ana", "GET", f"/api/items/{row[1]}").value["title"]
        name = gateway.ask("ana", "GET", f"/api/members/{row[3]}").value["name"]
        check(f"item {row[1]} in the spreadsheet", [one.lstrip("'") for one in row[-2:]], [title, name])
        check(f"formulas in {row}", [cell for cell in row if cell[:1] in tuple("=+-@\t\r")], [])


def all_of_it(gateway, house, ana, ben, cid):
    listings = Listings(gateway)
    ben.resize(390)
    failed_read(ben, listings)
    news_cover_nothing(ben, outcome_goes(ben, listings))
    short_of_the_reserve(ben, listings)
    purchase_has_no_bids(ben, gateway, listings)
    ends_by_the_clock(ben, listings)
    ends_of_others(ben, listings)
    taken_and_unread(ben, listings)
    made_and_unread(house)
    lists_come_anew(cid, ana, gateway, listings)
    comes_back(ben, ana, gateway, listings)
    reads_end_with_the_page(ben)
    reads_what_changed(ben, listings)
    price_comes_soon(ben.page.url.rpartition("/session/")[0], gateway)
    reads_as_often_as_it_may(ben)
    lost_listings(ana, gateway)
    room_in_titles(ana)
    blank_titles(ben, listings)
    sleeps(ben)
    ben.resize(1280)
    return listings
