"""The messages of AuctionMark's mix, each with the status that the rules give it.

AuctionMark is a benchmark of H-Store's and OLTP-Bench's authors, and BenchBase has it today. The shares of its transactions, and
what it draws users, items and bids by, are written below as BenchBase has them, from memory: nobody has compared them with its
files. Where the house has no counterpart, something stands for it:

GetItem             the page of an open item
GetUserInfo         the page of a member; one in three also its feedback, one in four the questions that wait for it, and one
                    in ten each the items on which it bids, those that it watches, and its statement of ten days, for those that
                    it sells
NewBid              a bid: one in twenty on an item that is closed, and half of the others on one of those that end next. A bid is
                    the least that the house takes and up to a fortieth of the price more, since the house has steps, and
                    AuctionMark has none
NewComment          a question on an open item
NewCommentResponse  the answer to a question that waits
NewFeedback         feedback of the buyer or of the seller of a sale
NewItem             a listing, by sellers as often as they have items
NewPurchase         the settlement of a sale, by the house: AuctionMark's buyer pays for what it has won
UpdateItem          a member watches an item, or no longer: an item can't be changed
CloseAuctions       a close, every thousand transactions

The scale is BenchBase's smallest: 10,000 users. Items a seller and bids an item follow Zipf's law. There are 1,000 categories,
which is as many as the house takes; AuctionMark has eBay's, which are more. Attributes and images of items, regions and balances
are left out. The first twenty days make the house, and a second goes by between transactions.
"""
import bisect
import dataclasses
import itertools
import pathlib
import random
import re
import sys

sys.path.insert(0, str(pathlib.Path(__file__).resolve().parent.parent / "tests"))
import workload  # noqa: E402
from lib.plain_site import COMMANDS, DAY_0, READS, datetime  # noqa: E402
from lib.sent import Request, command, compact, read  # noqa: E402

SHARES = {"GetItem": 45, "GetUserInfo": 10, "NewBid": 20, "NewComment": 2, "NewCommentResponse": 1, "NewFeedback": 3, "NewItem": 10,
          "NewPurchase": 2, "UpdateItem": 7}
CLOSE, LOAD = "CloseAuctions", "load"
USERS, CATEGORIES, ITEMS_OF_SELLER, BIDS_A_DAY = 10_000, 1_000, 1_000, 10
INCLUDED = {"given": 33, "waiting": 25, "statement": 10, "own_bids": 10, "watches": 10}
ON_CLOSED, ON_ENDING_SOON, SOON = 5, 50, 100
DAY, LOADED_DAYS, MOST_DAYS, CLOSE_EVERY = 86_400, 20, 10, 1_000
# The first moment, so that statements have days in this century.
BEGINS = 1_000_000_000
# What the house in plain Rust knows.
KNOWN = {"register", "add_category", "list", "bid", "close", "item", "own_bids"}


@dataclasses.dataclass(frozen=True)
class Message:
    """A message: AuctionMark's transaction, what the house calls it, who sends it and when, with which words, and its status."""
    kind: str
    name: str
    member: int
    moment: int
    words: tuple
    body: dict
    status: int

    def request(self) -> Request:
        words = iter(self.words)
        path = COMMANDS.get(self.name) or READS[self.name]
        target = re.sub(r"(?<=/)[A-Z]+(?=/|$)", lambda _: str(next(words)), path)
        if self.name in COMMANDS:
            return command(target, self.member, self.moment, compact(self.body) if self.body else b"")
        return read(target, self.member)

    def text(self):
        return self.request().text()


class Zipf:
    """Numbers from 0 on, of which a number k comes as often as a power of k + 1 says."""

    def __init__(self, most, power):
        self.sums = list(itertools.accumulate((k + 1) ** -power for k in range(most + 1)))

    def draw(self, chance):
        return bisect.bisect_left(self.sums, chance.random() * self.sums[-1])


class Item(workload.Item):
    """An item, as far as the choice of the next message needs it."""

    def __init__(self, number, seller, start, end):
        super().__init__(seller, start, end, None)
        self.number = number

    def least(self, member):
        """The least that the house takes of a member."""
        return self.top + 1 if self.leader == member else self.floor()


class Stream:
    """The messages so far, and what of the house says which are next and how they are answered."""

    def __init__(self, users, seed):
        self.chance, self.users, self.categories = random.Random(seed), users, min(CATEGORIES, users)
        self.messages, self.moment, self.lots = [], BEGINS, 0
        # All items by number; open ones by end; those that are closed; sold ones that wait for their settlement.
        self.items, self.open, self.closed, self.unsettled = [None], [], [], []
        # Who may still give feedback; questions that wait; who watches what.
        self.feedback, self.waiting, self.asked, self.watching = [], [], {}, set()
        self.starts, self.bid_counts, self.other_counts = Zipf(999, 1.0), Zipf(BIDS_A_DAY * MOST_DAYS, 1.5), Zipf(5, 1.5)

    # Messages.

    def put(self, kind, name, member, words=(), status=200, body=None):
        self.messages.append(Message(kind, name, member, self.moment, words, body or {}, status))

    def text(self, words):
        return " ".join(self.chance.choices(workload.WORDS, k=words))

    def member(self, other=None):
        """Any member but this one."""
        number = self.chance.randint(1, self.users - (other is not None))
        return number + (other is not None and number >= other)

    def take(self, rows):
        """Any of the rows, which is then no longer there."""
        place = self.chance.randrange(len(rows))
        rows[place], rows[-1] = rows[-1], rows[place]
        return rows.pop()

    def list(self, kind, seller):
        self.lots += 1
        item = Item(len(self.items), seller, 100 * (1 + self.starts.draw(self.chance)),
                    self.moment + self.chance.randint(1, MOST_DAYS) * DAY)
        self.items.append(item)
        bisect.insort(self.open, (item.end, item.number))
        self.put(kind, "list", seller, (), 201, {
            "category": self.chance.randint(1, self.categories), "lot": f"L{self.lots}", "title": self.text(4),
            "text": self.text(self.chance.randint(0, 40)), "start": item.start, "end": item.end})

    def bid(self, kind, item):
        member = self.member(item.seller)
        maximum = item.least(member) + self.chance.randint(0, item.price // 40)
        accepted = item.open and self.moment < item.end
        if accepted:
            item.bid(member, maximum)
        self.put(kind, "bid", member, (item.number,), 201 if accepted else 409, {"maximum": maximum})

    def close(self, kind):
        while self.open and self.open[0][0] <= self.moment:
            item = self.items[self.open.pop(0)[1]]
            item.open = False
            self.closed.append(item)
            if item.leader:
                self.unsettled.append(item)
                self.feedback += [(item, item.leader), (item, item.seller)]
        self.put(kind, "close", 0)

    def ask(self, kind, item):
        member = self.member(item.seller)
        accepted = self.moment < item.end
        if accepted:
            number = self.asked[item.number, member] = self.asked.get((item.number, member), 0) + 1
            self.waiting.append((item, member, number))
        self.put(kind, "ask", member, (item.number,), 201 if accepted else 409, {"text": self.text(12)})

    def watch(self, kind, item):
        row = self.member(), item.number
        name = "unwatch" if row in self.watching else "watch"
        self.watching ^= {row}
        self.put(kind, name, row[0], (item.number,))

    # Transactions. A transaction for which there is nothing gives False, and another is drawn.

    def any_open(self):
        return self.items[self.chance.choice(self.open)[1]]

    def do_GetItem(self, kind):
        self.put(kind, "item", self.member(), (self.any_open().number,))

    def do_GetUserInfo(self, kind):
        member = self.member()
        self.put(kind, "member", member, (member,))
        today = DAY_0 + datetime.timedelta(self.moment // DAY)
        words = {"given": (member, 1), "own_bids": (1,),
                 "statement": ((today - datetime.timedelta(MOST_DAYS)).isoformat(), today.isoformat())}
        for name, share in INCLUDED.items():
            if self.chance.randint(1, 100) <= share:
                self.put(kind, name, member, words.get(name, ()))

    def do_NewBid(self, kind):
        if self.closed and self.chance.randint(1, 100) <= ON_CLOSED:
            self.bid(kind, self.chance.choice(self.closed))
        elif self.chance.randint(1, 100) <= ON_ENDING_SOON:
            self.bid(kind, self.items[self.chance.choice(self.open[:SOON])[1]])
        else:
            self.bid(kind, self.any_open())

    def do_NewComment(self, kind):
        self.ask(kind, self.any_open())

    def do_NewCommentResponse(self, kind):
        if not self.waiting:
            return False
        item, asker, number = self.take(self.waiting)
        self.put(kind, "answer", item.seller, (item.number, asker, number), 201, {"text": self.text(12)})

    def do_NewFeedback(self, kind):
        if not self.feedback:
            return False
        item, giver = self.take(self.feedback)
        self.put(kind, "feedback", giver, (item.number,), 201,
                 {"rating": self.chance.randint(-1, 1), "text": self.text(6)})

    def do_NewItem(self, kind):
        self.list(kind, self.items[self.chance.randrange(1, len(self.items))].seller)

    def do_NewPurchase(self, kind):
        if not self.unsettled:
            return False
        self.put(kind, "settle", 0, (self.take(self.unsettled).number,))

    def do_UpdateItem(self, kind):
        self.watch(kind, self.any_open())

    # The house, and the stream over it.

    def load(self):
        """The house as it is when the stream begins."""
        for number in range(1, self.users + 1):
            self.put(LOAD, "register", 0, (), 201, {"name": f"User {number}"})
        for number in range(1, self.categories + 1):
            self.put(LOAD, "add_category", 0, (), 201, {"name": f"Category {number}"})
        counts = Zipf(min(ITEMS_OF_SELLER, self.users), 2.0)
        sellers = [seller for seller in range(1, self.users + 1) for _ in range(counts.draw(self.chance))]
        self.chance.shuffle(sellers)
        hours = LOADED_DAYS * 24
        planned = [[] for _ in range(hours)]
        for hour in range(hours):
            self.moment = BEGINS + hour * DAY // 24
            self.close(LOAD)
            for seller in sellers[hour * len(sellers) // hours:(hour + 1) * len(sellers) // hours]:
                self.list(LOAD, seller)
                self.plan(self.items[-1], planned, hour)
            for act, item in planned[hour]:
                act(LOAD, item)

    def plan(self, item, planned, hour):
        """Bids, questions and watches of an item, in hours until it ends."""
        last = hour + (item.end - self.moment) * 24 // DAY - 1
        for act, counts in (self.bid, self.bid_counts), (self.ask, self.other_counts), (self.watch, self.other_counts):
            for _ in range(counts.draw(self.chance)):
                at = self.chance.randint(hour, last)
                if at < len(planned):
                    planned[at].append((act, item))

    def draw(self, transactions):
        """So many transactions."""
        kinds, shares = zip(*SHARES.items())
        for place in range(transactions):
            self.moment += 1
            if place % CLOSE_EVERY == 0:
                self.close(CLOSE)
            while True:
                kind = self.chance.choices(kinds, shares)[0]
                if getattr(self, f"do_{kind}")(kind) is not False:
                    break


def made(transactions, users=USERS, seed=1):
    """The messages that make the house, and those of so many transactions over it."""
    stream = Stream(users, seed)
    stream.load()
    before, stream.messages = stream.messages, []
    stream.draw(transactions)
    return before, stream.messages


def known_to_plain_rust(messages):
    """Those that plain Rust knows. How they are answered doesn't depend on the others."""
    return [message for message in messages if message.name in KNOWN]
