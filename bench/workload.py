"""Seeded streams of messages for a house with the preset's members, category and item.

`workload.py KIND FILE [MESSAGES]` writes a stream of a kind. A stream is two parts: what sets the house up (members,
categories, items), and the messages that are measured. By chances:

`bids`   90% bids on 16 items, about a third of them refused, and 10% reads of an item or of the caller's bids
`mixed`  45% reads of an item, 15% of a category, 15% bids, 5% reads of the caller's bids, 10% listings and 10% others,
         on 10,000 items of 1,000 members

It answers for itself which bids are over the price, so that bids stay worth making; no answer is taken from it.
"""
import json
import pathlib
import random
import sys

BANDS = [(500_000, 10_000), (250_000, 5_000), (100_000, 2_500), (50_000, 1_000), (25_000, 500), (10_000, 250),
         (2_500, 100), (500, 50), (100, 25), (0, 5)]
FAR = 4_000_000_000
WORDS = "old rare fine signed first atlas globe map book print brass oak silver city river harbour night".split()
# By kind, how many items and members the house has at first.
SIZES = {"bids": (16, 100), "mixed": (10_000, 1_000)}
CATEGORIES = {"bids": 1, "mixed": 100}


def step(price):
    return next(step for at, step in BANDS if at <= price)


class Item:
    """An item as far as the choice of a next bid needs it."""

    def __init__(self, seller, start, end, buy_now):
        self.seller, self.start, self.end, self.buy_now = seller, start, end, buy_now
        self.leader = self.top = self.second = None
        self.price, self.count, self.open = start, 0, True

    def floor(self):
        return self.price + step(self.price) if self.count else self.start

    def bid(self, member, maximum):
        leads = member == self.leader
        if member == self.seller or (maximum <= self.top if leads else maximum < self.floor()):
            return
        if leads:
            self.top = maximum
        elif self.top is None or maximum > self.top:
            self.leader, self.top, self.second = member, maximum, self.top
        else:
            self.second = max(self.second or 0, maximum)
        if self.second is not None:
            self.price = max(self.start, min(self.top, self.second + step(self.second)))
        self.count += 1


class Stream:
    """The messages so far, and the house that they make."""

    def __init__(self, seed):
        self.random = random.Random(seed)
        self.texts, self.moment = [], 1_001
        self.members, self.categories, self.lots = 3, 1, 0
        self.items = [None, Item(1, 500, 5_000, None)]

    def post(self, target, member, body=None):
        text = "" if body is None else json.dumps(body, separators=(",", ":"))
        self.texts.append(f"POST {target} HTTP/1.1\r\nhost: h\r\nx-member: {member}\r\nx-moment: {self.moment}\r\n"
                          f"content-length: {len(text)}\r\n\r\n{text}")

    def get(self, target, member=None):
        member = self.member() if member is None else member
        self.texts.append(f"GET {target} HTTP/1.1\r\nhost: h\r\nx-member: {member}\r\n\r\n")

    def member(self):
        return self.random.randint(1, self.members)

    def number(self):
        return self.random.randint(1, len(self.items) - 1)

    def popular(self):
        """Few items draw most of the attention; the newest lead."""
        return max(1, len(self.items) - 1 - int(self.random.paretovariate(0.6)) % len(self.items))

    def register(self):
        self.members += 1
        self.post("/members", 0, {"name": f"Member {self.members}"})

    def category(self):
        self.categories += 1
        self.post("/categories", 0, {"name": f"Category {self.categories}"})

    def list(self, end=FAR, seller=None):
        start, seller = self.random.randint(1, 5_000), seller or self.member()
        buy_now = start * self.random.randint(2, 9) if self.random.random() < 0.3 else None
        self.lots += 1
        body = {"category": self.random.randint(1, self.categories), "lot": f"L{self.lots}",
                "title": " ".join(self.random.choices(WORDS, k=4)),
                "text": " ".join(self.random.choices(WORDS, k=self.random.randint(0, 40))),
                "start": start, "buy_now": buy_now, "end": end}
        self.items.append(Item(seller, start, end, buy_now))
        self.post("/items", seller, {key: value for key, value in body.items() if value is not None})

    def bid(self, number):
        """A bid, of which about a third is under the floor or no raise."""
        item, member, pick = self.items[number], self.member(), self.random.random()
        if pick < 0.65:
            maximum = item.floor() + self.random.randint(0, 4 * step(item.price))
        elif pick < 0.85:
            maximum = max(1, item.floor() - self.random.randint(1, 3 * step(item.price)))
        else:
            member, maximum = item.leader or member, item.top or item.start
        if item.open and self.moment < item.end:
            item.bid(member, maximum)
        self.post(f"/items/{number}/bids", member, {"maximum": maximum})

    def purchase(self):
        number = self.popular()
        item, member = self.items[number], self.member()
        if item.open and item.buy_now and not item.count and member != item.seller and self.moment < item.end:
            item.open = False
        self.post(f"/items/{number}/purchase", member)

    def other(self):
        pick = self.random.random()
        if pick < 0.3:
            self.purchase()
        elif pick < 0.4:
            self.post("/close", 0)
        elif pick < 0.6:
            self.register()
        elif pick < 0.65 and self.categories < 900:
            self.category()
        elif pick < 0.75:
            self.get("/categories")
        elif pick < 0.85:
            self.get(f"/items/{len(self.items) + 99}")
        elif pick < 0.95:
            self.post(f"/items/{self.number()}/bids", self.member(), {"maximum": "ten"})
        else:
            self.get("/nowhere")

    def one_of_bids(self, items):
        pick = self.random.random()
        if pick < 0.9:
            self.bid(self.random.randint(2, items + 1))
        else:
            self.get(f"/items/{self.random.randint(2, items + 1)}" if pick < 0.95 else "/me/bids/1")

    def one_of_mixed(self):
        pick = self.random.random()
        if pick < 0.45:
            self.get(f"/items/{self.popular()}")
        elif pick < 0.6:
            self.get(f"/categories/{self.random.randint(1, self.categories)}/items/{self.number()}")
        elif pick < 0.75:
            self.bid(self.popular())
        elif pick < 0.8:
            self.get("/me/bids/1")
        elif pick < 0.9:
            self.list(end=self.moment + self.random.randint(100, 20_000))
        else:
            self.other()


def made(kind, messages, items=None, seed=1):
    """The texts that set a house up, and those of so many messages over it."""
    stream, (usual, members) = Stream(seed), SIZES[kind]
    items = items or usual
    for _ in range(members - 3):
        stream.register()
    for _ in range(CATEGORIES[kind] - 1):
        stream.category()
    for _ in range(items):
        stream.list(seller=None if kind == "mixed" else 1)
    before, stream.texts = stream.texts, []
    for place in range(messages):
        stream.moment += place % 8 == 0
        if kind == "bids":
            stream.one_of_bids(items)
        else:
            stream.one_of_mixed()
    return [text.encode() for text in before], [text.encode() for text in stream.texts]


if __name__ == "__main__":
    kind, file, *messages = sys.argv[1:]
    before, messages = made(kind, int(messages[0]) if messages else 100_000)
    pathlib.Path(file).write_bytes(b"".join(before + messages))
