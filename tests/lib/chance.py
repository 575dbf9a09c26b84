"""Commands and questions at random, most of which a house accepts."""
import random

NEVER = 2**64 - 1
WEIGHTS = {"register": 3, "add_category": 1, "list": 22, "bid": 40, "buy": 4, "close": 2, "settle": 4,
           "watch": 12, "unwatch": 3, "ask": 12, "answer": 8, "feedback": 10, "set_bands": 2}


class Chance:
    """Random words for a house, which is asked for what they may hit."""

    def __init__(self, house, seed):
        self.house = house
        self.random = random.Random(seed)

    def rarely(self, percent=3):
        return self.random.randrange(100) < percent

    def text(self, most):
        """A text; now and then an empty one, one with a control character or one that is too long."""
        if self.rarely():
            return self.random.choice(["", "a\n", "\x7f", "é" * (most // 2 + 1)])
        return "".join(self.random.choices("abc XYZ,é€😀", k=self.random.randint(1, 8)))

    def name(self):
        return self.text(40) if self.rarely(40) else self.random.choice("ABCDEFGHIJ")

    def lot(self):
        return self.text(20) if self.rarely(5) else f"L-{self.random.randint(1, 300)}"

    def member(self):
        """A member's number, mostly a small one; now and then one that isn't there."""
        count = len(self.house.names)
        if self.rarely():
            return self.random.choice([0, count + 1, NEVER])
        return min(self.random.randint(1, max(1, count)) for _ in range(2))

    def category(self):
        return self.random.choice([0, len(self.house.kinds) + 1, NEVER]) if self.rarely() else \
            self.random.randint(1, min(3, max(1, len(self.house.kinds))))

    def stranger(self, number):
        """A member, mostly not the seller of that item."""
        item, member = self.house.found(number), self.member()
        return self.member() if item is not None and item.seller == member else member

    def item(self):
        """An item's number: an early or a late one, or any; now and then one that isn't there."""
        count = len(self.house.rows)
        if self.rarely():
            return self.random.choice([0, count + 1, NEVER])
        late = max(1, count - self.random.randint(0, 9))
        return self.random.choice([1, 2, late, late, self.random.randint(1, max(1, count))])

    def item_of(self, items):
        """The number of one of some items, mostly."""
        return self.item() if self.rarely(15) or not items else self.random.choice(items).number

    def moment(self):
        if self.rarely():
            return self.random.choice([max(0, self.house.now - 1), 4_102_444_801, NEVER])
        return self.house.now + self.random.choice([0, 0, 0, 1, 3])

    # Of each command its caller and its words.

    def register(self):
        return self.house_mostly(), self.name()

    def add_category(self):
        return self.house_mostly(), self.name()

    def close(self):
        return self.house_mostly(),

    def settle(self):
        return self.house_mostly(), self.item_of([i for i in self.house.rows if i.state == "sold"])

    def house_mostly(self):
        return self.member() if self.rarely() else 0

    def list(self):
        start = self.random.randint(1, 3_000)
        if self.rarely():
            start = self.random.choice([0, 1, 1_000_000_001])
        buy_now = start + self.random.randint(-1, 2_000) if self.rarely(40) else None
        end = self.house.now + self.random.choice([0, 1, 30, 100, 300, 3_000])
        text = "" if self.rarely(50) else self.text(2_000)
        return self.member(), self.category(), self.lot(), self.text(80), text, start, \
            None if buy_now is None else max(0, buy_now), end, *self.reserve(start, buy_now)

    def reserve(self, start, buy_now):
        """The reserve of a listing, where it has one; now and then one that is out of its range."""
        if self.rarely(60):
            return []
        if self.rarely(5):
            return [max(0, self.random.choice([start, start - 1, (buy_now or 1_000_000_000) + 1]))]
        return [self.random.randint(start + 1, max(start + 1, start + 2_000 if buy_now is None else buy_now))]

    def bid(self):
        number = self.item_of([i for i in self.house.rows if i.state == "open"])
        item, caller = self.house.found(number), self.stranger(number)
        floor = 500 if item is None else self.house.standing_of(item).floor
        own = max(self.house.maxima(number, caller), default=floor)
        near = [floor, floor - 1, own, own + 1, floor + self.random.randint(0, 1_000), floor + 5_000]
        if item is not None and item.reserve is not None:
            near += [item.reserve, item.reserve - 1]
        far = [0, 1_000_000_000, 1_000_000_001]
        return caller, number, max(0, self.random.choice(far if self.rarely(2) else near))

    def buy(self):
        number = self.item_of([i for i in self.house.rows if i.state == "open" and i.buy_now])
        return self.stranger(number), number

    def watch(self):
        return self.member(), self.item()

    def unwatch(self):
        if self.house.watching and not self.rarely(20):
            return self.random.choice(self.house.watching)
        return self.member(), self.item()

    def ask(self):
        number = self.item_of([i for i in self.house.rows if i.state == "open"])
        return self.stranger(number), number, self.text(500)

    def answer(self):
        if not self.house.asked or self.rarely(10):
            return self.member(), self.item(), self.member(), self.random.randint(0, 3), self.text(500)
        asked = self.random.choice(self.house.asked)
        seller = self.house.found(asked.item).seller
        caller = self.member() if self.rarely(5) else seller
        return caller, asked.item, asked.asker, asked.number, self.text(500)

    def feedback(self):
        number = self.item_of(self.house.sold_items())
        item = self.house.found(number)
        parties = [self.member()]
        if item is not None and not self.rarely(10):
            parties = [item.seller, self.house.leader(item)]
        rating = 2 if self.rarely() else self.random.choice([-1, 0, 1])
        text = "" if self.rarely(40) else self.text(200)
        return self.random.choice(parties) or self.member(), number, rating, text

    def set_bands(self):
        """A band table, mostly a valid one."""
        rising = sorted(self.random.sample(range(1, 4_000), self.random.randint(0, 3)))
        steps = sorted(self.random.choices([1, 5, 20, 25, 100, 1_000], k=len(rising) + 1))
        bands = list(zip([0, *rising], steps))
        if self.rarely(15):
            bands = self.random.choice([[], bands[::-1] + [(0, 1)], [(1, 5)], [(0, 0)], [(0, 5), (9, 4)], [(0, 1_000_000_001)],
                                        [(at, 1) for at in range(51)], [(0, 1), (1_000_000_001, 1)]])
        return self.house_mostly(), bands

    def command(self):
        """A command: its moment, its caller, its name and its words."""
        name = self.random.choices(list(WEIGHTS), WEIGHTS.values())[0]
        caller, *words = getattr(self, name)()
        return self.moment(), caller, name, *words

    def questions(self):
        """Every look-up and list."""
        member, item, category = self.member, self.item, self.category
        asked = self.random.choice(self.house.asked) if self.house.asked else None
        named = [("question", asked.item, asked.asker, asked.number)] if asked else []
        listed = self.random.choice(self.house.rows) if self.house.rows else None
        lots = [("item_of", listed.seller, listed.lot)] if listed else []
        return [
            ("clock",), ("counts",), ("member", member()), ("category", category()),
            ("has_member", member()), ("has_category", category()),
            ("member_named", self.name()), ("category_named", self.name()),
            ("members",), ("categories",),
            ("item", item()), ("item_of", member(), self.lot()), *lots, ("items",),
            ("items_in", category(), 0), ("items_in", category(), item()),
            ("state", item()), ("standing", item()), ("own", item(), member()),
            ("reserve", item()), ("reserves", member(), 0), ("reserves", member(), item()),
            ("bids", member(), 0), ("bids", member(), item()),
            ("watched", member(), item()), ("watches", member()), ("watch_count", member()),
            ("question", item(), member(), self.random.randint(0, 3)), *named,
            ("ask_count", item(), member()),
            ("questions", member(), 0), ("questions", member(), item()),
            ("published", item(), 0), ("published", 1, member()),
            ("all_published",), ("waiting", member()), ("first_waiting", member()),
            ("given", item(), member()), ("ratings", member()),
            ("feedback", member(), 0), ("feedback", member(), item()), ("all_feedback",),
            ("due", self.house.now + self.random.choice([0, 1, 50, 5_000])), ("sales", member()),
            ("newest",), ("edition", item()), ("bands", self.random.randint(0, len(self.house.tables) + 1)),
        ]
