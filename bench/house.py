"""How long the house in memory takes for a command, a look-up and a list at several sizes, and its memory.

`house.py PROGRAM` plays scripts by the program `test_store memory`. A house of so many items is made, with as
many members, up to the most that there may be; then come many lines of one kind, and the program tells
its processor time before and after. Shown are nanoseconds a line at each size, the least of a few runs that take
the sizes in turn, less those of `? clock`, which any line takes to be read and answered; then the time at the greatest size
over that at the least. The lines name some items and members that lie evenly apart, and bids and questions
as many open items, so that at each size the same is done; a second table names all of them, and so shows
what it costs that rows aren't in the processor's caches. Memory is the growth of the most that the program
held, by member, item and bid.
"""
import random
import subprocess
import sys

RUNS = 5
SIZES = [1_000, 10_000, 100_000, 1_000_000]
MOST_MEMBERS, MOST_ITEMS = 100_000, 1_000_000
# As many at each size, so that what grows is members, items and what is done to them.
CATEGORIES = 20
MOMENT, END = 1_000, 4_000_000_000
# Busy members are those from 1 on; each has done a little more than a list shows.
BUSY, MANY = 10, 60
LINES, LISTS, CHANGES = 20_000, 1_000, 50
# How many items and members the lines of the first table name.
NAMED = 200


class House:
    """The numbers of a house. Item n is sold by member (n - 1) mod the members + 1."""

    def __init__(self, items, named):
        # Less than the most that there may be, so that there is room for changes.
        self.items = min(items, MOST_ITEMS - CHANGES)
        self.named = named
        self.members = min(items, MOST_MEMBERS - CHANGES)
        self.categories = CATEGORIES
        self.random = random.Random(items)
        # How many lines there were that each do something else.
        self.done = 0
        # No busy member sells these; on the first of them all have bid, and the next are sold.
        quiet = self.quiet()
        self.liked, self.sold = quiet[:MANY], quiet[MANY:(1 + BUSY) * MANY]
        self.unbidden, self.open = quiet[-CHANGES:], quiet[(1 + BUSY) * MANY:-CHANGES][:named]

    def among(self, count):
        """A number up to a count, among as many as lines name."""
        apart = max(1, count // self.named)
        return self.random.randrange(0, count // apart) * apart + 1

    def item(self):
        return self.among(self.items)

    def member(self):
        return self.among(self.members)

    def busy(self):
        return self.random.randint(1, BUSY)

    def seller(self, item):
        return (item - 1) % self.members + 1

    def other(self, item):
        """A member that neither sells the item nor is busy."""
        while True:
            member = self.member()
            if member > BUSY and member != self.seller(item):
                return member

    def open_item(self):
        return self.random.choice(self.open)

    def next(self):
        self.done += 1
        return self.done

    def quiet(self):
        """Items that no busy member sells, each once, but for those that are touched."""
        bought = self.bought()
        numbers = [item for item in range(1, self.items - 1) if item not in bought]
        self.random.shuffle(numbers)
        return [item for item in numbers if self.seller(item) > BUSY]

    def bought(self):
        """The last item but two, and one of the last seller but two."""
        return sorted({self.members - 2, self.items - 2})

    def made(self):
        """The lines that make it."""
        for member in range(1, self.members + 1):
            yield f"{MOMENT} 0 register M{member}"
        for category in range(1, self.categories + 1):
            yield f"{MOMENT} 0 add_category C{category}"
        for item in range(1, self.items + 1):
            category = (item - 1) % self.categories + 1
            yield f"{MOMENT} {self.seller(item)} list {category} L{item} Title Text*20 500 900000 {END}"
        for busy in range(1, BUSY + 1):
            for item in self.liked:
                yield f"{MOMENT} {busy} bid {item} {500 + 100 * busy}"
                yield f"{MOMENT} {busy} watch {item}"
                yield f"{MOMENT} {busy} ask {item} Question"
        yield from self.sales()
        yield from self.questions()
        yield from self.touched()

    def sales(self):
        """Each busy member buys some items, and is rated for each."""
        for busy in range(1, BUSY + 1):
            for item in self.sold[(busy - 1) * MANY:busy * MANY]:
                yield f"{MOMENT} {busy} buy {item}"
                yield f"{MOMENT} {self.seller(item)} feedback {item} 1 Good"

    def questions(self):
        """Many ask on the first item of each busy member, which answers half of them."""
        for busy in range(1, BUSY + 1):
            for asker in range(BUSY + 1, BUSY + 1 + 2 * MANY):
                yield f"{MOMENT} {asker} ask {busy} Question"
                if asker % 2 == 0:
                    yield f"{MOMENT} {busy} answer {busy} {asker} 1 Answer"

    def touched(self):
        """The last members act on the last items: tables that grow with a number have grown before times are asked for."""
        for member, item in (self.members - 1, self.items), (self.members, self.items - 1):
            yield f"{MOMENT} {member} bid {item} 600"
            yield f"{MOMENT} {member} watch {item}"
            yield f"{MOMENT} {member} ask {item} Question"
        for item in self.bought():
            yield f"{MOMENT} 1 buy {item}"
            yield f"{MOMENT} 1 feedback {item} 1 Good"


def bid(house):
    """A bid over all before it."""
    item = house.open_item()
    return f"{MOMENT} {house.other(item)} bid {item} {1_000_000 + 20_000 * house.next()}"


def ask(house):
    item = house.open_item()
    return f"{MOMENT} {house.other(item)} ask {item} Question"


def own(house):
    item = house.item()
    return f"? own {item} {house.other(item)}"


def listing(house):
    category = house.random.randint(1, house.categories)
    return f"{MOMENT} {house.member()} list {category} N{house.next()} Title Text*20 500 900000 {END}"


def buy(house):
    item = house.unbidden.pop()
    return f"{MOMENT} {house.other(item)} buy {item}"


def answer(house):
    """The first busy member answers one of the others that asked."""
    return f"{MOMENT} 1 answer 1 {BUSY - 1 + 2 * (house.next() % MANY + 1)} 1 Answer"


def feedback(house):
    """The first busy member rates what it bought."""
    return f"{MOMENT} 1 feedback {house.sold[house.next() % MANY]} 1 Good"


def settle(house):
    return f"{END} 0 settle {house.liked.pop()}"


ASKED = {
    "clock": (LINES, lambda house: "? clock"),
    "member": (LINES, lambda house: f"? member {house.member()}"),
    "member of a name": (LINES, lambda house: f"? member_named M{house.member()}"),
    "category": (LINES, lambda house: f"? category {house.random.randint(1, house.categories)}"),
    "item": (LINES, lambda house: f"? item {house.item()}"),
    "terms": (LINES, lambda house: f"? state {house.item()}"),
    "standing": (LINES, lambda house: f"? standing {house.item()}"),
    "item of a lot": (LINES, lambda house: f"? item_of {house.member()} L{house.item()}"),
    "own best": (LINES, own),
    "watched": (LINES, lambda house: f"? watched {house.member()} {house.item()}"),
    "watches counted": (LINES, lambda house: f"? watch_count {house.member()}"),
    "question": (LINES, lambda house: f"? question {house.item()} {house.member()} 1"),
    "ratings": (LINES, lambda house: f"? ratings {house.member()}"),
    "nothing due": (LINES, lambda house: f"? due {MOMENT}"),
    "items of a category": (LISTS, lambda house: f"? items_in {house.random.randint(1, house.categories)} 0"),
    "own bids": (LISTS, lambda house: f"? bids {house.busy()} 0"),
    "watched items": (LISTS, lambda house: f"? watches {house.busy()}"),
    "own questions": (LISTS, lambda house: f"? questions {house.busy()} 0"),
    "published questions": (LISTS, lambda house: f"? published {house.busy()} 0"),
    "waiting questions": (LISTS, lambda house: f"? waiting {house.busy()}"),
    "feedback": (LISTS, lambda house: f"? feedback {house.busy()} 0"),
    "sales": (LISTS, lambda house: f"? sales {house.busy()}"),
}
# The one line of this kind closes all items, and its figure is by item.
CLOSE = "close, by item"
GIVEN = {
    "bid": (LINES, bid),
    "watch": (LINES, lambda house: f"{MOMENT} {house.member()} watch {house.item()}"),
    "unwatch": (LINES, lambda house: f"{MOMENT} {house.member()} unwatch {house.item()}"),
    "ask": (LINES, ask),
    "empty close": (LINES, lambda house: f"{MOMENT} 0 close"),
    "register": (CHANGES, lambda house: f"{MOMENT} 0 register N{house.next()}"),
    "category more": (CHANGES, lambda house: f"{MOMENT} 0 add_category N{house.next()}"),
    "listing": (CHANGES, listing),
    "purchase": (CHANGES, buy),
    "answer": (CHANGES, answer),
    "feedback given": (CHANGES, feedback),
    CLOSE: (1, lambda house: f"{END} 0 close"),
    "settlement": (CHANGES, settle),
}
KINDS = {**ASKED, **GIVEN}


def played(program, lines):
    """What the program answers to a script, line by line."""
    script = "\n".join(lines) + "\n"
    ran = subprocess.run([program, "memory"], input=script, text=True, check=True, capture_output=True)
    return ran.stdout.splitlines()


def measure(program, items, named):
    """The nanoseconds of a line of each kind."""
    house = House(items, named)
    lines = list(house.made())
    for count, line in KINDS.values():
        lines += ["time", *(line(house) for _ in range(count)), "time"]
    answers = played(program, lines)
    if len(answers) != len(lines):
        sys.exit("house.py: a line has no answer")
    times, at = {}, len(lines)
    for kind, (count, _) in reversed(KINDS.items()):
        done = house.items if kind == CLOSE else count
        times[kind] = (int(answers[at - 1]) - int(answers[at - count - 2])) / done
        at -= count + 2
    return times


def most_held(program, lines):
    """The most memory that the program holds while it plays a script, in bytes.

    `time` starts it: what a process of Python starts counts the memory of that process as its own.
    """
    script = "\n".join(lines) + "\n"
    ran = subprocess.run(["/usr/bin/time", "-f", "%M", program, "memory"], input=script, text=True, check=True,
                         stdout=subprocess.DEVNULL, stderr=subprocess.PIPE)
    return int(ran.stderr.split()[-1]) * 1024


def memory(program):
    """Bytes by member, item and bid."""
    members = [f"times {MOST_MEMBERS} {MOMENT} 0 register M#", f"{MOMENT} 0 add_category Books"]
    turns = SIZES[-1] // MOST_MEMBERS
    items = [f"times {MOST_MEMBERS} {MOMENT} # list 1 L{turn} Title Text*20 500 - {END}"
             for turn in range(turns)]
    bids = [f"times 10000 {MOMENT} {item + 1} bid {item} #000" for item in range(1, 101)]
    held = [most_held(program, lines) for lines in
            ([], members, members + items, members + items + bids)]
    counts = [MOST_MEMBERS, SIZES[-1], 10_000 * len(bids)]
    return [(after - before) / count for before, after, count in zip(held, held[1:], counts)]


def show(program, named):
    """The times at each size, and the greatest size's over the least's."""
    runs = [[measure(program, items, min(items, named)) for items in SIZES] for _ in range(RUNS)]
    least = [{kind: min(run[place][kind] for run in runs) for kind in KINDS} for place in range(len(SIZES))]
    print(f"{'nanoseconds a line':22}" + "".join(f"{items:>12,}" for items in SIZES) + f"{'ratio':>8}")
    for kind in KINDS:
        reading = None if kind in ("clock", CLOSE) else "clock"
        times = [row[kind] - row.get(reading, 0) for row in least]
        print(f"{kind:22}" + "".join(f"{time:12,.0f}" for time in times) + f"{times[-1] / times[0]:8.2f}")


def main(program):
    print(f"lines name {NAMED:,} items and members")
    show(program, NAMED)
    print("lines name all items and members")
    show(program, SIZES[-1])
    member, item, bid = memory(program)
    print(f"bytes: {member:.0f} a member, {item:.0f} an item with a text of 80 bytes, {bid:.0f} a bid")


if __name__ == "__main__":
    main(sys.argv[1])
