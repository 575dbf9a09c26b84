"""Houses with a spoiled row: which pages need it, which commands name it, and what each has to be answered."""
import dataclasses
import pathlib
import shutil
import sqlite3

from lib.plain_site import READS, Site, setup
from lib.routes import answered, asked, bid, commands, listed, rated, sealed
from lib.sent import answers_in, command, compact, read
from lib.serving import served

DAMAGED = (b"HTTP/1.1 500 Internal Server Error\r\ncontent-type: application/json\r\ncontent-length: 19\r\n\r\n"
           b'{"error":"damaged"}')
PERIOD = "1970-01-01/1970-01-01"


@dataclasses.dataclass(frozen=True)
class Spoiled:
    """A change of the file; what needs the row then, as (caller, target); and whose targets may be asked in vain.

    A caller of None is anybody. What finds the row by the column that was changed is not looked at.
    """
    change: str
    needs: tuple
    names: tuple = ()
    finds: tuple = ()


def shows(number, category, bidders=(), watchers=(), parties=()):
    """What shows an item: its page, the list of its category, who bid on it or watches it, whose sale it was."""
    return ((None, f"/items/{number}"), (None, f"/categories/{category}/items/1"),
            *((member, "/me/bids/1") for member in bidders), *((member, "/me/watches") for member in watchers),
            *((member, f"/me/statement/{PERIOD}") for member in parties))


def names(number, seller, leader=None):
    """What goes by an item's row without showing it: commands on it, its questions, what waits for its seller, and the
    statements of its seller and its leader, which need the row where it was sold."""
    statements = ((member, "/me/statement/") for member in (seller, leader) if member)
    return ((None, f"/items/{number}/"), (seller, "/me/waiting"), *statements)


ATLAS = shows(1, 1, bidders=(2, 3), watchers=(2,), parties=(1, 3)), names(1, 1, 3)
GLOBE = shows(2, 2, parties=(1, 3)), names(2, 1, 3)
CHART = shows(3, 1, watchers=(2,)), names(3, 2)
NOVEL = shows(4, 1, bidders=(3,)), names(4, 2, 3)
CLOSE = ((0, "/close"),)

# By the commands: item 1 was sold to 3 for 1000 by bids of 500, 1000 and 1000 and is settled, item 2 was bought by 3
# for 2000, item 3 is open without a bid, item 4 is open with one of 500 by 3.
SPOILED = [
    Spoiled("UPDATE item SET second = 1001 WHERE id = 1", *ATLAS),
    Spoiled("UPDATE item SET price = 999 WHERE id = 1", *ATLAS),
    Spoiled("UPDATE item SET count = 10001 WHERE id = 1", *ATLAS),
    Spoiled("UPDATE item SET leader = 1 WHERE id = 1", shows(1, 1, (2, 3), (2,), (1,)), names(1, 1),
            ((3, "/me/statement/"),)),
    Spoiled("UPDATE item SET price = 1999 WHERE id = 2", *GLOBE),
    Spoiled("UPDATE item SET buy_now = 2001 WHERE id = 2", *GLOBE),
    Spoiled("UPDATE item SET top = 2000 WHERE id = 2", *GLOBE),
    Spoiled("UPDATE item SET price = 501 WHERE id = 3", CHART[0] + CLOSE, CHART[1]),
    Spoiled("UPDATE item SET top = 500 WHERE id = 3", CHART[0] + CLOSE, CHART[1]),
    Spoiled("UPDATE item SET title = 'A' || char(10) WHERE id = 3", CHART[0], CHART[1] + CLOSE),
    Spoiled("UPDATE item SET top = 499 WHERE id = 4", NOVEL[0] + CLOSE, NOVEL[1]),
    Spoiled("UPDATE item SET leader = 2 WHERE id = 4", NOVEL[0] + CLOSE, NOVEL[1]),
    Spoiled("UPDATE item SET leader = NULL WHERE id = 4", NOVEL[0] + CLOSE, NOVEL[1]),
    Spoiled("UPDATE member SET name = 'Ben' || char(10) WHERE id = 2", ((None, "/members/2"),)),
    Spoiled("UPDATE category SET name = '' WHERE id = 1", ((None, "/categories"),)),
    Spoiled("UPDATE bid SET maximum = -1 WHERE item = 1 AND no = 1", ((2, "/me/bids/1"),), ((2, "/items/1/bids"),)),
    Spoiled("UPDATE question SET body = 'a' || char(127) WHERE item = 1 AND asker = 3",
            ((3, "/me/questions/1"), (1, "/me/waiting")), ((None, "/items/1/questions/3/1/answer"),)),
    Spoiled("UPDATE question SET answer = char(10) WHERE item = 1 AND asker = 2",
            ((2, "/me/questions/1"), (None, "/items/1/questions/1")), ((None, "/items/1/questions/2/1/answer"),)),
    Spoiled("UPDATE feedback SET rating = 5 WHERE item = 1 AND giver = 3",
            ((None, "/members/1"), (None, "/members/1/feedback/1"), (3, "/items/1/feedback"))),
    Spoiled("UPDATE feedback SET body = char(0x1f) WHERE giver = 1", ((None, "/members/3/feedback/1"),),
            ((None, "/members/3"),)),
]


@dataclasses.dataclass(frozen=True)
class Reached:
    """A change of a house of long lists: the lists that end before the row, and those that reach it."""
    change: str
    before: tuple
    reached: tuple


def reached(change, path, before, at):
    """Lists of one path that begin at some numbers: those that end before the row, and those that reach it."""
    return Reached(change, tuple((2, f"{path}{number}") for number in before),
                   tuple((2, f"{path}{number}") for number in at))


def long_lists():
    """Sixty items in category 1, Ben's bids and questions on each, sixty published questions on item 1 by three askers,
    sixty ratings of Ana for her sales of items 61 to 120, and Ben's items 121, without a reserve, to 181, with one."""
    yield command("/members", 0, 1000, compact({"name": "Dora"}))
    yield command("/categories", 0, 1000, compact({"name": "Maps"}))
    yield from (listed(1, 1000, f"L{number}", 5000) for number in range(2, 61))
    yield from (bid(number, 2, 1001, 500) for number in range(1, 61))
    yield from (asked(number, 2, 1001) for number in range(2, 61))
    yield from (asked(1, asker, 1001) for asker in (2, 3, 4) for _ in range(20))
    yield from (answered(1, 1, 1002, asker, number) for asker in (2, 3, 4) for number in range(1, 21))
    yield from (listed(1, 1002, f"L{number}", 5000, category=2, buy_now=900) for number in range(61, 121))
    yield from (command(f"/items/{number}/purchase", 3, 1003) for number in range(61, 121))
    yield from (rated(number, 3, 1004, 1) for number in range(61, 121))
    yield listed(2, 1005, "L121", 5000, category=2)
    yield from (listed(2, 1005, f"L{number}", 5000, category=2, reserve=900) for number in range(122, 182))


def pages():
    """Every page, by everybody."""
    for path in READS.values():
        for number in range(1, 11 if "I" in path.split("/") else 5 if "M" in path.split("/") else 3):
            parts = {"I": number, "C": number, "M": number, "F": 1, "FROM": "1970-01-01", "TO": "1970-01-01"}
            target = "/".join(str(parts.get(part, part)) for part in path.split("/"))
            yield from (read(target, caller) for caller in range(5))
            if not {"I", "C", "M"} & set(path.split("/")):
                break


def orders():
    """Commands that name each item, accepted or refused, and in the end a close that takes those that are open."""
    for number in range(1, 11):
        yield bid(number, 4, 5001, 5000)
        yield bid(number, 2, 5001, 6000)
        yield command(f"/items/{number}/purchase", 4, 5001)
        yield command(f"/items/{number}/settle", 0, 5001)
        yield command(f"/items/{number}/watch", 4, 5001)
        yield command(f"/items/{number}/unwatch", 4, 5001)
        yield asked(number, 4, 5001)
        yield rated(number, 3, 5001, -1)
    for asker in (2, 3):
        yield command(f"/items/1/questions/{asker}/1/answer", 1, 5001, b'{"text":"No"}')
    yield command("/close", 0, 7000)


MESSAGES = [*pages(), *orders()]


def is_among(request, targets, fits):
    """Whether a message is one of some targets, by its caller and by how its target fits."""
    caller = int(request.values("x-member")[0])
    return any(member in (None, caller) and fits(request.target, target) for member, target in targets)


def answering(requests):
    """The plain site after some messages."""
    site = Site(preset=True)
    for request in requests:
        site.answer(request)
    return site


class Houses:
    """Spoiled houses, and what was wrong."""

    # The commands that they took.
    taken = (*commands(), *sealed())

    def __init__(self, program, folder):
        self.program, self.folder = program, pathlib.Path(folder)
        self.count = self.wrong = self.damaged = 0

    def make(self):
        """The house before anything of it is spoiled."""
        init = ["--bands", "bands.csv", "--rate", "1000", "--zone", "UTC0"]
        for name, requests in (("whole", self.taken), ("long", long_lists())):
            self.program.ended("init", name, *init)
            self.program.answers(name, [b"".join(request.text() for request in (*setup(), *requests))])

    def change(self, name, change):
        """A copy of a house, changed."""
        shutil.copy(self.folder / name, self.folder / "spoiled")
        tables = sqlite3.connect(self.folder / "spoiled")
        tables.execute(change)
        tables.commit()
        tables.close()

    def spoil(self, spoiled):
        """Serves the house with a row spoiled, twice."""
        self.change("whole", spoiled.change)
        site = answering(self.taken)
        for requests in (MESSAGES, list(pages())):
            for request, text in self.texts(spoiled, requests):
                self.judge(spoiled, site, request, text)

    def reach(self, reached):
        """Serves the house of long lists with a row spoiled."""
        self.change("long", reached.change)
        site = answering(long_lists())
        before = [read(target, caller) for caller, target in reached.before]
        requests = [*before, *(read(target, caller) for caller, target in reached.reached), *before]
        for request, text in self.texts(reached, requests):
            self.count += 1
            self.damaged += text == DAMAGED
            wanted = site.answer(request).text() if request in before else DAMAGED
            if text != wanted:
                self.fail(reached, request.text(), wanted, text)

    def texts(self, spoiled, requests):
        """The requests with the answers to them over one connection."""
        replies, ending = self.program.answers("spoiled", [b"".join(request.text() for request in requests)])
        texts, rest = answers_in(replies[0])
        if (len(texts), rest, ending) != (len(requests), b"", served(1)):
            self.fail(spoiled, "all", len(requests), (len(texts), rest, ending))
        return zip(requests, texts)

    def judge(self, spoiled, site, request, text):
        """Compares one answer; the plain site isn't asked what was answered `damaged`."""
        self.count += 1
        self.damaged += text == DAMAGED
        if is_among(request, spoiled.finds, str.startswith):
            return
        is_needed = is_among(request, spoiled.needs, str.__eq__)
        if is_needed or text == DAMAGED and is_among(request, spoiled.names, str.startswith):
            wanted = DAMAGED
        else:
            wanted = site.answer(request).text()
        if text != wanted:
            self.fail(spoiled, request.text(), wanted, text)

    def fail(self, spoiled, what, wanted, got):
        self.wrong += 1
        if self.wrong <= 9:
            print(f"{spoiled.change}: {what}\n  wanted {wanted}\n  got    {got}")
