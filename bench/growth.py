"""Whether a message costs more in a large house, and what an item takes of memory: `growth.py PROGRAM [SIZE..]`.

Houses of a thousand and of a million items, where no sizes are said, each item with five bids, are made through `auction replay`,
as `year.py` makes them in a file. Then a thousand messages of each kind are counted, under valgrind's callgrind, which puts down
what it has counted before each page of all categories, of which one stands between the kinds; so a count holds whatever else the
machine does. Shown is how many instructions a message of each kind takes in each house, and how many percent more in the last house
than in the first. The houses have three members, so each member has a thousand times as much in the last one; then houses are
counted that have a member for each twenty items. Memory is that which a run has held at most, of houses with no items, with items
alone, and with bids, without valgrind. Every answer has to have the status that its kind has. A million items take some half an
hour, and 2 GB in /dev/shm. It needs `valgrind`.
"""
import collections
import contextlib
import itertools
import pathlib
import re
import shutil
import subprocess
import sys
import tempfile
import threading

import serve
from measured import kept, shown
from serve import CATEGORIES
from sizes import BIDS, MEMBERS

# A thousand fewer than the house takes, so that there is room for more.
SIZES, MORE, LISTS = [1_000, 999_000], 1_000, 200
MEMORY = "/dev/shm"
# How many items a member has to itself, in houses whose members grow with their items.
ITEMS_EACH = 20
# What the page of all categories begins with, in the program.
MARK = "store_list::keep::*::categories*"
SPREAD, FAR = 7_919, 4_000_000_000
House = collections.namedtuple("House", "items members")
# A kind's answers have a status. Its messages are made for a house.
Kind = collections.namedtuple("Kind", "status messages")
# How many bytes of a run's answers are looked at, more than those to the kinds; and how an answer begins, and one that makes.
LAST, ANSWER, MADE = 1 << 25, b"HTTP/1.1 ", b"HTTP/1.1 201 "


def post(target, member, body=""):
    length = f"content-length: {len(body)}\r\n" if body else ""
    return f"POST {target} HTTP/1.1\r\nhost: h\r\nx-member: {member}\r\nx-moment: 1001\r\n{length}\r\n{body}"


def get(target, member):
    return f"GET {target} HTTP/1.1\r\nhost: h\r\nx-member: {member}\r\n\r\n"


def listing(number, members):
    return post("/items", number % members + 1, f'{{"category":{number % CATEGORIES + 1},"end":{FAR},"lot":"L{number}","start":500,'
                f'"text":"{"Text" * 20}","title":"Title"}}')


def bid(item, place, members):
    """The bid at a place of an item, by a member who doesn't sell it."""
    return post(f"/items/{item}/bids", (item + place % 2 + 1) % members + 1, f'{{"maximum":{1_000 * (place + 1)}}}')


def question(item, members):
    return post(f"/items/{item}/questions", (item + 1) % members + 1, '{"text":"Is it signed?"}')


def watch(item, members):
    return post(f"/items/{item}/watch", item % members + 1)


def spread(items, count=MORE):
    """So many items, each far from the one before, in the same order whatever the size."""
    return [number * SPREAD % count * items // count + 1 for number in range(count)]


KINDS = {
    "accepted bid": Kind(201, lambda house: [bid(item, BIDS, house.members) for item in spread(house.items)]),
    "refused bid": Kind(409, lambda house: [bid(item, 0, house.members) for item in spread(house.items)]),
    "item page": Kind(200, lambda house: [get(f"/items/{item}", 2) for item in spread(house.items)]),
    "list of fifty": Kind(200, lambda house: [get(f"/categories/{item % CATEGORIES + 1}/items/{item}", 2)
                                              for item in spread(max(1, house.items - 50 * CATEGORIES), LISTS)]),
    "fifty own bids": Kind(200, lambda house: [get(f"/me/bids/{item}", 2) for item in spread(house.items - 100, LISTS)]),
    "watch": Kind(200, lambda house: [watch(item, house.members) for item in spread(house.items, LISTS)]),
    "question": Kind(201, lambda house: [question(item, house.members) for item in spread(house.items)]),
    "registration": Kind(201, lambda house: [post("/members", 0, f'{{"name":"Further {number}"}}') for number in range(MORE)]),
    "listing": Kind(201, lambda house: [listing(house.items + number, house.members) for number in range(1, MORE + 1)]),
}
# Of which a member with few items has no fifty.
OF_FEW = "fifty own bids"


def made(house, bids):
    """The messages that make a house; each is answered 201."""
    items = range(1, house.items + 1)
    yield from (post("/members", 0, f'{{"name":"Member {number}"}}') for number in range(house.members))
    yield from (post("/categories", 0, f'{{"name":"Category {number}"}}') for number in range(CATEGORIES))
    yield from (listing(item, house.members) for item in items)
    yield from (bid(item, place, house.members) for item in items for place in range(bids))


def kinds_of(house):
    """The messages of all kinds, with a mark before each and at last, and the statuses of their answers."""
    # The first question makes room for all items up to its own, and for all askers, and the first watch for all who watch.
    last = house.members
    firsts = [question(house.items, last), question(last - 2, last), watch(last - 1, last)]
    mark, texts, statuses = get("/categories", 0), firsts, [201, 201, 200]
    for kind in KINDS.values():
        of_kind = kind.messages(house)
        texts += [mark, *of_kind]
        statuses += [200, *[kind.status] * len(of_kind)]
    return [*texts, mark], [*statuses, 200]


@contextlib.contextmanager
def file_of(texts):
    """A file that has messages."""
    with tempfile.TemporaryFile(dir=MEMORY) as stream:
        for text in texts:
            stream.write(text.encode())
        stream.seek(0)
        yield stream


def memory_of(program, house, bids, texts=(), statuses=()):
    """The MB that a run holds at most, which makes a house and answers messages. Each answer has to have its status."""
    process = subprocess.Popen([program, "replay"], stdin=subprocess.PIPE, stdout=subprocess.PIPE, bufsize=0)
    of_house = house.members + CATEGORIES + house.items * (1 + bids)
    with file_of(itertools.chain(made(house, bids), texts)) as stream:
        sending = threading.Thread(target=shutil.copyfileobj, args=(stream, process.stdin, 1 << 20))
        sending.start()
        last, counts = bytearray(), dict.fromkeys((ANSWER, MADE), 0)
        while counts[ANSWER] < of_house + len(statuses):
            piece = process.stdout.read(1 << 20)
            if not piece:
                break
            last += piece
            for text in counts:
                # It may begin in one piece and go on in the next.
                counts[text] += last[-len(piece) - len(text) + 1:].count(text)
            if len(last) > 2 * LAST:
                del last[:-LAST]
        sending.join()
    # The program waits for more, so it is still there to be looked at.
    memory = serve.most_held(process)
    process.communicate()
    found = [int(text) for text in re.findall(rb"HTTP/1\.1 (\d+) ", last)][-len(statuses):] if statuses else []
    if process.returncode != 0 or counts[MADE] != of_house + list(statuses).count(201) or found != list(statuses):
        sys.exit(f"growth.py: a message isn't answered as its kind is: {counts}")
    return memory


def instructions(program, house, texts):
    """How many instructions a message of each kind takes."""
    with file_of(itertools.chain(made(house, BIDS), texts)) as stream, tempfile.TemporaryDirectory() as folder:
        words = ["valgrind", "--tool=callgrind", f"--dump-before={MARK}", f"--callgrind-out-file={folder}/dump", program, "replay"]
        subprocess.run(words, stdin=stream, stdout=subprocess.DEVNULL, stderr=subprocess.DEVNULL, check=True)
        dumps = sorted(pathlib.Path(folder).glob("dump.*"), key=lambda path: int(path.suffix[1:]))
        totals = [int(re.search(r"^totals: (\d+)", dump.read_text(), re.M)[1]) for dump in dumps]
    # The first is the house's; what comes after the last mark has no number.
    if len(totals) != len(KINDS) + 1:
        sys.exit(f"growth.py: {MARK} is called {len(totals)} times, and not once for each mark")
    return {name: total / len(kind.messages(house)) for (name, kind), total in zip(KINDS.items(), totals[1:])}


def counts_of(program, house):
    """How many instructions a message of each kind takes in a house, in which each is answered as its kind is."""
    texts, statuses = kinds_of(house)
    memory_of(program, house, BIDS, texts, statuses)
    return instructions(program, house, texts)


def more(first, last):
    """How many percent more each kind takes."""
    return {name: 100 * (last[name] / first[name] - 1) for name in first}


def main(path, *sizes):
    program, sizes = str(pathlib.Path(path).resolve()), [int(size) for size in sizes] or SIZES
    with kept("growth", "bench/growth.py"):
        counts = []
        for items in sizes:
            counts.append(counts_of(program, House(items, MEMBERS)))
            for name, count in counts[-1].items():
                shown(f"{items} items: {name}", {"ours": count}, "instructions")
        for name, percent in more(counts[0], counts[-1]).items():
            shown(name, {"ours": percent}, "percent more", 1)
        counts = [counts_of(program, House(items, items // ITEMS_EACH)) for items in sizes]
        for name, percent in more(counts[0], counts[-1]).items():
            if name != OF_FEW:
                shown(f"members in proportion: {name}", {"ours": percent}, "percent more", 1)
        none, alone, with_bids = (memory_of(program, House(items, MEMBERS), bids)
                                  for items, bids in ((0, 0), (sizes[-1], 0), (sizes[-1], BIDS)))
        shown("memory of all", {"ours": with_bids}, "MB")
        shown("memory of an item", {"ours": (alone - none) * (1 << 20) / sizes[-1]}, "bytes")
        shown("memory of a bid", {"ours": (with_bids - alone) * (1 << 20) / sizes[-1] / BIDS}, "bytes")


if __name__ == "__main__":
    main(*sys.argv[1:])
