"""Many clients of a gateway at once: crowds, clients that dribble, and restarts of the house under a crowd."""
import asyncio
import contextlib
import threading
import time

from lib.checks import check
from parts.gateway_cases import FAR, NAMES
from parts.gateway_clients import Market, crowd

# For how many items clients bid, and in how many runs they may be held up by a busy machine.
ITEMS, RUNS = 20, 3


def market(gateway, begins):
    """Items of ana's that nobody has bid for yet."""
    items = []
    for number in range(ITEMS):
        item = {"category": 1, "end": FAR, "lot": f"{begins}{number}", "start": 500, "text": "", "title": "Atlas"}
        answer = gateway.ask("ana", "POST", "/api/items", item)
        check(f"listed {begins}{number}", answer.status, 201)
        items.append(answer.value["item"])
    return Market(items)


def seconds(count):
    async def until():
        await asyncio.sleep(count)
    return until


def judge(gateway, name, items, tally, unknown):
    """No answer is missing, none is of somebody else, and each bid that was answered as accepted was made, and no other."""
    print(f"{name}: {tally.line()}")
    check(f"{name}: lost", dict(tally.lost), {})
    check(f"{name}: of somebody else", tally.wrong, [])
    check(f"{name}: unknown at most {unknown}", sum(tally.unknown.values()) <= unknown, True)
    odd = {key: count for key, count in tally.statuses.items()
           if key[1] not in (200, 201) and key[2] not in ("Low", "NotHigher") and not (unknown and key[1] == 503)}
    check(f"{name}: other answers", odd, {})
    for item in items.items:
        count = gateway.ask("ana", "GET", f"/api/items/{item}").value["count"]
        check(f"{name}: bids on {item}", tally.accepted[item] <= count <= tally.accepted[item] + tally.unknown[item], True)


def crowds(gateway, length):
    for clients, part in ((50, 1), (300, 3)):
        items = market(gateway, f"C{clients}x")
        tally = crowd(gateway, NAMES, items, clients, seconds(length / part))
        judge(gateway, f"{clients} clients", items, tally, 0)


def slow_head(connection, gateway, wait):
    """A head that comes byte by byte."""
    for byte in gateway.head("ben", "GET /api/items/1 HTTP/1.1").encode():
        connection.sendall(bytes([byte]))
        wait()


def slow_body(connection, gateway, wait):
    """A body that comes byte by byte."""
    connection.sendall(gateway.head("ben", "POST /api/items/1/bids HTTP/1.1", ["Content-Length: 4000"]).encode())
    for _ in range(4000):
        connection.sendall(b" ")
        wait()


def slow_reader(connection, gateway, wait):
    """Asks for fifty long items again and again, and reads a byte at a time."""
    connection.sendall(gateway.head("ben", "GET /api/categories/1/items/1 HTTP/1.1").encode() * 20)
    while connection.recv(1):
        wait()


def dribble(way, gateway, ends):
    """Has a client be slow in a way, until it is ended or the time comes."""
    def wait():
        if time.monotonic() > ends:
            raise TimeoutError
        time.sleep(1)

    with contextlib.suppress(OSError), gateway.connection(room=4096) as connection:
        way(connection, gateway, wait)


def beside_dribblers(gateway, length, items):
    """What ten clients counted while sixty dribbled."""
    ends = time.monotonic() + length + 2
    slow = [threading.Thread(target=dribble, args=(way, gateway, ends)) for way in (slow_head, slow_body, slow_reader)
            for _ in range(20)]
    for thread in slow:
        thread.start()
    time.sleep(2)
    tally = crowd(gateway, NAMES[:10], items, 10, seconds(length))
    for thread in slow:
        thread.join()
    return tally


def dribblers(gateway, length):
    """Ten clients go on as ever while sixty dribble."""
    # A machine that gives this test no time for seconds holds clients up too, so there are three runs.
    for run in range(RUNS):
        items = market(gateway, f"D{run}x")
        tally = beside_dribblers(gateway, length, items)
        judge(gateway, "10 clients beside 60 that dribble", items, tally, 0)
        soon = tally.percentile(99) < 5000
        if soon:
            break
    check(f"nobody was held up, in one of {RUNS} runs", soon, True)


def restarts(gateway, count):
    """The house ends after its count of connections again and again, and is killed once."""
    items, begun = market(gateway, "R"), gateway.starts()

    async def until():
        await asyncio.sleep(1)
        check("the house was killed", gateway.kill_house(), True)
        while gateway.starts() - begun < count:
            await asyncio.sleep(0.1)

    tally = crowd(gateway, NAMES, items, 50, until)
    judge(gateway, f"{gateway.starts() - begun} restarts under 50 clients", items, tally, 1)
