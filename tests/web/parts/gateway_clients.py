"""Clients of a gateway that ask and bid many at once, and lie about who they are and when it is.

What each was answered is counted: statuses, seconds, bids that were accepted, and commands of which the gateway can't
say whether they were taken. Who asks for its own bids has to get what it bid, and nothing of anybody else.
"""
import asyncio
import collections
import dataclasses
import json
import math
import random
import time

from lib.sent import PATIENCE

# What a client may say, none of which reaches the house.
LIES = "x-member: 0\r\nX-MEMBER: 1\r\nx_member: 1\r\nx-moment: 5\r\nx-address: 1\r\nConnection: x-member, keep-alive\r\n"
# By how much each bid on an item is over the one before: over every step of the example table.
STEP = 20_000
# How many clients connect at once: one whose hands aren't shaken within ten seconds is given up.
CONNECTING = 20
# How often the clients of a name ask in a second, all together: the gateway lets 200 through.
NAME_RATE = 150
# Of a hundred requests so many are bids, and so many ask for the caller's bids. The others read an item.
BIDS, OWN = 20, 10


@dataclasses.dataclass
class Tally:
    """What clients were answered."""
    seconds: list = dataclasses.field(default_factory=list)
    statuses: collections.Counter = dataclasses.field(default_factory=collections.Counter)
    # Requests without a whole answer, by why, and answers that were of somebody else.
    lost: collections.Counter = dataclasses.field(default_factory=collections.Counter)
    wrong: list = dataclasses.field(default_factory=list)
    # By item: bids that were accepted, and those of which nobody knows.
    accepted: collections.Counter = dataclasses.field(default_factory=collections.Counter)
    unknown: collections.Counter = dataclasses.field(default_factory=collections.Counter)
    # How many have connected, and for how long they asked once all had.
    connected: int = 0
    took: float = 0
    is_over: bool = False

    def percentile(self, part):
        """Of the answers so many in a hundred took at most so many milliseconds."""
        if not self.seconds:
            return 0
        return 1000 * sorted(self.seconds)[min(len(self.seconds) - 1, len(self.seconds) * part // 100)]

    def line(self):
        return (f"{len(self.seconds)} answers, {len(self.seconds) / self.took:.0f} a second, "
                f"{sum(self.accepted.values())} bids accepted, {sum(self.unknown.values())} unknown, "
                f"half within {self.percentile(50):.0f} ms, 99 of 100 within {self.percentile(99):.0f} ms, "
                f"all within {self.percentile(100):.0f} ms")


class Market:
    """The items that clients bid for, and what each member bid for each."""

    def __init__(self, items):
        self.items = items
        self.bids = collections.Counter()
        self.sent, self.taken = collections.Counter(), collections.Counter()

    def next_maximum(self, item):
        self.bids[item] += 1
        return STEP * self.bids[item]


class Client:
    """A signed-in member with one connection, that asks again when it is answered and its turn has come."""

    def __init__(self, gateway, name, market, tally, door, turn, seed):
        self.gateway, self.name, self.market, self.tally, self.door = gateway, name, market, tally, door
        # The seconds from one request to the next.
        self.turn = turn
        self.random = random.Random(seed)
        self.streams = None
        self.fields = f"Host: {gateway.host}:{gateway.port}\r\n{gateway.field(name)}\r\n{LIES}"

    async def run(self):
        await self.connect()
        self.tally.connected += 1
        while not self.tally.is_over:
            next_turn = time.monotonic() + self.turn
            item, chance = self.random.choice(self.market.items), self.random.random() * 100
            if chance < BIDS:
                await self.bid(item)
            elif chance < BIDS + OWN:
                await self.ask_own()
            else:
                await self.ask("GET", f"/api/items/{item}")
            await asyncio.sleep(max(0, next_turn - time.monotonic()))
        if self.streams:
            self.streams[1].close()

    async def bid(self, item):
        maximum, key = self.market.next_maximum(item), (self.name, item)
        self.market.sent[key] = max(maximum, self.market.sent[key])
        status, value = await self.ask("POST", f"/api/items/{item}/bids", {"maximum": maximum})
        if status == 201:
            self.tally.accepted[item] += 1
            self.market.taken[key] = max(maximum, self.market.taken[key])
        elif status in (None, 503):
            self.tally.unknown[item] += 1

    async def ask_own(self):
        """Asks for its own bids, which lie between what was taken before and what was sent by then."""
        before = {item: self.market.taken[self.name, item] for item in self.market.items}
        status, value = await self.ask("GET", f"/api/me/bids/{self.market.items[0]}")
        if status != 200:
            return
        shown = {bid["item"]: bid["maximum"] for bid in value["bids"]}
        for item, least in before.items():
            if not least <= shown.get(item, 0) <= self.market.sent[self.name, item]:
                self.tally.wrong.append((self.name, item, least, shown.get(item)))

    async def ask(self, method, path, value=None):
        """The status and the value of an answer, or neither where there is none that is whole."""
        body = json.dumps(value).encode() if value is not None else b""
        length = f"Content-Length: {len(body)}\r\n" if body else ""
        began = time.monotonic()
        try:
            status, value = await asyncio.wait_for(
                self.exchange(f"{method} {path} HTTP/1.1\r\n{self.fields}{length}\r\n".encode() + body), PATIENCE)
        except (OSError, EOFError, TimeoutError, asyncio.TimeoutError, ValueError) as error:
            self.tally.lost[f"{method} {type(error).__name__}"] += 1
            self.streams = None
            return None, None
        self.tally.seconds.append(time.monotonic() - began)
        self.tally.statuses[method, status, value.get("error")] += 1
        return status, value

    async def connect(self):
        async with self.door:
            self.streams = await asyncio.open_connection("127.0.0.1", self.gateway.port, ssl=self.gateway.tls,
                                                         server_hostname=self.gateway.host)

    async def exchange(self, text):
        if self.streams is None:
            await self.connect()
        reader, writer = self.streams
        writer.write(text)
        head = (await reader.readuntil(b"\r\n\r\n")).decode("latin-1").lower()
        size = int(head.split("\r\ncontent-length:")[1].split("\r\n")[0])
        body = await reader.readexactly(size)
        if "\r\nconnection: close" in head:
            writer.close()
            self.streams = None
        return int(head.split(" ")[1]), json.loads(body)


def crowd(gateway, names, market, clients, until):
    """What so many clients are answered, who sign in by these names in turn and ask until something has come about."""
    tally, door, turn = Tally(), asyncio.Semaphore(CONNECTING), math.ceil(clients / len(names)) / NAME_RATE

    async def watch():
        while tally.connected < clients:
            await asyncio.sleep(0.1)
        tally.seconds.clear()
        began = time.monotonic()
        await until()
        tally.is_over, tally.took = True, time.monotonic() - began

    async def all_of_them():
        await asyncio.gather(watch(), *(Client(gateway, names[number % len(names)], market, tally, door, turn, number).run()
                                        for number in range(clients)))

    asyncio.run(all_of_them())
    return tally
