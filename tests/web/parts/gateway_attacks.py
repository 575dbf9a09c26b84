"""Attacks that need no account, or only the attacker's own: meanwhile each bid of a member is taken within a second."""
import asyncio
import collections
import contextlib
import itertools
import multiprocessing
import resource
import time

from lib.checks import check
from parts.gateway_cases import FAR
from parts.gateway_clients import STEP

HELD, GUESSES, FLOODED = 4_000, 50_000, 40
# How long an attack without a count goes on, and how many files it may need beside its connections.
LASTS, OTHERS = 8, 200
SOON = 1
RUNS = 3
GUESS = "httpd_username=ben&httpd_password=wrong"
NO_KEY = "00000000-0000-4000-8000-000000000000"


def spread(count):
    """Addresses of this machine, one after the other."""
    return [f"127.0.{place // 250 + 1}.{place % 250 + 1}" for place in range(count)]


async def hold(gateway, counts):
    """Holds thousands of connections of one address, none of which says a word. One that is ended is begun again."""
    ends = time.monotonic() + LASTS
    soft, hard = resource.getrlimit(resource.RLIMIT_NOFILE)
    resource.setrlimit(resource.RLIMIT_NOFILE, (hard, hard))

    async def one():
        while time.monotonic() < ends:
            with contextlib.suppress(OSError, TimeoutError, asyncio.TimeoutError):
                reader, writer = await asyncio.wait_for(asyncio.open_connection("127.0.0.1", gateway.port), 5)
                counts["held"] += 1
                await asyncio.wait_for(reader.read(1), max(0.1, ends - time.monotonic()))
                writer.close()

    await asyncio.gather(*(one() for _ in range(min(HELD, hard - OTHERS))))


async def answers(gateway, address, text, count):
    """The statuses of so many messages, which are sent twenty at once over connections of an address."""
    while count > 0:
        with contextlib.suppress(OSError, asyncio.IncompleteReadError):
            reader, writer = await asyncio.open_connection("127.0.0.1", gateway.port, ssl=gateway.tls,
                                                           server_hostname=gateway.host, local_addr=(address, 0))
            while count > 0:
                writer.write(text * min(20, count))
                for _ in range(min(20, count)):
                    head = await reader.readuntil(b"\r\n\r\n")
                    await reader.readexactly(int(head.lower().split(b"content-length: ")[1].split(b"\r\n")[0]))
                    count -= 1
                    yield head
                    if b"Connection: close" in head:
                        raise ConnectionResetError


async def guess(gateway, counts):
    """Sends thousands of wrong passwords of a member's login from the address of this member."""
    head = gateway.head(None, "POST /sign-in HTTP/1.1", [f"Content-Length: {len(GUESS)}"])

    async def one():
        async for answer in answers(gateway, "127.0.0.1", (head + GUESS).encode(), GUESSES // 10):
            counts["wrong" if b"#wrong" in answer else "often" if b"#often" in answer else answer[:12]] += 1

    await asyncio.gather(*(one() for _ in range(10)))


async def guess_from_everywhere(gateway, counts):
    """Sends wrong passwords from so many addresses that none of them has sent too many."""
    head = gateway.head(None, "POST /sign-in HTTP/1.1", [f"Content-Length: {len(GUESS)}"])
    ends = time.monotonic() + LASTS

    async def one(address):
        async for answer in answers(gateway, address, (head + GUESS).encode(), GUESSES):
            counts["wrong" if b"#wrong" in answer else "often" if b"#often" in answer else answer[:12]] += 1
            if time.monotonic() > ends:
                return

    await asyncio.gather(*map(one, spread(FLOODED * 5)))


async def ask_from_everywhere(gateway, counts, text):
    """Sends a text as fast as it is answered, from many addresses."""
    ends = time.monotonic() + LASTS

    async def one(address):
        async for answer in answers(gateway, address, text.encode(), GUESSES):
            counts[answer[9:12]] += 1
            if time.monotonic() > ends:
                return

    await asyncio.gather(*map(one, spread(FLOODED)))


async def flood(gateway, counts):
    """A member asks as fast as it can."""
    await ask_from_everywhere(gateway, counts, gateway.head("cid", "GET /api/house HTTP/1.1"))


async def strangers(gateway, counts):
    """Somebody asks as fast as it can, by a key that is none."""
    await ask_from_everywhere(gateway, counts, gateway.head(None, "GET /api/house HTTP/1.1", [f"Cookie: __Host-house={NO_KEY}"]))


def run(attack, gateway, results):
    counts = collections.Counter()
    asyncio.run(attack(gateway, counts))
    results.put(counts)


def bids_during(gateway, attack, item, maxima):
    """How often each status is answered to a member's bids during an attack, the longest wait, and what the attack counted."""
    results = multiprocessing.get_context("fork").Queue()
    process = multiprocessing.get_context("fork").Process(target=run, args=(attack, gateway, results))
    process.start()
    statuses, longest = collections.Counter(), 0
    while process.is_alive() and results.empty():
        began = time.monotonic()
        statuses[gateway.ask("ben", "POST", f"/api/items/{item}/bids", {"maximum": next(maxima)}).status] += 1
        longest = max(longest, time.monotonic() - began)
        time.sleep(0.2)
    counts = results.get()
    process.join()
    return statuses, longest, counts


def attempt(gateway, attack, item, maxima):
    """One run of an attack. Whether it took place and no bid had to wait, and what it counted."""
    statuses, longest, counts = bids_during(gateway, attack, item, maxima)
    print(f"{attack.__name__}: {dict(counts)}; bids of a member {dict(statuses)}, each within {longest:.2f} s")
    check(f"{attack.__name__}: all bids are taken", list(statuses), [201])
    return longest < SOON and (attack is not hold or counts["held"] > 1000), counts


def attacks(gateway):
    item = {"category": 1, "end": FAR, "lot": "Attacked", "start": 500, "text": "", "title": "Atlas"}
    number = gateway.ask("ana", "POST", "/api/items", item).value["item"]
    maxima = itertools.count(STEP, STEP)
    gateway.field("ben"), gateway.field("cid")
    for attack in (hold, guess, guess_from_everywhere, flood, strangers):
        # A machine that gives this test no time for seconds holds bids up too, so an attack gets three runs.
        for run in range(RUNS):
            passed, counts = attempt(gateway, attack, number, maxima)
            if run == 0:
                judge(attack, counts)
            if passed:
                break
        check(f"{attack.__name__}: each within {SOON} s, in one of {RUNS} runs", passed, True)
    gateway.wait(lambda: gateway.ask("cid", "GET", "/api/house").status == 200)


def judge(attack, counts):
    """The attacks took place, and were held off by what is there to hold them off."""
    if attack is flood:
        check("the flood is let in by 200 a second", 0 < counts[b"200"] <= 220 * LASTS, True)
        check("and is refused beyond", counts[b"429"] > counts[b"200"], True)
    elif attack is strangers:
        check("strangers are nobody", list(counts), [b"401"])
    elif attack is not hold:
        check(f"{attack.__name__}: wrong ones, or too many", sorted(counts), ["often", "wrong"])
    if attack is guess:
        check("of an address few are looked at", 0 < counts["wrong"] <= 200, True)
        check("all were sent", sum(counts.values()), GUESSES)
