#!/usr/bin/env python3
"""Plays the mix of bench/auctionmark.py on the plain site and on the program: `auction_mark.py PROGRAM [USERS] [TRANSACTIONS]`.

The stream says beforehand which status each message gets. The plain site has to give the same, and the program the plain site's
bytes. Each transaction has to come as often as its share says, within what chance allows, and with the statuses that it may have:
all are accepted but bids and questions on what has ended. What plain Rust knows of the stream has to be answered the same without
the rest. The last line is 'N checks, M wrong'.

Promise: operations
"""
import collections
import math
import sys

from lib.checks import check, claim, verdict
from lib.places import ROOT
from lib.plain_site import Site
from lib.sent import answers_in, replayed

sys.path.insert(0, str(ROOT / "bench"))
import auctionmark_stream  # noqa: E402

USERS, TRANSACTIONS = 60, 2_000
# Of each transaction the statuses that its messages may have.
STATUSES = {**dict.fromkeys(("GetItem", "GetUserInfo", "NewPurchase", "UpdateItem", "CloseAuctions"), {200}),
            **dict.fromkeys(("NewCommentResponse", "NewFeedback", "NewItem"), {201}),
            **dict.fromkeys(("NewBid", "NewComment"), {201, 409})}


def check_shares(messages, transactions):
    """That each transaction comes as often as its share says; the page of a member is sent once in each that reads one."""
    counts = collections.Counter(message.kind for message in messages if message.kind != "GetUserInfo" or message.name == "member")
    for kind, share in auctionmark_stream.SHARES.items():
        due = transactions * share / 100
        claim(f"{kind}: {counts[kind]} times, and not about {due}", abs(counts[kind] - due) <= 5 * math.sqrt(due))
    check("closes", counts["CloseAuctions"], -(-transactions // auctionmark_stream.CLOSE_EVERY))
    check("other transactions", set(counts) - set(STATUSES), set())
    for kind, statuses in STATUSES.items():
        found = {message.status for message in messages if message.kind == kind}
        claim(f"{kind}: statuses {found}, and not of {statuses}", found and found <= statuses)
    refused = sum(message.status == 409 for message in messages if message.kind == "NewBid")
    claim("no bid is refused", refused)


def plain_answers(messages):
    """What the plain site answers, after its statuses were compared with those foretold."""
    site, answers = Site(), []
    for message in messages:
        answer = site.answer(message.request())
        check(f"status of {message}", answer.status, message.status)
        answers.append(answer.text())
    return answers


def compare(program, name, messages):
    """The program's answers with the plain site's."""
    answers, rest = answers_in(replayed(program, b"".join(message.text() for message in messages)))
    check(f"{name}: what follows", rest, b"")
    check(f"{name}: answers", len(answers), len(messages))
    for message, answer, plain in zip(messages, answers, plain_answers(messages)):
        check(f"{name}: {message}", answer, plain)


def main(program, users=USERS, transactions=TRANSACTIONS):
    before, messages = auctionmark_stream.made(int(transactions), int(users))
    check_shares(messages, int(transactions))
    compare(program, "all", before + messages)
    compare(program, "what plain Rust knows", auctionmark_stream.known_to_plain_rust(before + messages))
    return verdict()


if __name__ == "__main__":
    sys.exit(main(*sys.argv[1:]))
