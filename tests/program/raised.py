#!/usr/bin/env python3
"""Raises bids in random lists: `raised.py PROGRAM [COUNT [SEED]]`.

A raise is a place in a list, a maximum for the bid there, and another member. It is covered where the bid there was accepted, is
the last accepted one of its bidder on its item, and in the end has the lead, with a step over the second maximum and the reserve,
where there are such, at or below its own; where the new maximum is greater, and at most the limit; and where the other isn't the
bidder. All of this is found by the plain site of tests/lib/plain_site.py alone. Where it holds, the list with that bid raised has
to be a twin of the list for the other, by the plain site; `surplus` has to print `same, N replies`; and two replays have to give
the other N replies which are the same, byte for byte, in answers which are those of the plain site, so that none is 503 or 500.
Where it doesn't, `surplus` has to print `not covered`. Numbers that no words of the program's may have are refused. COUNT raises
are tried, 1,000 without it, each in a list of its own, by two tables of bands; nine in twenty-one are chosen to be covered, the
others miss one condition each or are any. New maxima are near the old, anywhere up to the limit, or at it. The last line is 'N
covered, M not, K wrong'.

Promise: surplus
"""
import collections
import dataclasses
import sys
import tempfile

from lib.plain_house import BANDS, MOST_CENTS
from lib.raises import (BIDS, MOST_MEMBER, MOST_PLACE, Raise, bids_in, covered_bid, is_over_reserve, is_over_second, last_bids,
                        leads, reserve, second)
from lib.sent import command, compact, read
from lib.twin_lists import SEED, Lists, Run, are_lists, caller

WIDE = [(0, 1), (1_000, 400), (20_000, 30_000)]
MORE = [1, 1, 7, 500, 100_000]


def raised_list(run, bid, maximum):
    """The list with a bid raised."""
    message = command(f"/items/{bid.item}/bids", bid.member, bid.moment, compact({"maximum": maximum}))
    return [*run.requests[:bid.place - 1], message, *run.requests[bid.place:]]


class Raises(Lists):
    """Raises that were tried."""

    def __init__(self, program, folder, seed):
        super().__init__(program, folder, seed)
        # How many were covered, of these how many with a second maximum, with a reserve, and for nobody's number.
        self.covered = self.with_second = self.with_reserve = self.strangers = self.replies = 0
        self.kinds = collections.Counter()

    def kind(self, number):
        """Of which kind the raise of a number is."""
        others = [self.no_bid, self.refused, self.earlier, self.behind, self.within_a_step, self.under_the_reserve,
                  self.past_the_end, self.not_greater, self.over_the_limit, self.of_the_bidder, self.for_the_house, self.any]
        return ([self.good] * 9 + others)[number % 21]

    def one(self, number):
        """Tries one raise of a random list that has one of its kind."""
        kind, raising = self.kind(number), None
        while raising is None:
            settings, requests, member = self.first(bands=self.random.choice([BANDS, WIDE]))
            run = Run(settings, requests, member)
            raising = kind(run) if are_lists(run) else None
        self.kinds[kind.__name__] += 1
        bid = covered_bid(run, raising)
        if bid is not None and not self.is_twin(settings, run, raising, bid):
            self.fail(f"by the plain site {raising} of {self.texts(run)}", "a twin", "none")
        elif not raising.fits():
            self.expect_no_words(settings, run, raising)
        elif bid is None:
            self.judge(settings, run, raising, (1, b"not covered\n", b""))
        else:
            self.expect_same(settings, run, raising, bid)

    def is_twin(self, settings, run, raising, bid):
        """Whether, by the plain site, a list is like the one with a bid raised to another member."""
        left, right = self.sides(settings, run, raising, bid)
        return right.is_like and all(left.answers[at] == right.answers[at] for at in self.places(run, raising))

    def sides(self, settings, run, raising, bid):
        left = Run(settings, run.requests, raising.other)
        return left, Run(settings, raised_list(run, bid, raising.maximum), raising.other, left)

    def places(self, run, raising):
        """Where the other's messages are."""
        return [at for at, request in enumerate(run.requests) if caller(request) == raising.other]

    def expect_same(self, settings, run, raising, bid):
        """Holds the program to a raise that is covered."""
        count = len(self.places(run, raising))
        self.covered += 1
        self.with_second += second(run, bid) is not None
        self.with_reserve += reserve(run, bid) is not None
        self.strangers += raising.other > len(run.site.house.names)
        self.replies += count
        self.judge(settings, run, raising, (0, b"same, %d replies\n" % count, b""))
        first, again = (self.answers(settings, side, raising.other) for side in self.sides(settings, run, raising, bid))
        if first != again or len(first) != count:
            self.fail(f"replies to {raising} of {self.texts(run)}", first, again)

    def expect_no_words(self, settings, run, raising):
        status, output, error = self.surplus(settings, run, raising)
        if (status, output) != (2, b"") or not error.startswith((b"error: ", b"Usage: ")):
            self.fail(raising, "no words of the program's", (status, output, error))

    def judge(self, settings, run, raising, expected):
        got = self.surplus(settings, run, raising)
        if got != expected:
            self.fail(f"{raising} of {self.texts(run)} by {settings}", expected, got)

    def surplus(self, settings, run, raising):
        """How `surplus` of a raise ends."""
        (self.folder / "list").write_bytes(b"".join(self.texts(run)))
        return self.ended("surplus", "list", "--place", str(raising.place), "--maximum", str(raising.maximum),
                          "--member", str(raising.other), *self.words(settings))

    def texts(self, run):
        return [request.text() for request in run.requests]

    # Raises of each kind, or none where the list has none.

    def of(self, bids, run):
        """A raise of one of some bids, for somebody else."""
        bids = list(bids)
        if not bids:
            return None
        bid = self.random.choice(bids)
        return Raise(bid.place, self.more(bid.maximum), self.other(run, bid))

    def more(self, maximum):
        near = [min(MOST_CENTS, maximum + more) for more in MORE]
        far = [self.random.randint(maximum, MOST_CENTS), MOST_CENTS - 1, MOST_CENTS]
        return self.random.choice([*near, *far])

    def other(self, run, bid):
        """Mostly a member who isn't the bidder, now and then nobody's number."""
        count = len(run.site.house.names)
        senders = [number for number in map(caller, run.requests) if number]
        numbers = [*range(1, count + 1), *senders, count + 1, MOST_MEMBER]
        return self.random.choice([number for number in numbers if number != bid.member and number <= MOST_MEMBER])

    def coverable(self, run):
        """The bids of which some raise is covered, mostly those with a second maximum, if there are some."""
        bids = [bid for bid in last_bids(run)
                if leads(run, bid) and is_over_second(run, bid) and is_over_reserve(run, bid)]
        contested = [bid for bid in bids if second(run, bid) is not None]
        return contested if contested and self.random.random() < 0.7 else bids

    def good(self, run):
        return self.of([bid for bid in self.coverable(run) if bid.maximum < MOST_CENTS], run)

    def no_bid(self, run):
        return self.at([place for place, request in enumerate(run.requests, 1) if not BIDS.fullmatch(request.target)])

    def refused(self, run):
        return self.at([place for place, (request, answer) in enumerate(zip(run.requests, run.answers), 1)
                        if BIDS.fullmatch(request.target) and answer.status != 201])

    def at(self, places):
        if not places:
            return None
        return Raise(self.random.choice(places), self.more(self.random.randint(0, 5_000)), self.random.randint(1, 7))

    def earlier(self, run):
        last = [bid.place for bid in last_bids(run)]
        return self.of([bid for bid in bids_in(run) if bid.place not in last], run)

    def behind(self, run):
        return self.of([bid for bid in last_bids(run) if not leads(run, bid)], run)

    def within_a_step(self, run):
        return self.of([bid for bid in last_bids(run) if leads(run, bid) and not is_over_second(run, bid)], run)

    def under_the_reserve(self, run):
        return self.of([bid for bid in last_bids(run) if leads(run, bid) and not is_over_reserve(run, bid)], run)

    def past_the_end(self, run):
        raising = self.good(run)
        count = len(run.requests)
        return raising and dataclasses.replace(
            raising, place=self.random.choice([0, count + 1, count + raising.place, MOST_PLACE, MOST_PLACE + 1]))

    def not_greater(self, run):
        bids = list(self.coverable(run))
        if not bids:
            return None
        bid = self.random.choice(bids)
        return Raise(bid.place, self.random.choice([bid.maximum, bid.maximum, max(0, bid.maximum - 1), 0]),
                     self.other(run, bid))

    def over_the_limit(self, run):
        raising = self.good(run)
        return raising and dataclasses.replace(raising, maximum=MOST_CENTS + self.random.choice([1, 2**32, 2**64]))

    def of_the_bidder(self, run):
        raising = self.good(run)
        return raising and dataclasses.replace(raising, other=caller(run.requests[raising.place - 1]))

    def for_the_house(self, run):
        raising = self.good(run)
        return raising and dataclasses.replace(raising, other=self.random.choice([0, MOST_MEMBER + 1]))

    def any(self, run):
        return Raise(self.random.randint(1, len(run.requests) + 2), self.more(self.random.randint(0, 20_000)),
                     self.random.randint(1, 7))

    # Files that are no lists.

    def broken(self):
        page = read("/house", 0)
        bid = command("/items/1/bids", 2, 5, compact({"maximum": 500})).text()
        for text, expected in [
                (b"", (1, b"not covered\n", b"")), (bid, (1, b"not covered\n", b"")),
                (page.text() + bid[:-1], (1, b"", b"auction: LIST is no list of messages\n")),
                (page.text() + b"\r\n", (1, b"", b"auction: LIST is no list of messages\n")),
                (bid + page.without("host").text(), (1, b"", b"auction: LIST is no list of messages\n"))]:
            (self.folder / "list").write_bytes(text)
            got = self.ended("surplus", "list", "--place", "1", "--maximum", "600", "--member", "3")
            if got != expected:
                self.fail(f"surplus of {text}", expected, got)


def main():
    count, seed = (int(word) for word in [*sys.argv[2:], *("1000", str(SEED))[len(sys.argv) - 2:]])
    with tempfile.TemporaryDirectory() as folder:
        raises = Raises(sys.argv[1], folder, seed)
        raises.broken()
        for number in range(count):
            raises.one(number)
    print("raises:", ", ".join(f"{kind} {count}" for kind, count in sorted(raises.kinds.items())))
    print(f"covered with a second maximum: {raises.with_second}; with a reserve: {raises.with_reserve};",
          f"for nobody's number: {raises.strangers};",
          f"with {raises.replies} replies")
    print(f"{raises.covered} covered, {count - raises.covered} not, {raises.wrong} wrong")
    return 1 if raises.wrong else 0


if __name__ == "__main__":
    sys.exit(main())
