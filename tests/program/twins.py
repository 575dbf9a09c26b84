#!/usr/bin/env python3
"""Audits pairs of random lists: `twins.py PROGRAM [EQUAL [APART [SEED]]]`.

EQUAL pairs, 1,000 without it, differ in what others than the member have sealed, maxima, reserves, watches and questions that
wait, and agree in what is public and in what waits for the member: `audit` has to print `equal, N replies`, and two replays have
to give the member N replies which are the same, byte for byte, in answers which are those of the plain site, so that with ample
memory none is 503 or 500, whoever asks. Of 1,000 such pairs each command has to be accepted, and each page shown, after what was
sealed otherwise, in some. APART pairs, 1,000 too, differ at some step for the member: `audit` has to print `apart at step K`, the
first at which the plain site of tests/lib/plain_site.py finds the lists of another length, a message of the member's another, or
the record or what waits for it another. A file with a broken frame is no list. The last line is 'N equal, M apart, K wrong'.

Promise: isolation
"""
import collections
import dataclasses
import sys
import tempfile

from lib.plain_site import COMMANDS, READS
from lib.random_messages import sealed_changes
from lib.sent import command, compact, read
from lib.twin_lists import SEED, Lists, Run, apart, are_lists, caller

# Of how many pairs each command and each page has to be answered in some.
EACH = 1000


class Pairs(Lists):
    """Pairs of lists that were audited."""

    def __init__(self, program, folder, seed):
        super().__init__(program, folder, seed)
        self.equal = self.apart = self.replies = 0
        # What was changed in lists that are equal, and at which part of the shorter list others are apart.
        self.kinds, self.parts = collections.Counter(), collections.Counter()
        # What was answered after it, by the name of the command or the page.
        self.after = collections.Counter(dict.fromkeys([*COMMANDS, *READS], 0))

    # Lists that are twins.

    def equal_pair(self):
        """Audits a list and a twin of it, where one is found."""
        settings, requests, member = self.first()
        left = Run(settings, requests, member)
        right, kinds = self.twin(settings, left, member)
        if not kinds or not are_lists(left, right):
            return
        self.equal += 1
        self.kinds.update(kinds)
        self.after.update(names_after(left, right))
        count = sum(caller(request) == member for request in requests)
        self.replies += count
        self.judge(settings, left, right, member, (0, b"equal, %d replies\n" % count, b""))
        replies = [self.answers(settings, run, member) for run in (left, right)]
        if replies[0] != replies[1] or len(replies[0]) != count:
            self.fail("replies", replies[0], replies[1])

    # Lists that are not.

    def apart_pair(self):
        """Audits a list and one that is changed in any way, where they are apart."""
        settings, requests, member = self.first()
        left = Run(settings, requests, member)
        right = Run(settings, self.changed(requests), member)
        step = apart(member, left, right)
        if step is None or not are_lists(left, right):
            return
        self.apart += 1
        self.parts[min(3, 4 * step // (len(requests) + 1))] += 1
        if self.random.random() < 0.5:
            left, right = right, left
        self.judge(settings, left, right, member, (1, b"apart at step %d\n" % step, b""))

    def changed(self, requests):
        """A list with one change, or some."""
        for _ in range(self.random.choice([1, 1, 1, 3])):
            at = self.random.randrange(len(requests) or 1)
            change = self.random.choice([self.without, self.with_more, self.with_other, self.with_other])
            requests = change(requests, at)
        return requests

    def without(self, requests, at):
        return requests[:at] + requests[at + self.random.choice([1, 1, len(requests)]):]

    def with_more(self, requests, at):
        more = read("/house", self.random.randint(0, 4))
        return self.random.choice([[*requests, more], [*requests[:at], more, *requests[at:]]])

    def with_other(self, requests, at):
        """A list with another message in a place: of another sender, spelled otherwise, of another body or a read."""
        if not requests:
            return requests
        request = requests[at]
        other = self.random.choice([
            lambda: request.without("x-member").with_field("x-member", f" {self.random.randint(0, 4)}"),
            lambda: request.with_field("x-more", " 1"),
            lambda: dataclasses.replace(request, line_end="\n" if request.line_end == "\r\n" else "\r\n"),
            lambda: self.random.choice(requests),
            lambda: read("/bands", self.random.randint(0, 4)),
            lambda: command("/members", 0, self.moment(request), compact({"name": f"n{self.random.randint(1, 99)}"})),
            lambda: dict(sealed_changes(self.alone(requests), self.random)).get(at, request)])()
        return [*requests[:at], other, *requests[at + 1:]]

    def moment(self, request):
        values = request.values("x-moment")
        return values[0] if values else 1

    def alone(self, requests):
        """The list as the plain site plays it by itself."""
        return Run({}, requests, 1)

    # Audits.

    def judge(self, settings, left, right, member, expected):
        got = self.audited(b"".join(request.text() for request in left.requests),
                           b"".join(request.text() for request in right.requests),
                           "--member", str(member), *self.words(settings))
        if got != expected:
            self.fail(f"audit for {member} of {[request.text() for request in left.requests]} and "
                      f"{[request.text() for request in right.requests]}", expected, got)

    def audited(self, left, right, *words):
        """How an audit of two texts ends."""
        (self.folder / "left").write_bytes(left)
        (self.folder / "right").write_bytes(right)
        return self.ended("audit", "left", "right", *words)

    def broken(self):
        """Files that are no lists; one that asks to close is one, and goes on."""
        page = read("/house", 0)
        whole = [page.text(), page.text(), command("/close", 0, 5).text()]
        closing = page.with_field("connection", " close").text()
        last = dataclasses.replace(page, version="HTTP/1.0").text()
        long = page.with_field("a", " " + "b" * 8192).text()
        for left, right, expected in [
                (b"", b"", (0, b"equal, 0 replies\n", b"")),
                (b"".join(whole), b"".join(whole), (0, b"equal, 0 replies\n", b"")),
                (closing + whole[0] + last + whole[2], closing + whole[0] + last + whole[2],
                 (0, b"equal, 0 replies\n", b"")),
                (closing + whole[2], whole[0] + whole[2], (0, b"equal, 0 replies\n", b"")),
                (b"", whole[0], (1, b"apart at step 1\n", b"")),
                (b"".join(whole), b"".join(whole[:2]), (1, b"apart at step 3\n", b"")),
                (whole[0][:-1], whole[0], (1, b"", b"auction: LEFT is no list of messages\n")),
                (whole[0], whole[0] + b"\r\n", (1, b"", b"auction: RIGHT is no list of messages\n")),
                (whole[0], whole[0] + b"x" + whole[0][1:], (1, b"apart at step 2\n", b"")),
                (b"GET\r\n\r\n" + whole[0], b"x", (1, b"", b"auction: LEFT is no list of messages\n")),
                (whole[0], page.without("host").text(), (1, b"", b"auction: RIGHT is no list of messages\n")),
                (whole[0] + long, whole[0], (1, b"", b"auction: LEFT is no list of messages\n")),
                (command("/close", 0, 5, b"x").text()[:-1], b"", (1, b"", b"auction: LEFT is no list of messages\n"))]:
            got = self.audited(left, right, "--member", "1")
            if got != expected:
                self.fail(f"audit of {left[:200]} and {right[:200]}", expected, got)


def names_after(left, right):
    """The commands and pages that are answered in both runs, after the first message that differs."""
    first = next(at for at, (one, other) in enumerate(zip(left.requests, right.requests)) if one != other)
    return [left.site.route(request)[0] for request, *answers in list(zip(left.requests, left.answers, right.answers))[first + 1:]
            if all(answer.status in (200, 201) for answer in answers)]


def main():
    equal, apart_count, seed = (int(word) for word in [*sys.argv[2:], *("1000", "1000", str(SEED))[len(sys.argv) - 2:]])
    with tempfile.TemporaryDirectory() as folder:
        pairs = Pairs(sys.argv[1], folder, seed)
        pairs.broken()
        while pairs.equal < equal:
            pairs.equal_pair()
        while pairs.apart < apart_count:
            pairs.apart_pair()
    print("others sealed otherwise:", ", ".join(f"{kind} {count}" for kind, count in sorted(pairs.kinds.items())),
          f"with {pairs.replies} replies")
    rarest = min(pairs.after, key=pairs.after.get)
    print(f"answered after that: each of {len(pairs.after)} commands and pages at least {pairs.after[rarest]} times ({rarest})")
    if equal >= EACH and not pairs.after[rarest]:
        pairs.fail(rarest, "an answer after what was sealed otherwise", "none")
    print("apart in the quarters of the list:", ", ".join(f"{pairs.parts[part]}" for part in range(4)))
    print(f"{pairs.equal} equal, {pairs.apart} apart, {pairs.wrong} wrong")
    return 1 if pairs.wrong else 0


if __name__ == "__main__":
    sys.exit(main())
