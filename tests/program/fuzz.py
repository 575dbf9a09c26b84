#!/usr/bin/env python3
"""Sends random streams of messages to the program: `fuzz.py PROGRAM [COUNT [SEED [EVERY]]]`.

A stream has commands and reads of every kind, with callers, moments, bodies, targets and fields that are right or broken, and it
ends cleanly, by a message that ends the connection, at a broken frame, cut short, or in bytes at random. One maximum in four is
any from 1 to the limit, near a bound, or equal to another. Each answer has to be well formed and the one of
tests/lib/plain_site.py; of bytes at random nothing is known but the form, and that memory is ample, so that no answer is 503 or
500. Then what one member has sealed is changed, its maximum, a reserve, a watch or a question that waits, so that the stream is a
twin for others by the plain site: what these are answered has to stay the same, byte for byte. One stream in EVERY, 5 without it
and none where it is 0, is sent over TCP too, to a house in a file: it has to be answered the same, and the house that is served
again has to show every page as the plain site does. The last line is 'N messages, M accepted, K wrong'; COUNT messages are sent
at least, 5,000 without it.

Promise: bytes to bytes, isolation
"""
import collections
import pathlib
import random
import sys
import tempfile

from lib.plain_house import BANDS
from lib.plain_site import AHEAD, COMMANDS, NUMBERS, Site, setup
from lib.random_messages import SEED, Sender, named, played, sealed_changes, sights
from lib.sent import Malformed, answers_in, gives_up, replayed, value_of
from lib.serving import Program, served

LONGEST = 200
# How many changes of what is sealed are tried on a stream.
TRIED = 12


def twins(first, second, changer):
    """For whom the second list is a twin of the first, beside the one who changed: those whose messages are there."""
    if any(one[0] != other[0] for one, other in zip(first.seen, second.seen)):
        return set()
    members = {named(request) for request in first.requests} - {None, changer}
    return {member for member in members
            if all(one[1][member - 1:member] == other[1][member - 1:member] or not member
                   for one, other in zip(first.seen, second.seen))}


class Fuzz:
    """Streams that were tried, and what was wrong."""

    def __init__(self, program, seed, every):
        self.program, self.random, self.every = program, random.Random(seed), every
        self.messages = self.wrong = self.compared = self.streams = self.served_streams = self.seen = 0
        self.accepted, self.refusals, self.statuses = collections.Counter(), set(), collections.Counter()
        # Pairs of twin runs, by what was changed.
        self.twins = collections.Counter()

    def fail(self, what, expected, got):
        self.wrong += 1
        if self.wrong <= 5:
            print(f"{what}\n  expected {expected}\n  got      {got}")

    def stream(self):
        """One stream, and its twin where one is found."""
        settings = {"rate": self.random.choice([0, 1_000, 1_999, 2_000]), "zone": self.random.choice(list(AHEAD)),
                    "preset": self.random.random() < 0.5}
        site, length = Site(**settings), self.random.randint(1, LONGEST)
        sender = Sender(site, self.random.random())
        first = played(site, sender.messages(length))
        ending = self.random.choice([sender.end_cleanly, sender.end_closed, sender.end_broken, sender.end_cut,
                                     sender.end_wild])
        rest, answers = ending()
        recorded = answers is not None and self.random.random() < 0.5
        stream = b"".join(request.text() for request in first.requests) + rest
        words = ["--rate", str(settings["rate"]), "--zone", settings["zone"],
                 *(["--preset"] if settings["preset"] else []), *(["--record"] if recorded else [])]
        output = self.sent(stream, words)
        self.judged(first, answers, output, site.record() + b"\n" if recorded else b"")
        self.accepted.update(site.accepted)
        self.refusals |= site.refusals
        self.streams += 1
        if output is not None and self.every and self.streams % self.every == 0:
            self.over_tcp(site, settings, stream, output[0], answers is not None)
        if output is not None and answers is not None:
            self.twin(first, settings, words, output)

    def over_tcp(self, site, settings, stream, texts, is_known):
        """Compares the answers of a house served from a file with the replayed ones, and what it then shows, if that is known."""
        self.served_streams += 1
        with tempfile.TemporaryDirectory() as folder:
            pathlib.Path(folder, "bands.csv").write_text("at,step\n" + "".join(f"{at},{step}\n" for at, step in BANDS))
            program = Program(str(pathlib.Path(self.program).resolve()), folder)
            program.ended("init", "house", "--bands", "bands.csv", "--rate", str(settings["rate"]),
                          "--zone", settings["zone"])
            first = b"".join(request.text() for request in setup()) if settings["preset"] else b""
            replies, ending = program.answers("house", [first, stream])
            if (replies[1], ending) != (b"".join(texts), served(2)):
                self.fail(f"over TCP {stream[:300]}", (b"".join(texts), served(2)), (replies[1], ending))
            self.unrefused(answers_in(replies[0])[0])
            asked = list(sights(site)) if is_known else []
            shown, _ = program.answers("house", [b"".join(request.text() for request in asked)])
        for request, got in zip(asked, answers_in(shown[0])[0]):
            self.seen += 1
            wanted = site.answer(request).text()
            if got != wanted:
                self.fail(f"served again {request.text()}", wanted, got)

    def sent(self, stream, words):
        """The answers to a stream and what follows them, or None where they are no answers."""
        try:
            answers, rest = answers_in(replayed(self.program, stream, *words))
            if rest:
                value_of(rest.removesuffix(b"\n"))
            return answers, rest
        except Malformed as malformed:
            self.fail(f"a stream of {stream[:300]}", "answers", malformed)
            return None

    def judged(self, first, answers, output, record):
        """Compares the output with the plain site's answers."""
        expected = first.answers + (answers or [])
        self.messages += len(expected)
        if output is None:
            return
        texts, rest = output
        self.statuses.update(int(text[9:12]) for text in texts)
        self.unrefused(texts)
        for at, (answer, got) in enumerate(zip(expected, texts)):
            if answer.text() != got:
                what = first.requests[at].text() if at < len(first.requests) else "the end of a stream"
                self.fail(what, answer.text(), got)
        if answers is not None and (len(texts), rest) != (len(expected), record):
            self.fail("a stream's end", (len(expected), record), (len(texts), rest))

    def unrefused(self, texts):
        """Fails where an answer gives up."""
        for text in texts:
            if gives_up(text):
                self.fail("with ample memory", "an answer", text)

    def twin(self, first, settings, words, output):
        """Changes what one member sealed, and compares what others get, where the plain site says that they may."""
        changes = sealed_changes(first, self.random)
        for at, request in (change for change, _ in zip(changes, range(TRIED))):
            requests = [*first.requests[:at], request, *first.requests[at + 1:]]
            second = played(Site(**settings), requests)
            members = twins(first, second, named(request))
            if not members or second.answers[at].status not in (200, 201):
                continue
            again = self.sent(b"".join(request.text() for request in requests), words)
            if again is None:
                return
            self.twins[request.target.split("/")[-1]] += 1
            self.alike(first, output[0], again[0], members)
            return

    def alike(self, first, ones, others, members):
        for at, request in enumerate(first.requests):
            if named(request) in members:
                self.compared += 1
                if ones[at:at + 1] != others[at:at + 1]:
                    self.fail(f"in twin runs {request.text()}", ones[at:at + 1], others[at:at + 1])


def main():
    count, seed, every = (int(word) for word in [*sys.argv[2:], *("5000", str(SEED), "5")[len(sys.argv) - 2:]])
    fuzz = Fuzz(sys.argv[1], seed, every)
    while fuzz.messages < count:
        fuzz.stream()
    print("accepted:", ", ".join(f"{name} {fuzz.accepted[name]}" for name in COMMANDS))
    print("statuses:", ", ".join(f"{status} {number}" for status, number in sorted(fuzz.statuses.items())))
    print("never refused:", ", ".join(name for name in NUMBERS if name not in fuzz.refusals) or "-")
    print("twin runs, by what another sealed:", ", ".join(f"{part} {number}" for part, number in fuzz.twins.items()),
          f"with {fuzz.compared} answers compared")
    print(f"over TCP: {fuzz.served_streams} of {fuzz.streams} streams, {fuzz.seen} pages compared")
    print(f"{fuzz.messages} messages, {sum(fuzz.accepted.values())} accepted, {fuzz.wrong} wrong")
    return 1 if fuzz.wrong else 0


if __name__ == "__main__":
    sys.exit(main())
