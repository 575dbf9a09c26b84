#!/usr/bin/env python3
"""Plays pairs of twins as lives of houses in files: `twin_lives.py PROGRAM [PAIRS [SEED]]`.

A pair are two random lists that are twins for a member, as twins.py finds them, each followed by the member's looks at all its
pages and the public ones. Each list is played on a house in a file, over servers that end: by their count, by SIGKILL when all is
answered, or by SIGKILL with one message in flight, which is kept or lost. Then the same file is served again. The servers of both
houses end at the same places, or at others. Whether a message in flight is there is read off all pages, which have to be those of
the plain site with it or without it; one that changes nothing counts as kept. The pair counts where, with the messages that are
there, what is public and what waits for the member agree after each message, and the member's own messages are the same: then
what the member was answered in both has to be the same, byte for byte. Every answer of every list has to be the plain site's.

As controls, lists in which a message of the member is another, and lists that lose a message of another that is public, are
played beside the first: some of each have to show the member a difference. PAIRS pairs are played that count, 1,000 without it;
what a kill decides is not decided by SEED. The last line is 'N pairs of twins, M answers alike, K wrong'.

Promise: isolation
"""
import collections
import dataclasses
import pathlib
import socket
import sys
import tempfile
import time

from lib.plain_house import BANDS
from lib.plain_site import Site, closes
from lib.random_messages import sealed_changes, sights
from lib.sent import PATIENCE, answers_in, next_answer, read
from lib.serving import Program, served
from lib.twin_lists import SEED, Lists, Run, are_lists, caller

# The most servers that end before a list does, and how long a message is in flight at most, in seconds.
MOST_ENDS, LONGEST_FLIGHT = 3, 0.0006
# How many controls of each kind are played at least, and for how many pairs one.
CONTROLS, PAIRS_A_CONTROL = 3, 20
# Most houses are in memory, where there is such a folder: a kill leaves what was written there too, and it is sooner
# there. One in ON_DISK isn't: where a sync takes its time a message is kept and not answered.
ON_DISK = 5
MEMORY = "/dev/shm"
KILLED = (-9, b"listening\n", b"")


@dataclasses.dataclass(frozen=True)
class End:
    """How a server ends: after how many messages of a list, whether it is killed, and how long the last message is in
    flight before, if it is."""
    place: int
    is_kill: bool = False
    flight: float | None = None


def plain(settings, requests):
    """The plain site after the messages that are there."""
    site = Site(**settings)
    for request in filter(None, requests):
        site.answer(request)
    return site


def looks(site, member):
    """A member's reads of its own pages and of the public ones."""
    return [read(request.target, member) for request in sights(site) if caller(request) in (0, member)]


def own(run, member):
    """The messages of a member that are there, each in its place."""
    return [(at, request) for at, request in enumerate(run.requests) if request and caller(request) == member]


class Lives:
    """A house in a file that plays a list: the messages, of which those that were lost become none, and the texts of
    their answers, none where no answer came."""

    def __init__(self, program, file, settings, requests):
        self.program, self.file, self.settings = program, file, settings
        self.requests, self.texts = list(requests), []
        self.counts, self.faults = collections.Counter(), []

    def play(self, ends):
        for end in [*ends, End(len(self.requests))]:
            begin = len(self.texts)
            self.texts += self.answered(self.requests[begin:end.place], end)
            if end.flight is not None:
                self.land(end.place - 1)

    def expect(self, what, expected, got):
        if got != expected:
            self.faults.append((what, expected, got))

    def answered(self, requests, end):
        """What one server answers to messages, the last of them in flight if it is to be."""
        self.counts["killed" if end.is_kill else "ended by their count"] += 1
        texts = [request.text() if request else b"" for request in requests]
        first, last = (texts, []) if end.flight is None else (texts[:-1], texts[-1:])
        with self.program.serving(self.file, 1) as server:
            with socket.create_connection(("127.0.0.1", server.port), timeout=PATIENCE) as connection:
                connection.setsockopt(socket.IPPROTO_TCP, socket.TCP_NODELAY, 1)
                answers = connection.makefile("rb")
                connection.sendall(b"".join(first))
                replies = [next_answer(answers) if text else None for text in first]
                connection.sendall(b"".join(last))
                if end.flight:
                    time.sleep(end.flight)
                if end.is_kill:
                    server.process.kill()
                replies += [next_answer(answers) for _ in last]
                answers.close()
        self.expect("an end", KILLED if end.is_kill else served(1), server.ending)
        self.expect("no answer", [not text for text in first], [text is None for text in replies[:len(first)]])
        return replies

    def land(self, at):
        """Finds whether the message that was in flight is there."""
        if self.texts[at] is not None:
            self.counts["in flight and answered"] += 1
            return
        before, after = (plain(self.settings, self.requests[:count]) for count in (at, at + 1))
        asked = list(sights(after))
        without, with_it = ([site.answer(request).text() for request in asked] for site in (before, after))
        replies, ending = self.program.answers(self.file, [b"".join(request.text() for request in asked)])
        self.counts["ended by their count"] += 1
        self.expect("an end", served(1), ending)
        shown, _ = answers_in(replies[0])
        self.expect("pages with it or without it", True, shown in (without, with_it))
        if shown == with_it:
            self.counts["in flight and kept" if without != with_it else "in flight and without a trace"] += 1
        else:
            self.counts["in flight and lost"] += 1
            self.requests[at] = None


class TwinLives(Lists):
    """Pairs of lists that were played as lives."""

    lengths = 20, 40

    def __init__(self, program, folder, files, seed):
        super().__init__(program, folder, seed)
        self.served, self.files = Program(self.program, folder), files
        self.pairs = self.alike = self.held = self.apart = self.apart_shown = 0
        self.counts, self.controls, self.shown = (collections.Counter() for _ in range(3))

    def list_at_random(self):
        """Settings, a member, and a run of a list that ends with the member's looks; no connection ends within it."""
        while True:
            settings, requests, member = self.first(bands=BANDS)
            run = Run(settings, [*requests, *looks(plain(settings, requests), member)], member)
            if are_lists(run) and not any(map(closes, run.requests)):
                return settings, member, run

    def ends(self, run, may_fly=True):
        """Where and how servers end before a list does."""
        accepted = [at for at, answer in enumerate(run.answers, 1) if answer.status in (200, 201)]
        places = [self.random.choice([self.random.randint(1, len(run.requests)), self.random.choice(accepted or [1])])
                  for _ in range(self.random.randint(1, MOST_ENDS))]
        return [self.random.choice([End(place), End(place, True), *([self.flight(place)] if may_fly else [])])
                for place in sorted(set(places))]

    def flight(self, place):
        """A kill with a message in flight, half of them at once."""
        return End(place, True, self.random.choice([0, self.random.uniform(0, LONGEST_FLIGHT)]))

    def played(self, settings, member, requests, ends):
        """The run of the messages that are there, and what was answered, once a list is played as lives."""
        file = self.random.choice(self.files)
        for ending in ("", "-wal"):
            pathlib.Path(file + ending).unlink(missing_ok=True)
        made = self.ended("init", file, *self.words(settings))
        lives = Lives(self.served, file, settings, requests)
        lives.expect("a house", (0, b"created\n", b""), made)
        lives.play(ends)
        run = Run(settings, lives.requests, member)
        for request, text, answer in zip(run.requests, lives.texts, run.answers):
            if text is not None:
                self.held += 1
                lives.expect(request.text(), answer.text(), text)
        self.counts.update(lives.counts)
        for fault in lives.faults:
            self.fail(*fault)
        return run, lives.texts

    def differences(self, member, requests, ones, others):
        """Of a member's answers in both, how many there are, and those which are not alike."""
        both = [(request, one, other) for request, one, other in zip(requests, ones, others)
                if caller(request) == member and None not in (one, other)]
        return len(both), [(request.text(), one, other) for request, one, other in both if one != other]

    def pair(self):
        """Plays a list and a twin of it, where one is found."""
        settings, member, left = self.list_at_random()
        right, kinds = self.twin(settings, left, member)
        if not kinds or not are_lists(left, right):
            return
        ends = self.ends(left)
        others = self.random.choice([ends, self.ends(left)])
        (one, ones), (other, other_answers) = (self.played(settings, member, run.requests, at)
                                               for run, at in ((left, ends), (right, others)))
        count, unlike = self.differences(member, left.requests, ones, other_answers)
        if one.seen != other.seen or own(one, member) != own(other, member):
            self.apart += 1
            self.apart_shown += bool(unlike)
            return
        self.pairs += 1
        self.alike += count - len(unlike)
        for difference in unlike:
            self.fail(*difference)

    # Lists that are no twins.

    def own_changed(self, member, run):
        """The list with another message of the member's, or none."""
        changes = [(at, request) for at, request in sealed_changes(run, self.random) if caller(request) == member]
        return [(at, request) for at, request in changes if request != run.requests[at]][:1]

    def public_lost(self, member, run):
        """The list without a message of another that is public, or none."""
        places = [at for at in range(1, len(run.seen))
                  if run.seen[at] != run.seen[at - 1] and caller(run.requests[at]) != member]
        return [(self.random.choice(places), None)] if places else []

    def control(self, change):
        """Plays a list and one that is no twin, where there is one."""
        settings, member, left = self.list_at_random()
        for at, request in change(member, left):
            requests = [*left.requests[:at], request, *left.requests[at + 1:]]
            (_, ones), (_, others) = (self.played(settings, member, each, self.ends(left, False))
                                      for each in (left.requests, requests))
            self.controls[change.__name__] += 1
            self.shown[change.__name__] += bool(self.differences(member, left.requests, ones, others)[1])

    def play_controls(self, count):
        for change in (self.own_changed, self.public_lost):
            while self.controls[change.__name__] < count:
                self.control(change)
            if not self.shown[change.__name__]:
                self.fail(change.__name__, "a difference", "none")


def main():
    pairs, seed = (int(word) for word in [*sys.argv[2:], *("1000", str(SEED))[len(sys.argv) - 2:]])
    memory = MEMORY if pathlib.Path(MEMORY).is_dir() else None
    with tempfile.TemporaryDirectory() as folder, tempfile.TemporaryDirectory(dir=memory) as other:
        lives = TwinLives(sys.argv[1], folder, [f"{folder}/house", *[f"{other}/house"] * (ON_DISK - 1)], seed)
        lives.play_controls(max(CONTROLS, pairs // PAIRS_A_CONTROL))
        while lives.pairs < pairs:
            lives.pair()
    print("servers and messages:", ", ".join(f"{count} {what}" for what, count in sorted(lives.counts.items())))
    print("controls that showed a difference:", ", ".join(
        f"{lives.shown[name]} of {count} {name.replace('_', ' ')}" for name, count in lives.controls.items()))
    print(f"{lives.held} answers held against the plain site; {lives.apart} pairs apart by what a kill left, of which "
          f"{lives.apart_shown} showed a difference")
    print(f"{lives.pairs} pairs of twins, {lives.alike} answers alike, {lives.wrong} wrong")
    return 1 if lives.wrong else 0


if __name__ == "__main__":
    sys.exit(main())
