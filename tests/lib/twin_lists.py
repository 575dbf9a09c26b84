"""Pairs of random lists of messages that are twins for a member, by the plain site."""
import dataclasses
import itertools
import pathlib
import random
import subprocess

from lib.plain_site import AHEAD, Site, frame_fault, setup
from lib.random_messages import Sender, named, sealed_changes
from lib.sent import PATIENCE, answers_in, replayed

SEED = 2026
LONGEST = 80
# How many changes of what others sealed are tried on a list, and how many are kept at most.
TRIED, KEPT = 20, 4
# What may be sealed, by the last part of its target.
SEALED = [("bids",), ("bids",), ("items",), ("items",), ("questions",), ("watch", "unwatch"),
          ("bids", "items", "questions", "watch", "unwatch")]


def caller(request):
    """The number whose message it is: its frame is whole, and it names one; or none."""
    return None if frame_fault(request) else named(request)


class Run:
    """What the plain site makes of a list: its answers, and after each what is public and what waits for a member.

    It ends where that is otherwise than in a run that it has to be like, which is given as `is_like`. None in the place
    of a message is one that was lost.
    """

    def __init__(self, settings, requests, member, like=None):
        self.requests, self.site, self.answers, self.seen = requests, Site(**settings), [], []
        self.is_like, seen, accepted = True, None, None
        for at, request in enumerate(requests):
            self.answers.append(request and self.site.answer(request))
            # What was refused changed nothing.
            if accepted != sum(self.site.accepted.values()):
                accepted = sum(self.site.accepted.values())
                seen = self.site.record(), [dataclasses.astuple(question) for question in self.site.waiting(member)]
            self.seen.append(seen)
            if like and seen != like.seen[at]:
                self.is_like = False
                return


def apart(member, left, right):
    """The first step at which two runs are apart for a member, or none."""
    for step in range(1, max(len(left.requests), len(right.requests)) + 1):
        if step > min(len(left.requests), len(right.requests)):
            return step
        one, other = left.requests[step - 1], right.requests[step - 1]
        if one != other and member in (caller(one), caller(other)):
            return step
        if left.seen[step - 1] != right.seen[step - 1]:
            return step
    return None


def are_lists(*runs):
    """Whether all are lists of messages: one may have been given a field more than it may have."""
    return not any(frame_fault(request) for run in runs for request in run.requests)


class Lists:
    """Random lists that a program is to play, and how many were wrong."""

    # The least and the most messages that are chosen at random.
    lengths = 1, LONGEST

    def __init__(self, program, folder, seed):
        self.program, self.folder = str(pathlib.Path(program).resolve()), pathlib.Path(folder)
        self.random, self.wrong = random.Random(seed), 0

    def fail(self, what, expected, got):
        self.wrong += 1
        if self.wrong <= 5:
            print(f"{what}\n  expected {expected}\n  got      {got}")

    def first(self, **more):
        """Settings, some of them given, a list at random, and a member, mostly one who sends some of it."""
        settings = {"rate": self.random.choice([0, 1_000, 2_000]), "zone": self.random.choice(list(AHEAD)), **more}
        site = Site(**settings)
        sender = Sender(site, self.random.random())
        requests = []
        begun = setup() if self.random.random() < 0.7 else []
        for request in itertools.chain(begun, sender.messages(self.random.randint(*self.lengths))):
            site.answer(request)
            requests.append(request)
        senders = [number for number in map(caller, requests) if number and number <= len(site.house.names)]
        return settings, requests, self.random.choice([*senders, 1])

    def twin(self, settings, left, member):
        """A run that is a twin of another for a member, and what was changed in it: nothing where none is found."""
        parts, requests = self.random.choice(SEALED), left.requests
        changes = [(at, request) for at, request in sealed_changes(left, self.random)
                   if requests[at].target.split("/")[-1] in parts and caller(request) != member
                   and (request.target, request.body) != (requests[at].target, requests[at].body)]
        right, kinds = left, []
        for at, request in changes[:TRIED]:
            tried = Run(settings, [*right.requests[:at], request, *right.requests[at + 1:]], member, left)
            if tried.is_like and tried.answers[at].status in (200, 201):
                right = tried
                kinds.append(request.target.split("/")[-1])
            if len(kinds) == KEPT:
                break
        return right, kinds

    def words(self, settings):
        """Settings as words of the program."""
        words = ["--rate", str(settings["rate"]), "--zone", settings["zone"]]
        if "bands" not in settings:
            return words
        table = self.folder / "bands.csv"
        table.write_text("at,step\n" + "".join(f"{at},{step}\n" for at, step in settings["bands"]))
        return [*words, "--bands", str(table)]

    def answer_texts(self, settings, run):
        """What a replay answers to a list."""
        stream = b"".join(request.text() for request in run.requests)
        return answers_in(replayed(self.program, stream, *self.words(settings)))[0]

    def answers(self, settings, run, member):
        """What a replay answers to a member in a list, of which each answer has to be the plain site's."""
        texts = self.answer_texts(settings, run)
        for request, text, answer in zip(run.requests, texts, run.answers):
            if text != answer.text():
                self.fail(request.text(), answer.text(), text)
        return [text for request, text in zip(run.requests, texts) if caller(request) == member]

    def ended(self, *words):
        """How the program ends with these words, in the folder of the lists."""
        ran = subprocess.run([self.program, *words], cwd=self.folder, capture_output=True, timeout=PATIENCE)
        return ran.returncode, ran.stdout, ran.stderr
