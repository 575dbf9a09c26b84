#!/usr/bin/env python3
"""Plays lists of messages in every form: `rows.py PROGRAM [CASES [COUNT [SEED]]]`.

The program is that of the crate `test_store`. It plays each list over a house in memory and one in a database, message by message
and as one list, and all four have to tell the same: the answers that are expected, whether the house is new before and after
them, and the record.

First the section `runs` of the stored run has to be the one of tests/lib/worked.py. Then come the cases of `replay` in the folder
CASES, if there is one, with the answers that it has, and lists of at least COUNT random messages, 4,000 without it, some of them
broken frames in mid-list, with the answers of tests/lib/plain_site.py. `rows.py stored` writes that section. The last line is 'N
lists, M messages, K wrong'.

Promise: bytes to bytes
"""
import pathlib
import random
import re
import subprocess
import sys

from lib.places import ROOT
from lib.plain_site import AHEAD, Site, setup
from lib.random_messages import END, HEAD, SEED, Sender, played
from lib.sent import PATIENCE, Answer, answers_in, value_of
from lib.transcript import section
from lib.worked import FORMS, block, stored

STORED = ROOT / "crates/test_store"
SAME = b"".join(f"{form}: the same\n".encode() for form in FORMS)
LONGEST = 120
# Faults of a frame, after which no message of a stream is looked for.
BROKEN = re.compile(rb'connection: close\r\n\r\n{"error":"(head|host|transfer|length|size|end)"}\Z')
EXCESS = Answer(400, {"error": "excess"}, "", True)


def run(program, script):
    result = subprocess.run([program, "runs"], input=script, capture_output=True, timeout=PATIENCE)
    if (result.returncode, result.stderr) != (0, b""):
        print(f"ended with {result.returncode}: {result.stderr[:200]}")
    return result.stdout


class Lists:
    """Lists that are to be played, with what has to be printed of each."""

    def __init__(self):
        self.script, self.expected, self.messages = [], [], 0

    def add(self, house, messages, answers, record):
        """A list to a new house; the record may be unknown."""
        self.script.append(house + b"".join(map(block, messages)) + b"all\n")
        self.expected.append((b"".join(text + b"\n" for text in [b"new", *answers]), record))
        self.messages += len(messages)

    def wrong(self, program):
        """How many lists are answered otherwise."""
        output, wrong = run(program, b"".join(self.script)), 0
        parts = output.split(SAME)
        if len(parts) != len(self.expected) + 1 or parts[-1]:
            print(f"{len(parts) - 1} of {len(self.expected)} lists are answered, and after them {parts[-1][:300]}")
            return max(1, len(self.expected) - len(parts) + 1)
        for number, (part, (answers, record)) in enumerate(zip(parts, self.expected)):
            if not self.is_right(part, answers, record):
                wrong += 1
                print(f"list {number}\n  expected {answers[-300:]}{record}\n  got      {part[-600:]}")
        return wrong

    def is_right(self, part, answers, record):
        if not part.startswith(answers):
            return False
        new, _, shown = part.removeprefix(answers).partition(b"\n")
        value = value_of(shown.removesuffix(b"\n"))
        blank = not (value["members"] or value["categories"] or value["items"] or value["clock"])
        return new == (b"new" if blank else b"not new") and record in (None, shown)


# The cases.

def settings(folder, words):
    """The words of a case as those of a script: the house, and whether it begins by the setup."""
    options = dict(zip(words, words[1:]))
    house = f"house {options.get('--rate', '1000')} {options.get('--zone', 'UTC0')}\n"
    if "--bands" in options:
        for row in (folder / options["--bands"]).read_text().replace('"', "").split()[1:]:
            house += "band {} {}\n".format(*row.split(","))
    return house.encode(), "--preset" in words


def length(stream):
    """The length of the message that a stream begins with, whose frame is whole."""
    head = re.match(rb"(?:\r?\n)*[^\r\n][\s\S]*?\r?\n\r?\n", stream).group()
    declared = re.search(rb"\ncontent-length:[ \t]*([0-9]+)", head, re.IGNORECASE)
    return len(head) + (int(declared[1]) if declared else 0)


def cut(stream, answers):
    """The messages of a stream that was answered so: a broken frame is all that is left."""
    messages = []
    for answer in answers:
        end = len(stream) if BROKEN.search(answer) else length(stream)
        messages.append(stream[:end])
        stream = stream[end:]
    return messages


def add_cases(lists, folder):
    for path in sorted(folder.glob("*.args")):
        words = path.read_text().splitlines()
        given, out, err = (path.with_suffix(end).read_bytes() for end in (".in", ".out", ".err"))
        if words[0] != "replay" or err:
            continue
        answers, record = answers_in(out)
        house, preset = settings(folder, words[1:])
        first = played(Site(), setup()) if preset else None
        before = [answer.text() for answer in first.answers] if preset else []
        messages = [*(request.text() for request in (first.requests if preset else [])), *cut(given, answers)]
        lists.add(house, messages, before + answers, record or None)


# Random lists.

def broken(sender):
    """A text that is no message, and its answer."""
    request, chance = sender.message(), sender.random.random()
    text = request.text()
    if chance < 0.3:
        at = sender.random.randrange(len(text))
        return text[:at], HEAD if at < len(request.head()) else END
    if chance < 0.5:
        return text + sender.one_of([b"x", b"\n", text]), EXCESS
    text, answers = sender.end_broken()
    # A frame that isn't broken is followed by another: that is excess.
    return text, answers[0] if BROKEN.search(answers[0].text()) else EXCESS


def add_random(lists, chance):
    zone, rate = chance.choice(list(AHEAD)), chance.choice([0, 1_000, 1_999, 2_000])
    site = Site(rate=rate, zone=zone)
    sender = Sender(site, chance.random())
    messages, answers = [], []
    first = setup() if chance.random() < 0.5 else []
    for request in [*first, *sender.messages(chance.randint(1, LONGEST))]:
        if chance.random() < 0.05:
            text, answer = broken(sender)
            messages.append(text)
            answers.append(answer.text())
        messages.append(request)
        answers.append(site.answer(request).text())
    lists.add(f"house {rate} {zone}\n".encode(), messages, answers, site.record() + b"\n")


def write_stored():
    """Writes the section of the stored run."""
    for name, text in zip(("stdin", "stdout"), stored()):
        before = (STORED / name).read_bytes().decode()
        (STORED / name).write_bytes(before.replace(section(before, "runs"), text.decode()).encode())


def main():
    if sys.argv[1] == "stored":
        write_stored()
        return 0
    program, lists = str(pathlib.Path(sys.argv[1]).resolve()), Lists()
    wrong = 0
    kept = (section((STORED / name).read_bytes().decode(), "runs").encode() for name in ("stdin", "stdout"))
    if tuple(kept) != stored():
        print("the stored run is another")
        wrong += 1
    if len(sys.argv) > 2 and pathlib.Path(sys.argv[2]).is_dir():
        add_cases(lists, pathlib.Path(sys.argv[2]))
        print(f"{len(lists.script)} cases")
    count, seed = (int(word) for word in [*sys.argv[3:], *["4000", str(SEED)][len(sys.argv[3:]):]])
    chance, before = random.Random(seed), lists.messages
    while lists.messages - before < count:
        add_random(lists, chance)
    wrong += lists.wrong(program)
    print(f"{len(lists.script)} lists, {lists.messages} messages, {wrong} wrong")
    return 1 if wrong else 0


if __name__ == "__main__":
    sys.exit(main())
