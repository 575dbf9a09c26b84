#!/usr/bin/env python3
"""Plays every example of docs/HTTP.md on the program: `http_doc.py PROGRAM [--told]`.

A `text` block whose first line begins with `$ ` is a session of a shell, as in the README. The blocks `http` and `frame` are one
run over a new house in a file, each message on a connection of its own. In an `http` block a message has its method, its path and
its fields in one line, then its body; `20 times` before it sends it so often. In a `frame` block it is whole. After `<` comes
what the program has to answer: status and body, of a frame the whole answer. A long body goes on in indented lines. With `--told`
the page is printed with what the program answered. The table of refusals has to have the numbers, names and statuses of the
rules, and each of them has to be in an example. Needs curl. The last line is 'N examples, M wrong'.

Promise: bytes to bytes
"""
import pathlib
import re
import sys
import tempfile

from lib.places import ROOT
from lib.plain_site import NUMBERS
from lib.sent import PHRASES, answers_in
from lib.serving import Program, exchange, served
from lib.sessions import played

PAGE = ROOT / "docs" / "HTTP.md"
BLOCK = re.compile(r"^```(http|frame)\n(.*?)^```$", re.M | re.S)
TIMES = re.compile(r"([0-9]+) times ")
MOST_COLUMNS = 96


def broken(line):
    """A long line of an answer, broken after commas; what follows the first piece is indented."""
    pieces = [""]
    for part in re.split(r"(?<=,)", line):
        if pieces[-1] and len(pieces[-1] + part) > MOST_COLUMNS:
            pieces.append("  ")
        pieces[-1] += part
    return "\n".join(pieces)


def parts(block):
    """The messages of a block, each with the lines of its answer joined."""
    for text in re.split(r"\n\n(?=[A-Z0-9])", block.strip("\n")) if "HTTP/1" not in block else [block.rstrip("\n")]:
        message, _, answer = text.partition("\n< ")
        yield message, answer.replace("\n  ", "")


def wire(message):
    """The bytes of a message that is in one line with its fields, and how often they are sent."""
    line, _, body = message.partition("\n")
    times = TIMES.match(line)
    target, *fields = line[times.end() if times else 0:].split("  ")
    fields = ["host: h", *fields, *([f"content-length: {len(body.encode())}"] if body else [])]
    return "\r\n".join([f"{target} HTTP/1.1", *fields, "", body]).encode(), int(times[1]) if times else 1


def framed(message):
    """The bytes of a message that is whole."""
    head, _, body = message.partition("\n\n")
    empty = "\r\n" if "\n\n" in message or message.endswith("\n") else ""
    return ("\r\n".join(head.rstrip("\n").split("\n")) + "\r\n" + empty + body).encode()


def short(answer):
    """An answer as an `http` block has it: its status and its body."""
    head, _, body = answer.decode().partition("\r\n\r\n")
    return f"{head.split(' ')[1]} {body}"


def whole(answer):
    return answer.decode().replace("\r\n", "\n")


class Page:
    """The examples of the page, and what they were answered."""

    def __init__(self, text, is_quiet):
        self.text, self.is_quiet, self.count, self.wrong = text, is_quiet, 0, 0

    def judged(self, what, got, wanted):
        self.count += 1
        if got != wanted:
            self.wrong += 1
            if not self.is_quiet:
                print(f"{what}\n  got:    {got}\n  wanted: {wanted}")

    def sessions(self, program):
        for command, printed, wanted in played(self.text, program):
            self.judged(f"$ {command}", printed, wanted)

    def messages(self):
        """Each message: its bytes, how often they are sent, its form, and its answer on the page."""
        for kind, block in BLOCK.findall(self.text):
            for message, answer in parts(block):
                yield message, *(wire(message) if kind == "http" else (framed(message), 1)), kind, answer

    def play(self, program, folder):
        """Sends the messages to a served house; gives the page with the answers that they got."""
        messages = list(self.messages())
        pathlib.Path(folder, "bands.csv").write_bytes((ROOT / "examples" / "bands.csv").read_bytes())
        program = Program(program, folder)
        made = program.ended("init", "house", "--bands", "bands.csv", "--rate", "1000", "--zone", "UTC0")
        self.judged("init", made, (0, b"created\n", b""))
        got = []
        with program.serving("house", sum(times for _, _, times, *_ in messages)) as server:
            for message, sent, times, kind, answer in messages:
                answers, rest = answers_in([exchange(server.port, sent) for _ in range(times)][-1])
                reply = (short if kind == "http" else whole)(answers[0])
                self.judged(message, (reply, len(answers), rest), (answer, 1, b""))
                got.append(reply)
        self.judged("serve", server.ending, served(sum(times for _, _, times, *_ in messages)))
        return got

    def refusals(self, got):
        """The table of refusals has the rules' words, and each is in an example."""
        rows = re.findall(r"^\| ([0-9]+) \| ([A-Za-z]+) \| ([0-9]+) \|", self.text, re.M)
        rules = [(str(number), name, str(status)) for name, (number, status) in NUMBERS.items()]
        self.judged("the table of refusals", sorted(rows), sorted(rules))
        for number, name, status in rules:
            shown = any(reply.startswith(status) and f'"error":"{name}"' in reply for reply in got)
            self.judged(f"an example of {name}", shown, True)

    def faults(self, got):
        """Each malformed message of the table is in an example, with its status."""
        for status, error in re.findall(r'^\| ([45][0-9]{2}) \| `\{"error":"([a-z]+)"[^|]*\| [^|]* \| (?:ends|stays) \|',
                                        self.text, re.M):
            forms = (f"{status} ", f"HTTP/1.1 {status} {PHRASES[int(status)]}\n")
            shown = any(reply.startswith(forms) and f'"error":"{error}"' in reply for reply in got)
            self.judged(f"an example of {error}", shown, True)

    def with_answers(self, got):
        """The page with what was answered."""
        answers = iter(got)

        def filled(match):
            kind, block = match.groups()
            texts = [message + "\n" + "\n".join(map(broken, f"< {next(answers)}".split("\n")))
                     for message, _ in parts(block)]
            return f"```{kind}\n" + "\n\n".join(texts) + "\n```"
        return BLOCK.sub(filled, self.text)


def main():
    shows_answers = "--told" in sys.argv[2:]
    page = Page(PAGE.read_text(), shows_answers)
    program = str(pathlib.Path(sys.argv[1]).resolve())
    page.sessions(program)
    with tempfile.TemporaryDirectory() as folder:
        got = page.play(program, folder)
    page.refusals(got)
    page.faults(got)
    if shows_answers:
        print(page.with_answers(got), end="")
        return 0
    print(f"{page.count} examples, {page.wrong} wrong")
    return 1 if page.wrong else 0


if __name__ == "__main__":
    sys.exit(main())
