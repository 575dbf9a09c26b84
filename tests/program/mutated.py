#!/usr/bin/env python3
"""Sends spoiled streams of messages to the program: `mutated.py PROGRAM [COUNT [SEED [EVERY]]]`.

A stream has the messages of tests/program/fuzz.py, of which some are spoiled: bits are flipped, bytes are left out, repeated or
put in, lengths are changed, heads are spliced, fields and bodies change places. Most streams are replayed; each EVERYth time, 5
without it, a few go over TCP in pieces of any size to a house in a file. No process may die, or take more memory than
MOST_MEMORY.

Which messages a stream has is decided by tests/lib/frame.py. Each whole message has to be answered as tests/lib/plain_site.py
answers the plain one that says the same, up to the first answer that ends the connection, which may tell a fault of the frame;
what is left of a stream has to be answered one. Then the commands that were accepted are sent plainly, and have to be answered
the same and to leave the same record, or the same rows in the file. COUNT answers are given at least, 5,000 without it. The last
line is 'N answers, M accepted, K wrong'.

Promise: safe and total, bytes to bytes
"""
import collections
import copy
import pathlib
import random
import re
import resource
import socket
import sys
import tempfile
import threading

from lib.checks import check, verdict
from lib.frame import cut
from lib.house_files import rows
from lib.plain_house import BANDS
from lib.plain_site import AHEAD, COMMANDS, Site
from lib.random_messages import Sender
from lib.sent import HEAD, PATIENCE, Answer, Malformed, Request, answers_in, command, lengthened
from lib.serving import Program, read_all, served

# What a process may take, in bytes of its addresses.
MOST_MEMORY = 64 << 20
MOST_MESSAGES = 60
MOST_STREAMS = 6
# How many of a hundred messages are spoiled, one of these for a stream.
SPOILED = [0, 2, 5, 10, 30]
FAULTS = [Answer(status, {"error": word}, "", True).text()
          for status, word in ((400, "head"), (400, "end"), (400, "host"), (400, "length"), (501, "transfer"), (413, "size"))]
CLOSES = b"connection: close\r\n"
PIECES = [b"\r\n", b"\n", b"\r", b"\r\n\r\n", b"\0", b":", b" ", b"\t", b"\xff", b'"', b"{", b"}", b"\\u0000", b"%2F", b"0",
          b"content-length: 5\r\n", b"Transfer-Encoding: chunked\r\n", b"host: h\r\n", b"x-member: 1\r\n",
          b"connection: close\r\n", b"GET /house HTTP/1.1\r\nhost: h\r\nx-member: 0\r\n\r\n", b"HTTP/1.1 200 OK\r\n\r\n"]
LENGTHS = [b"0", b"1", b"16384", b"16385", b"99999999999999999999", b"-1", b"+1", b"0x1", b"", b"1 1", b"1,1", b"007"]


def flipped(chance, text, other):
    at = chance.randrange(len(text))
    return text[:at] + bytes([text[at] ^ 1 << chance.randrange(8)]) + text[at + 1:]


def cut_out(chance, text, other):
    at, end = some_range(chance, text)
    return text[:at] + text[end:]


def repeated(chance, text, other):
    at, end = some_range(chance, text)
    return text[:end] + text[at:]


def put_in(chance, text, other):
    at = chance.randrange(len(text) + 1)
    return text[:at] + chance.choice([chance.choice(PIECES), chance.randbytes(chance.choice([1, 1, 7, 300]))]) + text[at:]


def spliced(chance, text, other):
    return text[:chance.randrange(len(text) + 1)] + other[chance.randrange(len(other) + 1):]


def other_length(chance, text, other):
    """Another length, or one where there was none."""
    old = re.search(rb"(?i)content-length: *([0-9]+)", text)
    if old is None:
        return text.replace(b"\n", b"\ncontent-length: " + chance.choice(LENGTHS) + b"\r\n", 1)
    near = b"%d" % max(0, int(old[1]) + chance.choice([-9, -1, 1, 9]))
    return text[:old.start(1)] + chance.choice([near, near, chance.choice(LENGTHS)]) + text[old.end(1):]


def other_digits(chance, text, other):
    """Another number somewhere, of as many digits."""
    digit = chance.choice([None, *re.finditer(rb"[0-9]", text)])
    return text[:digit.start()] + b"%d" % chance.randrange(10) + text[digit.end():] if digit else text


def other_body(chance, text, other):
    """One's head and the other's body."""
    head, rest = (re.split(rb"(?<=\n)\r?\n", one, maxsplit=1)[part] for one, part in ((text, 0), (other, -1)))
    return head + b"\r\n" + rest


def spoiled_body(chance, text, other):
    """A body spoiled by one byte, of the same length, so that the stream goes on."""
    start = re.search(rb"\n\r?\n", text)
    if start is None or start.end() == len(text):
        return flipped(chance, text, other)
    return text[:start.end()] + flipped(chance, text[start.end():], other)


KINDS = [flipped, cut_out, repeated, put_in, spliced, other_length, other_digits, other_body, spoiled_body, spoiled_body]


def some_range(chance, text):
    at = chance.randrange(len(text))
    return at, min(len(text), at + chance.choice([1, 2, 20, len(text)]))


def plain(lines, body):
    """The message that says the same, with none of the fields that say nothing; None where it is no message."""
    words = lines[0].decode("latin-1").split(" ")
    pairs = [line.decode("latin-1").split(":", 1) for line in lines[1:]]
    if len(words) != 3 or words[2] not in ("HTTP/1.1", "HTTP/1.0") or any(len(pair) != 2 for pair in pairs):
        return None
    said = [(name, value) for name, value in pairs if name.lower() in ("x-member", "x-moment", "connection")]
    return Request(words[0], words[1], (("host", " h"), *said, *lengthened(body)), body, words[2])


def pieces(chance, stream):
    """A stream in pieces of any size."""
    most = chance.choice([1, 10, 100, 5_000, 100_000])
    if len(stream) > most * 2_000:
        most = 5_000
    while stream:
        size = chance.randint(1, most)
        yield stream[:size]
        stream = stream[size:]


def exchange(port, parts):
    """Sends parts one after the other over a connection, and reads all that is answered."""
    with socket.create_connection(("127.0.0.1", port), timeout=PATIENCE) as connection:
        connection.setsockopt(socket.IPPROTO_TCP, socket.TCP_NODELAY, 1)
        sending = threading.Thread(target=send, args=(connection, parts))
        sending.start()
        answers = read_all(connection)
        sending.join()
        return answers


def send(connection, parts):
    try:
        for part in parts:
            connection.sendall(part)
        connection.shutdown(socket.SHUT_WR)
    except OSError:
        # The connection was ended at a broken frame, which the answers show.
        pass


def limit():
    resource.setrlimit(resource.RLIMIT_AS, (MOST_MEMORY, MOST_MEMORY))


class Mutated:
    """Streams that were sent, and what was answered."""

    def __init__(self, program, folder, seed):
        self.program, self.folder, self.chance = program, folder, random.Random(seed)
        self.answers = self.streams = self.served = 0
        self.accepted, self.statuses, self.spoiled = collections.Counter(), collections.Counter(), collections.Counter()

    def stream(self, site):
        """A stream of messages to a house as it is, of which some are spoiled."""
        sender = Sender(copy.deepcopy(site), self.chance.random())
        texts = []
        for request in sender.messages(self.chance.randint(1, MOST_MESSAGES)):
            sender.site.answer(request)
            texts.append(request.text())
        percent, spoiled = self.chance.choice(SPOILED), []
        for text in texts:
            while text and self.chance.randrange(100) < percent:
                kind = self.chance.choice(KINDS)
                text = kind(self.chance, text, self.chance.choice(texts))
                self.spoiled[kind.__name__] += 1
            spoiled.append(text)
        return b"".join(spoiled)

    def judged(self, site, stream, answers):
        """Compares what was answered with what the plain site answers, and gives the commands that were accepted, with
        their answers, and what follows the answers."""
        try:
            texts, rest = answers_in(answers)
        except Malformed as malformed:
            check("well-formed", str(malformed), "")
            return [], b""
        messages, left = cut(stream)
        self.answers += len(texts)
        self.streams += 1
        self.statuses.update(text[9:12].decode() for text in texts)
        closed = [HEAD.match(text)[5] is not None for text in texts]
        check("nothing after the last", True in closed[:-1], False)
        # What is left is answered with a fault, and each whole message is answered, up to the answer that ends the connection.
        whole = texts[:-1] if closed and closed[-1] else texts
        check(f"as many answers {stream[:300]}", len(whole) <= len(messages), True)
        if closed and closed[-1]:
            check("something to answer", len(whole) < len(messages) or bool(left), True)
        else:
            check(f"all are answered {stream[-300:]}", (len(whole), left), (len(messages), b""))
        return [pair for text, message in zip(texts, [*messages, None]) for pair in self.compared(site, text, message)], rest

    def compared(self, site, text, message):
        """Compares one answer, and gives the command that it accepted as a plain one, with its answer, or nothing."""
        request = plain(*message) if message else None
        if text in FAULTS:
            return
        if request is None:
            check("an answer to no message", text, FAULTS)
            return
        before = site.accepted.total()
        check(request.text(), text, site.answer(request).text())
        if site.accepted.total() > before:
            words = [request.values(name)[0] for name in ("x-member", "x-moment")]
            yield command(request.target, *words, request.body), text.replace(CLOSES, b"", 1)

    def replay(self):
        """Replays a stream, and then what of it was accepted."""
        settings = {"rate": self.chance.choice([0, 1_000, 1_999, 2_000]), "zone": self.chance.choice(list(AHEAD)),
                    "preset": self.chance.random() < 0.5}
        words = ["replay", "--record", "--rate", str(settings["rate"]), "--zone", settings["zone"],
                 *(["--preset"] if settings["preset"] else [])]
        site = Site(**settings)
        stream = self.stream(site)
        status, output, error = self.program.ended(*words, given=stream)
        check("replayed", (status, error), (0, b""))
        accepted, record = self.judged(site, stream, output)
        again = self.program.ended(*words, given=b"".join(request.text() for request, _ in accepted))
        check("replayed plainly", again, (0, b"".join(answer for _, answer in accepted) + record, b""))
        check("the record", record, site.record() + b"\n")
        self.accepted += site.accepted

    def serve(self):
        """Serves a few streams in pieces on a house in a file, and then on another what of them was accepted."""
        self.served += 1
        for file in ("spoiled", "plain"):
            for ending in ("", "-wal"):
                (self.folder / (file + ending)).unlink(missing_ok=True)
            check("made", self.program.ended("init", file, "--bands", "bands.csv", "--rate", "2000", "--zone", "CET-1"),
                  (0, b"created\n", b""))
        site, accepted, count = Site(2_000, "CET-1"), [], self.chance.randint(1, MOST_STREAMS)
        with self.program.serving("spoiled", count) as server:
            for _ in range(count):
                stream = self.stream(site)
                replies = exchange(server.port, pieces(self.chance, stream))
                more, rest = self.judged(site, stream, replies)
                check("nothing but answers", rest, b"")
                accepted += more
        check("served", server.ending, served(count))
        replies, ending = self.program.answers("plain", [b"".join(request.text() for request, _ in accepted)])
        check("served plainly", (replies[0], ending), (b"".join(answer for _, answer in accepted), served(1)))
        check("rows", rows(self.folder, "spoiled"), rows(self.folder, "plain"))
        self.accepted += site.accepted


def main():
    count, seed, every = (int(word) for word in [*sys.argv[2:], *("5000", "2026", "5")[len(sys.argv) - 2:]])
    with tempfile.TemporaryDirectory() as path:
        folder = pathlib.Path(path)
        (folder / "bands.csv").write_text("at,step\n" + "".join(f"{at},{step}\n" for at, step in BANDS))
        run = Mutated(Program(str(pathlib.Path(sys.argv[1]).resolve()), path, limit), folder, seed)
        while run.answers < count:
            if every and run.chance.randrange(every) == 0:
                run.serve()
            else:
                run.replay()
    print("spoiled:", ", ".join(f"{kind} {number}" for kind, number in sorted(run.spoiled.items())))
    print("accepted:", ", ".join(f"{name} {run.accepted[name]}" for name in COMMANDS))
    print("statuses:", ", ".join(f"{status} {number}" for status, number in sorted(run.statuses.items())))
    print(f"{run.streams} streams, some over TCP to {run.served} houses in files, with {MOST_MEMORY >> 20} MB a process")
    return verdict(f"{run.answers} answers, {run.accepted.total()} accepted")


if __name__ == "__main__":
    sys.exit(main())
