"""Requests as texts, what the program answers to a stream of them, and its answers taken apart.

The texts are those of RFC 9112 and of the house's formats; nothing here is taken from the program.
"""
import dataclasses
import itertools
import json
import pathlib
import re
import subprocess

# How long anything is waited for, in seconds: only what never ends takes so long, also on a machine that is busy.
PATIENCE = 600
# The statuses that an answer may have, with their phrases.
PHRASES = {200: "OK", 201: "Created", 400: "Bad Request", 403: "Forbidden", 404: "Not Found",
           405: "Method Not Allowed", 409: "Conflict", 413: "Content Too Large",
           500: "Internal Server Error", 501: "Not Implemented", 503: "Service Unavailable"}
BEGINS = b"HTTP/1.1 "
HEAD = re.compile(rb"HTTP/1\.1 ([0-9]{3}) ([A-Za-z ]+)\r\ncontent-type: application/json\r\n"
                  rb"content-length: (0|[1-9][0-9]*)\r\n(?:allow: ([A-Z, ]+)\r\n)?(connection: close\r\n)?\r\n")


class Malformed(Exception):
    """Bytes that are no answer: why."""


@dataclasses.dataclass(frozen=True)
class Request:
    """A message, as its parts are written: a content-length is one of the fields."""
    method: str
    target: str
    fields: tuple
    body: bytes = b""
    version: str = "HTTP/1.1"
    line_end: str = "\r\n"
    # Empty lines that come first.
    before: str = ""

    def head(self):
        lines = [f"{self.method} {self.target} {self.version}",
                 *(f"{name}:{value}" for name, value in self.fields), "", ""]
        return (self.before + self.line_end.join(lines)).encode()

    def text(self):
        return self.head() + self.body

    def values(self, name):
        """The values of the fields of a name, which is in small letters."""
        return [value.strip(" \t") for given, value in self.fields if given.lower() == name]

    def with_field(self, name, value):
        """The message with one field more after the others."""
        return dataclasses.replace(self, fields=(*self.fields, (name, value)))

    def without(self, name):
        """The message with no field of a name."""
        return dataclasses.replace(self, fields=tuple(f for f in self.fields if f[0].lower() != name))


def lengthened(body):
    """The field that tells a body's length, where there is a body."""
    return (("content-length", f" {len(body)}"),) if body else ()


def command(target, member, moment, body=b""):
    """A command of a member, or of the house, which is 0."""
    fields = (("host", " h"), ("x-member", f" {member}"), ("x-moment", f" {moment}"))
    return Request("POST", target, fields + lengthened(body), body)


def read(target, member):
    """A read by a member or the house."""
    return Request("GET", target, (("host", " h"), ("x-member", f" {member}")))


def compact(value):
    """A value as compact JSON, its keys in byte order."""
    return json.dumps(value, sort_keys=True, separators=(",", ":"), ensure_ascii=False).encode()


@dataclasses.dataclass(frozen=True)
class Answer:
    """A status, the value of the body, the methods that are allowed, and whether the connection ends."""
    status: int
    value: object
    allow: str = ""
    closes: bool = False

    def text(self):
        body = compact(self.value)
        lines = [f"HTTP/1.1 {self.status} {PHRASES[self.status]}", "content-type: application/json",
                 f"content-length: {len(body)}", *([f"allow: {self.allow}"] if self.allow else []),
                 *(["connection: close"] if self.closes else []), "", ""]
        return "\r\n".join(lines).encode() + body


def gives_up(text):
    """Whether an answer tells that memory ran out, or that the store failed."""
    return text.startswith((b"HTTP/1.1 503 ", b"HTTP/1.1 500 "))


def value_of(body):
    """The value of a body, which has to be compact JSON with its keys in byte order."""
    try:
        value = json.loads(body.decode())
    except ValueError as error:
        raise Malformed(f"no JSON: {body[:200]}") from error
    if compact(value) != body:
        raise Malformed(f"not compact, or keys out of order: {body[:200]}")
    return value


def answers_in(text):
    """The texts of the answers that come one after the other, each well formed, and what follows the last."""
    found = []
    while text.startswith(BEGINS):
        head = HEAD.match(text)
        if head is None:
            raise Malformed(f"no head: {text[:200]}")
        status, end = int(head[1]), head.end() + int(head[3])
        if PHRASES.get(status, "").encode() != head[2]:
            raise Malformed(f"no status of ours: {text[:50]}")
        if (head[4] is not None) != (status == 405):
            raise Malformed(f"an allow for another status than 405, or none: {text[:200]}")
        if end > len(text):
            raise Malformed(f"a body cut short: {text[:200]}")
        value_of(text[head.end():end])
        found.append(text[:end])
        text = text[end:]
    return found, text


def next_answer(answers):
    """The text of the next answer that is read from a connection, or none where this ends before."""
    try:
        lines = list(itertools.takewhile(bool, iter(answers.readline, b"\r\n")))
        size = next((int(line.split(b":")[1]) for line in lines if line.startswith(b"content-length")), None)
        body = answers.read(size) if size is not None else b""
    except ConnectionError:
        return None
    return None if size is None or len(body) < size else b"".join(lines) + b"\r\n" + body


def replayed(program, stream, *words):
    """What `auction replay` writes on a stream with these words, which has to end without a fault."""
    result = subprocess.run([str(pathlib.Path(program).resolve()), "replay", *words], input=stream,
                            capture_output=True, timeout=PATIENCE)
    if (result.returncode, result.stderr) != (0, b""):
        raise Malformed(f"ended with {result.returncode}: {result.stderr[:200]}")
    return result.stdout
