#!/usr/bin/env python3
"""Runs the program over streams that are whole, cut, in pieces or fail: `streams.py PROGRAM`.

Each has to be answered what the house's rules say, worked out by hand, and by the fault of its frame where it goes on with what
is no message. Reads are made short, and failed in turn, by short_reads.c, which needs a C compiler, `cc`. The last line is 'N
streams, M wrong'.

Among them: streams cut after each byte, with the record where it is the first message; in pieces; of 10,001 bids; with each read
failed in turn. Heads of 8,191, 8,192 and 8,193 bytes by their target, by a field, by empty lines first, and before the longest
body. 36 broken frames, first and after a bid, the known ways in which two readers are made to see different messages among them:
two lengths, a length and a coding, folded lines, a bare CR, a space before the colon, signs and lists in a length. Ten bodies
that are no object, messages among them.

Promise: bytes to bytes
"""
import contextlib
import os
import pathlib
import subprocess
import sys
import tempfile

from lib.sent import PATIENCE

HERE = pathlib.Path(__file__).resolve().parent

def bid(member, moment, maximum):
    body = b'{"maximum":%d}' % maximum
    return (b"POST /items/1/bids HTTP/1.1\r\nhost: h\r\nx-member: %d\r\nx-moment: %d\r\n"
            b"content-length: %d\r\n\r\n%s" % (member, moment, len(body), body))


def read(member):
    return b"GET /items/1 HTTP/1.1\r\nhost: h\r\nx-member: %d\r\n\r\n" % member


def answer(status, body):
    return (b"HTTP/1.1 %s\r\ncontent-type: application/json\r\ncontent-length: %d\r\n\r\n%s"
            % (status, len(body), body))


def fault(status, word):
    """The answer to a broken frame, which ends the stream."""
    body = b'{"error":"%s"}' % word
    return (b"HTTP/1.1 %s\r\ncontent-type: application/json\r\ncontent-length: %d\r\nconnection: close\r\n\r\n%s"
            % (status, len(body), body))


def placed(count, floor, leader, price):
    return answer(b"201 Created", b'{"count":%d,"floor":%d,"leader":%d,"price":%d}'
                  % (count, floor, leader, price))


def page(count):
    """The page of the item after so many bids of member 2 alone, the first of them 500."""
    return answer(b"200 OK", b'{"buy_now":null,"category":1,"closed":null,"count":%d,"edition":1,'
                  b'"end":5000,"floor":550,"item":1,"leader":2,"lot":"A1","met":null,"price":500,"seller":1,"start":500,'
                  b'"state":"open","text":"","title":"Atlas"}' % count)


FIRST, PLACED = bid(2, 1001, 500), placed(1, 550, 2, 500)

HEAD, END = fault(b"400 Bad Request", b"head"), fault(b"400 Bad Request", b"end")

LENGTH, HOST = fault(b"400 Bad Request", b"length"), fault(b"400 Bad Request", b"host")
TRANSFER, SIZE = fault(b"501 Not Implemented", b"transfer"), fault(b"413 Content Too Large", b"size")

NO_PATH, NO_JSON = answer(b"404 Not Found", b'{"error":"path"}'), answer(b"400 Bad Request", b'{"error":"json"}')


def close(*fields):
    """A close with these fields."""
    return b"POST /close HTTP/1.1\r\nhost: h\r\n" + b"".join(field + b"\r\n" for field in fields) + b"\r\n"


# Texts that are no message, whatever follows them, and what is answered to each. Among them are the ways in which
# two readers of one stream have been made to see different messages: by two lengths, by a length and a coding, by
# a length or a line that one of them reads otherwise (RFC 9112, 11.2).
NO_MESSAGES = [
    (b"GET  /items/1 HTTP/1.1\r\nhost: h\r\n\r\n", HEAD),
    (b"GET /items/1 HTTP/2.0\r\nhost: h\r\n\r\n", HEAD),
    (b"GET /items/1\r\n\r\n", HEAD),
    (b"GET /items/1 HTTP/1.1\rhost: h\r\r", HEAD),
    (b"GET /items/1 HTTP/1.1\r\nhost : h\r\n\r\n", HEAD),
    (b"GET /items/1 HTTP/1.1\r\n host: h\r\n\r\n", HEAD),
    (b"GET /items/1 HTTP/1.1\r\nhost: h\r\na: b\r\n c\r\n\r\n", HEAD),
    (b"GET /items/1 HTTP/1.1\r\nhost: h\r\na: b\rc\r\n\r\n", HEAD),
    (b"GET /items/1 HTTP/1.1\r\nhost: h\r\na: b\0c\r\n\r\n", HEAD),
    (b"GET /items/1 HTTP/1.1\r\nhost: h\r\na\r\n\r\n", HEAD),
    (b"GET /items/1 HTTP/1.1\r\nhost: h\r\n: b\r\n\r\n", HEAD),
    (b"GET /items/1 HTTP/1.1\r\nhost: h\r\n" + b"a: b\r\n" * 64 + b"\r\n", HEAD),
    (b"GET /items/1 HTTP/1.1\r\nhost: h\r\na: " + b"b" * 8192 + b"\r\n\r\n", HEAD),
    (b"GET /" + b"a" * 8192 + b" HTTP/1.1\r\nhost: h\r\n\r\n", HEAD),
    (close(b"transfer-encoding : chunked"), HEAD),
    (close(b"content-length : 0"), HEAD),
    (b"GET /items/1 HTTP/1.1\r\nx-member: 2\r\n\r\n", HOST),
    (close(b"Host: h"), HOST),
    (close(b"transfer-encoding: chunked"), TRANSFER),
    (close(b"Transfer-Encoding:\tidentity"), TRANSFER),
    (close(b"content-length: 0", b"transfer-encoding: chunked"), TRANSFER),
    (close(b"transfer-encoding: chunked", b"content-length: 0"), TRANSFER),
    (close(b"content-length: 0", b"content-length: 0"), LENGTH),
    (close(b"content-length: 0", b"Content-Length: 16"), LENGTH),
    *((close(b"content-length: " + value), LENGTH)
      for value in (b"", b"-1", b"+0", b"0x0", b"0,0", b"0 0", b"0;", b"1e1", b"0.0", "\u0660".encode())),
    (close(b"content-length: 16385"), SIZE),
    (close(b"content-length: " + b"9" * 100), SIZE),
]


def command(body):
    """A bid with a body of these bytes, as its sender tells their number."""
    return (b"POST /items/1/bids HTTP/1.1\r\nhost: h\r\nx-member: 2\r\nx-moment: 1001\r\n"
            b"content-length: %d\r\n\r\n%s" % (len(body), body))


# Bodies that are no object of JSON, after which the connection goes on, whatever else they look like.
NO_OBJECTS = [b"", b" " * 16_384, b"[" * 200 + b"]" * 200, b"\r\n\r\n", b"0\r\n\r\n", read(3), bid(3, 1002, 900),
              b'{"maximum":500}0', b'{"maximum":500', b"\xef\xbb\xbf{}"]


# The public record of the house that `--preset` stands for.
TABLE = (b'[{"at":0,"step":5},{"at":100,"step":25},{"at":500,"step":50},{"at":2500,"step":100},'
         b'{"at":10000,"step":250},{"at":25000,"step":500},{"at":50000,"step":1000},{"at":100000,"step":2500},'
         b'{"at":250000,"step":5000},{"at":500000,"step":10000}]')
RECORD = (b'{"bands":%s,"categories":[{"category":1,"name":"Books"}],' % TABLE +
          b'"clock":1000,"editions":[{"bands":%s,"edition":1}],"feedback":[],' % TABLE +
          b'"items":[{"buy_now":null,"category":1,"closed":null,"count":0,"edition":1,"end":5000,'
          b'"floor":500,"item":1,"leader":null,"lot":"A1","met":null,"price":500,"seller":1,"start":500,'
          b'"state":"open","text":"","title":"Atlas"}],"members":[{"member":1,"name":"Ana"},{"member":2,"name":"Ben"},'
          b'{"member":3,"name":"Cid"}],"questions":[],"rate":1000,"zone":"UTC0"}\n')


def long_heads():
    """A read and a bid with heads of some bytes: what they are, the message, and what is answered."""
    bid_first, spaces = command(b" " * 16_384).split(b"\r\n", 1)
    for size in (8191, 8192, 8193):
        target = b"GET /%s HTTP/1.1\r\nhost: h\r\n\r\n"
        target %= b"a" * (size - len(target % b""))
        field = read(2)[:-2] + b"a: %s\r\n\r\n"
        field %= b"b" * (size - len(field % b""))
        lines = b"\r\n" * ((size - len(read(2))) // 2)
        lines += b"\n" * (size - len(lines + read(2))) + read(2)
        # With the body that is the longest.
        longest = bid_first + b"\r\na: %s\r\n" + spaces
        longest %= b"b" * (size + 16_384 - len(longest % b""))
        fits = size <= 8192
        yield f"a target in a head of {size}", target, NO_PATH if fits else HEAD
        yield f"a field in a head of {size}", field, page(1) if fits else HEAD
        yield f"empty lines in a head of {size}", lines, page(1) if fits else HEAD
        yield f"the longest body after a head of {size}", longest, NO_JSON if fits else HEAD


def cut_short(message, cut):
    """What is answered where a message is cut short."""
    return END if cut >= message.index(b"\r\n\r\n") + 4 else HEAD


def whole_streams():
    """Streams and what is answered to them."""
    yield "nothing", b"", b""
    for text, answers in NO_MESSAGES:
        yield f"no message {text[:100]}", text + read(2), answers
        yield f"a bid and no message {text[:100]}", FIRST + text + read(2), PLACED + answers
    for body in NO_OBJECTS:
        yield f"no object {body[:100]}", FIRST + command(body) + read(2), PLACED + NO_JSON + page(1)
    for name, text, answers in long_heads():
        yield name, FIRST + text + read(2), PLACED + answers + (page(1) if answers != HEAD else b"")
    yield "64 fields", FIRST + read(2)[:-2] + b"a: b\r\n" * 62 + b"\r\n", PLACED + page(1)
    # Cut inside the second message: in its head, or in its body.
    second = bid(3, 1002, 549)
    for cut in range(len(second)):
        yield f"second cut at {cut}", FIRST + second[:cut], PLACED + (cut_short(second, cut) if cut else b"")
    bids = b"".join(bid(2, 1001, maximum) for maximum in range(500, 10_501))
    counts = b"".join(placed(count, 550, 2, 500) for count in range(1, 10_001))
    yield "10001 bids", bids, counts + answer(b"409 Conflict", b'{"error":"Limit","number":19}')


def pieces():
    """A stream of bids and reads that ends inside a head, and what is answered."""
    stream, answers = b"", b""
    for count in range(1, 101):
        stream += bid(2, 1001, 499 + count) + read(3)
        answers += placed(count, 550, 2, 500) + page(count)
    return stream + b"GET", answers + HEAD


@contextlib.contextmanager
def built_library():
    """The library that makes reads short, built into a folder that goes again."""
    with tempfile.TemporaryDirectory() as folder:
        library = f"{folder}/short_reads.so"
        subprocess.run(["cc", "-shared", "-fPIC", "-O1", "-o", library,
                        str(HERE / "short_reads.c"), "-ldl"], check=True)
        yield library


def cases(library, table):
    """Each case: its name, more words, the stream, what is set for the run, and how it has to end."""
    for name, stream, answers in whole_streams():
        yield name, [], stream, {}, (0, answers, b"")
    # A first bid that is cut leaves the house as it was.
    for cut in range(1, len(FIRST)):
        yield f"cut at {cut}", ["--record"], FIRST[:cut], {}, (0, cut_short(FIRST, cut) + RECORD, b"")
    yield ("a table of one band", ["--bands", table], FIRST + bid(3, 1002, 1000), {},
           (0, placed(1, 600, 2, 500) + placed(2, 700, 3, 600), b""))
    stream, answers = pieces()
    for most in (1, 2, 7, 104, 4096, 8191, 8192, 24575, 24576):
        yield (f"pieces of {most}", [], stream, {"LD_PRELOAD": library, "READ_MOST": str(most)},
               (0, answers, b""))
    # The bid comes in so many reads, and one more finds the end.
    reads = -(-len(FIRST) // 7)
    for calls in range(reads + 1):
        answers = PLACED if calls >= reads else b""
        # No record follows a reader that has failed.
        for words in ([], ["--record"]):
            yield (f"{calls} reads {words}", words, FIRST,
                   {"LD_PRELOAD": library, "READ_MOST": "7", "READ_CALLS": str(calls)},
                   (1, answers, b"auction: input: Read\n"))


def main():
    program = str(pathlib.Path(sys.argv[1]).resolve())
    count = wrong = 0
    with built_library() as library, tempfile.NamedTemporaryFile(suffix=".csv") as table:
        table.write(b"at,step\n0,100\n")
        table.flush()
        for name, words, stream, settings, ending in cases(library, table.name):
            result = subprocess.run([program, "replay", "--preset", *words], input=stream,
                                    capture_output=True, env={**os.environ, **settings}, timeout=PATIENCE)
            count += 1
            if (result.returncode, result.stdout, result.stderr) != ending:
                wrong += 1
                print(f"{name}: {str(result)[:300]}")
    print(f"{count} streams, {wrong} wrong")
    return 1 if wrong else 0


if __name__ == "__main__":
    sys.exit(main())
