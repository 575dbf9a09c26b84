#!/usr/bin/env python3
"""Makes houses in files and serves them over TCP: `served.py PROGRAM [CASES]`.

What connections are answered has to be what `replay` answers to the same messages, also where the house is ended and served again
between them; and each fault of `init` and `serve` has its line and its exit status. CASES is a folder of stored cases of
`replay`, as `make cases` runs them: a house that is set up by the words of a case has to be answered what the case was. The last
line is 'N checks, M wrong'.

Twenty messages come in one, three and twenty connections, and then the house is ended and served again for each, with a
connection that is reset before it and one that goes on after what is no message. So are houses that have the worked rows of
reserves, in tests/lib/worked.py. Outputs of both are full, and one is closed after its first line. Of 10,001 messages of one
connection 10,000 are answered. While the last connection is served, another is refused. A server that is stopped while it waits
for a message, or for room for its answers, goes on with them.

Promise: bytes to bytes
"""
import contextlib
import os
import pathlib
import signal
import socket
import subprocess
import sys
import tempfile
import threading
import time

from lib import worked
from lib.checks import check, verdict
from lib.sent import PATIENCE, answers_in
from lib.serving import (EXAMPLE, MESSAGES, PRESET, READS, SETTINGS, Program, exchange, fault, held_port, message, read_all, send,
                         served)


def compare(program, init):
    """Compares what is served with what `replay` answers."""
    for number, pieces in enumerate([1, 3, len(MESSAGES)]):
        file = f"house-{number}"
        check(f"{file} made", program.ended("init", file, *init), (0, b"created\n", b""))
        size = -(-len(MESSAGES) // pieces)
        streams = [b"".join(MESSAGES[at:at + size]) for at in range(0, len(MESSAGES), size)]
        wanted = program.ended("replay", *init, given=b"".join(MESSAGES))
        replies, ending = program.answers(file, streams)
        check(f"{file} served", (0, b"".join(replies), b""), wanted)
        check(f"{file} ended", ending, served(len(streams)))
        # What is ended needs its log no more.
        (pathlib.Path(program.folder) / f"{file}-wal").unlink()
        replies, ending = program.answers(file, [b"".join(READS)])
        check(f"{file} without its log", b"".join(replies), wanted[1][-len(replies[0]):])
        check(f"{file} ended again", ending, served(1))
    # A house that is ended and served again for each message, with a connection that is reset before it.
    check("again made", program.ended("init", "again", *init), (0, b"created\n", b""))
    texts = b""
    for text in MESSAGES:
        answers, ending = program.answers("again", [None, text])
        texts += answers[1]
        check("again ended", ending, served(2))
    check("served again", (0, texts, b""), program.ended("replay", *init, given=b"".join(MESSAGES)))
    # What is no message ends its connection alone, also with more after it than is read.
    answers, ending = program.answers("again", [b"GET\r\n\r\n" + b"x" * 100_000, MESSAGES[-1]])
    replayed = program.ended("replay", *init, given=b"GET\r\n\r\n")[1]
    check("broken", answers[0], replayed)
    check("after the broken one", answers[1][:15], b"HTTP/1.1 200 OK")
    check("broken ended", ending, served(2))


def reserves_again(program):
    """The worked rows of reserves, on houses that are ended and served again for each message."""
    for number, case in enumerate(worked.reserves()):
        init = ["--bands", "example.csv", "--rate", "1000", "--zone", case.zone]
        check(f"{case.name}, made", program.ended("init", f"reserves-{number}", *init), (0, b"created\n", b""))
        for request, answer in worked.steps(case)[1]:
            replies, ending = program.answers(f"reserves-{number}", [request.text()])
            check(f"{case.name}: {request.text()}", (replies[0], ending), (answer.text(), served(1)))


def faults(program, init):
    """Each fault of `init` and `serve`."""
    folder = pathlib.Path(program.folder)
    check("made", program.ended("init", "house", *init), (0, b"created\n", b""))
    before = (folder / "house").read_bytes()
    check("made twice", program.ended("init", "house", *init), fault("file: Damaged"))
    check("made twice, the file", (folder / "house").read_bytes(), before)
    wrong = ["--bands", "missing.csv", "--rate", "1000", "--zone", "nowhere"]
    check("bands first", program.ended("init", "house", *wrong), fault("bands: Device"))
    wrong[1] = "bands.csv"
    check("zone second", program.ended("init", "house", *wrong), fault("zone"))
    check("a folder", program.ended("init", ".", *init), fault("file: Store"))
    # A file is looked at before a port.
    words = ["--port", "1", "--count", "1"]
    check("missing", program.ended("serve", "missing", *words), fault("file: Store"))
    check("still missing", (folder / "missing").exists(), False)
    (folder / "empty").write_bytes(b"")
    check("empty", program.ended("serve", "empty", *words), fault("file: Damaged"))
    (folder / "text").write_bytes(b"This is no house. " * 1000)
    check("a text", program.ended("serve", "text", *words), fault("file: Damaged"))
    with socket.create_server(("127.0.0.1", 0)) as server:
        words[1] = str(server.getsockname()[1])
        check("a taken port", program.ended("serve", "house", *words), fault("socket"))


def lost_output(program, init):
    """How `init` and `serve` end whose output is full, or is closed after its first line."""
    wanted = 1, b"auction: output: Write\n"
    with held_port() as port:
        words = ["--port", str(port), "--count", "1"]
        for name, run in (("init", ["init", "untold", *init]), ("serve", ["serve", "house", *words])):
            with open("/dev/full", "wb") as full:
                result = subprocess.run([program.path, *run], cwd=program.folder, stdout=full, stderr=subprocess.PIPE,
                                        timeout=PATIENCE)
            check(f"{name} with a full output", (result.returncode, result.stderr), wanted)
        process = subprocess.Popen([program.path, "serve", "untold", *words], cwd=program.folder, restore_signals=False,
                                   stdout=subprocess.PIPE, stderr=subprocess.PIPE)
        check("what is made untold is served", process.stdout.readline(), b"listening\n")
        process.stdout.close()
        exchange(port, READS[0])
        check("an output that is closed", (process.wait(PATIENCE), process.stderr.read()), wanted)


def most(program):
    """A connection has so many messages answered, and not one more."""
    replies, ending = program.answers("house", [READS[0] * 10_001])
    check("the most of a connection", replies[0].count(b"HTTP/1.1 "), 10_000)
    check("the most ended", ending, served(1))


def last(program):
    """Once the last connection has come, others are refused, so that none waits for a server that ends."""
    with (program.serving("house", 1) as server,
          socket.create_connection(("127.0.0.1", server.port), timeout=PATIENCE) as connection):
        connection.sendall(READS[0])
        check("the last is answered", connection.recv(65536)[:9], b"HTTP/1.1 ")
        try:
            socket.create_connection(("127.0.0.1", server.port), timeout=PATIENCE).close()
            check("another is refused meanwhile", "taken", "refused")
        except ConnectionRefusedError:
            check("another is refused meanwhile", "refused", "refused")
    check("the last ended", server.ending, served(1))


def in_state(process, state):
    """Waits until a process is in a state for a while: S as it waits for its connection, and T once it is stopped."""
    times = 0
    while times < 5:
        text = pathlib.Path(f"/proc/{process.pid}/stat").read_text()
        times = times + 1 if text.rpartition(")")[2].split()[0] == state else 0
        time.sleep(0.01)


@contextlib.contextmanager
def stopped(process):
    """A process that waits, and is stopped meanwhile."""
    in_state(process, "S")
    process.send_signal(signal.SIGSTOP)
    in_state(process, "T")
    yield
    process.send_signal(signal.SIGCONT)


def stops(program, init):
    """A server that is stopped as it waits, for each message and for room for its answers, loses none."""
    check("stopped made", program.ended("init", "stopped", *init), (0, b"created\n", b""))
    # Seven million bytes of answers are more than the system holds of a connection.
    terms = '{"category":1,"end":9000,"lot":"C3","start":500,"text":"%s","title":"Map"}' % ("x" * 1000)
    messages = [*MESSAGES, message("POST", "/items", 1, 5003, terms)]
    reads = message("GET", "/items/3", 2) * 5000
    wanted = program.ended("replay", *init, given=b"".join(messages) + reads)[1]
    received = b""
    with program.serving("stopped", 1) as server, socket.socket() as connection:
        connection.setsockopt(socket.SOL_SOCKET, socket.SO_RCVBUF, 4096)
        connection.settimeout(PATIENCE)
        connection.connect(("127.0.0.1", server.port))
        for number, text in enumerate(messages):
            with stopped(server.process):
                connection.sendall(text)
            while len(answers_in(received)[0]) <= number:
                received += connection.recv(65536)
        sending = threading.Thread(target=send, args=(connection, reads))
        sending.start()
        with stopped(server.process):
            pass
        received += read_all(connection)
        sending.join()
    check("stopped answers", received, wanted)
    check("stopped ended", server.ending, served(1))


def setting(words, name, default):
    """What a word of a case is set to."""
    return words[words.index(name) + 1] if name in words else default


def compare_case(program, args, file):
    """Compares what a house in a file is answered with what a stored case of `replay` was."""
    words = args.read_text().splitlines()
    bands = str(args.parent / setting(words, "--bands", "")) if "--bands" in words else "example.csv"
    init = ["--bands", bands, "--rate", setting(words, "--rate", "1000"), "--zone", setting(words, "--zone", "UTC0")]
    error, wanted = args.with_suffix(".err").read_bytes(), args.with_suffix(".out").read_bytes()
    made = program.ended("init", file, *init)
    check(f"{args.stem} made", made, (1, b"", error) if error else (0, b"created\n", b""))
    if error:
        return
    streams = [b"".join(PRESET)] if "--preset" in words else []
    streams.append(args.with_suffix(".in").read_bytes())
    replies, ending = program.answers(file, streams)
    # The record, which no connection gives, begins with the bands.
    record = wanted.rfind(b'{"bands":') if "--record" in words else len(wanted)
    check(f"{args.stem} answered", replies[-1], wanted[:record])
    check(f"{args.stem} ended", ending, served(len(streams)))
    os.remove(pathlib.Path(program.folder) / file)


def main():
    with tempfile.TemporaryDirectory() as folder:
        (pathlib.Path(folder) / "bands.csv").write_text("at,step\n0,5\n100,25\n500,50\n")
        program = Program(str(pathlib.Path(sys.argv[1]).resolve()), folder)
        init = ["--bands", "bands.csv", *SETTINGS]
        rows = "".join(f"{at},{step}\n" for at, step in EXAMPLE)
        (pathlib.Path(folder) / "example.csv").write_text("at,step\n" + rows)
        compare(program, init)
        reserves_again(program)
        faults(program, init)
        lost_output(program, init)
        most(program)
        last(program)
        stops(program, init)
        if len(sys.argv) > 2:
            for args in sorted(pathlib.Path(sys.argv[2]).resolve().glob("*.args")):
                compare_case(program, args, "case")
    return verdict()


if __name__ == "__main__":
    sys.exit(main())
