"""AuctionMark's mix through the house, beside plain Rust and PostgreSQL: `auctionmark.py PROGRAM [USERS [TRANSACTIONS]]`.

`auctionmark_stream.py` says what the mix is, where its shares come from, and what stands for what the house lacks. PROGRAM is
measured through `replay`, and served, over a file in /dev/shm and over one on the disk. Beside it are the house in plain Rust, on
those messages that it knows, and PostgreSQL, on all of them, one function and one transaction a message, by `postgres.sql`; each is
left out, with a line, where its packages are missing:

    apt-get install librust-httparse-dev librust-itoa-dev librust-rusqlite-dev librust-serde-dev librust-serde-json-dev \\
        libsqlite3-dev pkg-config valgrind postgresql-15

Through `replay` instructions are counted, under valgrind, and messages a second by processor time. Served, a message is sent once
the one before is answered, by this script, and to PostgreSQL by `psql`; then all at once. Every figure is the median of some rounds
in turn, with how far the ratio went from round to round. Every answer has to have the status that the rules give it, plain Rust's
the same bytes as ours but for what it lacks, and PostgreSQL's the same body. The run takes its place in `figures.json`.
"""
import contextlib
import pathlib
import shutil
import statistics
import subprocess
import sys
import tempfile
import time

import auctionmark_stream
import postgres
import serve
import table
from lib.serving import Program
from measured import counted, in_turn, kept, seconds, shown, shown_rounds, without_lacking

# How many transactions are replayed, how many of their messages are counted, and how many are served.
REPLAYED, TALLIED, SERVED = 100_000, 10_000, 20_000
ROUNDS = 7
# Ours and plain Rust's are houses of the example's settings.
WORDS = ["replay"]
# Where the file of a house lies: in a file system in memory, and where temporary files do.
MEMORY = "/dev/shm"
PLACES = {"in memory": MEMORY, "on the disk": None}
KNOWN, LENGTH = "what plain Rust knows", b"content-length: "
# What cargo and PostgreSQL are missing for, where they are.
LEFT_OUT = "auctionmark.py: {} is left out: {}"


def texts(messages):
    return b"".join(message.text() for message in messages)


def check_statuses(who, messages, answers):
    """Ends the run where an answer has not the status that the rules give it."""
    if len(answers) != len(messages):
        sys.exit(f"auctionmark.py: {who} gives {len(answers)} answers to {len(messages)} messages")
    for message, answer in zip(messages, answers):
        if not answer.startswith(b"HTTP/1.1 %d " % message.status):
            sys.exit(f"auctionmark.py: {who} answers {answer[:200]} to {message}")


def check_same(whose, ours, others):
    for place, (one, other) in enumerate(zip(ours, others, strict=True)):
        if one != other:
            sys.exit(f"auctionmark.py: answer {place} is {one[:300]} and {whose} {other[:300]}")


class House:
    """A house of the mix, made once in memory, of which each round serves a copy in a folder."""

    def __init__(self, name, path, before, memory, folder):
        self.name, self.path, self.memory, self.folder = name, path, memory, folder
        making = Program(path, memory)
        serve.new_file(name, making, "house")
        parts = parts_of(before)
        with making.serving("house", len(parts), 3_000) as server:
            for part in parts:
                answers = answers_in(serve.exchanged(server.port, [message.text() for message in part]))
                check_statuses(name, part, answers)

    @contextlib.contextmanager
    def serving(self, connections):
        """A server of a copy, for so many connections."""
        for path in pathlib.Path(self.folder).glob("house*"):
            path.unlink()
        for path in pathlib.Path(self.memory).glob("house*"):
            shutil.copy(path, self.folder)
        with Program(self.path, self.folder).serving("house", connections, 3_000) as server:
            yield server

    def in_turn(self, messages):
        """Messages a second, each sent once the one before is answered; the answers; and the microseconds of each."""
        answers, times, parts = [], [], parts_of(messages)
        with self.serving(len(parts)) as server:
            for part in parts:
                with serve.connect(server.port) as connection:
                    for text in [message.text() for message in part]:
                        began = time.perf_counter()
                        answers.append(answer_to(connection, text))
                        times.append(1e6 * (time.perf_counter() - began))
        check_statuses(self.name, messages, answers)
        return 1e6 * len(times) / sum(times), answers, times

    def at_once(self, messages):
        """Messages a second, sent while the answers come; and the answers."""
        received, parts = b"", parts_of(messages)
        with self.serving(len(parts)) as server:
            began = time.monotonic()
            for part in parts:
                received += serve.exchanged(server.port, [message.text() for message in part])
            taken = time.monotonic() - began
        answers = answers_in(received)
        check_statuses(self.name, messages, answers)
        return len(messages) / taken, answers


class Database:
    """The same house in PostgreSQL."""

    def __init__(self, cluster, before):
        self.cluster = cluster
        self.first = cluster.load("loaded", before)

    def in_turn(self, messages):
        """Messages a second, each sent once the one before is answered; and the bodies of the answers."""
        taken, bodies = self.cluster.timed("loaded", messages)
        return len(messages) / taken, bodies


def parts_of(messages):
    """Messages in parts that one connection may send."""
    return [messages[at:at + serve.MOST] for at in range(0, len(messages), serve.MOST)]


def end_of(received, start):
    """Where the answer ends that begins there."""
    head, length = received.index(b"\r\n\r\n", start) + 4, received.index(LENGTH, start) + len(LENGTH)
    return head + int(received[length:received.index(b"\r\n", length)])


def answers_in(received):
    """The answers that stand one after the other."""
    ends = [0]
    while ends[-1] < len(received):
        ends.append(end_of(received, ends[-1]))
    return [received[start:end] for start, end in zip(ends, ends[1:])]


def answer_to(connection, text):
    """The answer to a message on a connection on which nothing else is awaited."""
    connection.sendall(text)
    received = connection.recv(1 << 16)
    end = end_of(received, 0)
    while len(received) < end:
        received += connection.recv(1 << 16)
    return received


def check_others(found):
    """That plain Rust's answers are ours but for what they lack, and PostgreSQL's the bodies of ours."""
    for name, alike in ("plain", without_lacking), ("postgres", body_of):
        if name in found:
            check_same(name, map(alike, found["ours"]), found[name] if name == "postgres" else map(alike, found[name]))


def body_of(answer):
    return answer.partition(b"\r\n\r\n")[2]


def replay(programs, messages):
    """What each program answers through `replay`, once all is as it should be."""
    stream, answers = texts(messages), {}
    for name, path in programs.items():
        output = subprocess.run([path, *WORDS], input=stream, capture_output=True, check=True).stdout
        answers[name] = answers_in(output)
        check_statuses(name, messages, answers[name])
    check_others(answers)
    return answers["ours"]


def count_replay(programs, title, before, messages):
    """Shows how many instructions a message takes."""
    first, whole = texts(before), texts(before + messages)
    shown_rounds(f"replay, {title}, a message", {
        name: [(counted([path, *WORDS], whole) - counted([path, *WORDS], first)) / len(messages)]
        for name, path in programs.items()}, "instructions")


def time_replay(programs, title, before, messages):
    """Shows how many messages a second are answered, by processor time."""
    first, whole = texts(before), texts(before + messages)
    times = in_turn(programs, lambda path: seconds([path, *WORDS], whole)[0] - seconds([path, *WORDS], first)[0], ROUNDS)
    shown_rounds(f"replay, {title}", {name: [len(messages) / time for time in rounds] for name, rounds in times.items()},
         "messages a second")


def compare_served(contenders, title, messages):
    """Messages a second in turn and at once, and how long one of each name takes."""
    found = in_turn(contenders, lambda contender: contender.in_turn(messages), ROUNDS)
    for rounds in zip(*found.values()):
        check_others({name: one[1] for name, one in zip(found, rounds)})
    shown_rounds(f"{title}, in turn", {name: [one[0] for one in rounds] for name, rounds in found.items()}, "a second")
    houses = {name: contender for name, contender in contenders.items() if isinstance(contender, House)}
    at_once = in_turn(houses, lambda house: house.at_once(messages), ROUNDS)
    for rounds in zip(*at_once.values()):
        check_others({name: one[1] for name, one in zip(at_once, rounds)})
    shown_rounds(f"{title}, at once", {name: [speed for speed, _ in rounds] for name, rounds in at_once.items()}, "a second")
    for name_asked in sorted({message.name for message in messages}):
        places = [place for place, message in enumerate(messages) if message.name == name_asked]
        shown_rounds(f"{title}, {name_asked}", {name: [statistics.median(times[place] for place in places) for _, _, times in found[name]]
                                        for name in houses}, "us", 1)


def compare_all(path, place, before, messages, answers):
    """All of the mix, beside PostgreSQL where it is there."""
    with contextlib.ExitStack() as stack:
        folder = lambda where: stack.enter_context(tempfile.TemporaryDirectory(dir=where))
        contenders = {"ours": House("ours", path, before, folder(MEMORY), folder(PLACES[place]))}
        if postgres.is_there():
            cluster = stack.enter_context(postgres.running(pathlib.Path(folder(PLACES[place]))))
            contenders["postgres"] = Database(cluster, before)
            check_others({"ours": answers[:len(before)], "postgres": contenders["postgres"].first})
        else:
            print(LEFT_OUT.format("PostgreSQL", "postgresql-15 isn't there"))
        compare_served(contenders, f"{place}, all", messages)


def compare_known(programs, place, before, messages):
    """What plain Rust knows of the mix, beside it where it is there."""
    with contextlib.ExitStack() as stack:
        folder = lambda where: stack.enter_context(tempfile.TemporaryDirectory(dir=where))
        compare_served({name: House(name, path, before, folder(MEMORY), folder(PLACES[place])) for name, path in programs.items()},
               f"{place}, {KNOWN}", messages)


def plain_house():
    """The house in plain Rust, or none."""
    with contextlib.suppress(FileNotFoundError, subprocess.CalledProcessError):
        return {"plain": str(table.plain_house())}
    print(LEFT_OUT.format("plain Rust", "cargo can't build it"))
    return {}


def main(program, users=auctionmark_stream.USERS, transactions=REPLAYED):
    ours = {"ours": str(pathlib.Path(program).resolve())}
    both = {**ours, **plain_house()}
    before, messages = auctionmark_stream.made(int(transactions), int(users))
    known_before, known = auctionmark_stream.known_to_plain_rust(before), auctionmark_stream.known_to_plain_rust(messages)
    with kept("auctionmark", "bench/auctionmark.py"):
        answers = replay(ours, before + messages)
        replay(both, known_before + known)
        for programs, title, first, then in (ours, "all", before, messages), (both, KNOWN, known_before, known):
            count_replay(programs, title, first, then[:TALLIED])
            time_replay(programs, title, first, then)
        for place in PLACES:
            compare_all(ours["ours"], place, before, messages[:SERVED], answers)
            compare_known(both, place, known_before, known[:SERVED])


if __name__ == "__main__":
    main(*sys.argv[1:])
