"""The program, run in a folder and served over TCP, and messages for a house that have every command."""
import contextlib
import os
import socket
import subprocess
import threading

from lib.sent import PATIENCE

SETTINGS = ["--rate", "2000", "--zone", "CET-1"]


def message(method, path, member, moment=None, body=""):
    fields = [f"{method} {path} HTTP/1.1", "host: h", f"x-member: {member}"]
    fields += [f"x-moment: {moment}"] if moment is not None else []
    fields += [f"content-length: {len(body)}"] if body else []
    return ("\r\n".join(fields) + "\r\n\r\n" + body).encode()


# All thirteen commands: two members, a category, an item, bids, a watch, a question, a band table, another item that is watched,
# bought and watched no more, a close, a settlement and feedback; and pages.
MESSAGES = [
    message("POST", "/members", 0, 1000, '{"name":"Ana"}'),
    message("POST", "/members", 0, 1000, '{"name":"Ben"}'),
    message("POST", "/categories", 0, 1000, '{"name":"Books"}'),
    message("POST", "/items", 1, 1000,
            '{"category":1,"end":5000,"lot":"A1","start":500,"text":"","title":"Atlas"}'),
    message("POST", "/items/1/bids", 2, 1001, '{"maximum":500}'),
    message("POST", "/items/1/watch", 2, 1001),
    message("POST", "/items/1/questions", 2, 1002, '{"text":"Is it signed?"}'),
    message("POST", "/items/1/questions/2/1/answer", 1, 1003, '{"text":"No"}'),
    message("POST", "/items/1/bids", 2, 1004, '{"maximum":400}'),
    message("POST", "/bands", 0, 1004, '{"bands":[{"at":0,"step":50},{"at":1000,"step":100}]}'),
    message("POST", "/items", 1, 1004,
            '{"buy_now":900,"category":1,"end":5000,"lot":"B2","reserve":700,"start":500,"text":"","title":"Globe"}'),
    message("POST", "/items/2/watch", 2, 1004),
    message("POST", "/items/2/purchase", 2, 1005),
    message("POST", "/items/2/unwatch", 2, 1005),
    message("POST", "/close", 0, 5000),
    message("POST", "/items/1/settle", 0, 5001),
    message("POST", "/items/1/feedback", 2, 5002, '{"rating":1,"text":"Good"}'),
    message("GET", "/items/1", 2),
    message("GET", "/me/bids/1", 2),
    message("GET", "/me/reserves/1", 1),
    message("GET", "/me/statement/1970-01-01/1970-01-01", 1),
]

# Those that read.
READS = MESSAGES[-4:]
# A read of each thing that the messages before the reads leave.
SIGHTS = [*READS, message("GET", "/members/2", 1), message("GET", "/me/watches", 2),
          message("GET", "/me/questions/1", 2), message("GET", "/items/1/questions/1", 2),
          message("GET", "/members/1/feedback/1", 2), message("GET", "/categories", 1),
          message("GET", "/house", 1)]

# The example table, and the messages that `--preset` stands for.
EXAMPLE = [(0, 5), (100, 25), (500, 50), (2500, 100), (10000, 250), (25000, 500), (50000, 1000), (100000, 2500),
           (250000, 5000), (500000, 10000)]
PRESET = [message("POST", "/members", 0, 1000, '{"name":"%s"}' % name) for name in ("Ana", "Ben", "Cid")]
PRESET += MESSAGES[2:4]


class Server:
    """A program that serves: its port, its process, whether it listens, and how it ended, once it has."""

    def __init__(self, port, process):
        self.port, self.process, self.is_listening, self.ending = port, process, False, None


class Program:
    """The program, run in a folder; `before` is done by its process first, which has more in its environment."""

    def __init__(self, path, folder, before=None, environment=()):
        self.path, self.folder, self.before = path, folder, before
        self.environment = {**os.environ, **dict(environment)}

    def ended(self, *words, given=b""):
        """How a run ends: its status, and what it wrote to standard output and to standard error."""
        result = subprocess.run([self.path, *words], input=given, cwd=self.folder, capture_output=True, timeout=PATIENCE,
                                preexec_fn=self.before, env=self.environment)
        return result.returncode, result.stdout, result.stderr

    @contextlib.contextmanager
    def serving(self, file, count, seconds=PATIENCE):
        """A server of so many connections, which has ended after this, unless it is killed before or never ends."""
        with held_port() as port:
            process = subprocess.Popen([self.path, "serve", file, "--port", str(port), "--count", str(count)],
                                       cwd=self.folder, stdout=subprocess.PIPE, stderr=subprocess.PIPE,
                                       preexec_fn=self.before, env=self.environment)
            watch = threading.Timer(seconds, process.kill)
            watch.start()
            server = Server(port, process)
            try:
                first = process.stdout.readline()
                server.is_listening = first == b"listening\n"
                yield server
                rest, error = process.communicate()
                server.ending = process.returncode, first + rest, error
            finally:
                watch.cancel()
                process.kill()
                process.wait()

    def answers(self, file, streams):
        """What each stream is answered, sent over a connection of its own; and how serving ends."""
        with self.serving(file, len(streams)) as server:
            replies = [exchange(server.port, stream) for stream in streams]
        return replies, server.ending


@contextlib.contextmanager
def held_port():
    """A port that a server may take, and nobody else: it is bound here too, where nobody listens, and both say that they
    share it. The kernel gives a port that is bound to nobody who asks for any."""
    with socket.socket() as holder:
        holder.setsockopt(socket.SOL_SOCKET, socket.SO_REUSEADDR, 1)
        holder.bind(("127.0.0.1", 0))
        yield holder.getsockname()[1]


def exchange(port, stream, may_reset=False):
    """Sends a stream and then the end of it, and reads what is answered, up to a reset where that may come; a stream that is
    None is reset before it sends anything."""
    with socket.create_connection(("127.0.0.1", port), timeout=PATIENCE) as connection:
        if stream is None:
            connection.setsockopt(socket.SOL_SOCKET, socket.SO_LINGER, b"\1\0\0\0\0\0\0\0")
            return None
        # Answers are read meanwhile: else neither side goes on where they are long.
        sending = threading.Thread(target=send, args=(connection, stream))
        sending.start()
        received = read_all(connection, may_reset)
        sending.join()
        return received


def read_all(connection, may_reset=False):
    received = b""
    with contextlib.suppress(ConnectionResetError) if may_reset else contextlib.nullcontext():
        for piece in iter(lambda: connection.recv(65536), b""):
            received += piece
    return received


def send(connection, stream):
    # A server that has ended takes no more.
    with contextlib.suppress(OSError):
        connection.sendall(stream)
        connection.shutdown(socket.SHUT_WR)


def served(count):
    """How serving so many connections ends."""
    return 0, b"listening\nserved %d\n" % count, b""


# How serving ends after a connection on which the store failed, and what is answered on it from then on.
STORE_FAILED = 1, b"listening\n", b"auction: file: Store\n"
FAILED = (b"HTTP/1.1 500 Internal Server Error\r\ncontent-type: application/json\r\ncontent-length: 17\r\n\r\n"
          b'{"error":"store"}')


def fault(line):
    return 1, b"", f"auction: {line}\n".encode()
