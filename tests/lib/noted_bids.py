"""Bids on a house over one kept connection, each of which is noted once it is answered."""
import json
import socket
import time

from lib.sent import PATIENCE, command, compact, next_answer, read

END = 4_102_444_800
# A connection takes 10,000 messages.
MOST = 9_999


class House:
    """A client of a house on a port, which sends so many messages over each of its connections."""

    def __init__(self, port, most=MOST):
        self.port, self.most, self.connection, self.sent = port, most, None, most

    def close(self):
        if self.connection is not None:
            self.answers.close()
            self.connection.close()

    def ask(self, request):
        if self.sent == self.most:
            self.close()
            self.connection = socket.create_connection(("127.0.0.1", self.port), timeout=PATIENCE)
            self.connection.setsockopt(socket.IPPROTO_TCP, socket.TCP_NODELAY, 1)
            self.answers, self.sent = self.connection.makefile("rb"), 0
        self.connection.sendall(request.text())
        self.sent += 1
        answer = next_answer(self.answers)
        if answer is None:
            raise ConnectionError("no answer")
        head, body = answer.split(b"\r\n\r\n", 1)
        return int(head.split()[1]), json.loads(body)

    def command(self, path, member, value):
        return self.ask(command(path, member, int(time.time()), compact(value)))


def fill(house, items):
    for name in ("Ana", "Ben", "Cid"):
        house.command("/members", 0, {"name": name})
    house.command("/categories", 0, {"name": "Books"})
    for number in range(items):
        house.command("/items", 1, {"category": 1, "lot": f"L{number}", "title": "Atlas", "text": "", "start": 500, "end": END})


def bid(house, acked, seconds, items):
    """Bids in turn, and tells how many were answered, the longest answer, and the fault that ended it."""
    standing = [house.ask(read(f"/items/{number}", 2))[1] for number in range(1, items + 1)]
    begun, count, longest = time.monotonic(), 0, 0.0
    while time.monotonic() - begun < seconds:
        number = count % items
        member = 3 if standing[number]["leader"] == 2 else 2
        maximum, sent = standing[number]["floor"], time.monotonic()
        try:
            status, answer = house.command(f"/items/{number + 1}/bids", member, {"maximum": maximum})
        except OSError as error:
            return count, longest, f"{type(error).__name__}"
        longest = max(longest, time.monotonic() - sent)
        if status != 201:
            return count, longest, f"{status} {answer}"
        acked.write(f"{number + 1} {answer['count']} {member} {maximum}\n")
        standing[number], count = answer, count + 1
    return count, longest, None
