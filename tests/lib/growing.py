"""Commands that make a row each, a client that sends them, and how many a house in a file has taken."""
import itertools
import socket

from lib.checks import check
from lib.sent import PATIENCE, command, compact, next_answer

# The tables in which the commands make rows.
GROWING = ("member", "category", "item", "bid", "watch", "question", "edition")
# The last member at whom a band table is set: a house has 99 after the first.
LAST_TABLE = 990


def commands():
    """Commands that are all accepted and make a row each, but for the bands of a table: a category, then members who each list
    an item, on which the member before bids twice, which it watches and asks about; and at each tenth a band table."""
    yield command("/categories", 0, 1000, compact({"name": "Books"}))
    yield command("/members", 0, 1000, compact({"name": "member 1"}))
    for number in itertools.count(2):
        item = number - 1
        yield command("/members", 0, 1000, compact({"name": f"member {number}"}))
        if number % 10 == 0 and number <= LAST_TABLE:
            yield command("/bands", 0, 1000, compact({"bands": [{"at": 0, "step": number}, {"at": 500, "step": 2 * number}]}))
        yield command("/items", number, 1000, compact({"category": 1, "end": 5000, "lot": f"A{item}", "reserve": 700,
                                                       "start": 500, "text": "", "title": "Atlas"}))
        for maximum in (500, 900):
            yield command(f"/items/{item}/bids", item, 1000, compact({"maximum": maximum}))
        yield command(f"/items/{item}/watch", item, 1000)
        yield command(f"/items/{item}/questions", item, 1000, compact({"text": "Is it signed?"}))


class Client:
    """Sends commands until its connection ends."""

    def __init__(self, port):
        self.connection = socket.create_connection(("127.0.0.1", port), timeout=PATIENCE)
        self.answers = self.connection.makefile("rb")

    def asks(self, text):
        """Whether a command was answered, and accepted."""
        try:
            self.connection.sendall(text)
        except ConnectionError:
            return False
        answer = next_answer(self.answers)
        if answer is None:
            return False
        check("accepted", answer.startswith((b"HTTP/1.1 200 OK\r\n", b"HTTP/1.1 201 Created\r\n")), True)
        return True


def made(tables):
    """How many commands made these rows."""
    return sum(len(tables[name]) for name in GROWING)
