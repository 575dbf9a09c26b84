"""Public reads of a house, asked as the house through the socket of its queue."""
import http.client
import json
import socket

FULL = 50
PATIENCE = 60


class Refused(Exception):
    """A read that the house or the queue answered with something else than a page."""


class Connection(http.client.HTTPConnection):
    """A connection to a socket of this machine."""

    def __init__(self, path):
        super().__init__("house", timeout=PATIENCE)
        self.path = path

    def connect(self):
        self.sock = socket.socket(socket.AF_UNIX)
        self.sock.settimeout(self.timeout)
        self.sock.connect(self.path)


class House:
    """A house that is served, and how often it was read."""

    def __init__(self, path):
        self.connection, self.reads = Connection(path), 0

    def read(self, path):
        self.reads += 1
        self.connection.request("GET", path, headers={"x-member": "0"})
        answer = self.connection.getresponse()
        body = answer.read()
        if answer.status != 200:
            raise Refused(f"{path}: {answer.status} {body.decode(errors='replace')}")
        return json.loads(body)

    def items_of(self, category, first):
        """The items of a category from a number on, one list of fifty after the other."""
        while True:
            found = self.read(f"/categories/{category}/items/{first}")["items"]
            yield from found
            if len(found) < FULL:
                return
            first = found[-1]["item"] + 1
