#!/usr/bin/env python3
"""Serves a house that keeps no rules, and writes down each message that it sees: `seen_house.py serve FILE --port N ..`.

start.sh runs it in the place of the program, so it takes the same words. To whatever asks it answers a number, as the
program would to a registration, and the clock of a new house. FILE.seen has the messages as they came, each before an
empty byte.
"""
import socketserver
import sys


class Connection(socketserver.StreamRequestHandler):
    """Messages, and their answers."""

    def handle(self):
        while head := self.head():
            self.answer(head)

    def head(self):
        """The head of a message, or nothing where the connection ends."""
        head = b""
        while not head.endswith(b"\r\n\r\n"):
            line = self.rfile.readline()
            if not line:
                return b""
            head += line
        return head

    def answer(self, head):
        fields = dict(line.lower().split(b": ", 1) for line in head.split(b"\r\n")[1:-2])
        body = self.rfile.read(int(fields.get(b"content-length", 0)))
        with open(f"{sys.argv[2]}.seen", "ab") as seen:
            seen.write(head + body + b"\0")
        self.wfile.write(self.answered(head))

    def answered(self, head):
        if head.startswith(b"POST /members "):
            self.server.members += 1
        value = b'{"clock":0,"member":%d,"members":%d}' % (self.server.members, self.server.members)
        return b"HTTP/1.1 200 OK\r\ncontent-type: application/json\r\ncontent-length: %d\r\n\r\n" % len(value) + value


class House(socketserver.TCPServer):
    allow_reuse_address = True
    members = 0


def main():
    if sys.argv[1] == "init":
        open(sys.argv[2], "xb").close()
        print("created")
        return
    with House(("127.0.0.1", int(sys.argv[sys.argv.index("--port") + 1])), Connection) as house:
        print("listening", flush=True)
        house.serve_forever()


if __name__ == "__main__":
    main()
