#!/usr/bin/env python3
"""Counts how many connections of an address get in by rules of nft: `let_in.py RULES MOST MORE`, in a network of its own.

It loads the rules, takes what comes to port 443, and has MORE than the MOST that they let in try. gateway_connections.py runs it.
"""
import contextlib
import json
import socket
import subprocess
import sys
import threading

PATH = "/usr/sbin:/usr/bin:/sbin:/bin"
# How long a connection that is dropped is waited for, in seconds.
PATIENCE = 0.5


def listen(most):
    """Takes what comes, and ends a connection when its client does."""
    listener = socket.create_server(("::", 443), family=socket.AF_INET6, dualstack_ipv6=True, backlog=most)

    def serve(connection):
        with connection:
            connection.recv(1)

    def accept():
        while True:
            threading.Thread(target=serve, args=(listener.accept()[0],), daemon=True).start()

    threading.Thread(target=accept, daemon=True).start()


def let_in(ending, address, count):
    """How many of so many connections of an address get in. They stay until the end."""
    inside = 0
    for _ in range(count):
        family = socket.AF_INET6 if ":" in address else socket.AF_INET
        connection = ending.enter_context(contextlib.closing(socket.socket(family)))
        connection.settimeout(PATIENCE)
        connection.bind((address, 0))
        with contextlib.suppress(OSError):
            connection.connect(("::1" if ":" in address else "127.0.0.1", 443))
            inside += 1
    return inside


def main(rules, most, more):
    for words in (["ip", "link", "set", "lo", "up"], ["nft", "-f", rules]):
        subprocess.run(words, check=True, env={"PATH": PATH})
    listen(most)
    counts = {}
    with contextlib.ExitStack() as ending:
        counts["127.0.0.1"] = let_in(ending, "127.0.0.1", most + more)
        counts["127.0.0.2"] = let_in(ending, "127.0.0.2", 1)
        counts["::1"] = let_in(ending, "::1", most + more)
    with contextlib.ExitStack() as ending:
        counts["127.0.0.1 once they have ended"] = let_in(ending, "127.0.0.1", more)
    print(json.dumps(counts))


if __name__ == "__main__":
    main(sys.argv[1], int(sys.argv[2]), int(sys.argv[3]))
