#!/usr/bin/env python3
"""Has a house in a file asked by clients that everybody has: `real_clients.py PROGRAM`.

curl bids and reads with a body, with `Expect`, over HTTP/1.0, and twice over one connection; Python's http.client asks over one
connection. What they read is compared with the answers of the worked bids. It needs `curl`. The last line is 'N checks, M wrong'.

Promise: bytes to bytes
"""
import http.client
import json
import pathlib
import subprocess
import sys
import tempfile

from lib.checks import check, verdict
from lib.sent import PATIENCE
from lib.serving import PRESET, Program, exchange, served

BEN, CID = (["-H", f"x-member: {member}", "-H", "x-moment: 1002"] for member in (2, 3))

# How many connections they take, with the one over which the house is filled.
CONNECTIONS = 7


def page(count, floor, leader, price):
    """The item, after some bids."""
    return {"buy_now": None, "category": 1, "closed": None, "count": count, "edition": 1, "end": 5000, "floor": floor,
            "item": 1, "leader": leader, "lot": "A1", "met": None, "price": price, "seller": 1, "start": 500,
            "state": "open", "text": "", "title": "Atlas"}


def placed(count, floor, leader, price):
    return {"count": count, "floor": floor, "leader": leader, "price": price}


def curl(*words):
    """What curl reads, and the status and the number of new connections of each answer."""
    result = subprocess.run(["curl", "-s", "-S", "--max-time", str(PATIENCE), "-w", "\n%{http_code} %{num_connects}\n", *words],
                          capture_output=True, text=True)
    lines = result.stdout.splitlines()
    answers = [(json.loads(body), *map(int, numbers.split())) for body, numbers in zip(lines[::2], lines[1::2])]
    return answers, result.stderr


def ask_by_curl(port):
    """Asks over five connections."""
    item = f"http://127.0.0.1:{port}/items/1"
    bid = f"{item}/bids"
    check("curl bids", curl("-d", '{"maximum":500}', *BEN, bid),
          ([(placed(1, 550, 2, 500), 201, 1)], ""))
    check("curl reads", curl("-H", "x-member: 2", item), ([(page(1, 550, 2, 500), 200, 1)], ""))
    check("curl bids with Expect", curl("-d", '{"maximum":1000}', "-H", "Expect: 100-continue", *CID, bid),
          ([(placed(2, 600, 3, 550), 201, 1)], ""))
    check("curl bids over HTTP/1.0", curl("--http1.0", "-d", '{"maximum":549}', *BEN, bid),
          ([({"error": "Low", "floor": 600, "number": 9}, 409, 1)], ""))
    check("curl asks twice over a connection", curl("-H", "x-member: 3", item, item),
          ([(page(2, 600, 3, 550), 200, 1), (page(2, 600, 3, 550), 200, 0)], ""))


def ask(connection, method, path, fields, body=None):
    connection.request(method, path, body, fields)
    answer = connection.getresponse()
    return answer.status, json.loads(answer.read())


def ask_by_python(port):
    """Asks four times over one connection."""
    connection = http.client.HTTPConnection("127.0.0.1", port, timeout=PATIENCE)
    ben = {"x-member": "2", "x-moment": "1003"}
    check("python bids", ask(connection, "POST", "/items/1/bids", ben, '{"maximum":1000}'),
          (201, placed(3, 1050, 3, 1000)))
    check("python reads", ask(connection, "GET", "/items/1", {"x-member": "1"}), (200, page(3, 1050, 3, 1000)))
    check("python asks for no path", ask(connection, "GET", "/nowhere", {"x-member": "1"}), (404, {"error": "path"}))
    check("python uses another method", ask(connection, "DELETE", "/items/1", {"x-member": "1"}),
          (405, {"error": "method"}))
    connection.close()


def main():
    with tempfile.TemporaryDirectory() as folder:
        rows = ["at,step", "0,5", "100,25", "500,50", "2500,100"]
        (pathlib.Path(folder) / "bands.csv").write_text("\n".join(rows) + "\n")
        program = Program(str(pathlib.Path(sys.argv[1]).resolve()), folder)
        made = program.ended("init", "house", "--bands", "bands.csv", "--rate", "1000", "--zone", "UTC0")
        check("made", made, (0, b"created\n", b""))
        with program.serving("house", CONNECTIONS) as server:
            exchange(server.port, b"".join(PRESET))
            ask_by_curl(server.port)
            ask_by_python(server.port)
        check("ended", server.ending, served(CONNECTIONS))
    return verdict()


if __name__ == "__main__":
    sys.exit(main())
