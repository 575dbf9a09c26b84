"""How large the file of a house is: `sizes.py PROGRAM`.

The houses are those of `serve.py`, of up to 100,000 items, and smaller ones with five bids on each item. A file is looked at once the
program has ended, when it alone is the house. Sizes don't depend on the machine. The bytes of a bid are what five bids on each item add,
by five and by the number of items.
"""
import pathlib
import sys
import tempfile

import serve
from lib.sent import command, compact
from lib.serving import Program
from measured import kept, shown

SIZES, WITH_BIDS, BIDS = [0, 1_000, 10_000, 100_000], [1_000, 10_000, 100_000], 5
# Sellers and bidders are the preset's.
MEMBERS = 3


def bid_texts(items):
    """Five bids on each item, by the two members in turn who don't sell it, in parts that one connection may send."""
    texts = [command(f"/items/{number}/bids", (number + place % 2 + 1) % MEMBERS + 1, 1_001, compact({"maximum": 1_000 * (place + 1)})).text()
             for number in range(1, items + 1) for place in range(BIDS)]
    return [texts[at:at + serve.MOST] for at in range(0, len(texts), serve.MOST)]


def bytes_of(program, parts):
    """How many bytes the file of a house has that such messages make."""
    serve.new_file("ours", program, "house")
    if parts:
        with program.serving("house", len(parts), 3_000) as server:
            for part in parts:
                if serve.exchanged(server.port, part).count(b"HTTP/1.1 201 ") != len(part):
                    sys.exit("sizes.py: a house is not made")
    return (pathlib.Path(program.folder) / "house").stat().st_size


def main(path):
    with kept("sizes", "bench/sizes.py"), tempfile.TemporaryDirectory(dir="/dev/shm") as folder:
        program = Program(str(pathlib.Path(path).resolve()), folder)
        alone = {items: bytes_of(program, serve.house_texts(items) if items else []) for items in SIZES}
        for items, size in alone.items():
            shown(f"{items} items", {"ours": size / 1e6}, "MB", 2)
        for items in WITH_BIDS:
            size = bytes_of(program, serve.house_texts(items) + bid_texts(items))
            shown(f"{items} items with five bids", {"ours": size / 1e6}, "MB", 2)
            shown(f"a bid, among {items} items", {"ours": (size - alone[items]) / items / BIDS}, "bytes")


if __name__ == "__main__":
    main(*sys.argv[1:])
