"""What it costs to read what a message asks, from the end of its frame to its command, beside plain Rust.

`asks.py PROGRAM` measures the program `test_messages`, and beside it `bench/plain`: the frame by `httparse`, the route by a match
on the path's segments, the body by `serde_json` and `derive`, on the same message, again and again: a bid, a bid whose body has
spaces, a listing, one with a null and one with an escape, and a registration. Instructions of a message are those of a thousand
more; what is asked are those of a message read whole less those of its frame alone. Times are medians of runs of both in turn, by
processor time. It needs `valgrind`, and `cargo` with Debian's packages, as `wire.sh` says.
"""
import pathlib
import subprocess
import sys

from measured import counted, in_turn, kept, medians, seconds, shown

ROOT = pathlib.Path(__file__).resolve().parent.parent
ASKS = ROOT / "bench" / "plain" / "target" / "release" / "asks"
MORE, ROUNDS = 1_000, 400_000

# Of each message its target, its member and moment, and its body.
MESSAGES = {
    "bid": ("/items/1/bids", 2, 1001, '{"maximum":500}'),
    "spaced": ("/items/1/bids", 2, 1001, '{ "maximum":500 }'),
    "list": ("/items", 1, 1000,
             '{"category":1,"end":5000,"lot":"A1","start":500,"text":"Good.","title":"Atlas"}'),
    "null": ("/items", 1, 1000,
             '{"buy_now":null,"category":1,"end":5000,"lot":"A1","start":500,"text":"Good.","title":"Atlas"}'),
    "escape": ("/items", 1, 1000,
               r'{"category":1,"end":5000,"lot":"A1","start":500,"text":"Good.\nOld.","title":"Atlas"}'),
    "name": ("/members", 0, 1000, '{"name":"Ana"}'),
}
# The line of a script that reads a message's frame, or all of it, so many times.
LINES = {"frames": "frames", "asks": "repeat"}


def script(what, message, count):
    """The lines that read a message so many times."""
    target, member, moment, body = MESSAGES[message]
    spelled = body.replace("\\", r"\x5c")
    return f"""section asks
send POST {target}
head \\r\\nx-member: {member}\\r\\nx-moment: {moment}
begin
add {spelled}
{LINES[what]} {count}
""".encode()


def text(message):
    """The bytes of a message."""
    target, member, moment, body = MESSAGES[message]
    return (f"POST {target} HTTP/1.1\r\nhost: h\r\nx-member: {member}\r\nx-moment: {moment}\r\n"
            f"content-length: {len(body)}\r\n\r\n{body}").encode()


def runs(program):
    """What a run of each program is: its words and what it is given, of what is read, a message and how often."""
    return {"ours": lambda what, message, count: ([program], script(what, message, count)),
            "plain": lambda what, message, count: ([ASKS, what, count], text(message))}


def instructions(run, what, message):
    few, many = (counted(*run(what, message, count)) for count in (MORE, 2 * MORE))
    return (many - few) / MORE


def nanoseconds(programs, what, message):
    sums = set()

    def once(run):
        time, printed = seconds(*run(what, message, ROUNDS))
        sums.add(printed)
        return time / ROUNDS * 1e9

    found = medians(in_turn(programs, once))
    if len(sums) != 1:
        sys.exit("asks.py: the programs see different messages")
    return found


def main(program):
    subprocess.run(["cargo", "build", "--release", "--offline", "--quiet"], cwd=ROOT / "bench" / "plain", check=True)
    programs = runs(str(pathlib.Path(program).resolve()))
    with kept("asks", "bench/asks.py"):
        for message in MESSAGES:
            show(programs, message)


def show(programs, message):
    """What a message costs: its frame, what it asks, and both."""
    counts = {what: {name: instructions(run, what, message) for name, run in programs.items()} for what in LINES}
    shown(f"{message}: frame", counts["frames"], "instructions")
    shown(f"{message}: what it asks", {name: counts["asks"][name] - counts["frames"][name] for name in programs}, "instructions")
    shown(f"{message}: both", counts["asks"], "instructions")
    shown(f"{message}: both", nanoseconds(programs, "asks", message), "ns", 1)


if __name__ == "__main__":
    main(*sys.argv[1:])
