#!/usr/bin/env python3
"""Runs the program on words and devices that are right and wrong: `program.py PROGRAM`.

Each case has its exit status, what goes to standard output and the line on standard error. Where `clap` refuses the words, its
text is only looked at for where it goes and how it begins. The least and the greatest of each number have to be taken. Faults of
each kind of line, with a number, a name or neither, are written in one call. The last line is 'N cases, M wrong'.

Promise: bytes to bytes
"""
import os
import pathlib
import socket
import subprocess
import sys
import tempfile

from lib.sent import PATIENCE

READ = b"GET /items/1 HTTP/1.1\r\nhost: h\r\nx-member: 2\r\n\r\n"
REPLAY = ["replay", "--preset"]

# The public record of a new house.
EMPTY_RECORD = (b'{"bands":[{"at":0,"step":5},{"at":100,"step":25}],"categories":[],"clock":0,'
                b'"editions":[{"bands":[{"at":0,"step":5},{"at":100,"step":25}],"edition":1}],"feedback":[],'
                b'"items":[],"members":[],"questions":[],"rate":2000,"zone":"CET-1"}\n')

# Words that are no command line.
REFUSED_WORDS = [
    [],
    ["sell"],
    ["--preset"],
    ["replay", "more"],
    ["replay", "--bands"],
    ["replay", "--rate"],
    ["replay", "--rate", "2001"],
    ["replay", "--rate=-1"],
    ["replay", "--rate", "1.5"],
    ["replay", "--rate", "1000", "--rate", "1000"],
    ["replay", "--zone"],
    ["replay", "--port", "80"],
    [*REPLAY, "--preset"],
    [*REPLAY, "--record", "--record"],
    ["init"],
    ["init", "house"],
    ["init", "--bands", "t.csv", "--rate", "1", "--zone", "UTC0"],
    ["init", "house", "--rate", "1", "--zone", "UTC0"],
    ["init", "house", "--bands", "t.csv", "--zone", "UTC0"],
    ["init", "house", "--bands", "t.csv", "--rate", "1"],
    ["init", "house", "--bands", "t.csv", "--rate", "2001", "--zone", "UTC0"],
    ["init", "house", "more", "--bands", "t.csv", "--rate", "1", "--zone", "UTC0"],
    ["serve", "house"],
    ["serve", "--port", "80", "--count", "1"],
    ["serve", "house", "--count", "1"],
    ["serve", "house", "--port", "80"],
    ["serve", "house", "--port", "0", "--count", "1"],
    ["serve", "house", "--port", "65536", "--count", "1"],
    ["serve", "house", "--port", "80", "--count", "0"],
    ["serve", "house", "--port", "80", "--count", "1000001"],
    ["serve", "house", "--port", "80", "--count", "1", "--rate", "1"],
    ["import", "house", "--member", "1", "--moment", "1"],
    ["import", "house", "lots.csv", "--moment", "1"],
    ["import", "house", "lots.csv", "--member", "1"],
    ["import", "house", "lots.csv", "--member", "0", "--moment", "1"],
    ["import", "house", "lots.csv", "--member", "100001", "--moment", "1"],
    ["import", "house", "lots.csv", "--member", "1", "--moment=-1"],
    ["import", "house", "lots.csv", "--member", "1", "--moment", "4102444801"],
    ["import", "house", "lots.csv", "more", "--member", "1", "--moment", "1"],
    ["statement", "--member", "1", "--from", "1970-01-01", "--to", "1970-01-01"],
    ["statement", "house", "--from", "1970-01-01", "--to", "1970-01-01"],
    ["statement", "house", "--member", "1", "--to", "1970-01-01"],
    ["statement", "house", "--member", "1", "--from", "1970-01-01"],
    ["statement", "house", "--member", "0", "--from", "1970-01-01", "--to", "1970-01-01"],
    ["statement", "house", "--member", "100001", "--from", "1970-01-01", "--to", "1970-01-01"],
    ["statement", "house", "--member", "1", "--from", "1970-01-01", "--to", "1970-01-01", "--csv", "--csv"],
    ["bands", "house", "--moment", "1"],
    ["bands", "house", "t.csv"],
    ["bands", "house", "t.csv", "--moment=-1"],
    ["bands", "house", "t.csv", "--moment", "4102444801"],
    ["bands", "house", "t.csv", "more", "--moment", "1"],
    ["bands", "house", "t.csv", "--moment", "1", "--member", "1"],
    ["upgrade"],
    ["upgrade", "house", "more"],
    ["upgrade", "house", "--rate", "1"],
    ["audit", "left", "--member", "1"],
    ["audit", "left", "right"],
    ["audit", "left", "right", "--member", "0"],
    ["audit", "left", "right", "--member", "100001"],
    ["audit", "left", "right", "more", "--member", "1"],
    ["audit", "left", "right", "--member", "1", "--rate", "2001"],
    ["audit", "left", "right", "--member", "1", "--preset"],
    ["surplus", "--place", "7", "--maximum", "1", "--member", "1"],
    ["surplus", "list", "--maximum", "1", "--member", "1"],
    ["surplus", "list", "--place", "7", "--member", "1"],
    ["surplus", "list", "--place", "7", "--maximum", "1"],
    ["surplus", "list", "more", "--place", "7", "--maximum", "1", "--member", "1"],
    ["surplus", "list", "--place", "0", "--maximum", "1", "--member", "1"],
    ["surplus", "list", "--place", "1000001", "--maximum", "1", "--member", "1"],
    ["surplus", "list", "--place", "7", "--maximum=-1", "--member", "1"],
    ["surplus", "list", "--place", "7", "--maximum", "1000000001", "--member", "1"],
    ["surplus", "list", "--place", "7", "--maximum", "1", "--member", "0"],
    ["surplus", "list", "--place", "7", "--maximum", "1", "--member", "100001"],
    ["surplus", "list", "--place", "7", "--maximum", "1", "--member", "1", "--rate", "2001"],
    ["surplus", "list", "--place", "7", "--maximum", "1", "--member", "1", "--preset"],
]

# Of each number that a command takes the least and the greatest, and how the run ends then: no FILE is there.
TAKEN_NUMBERS = [
    (["init", "FILE", "--bands", "FILE", "--zone", "UTC0", "--rate"], (0, 2000), "bands: Device"),
    (["serve", "FILE", "--count", "1", "--port"], (1, 65535), "file: Store"),
    (["serve", "FILE", "--port", "80", "--count"], (1, 1000000), "file: Store"),
    (["replay", "--bands", "FILE", "--rate"], (0, 2000), "bands: Device"),
    (["import", "FILE", "FILE", "--moment", "1", "--member"], (1, 100000), "file: Store"),
    (["import", "FILE", "FILE", "--member", "1", "--moment"], (0, 4102444800), "file: Store"),
    (["statement", "FILE", "--from", "1970-01-01", "--to", "1970-01-01", "--member"], (1, 100000), "file: Store"),
    (["bands", "FILE", "FILE", "--moment"], (0, 4102444800), "bands: Device"),
    (["audit", "FILE", "FILE", "--member"], (1, 100000), "input: Read"),
    (["audit", "FILE", "FILE", "--member", "1", "--rate"], (0, 2000), "input: Read"),
    (["surplus", "FILE", "--maximum", "1", "--member", "1", "--place"], (1, 1000000), "input: Read"),
    (["surplus", "FILE", "--place", "7", "--member", "1", "--maximum"], (0, 1000000000), "input: Read"),
    (["surplus", "FILE", "--place", "7", "--maximum", "1", "--member"], (1, 100000), "input: Read"),
    (["surplus", "FILE", "--place", "7", "--maximum", "1", "--member", "1", "--rate"], (0, 2000), "input: Read"),
]

# Commands, each with its own help.
COMMANDS = ["init", "serve", "replay", "import", "statement", "bands", "upgrade", "audit", "surplus"]
COLUMNS = 80

# Numbers that are none or out of range, and what the error says that they have to be.
REFUSED_NUMBERS = [
    (["init", "house", "--bands", "t.csv", "--zone", "UTC0", "--rate", "10%"], "ten-thousandths of its price: 0 to 2000"),
    (["replay", "--rate", "0.1"], "ten-thousandths of its price: 0 to 2000"),
    (["replay", "--rate", "2001"], "ten-thousandths of its price: 0 to 2000"),
    (["serve", "house", "--count", "1", "--port", "http"], "1 to 65535"),
    (["serve", "house", "--port", "80", "--count", "all"], "1 to 1000000"),
    (["import", "house", "lots.csv", "--member", "1", "--moment", "2026-01-01"], "in whole seconds after 1970 began"),
    (["import", "house", "lots.csv", "--moment", "1", "--member", "Ana"], "1 to 100000"),
    (["bands", "house", "t.csv", "--moment", "now"], "in seconds after 1970 began"),
    (["surplus", "list", "--maximum", "1", "--member", "1", "--place", "first"], "1 to 1000000"),
    (["surplus", "list", "--place", "7", "--member", "1", "--maximum", "80.00"], "in cents: 0 to 1000000000"),
]

# The text of a band table, and how its fault is reported.
FIFTY_BANDS = "at,step\n" + "".join(f"{at},5\n" for at in range(50))
FAULTY_TABLES = [
    ("at,step\n0,5,9\n", "Csv"),
    ("", "Head"),
    ("at,step\n0,0\n", "Row 1"),
    ("at,step\n00000000000,5\n", "Row 1"),
    ("at,step\n0,5\n1000000001,5\n", "Row 2"),
    ("at,step\n", "First"),
    ("at,step\n1,5\n", "First"),
    ("at,step\n0,5\n0,6\n", "Order 2"),
    ("at,step\n0,5\n0,4\n", "Order 2"),
    ("at,step\n0,5\n100,4\n", "Falls 2"),
    (FIFTY_BANDS + "50,5\n", "TooMany"),
    (FIFTY_BANDS + "x,5\n", "TooMany"),
]


def ended(status, output, error):
    """Whether a run ended with a status and wrote just this."""
    return lambda result: (result.returncode, result.stdout, result.stderr) == (status, output, error)


def fault(line):
    """Whether a run ended at a fault that is reported in a line, and wrote nothing else."""
    return ended(1, b"", f"auction: {line}\n".encode())


def refused(result):
    """Whether `clap` refused the words: its error, or the usage, is on standard error alone."""
    begins = result.stderr.startswith((b"error: ", b"Usage: "))
    return result.returncode == 2 and result.stdout == b"" and begins


def is_narrow(text):
    return all(len(line) <= COLUMNS for line in text.decode().splitlines())


def refused_number(words, wanted):
    """Whether the error names the refused value, says what it has to be, and shows the command's usage."""
    def judge(result):
        error = result.stderr.decode()
        begins = error.startswith(f"error: invalid value '{words[-1]}' for '{words[-2]} <N>'\n")
        usage = f"\nUsage: auction {words[0]} " in error
        return refused(result) and begins and wanted in error and usage and is_narrow(result.stderr)
    return judge


def helped(result):
    """Whether the run gave the help that it was asked for, in lines that fit."""
    is_help = b"Usage: " in result.stdout and is_narrow(result.stdout)
    return result.returncode == 0 and is_help and result.stderr == b""


def helped_at_length(result):
    """Whether the help is the long one, which has an example."""
    return helped(result) and b"\nExample" in result.stdout


def helped_in_short(result):
    """Whether the help is the short one, which names the long one."""
    return helped(result) and b"\nExample" not in result.stdout and b"(see more with '--help')" in result.stdout


def cases(folder, full):
    """Each case: its name, the words, what standard input is, where output goes, and the judge."""
    def over_memory(words, judge, given=b""):
        return (f"words {words!r}", words, {"input": given, "stdout": subprocess.PIPE}, judge)

    def with_table(path, judge):
        return over_memory([*REPLAY, "--bands", str(path)], judge, READ)

    table = folder / "good.csv"
    table.write_text("at,step\n0,5\n100,25\n")
    for words in (["replay"], REPLAY, [*REPLAY, "--bands", str(table)], ["replay", "--rate", "0"],
                  ["replay", "--rate", "2000", "--zone", "CET-1CEST,M3.5.0,M10.5.0/3"]):
        yield over_memory(words, ended(0, b"", b""))
    yield over_memory(["replay", "--record", "--bands", str(table), "--rate", "2000", "--zone", "CET-1"],
                      ended(0, EMPTY_RECORD, b""))
    for words in ([], *([command] for command in COMMANDS)):
        yield over_memory([*words, "--help"], helped_at_length)
        yield over_memory(["help", *words], helped_at_length)
        yield over_memory([*words, "-h"], helped_in_short)
    for word in ("--version", "-V"):
        yield over_memory([word], ended(0, b"auction 1.0.0\n", b""))
    for words, wanted in REFUSED_NUMBERS:
        yield over_memory(words, refused_number(words, wanted))
    for words, numbers, line in TAKEN_NUMBERS:
        over_missing = [str(folder / "missing") if word == "FILE" else word for word in words]
        for number in numbers:
            yield over_memory([*over_missing, str(number)], fault(line))
    for rule in ("", "UTC", "CET-1\n", "CET-25", "Europe/Berlin"):
        yield over_memory(["replay", "--zone", rule], fault("zone"), READ)
    # A table's fault is reported before a zone's.
    yield over_memory(["replay", "--zone", "", "--bands", str(folder / "missing.csv")],
                      fault("bands: Device"), READ)
    for words in REFUSED_WORDS:
        yield over_memory(words, refused, READ)
    for words in ([b"\xff"], [*REPLAY, b"\xff"], [*REPLAY, "--bands", b"table\xc3.csv"]):
        yield over_memory(words, ended(2, b"", b"auction: command line\n"), READ)
    for number, (text, name) in enumerate(FAULTY_TABLES):
        path = folder / f"faulty-{number}.csv"
        path.write_text(text)
        yield with_table(path, fault(f"bands: {name}"))
    yield with_table(folder / "missing.csv", fault("bands: Device"))
    yield with_table(folder, fault("bands: Device"))
    directory = os.open(folder, os.O_RDONLY)
    yield ("a directory as input", REPLAY, {"stdin": directory, "stdout": subprocess.PIPE},
           fault("input: Read"))
    os.close(directory)
    for name, words, given in (("of an answer", REPLAY, READ), ("of the record alone", [*REPLAY, "--record"], b"")):
        yield (f"a full device as output {name}", words, {"input": given, "stdout": full},
               lambda result: (result.returncode, result.stderr) == (1, b"auction: output: Write\n"))


def pieces(program, words):
    """What a run writes to standard error, by calls: each gives a packet of such a socket."""
    ours, its = socket.socketpair(socket.AF_UNIX, socket.SOCK_SEQPACKET)
    with ours, its:
        subprocess.run([program, *words], stdout=subprocess.DEVNULL, stderr=its, timeout=PATIENCE)
        its.close()
        return list(iter(lambda: ours.recv(65536), b""))


def lines_in_pieces(program, folder):
    """How many faults were looked at, and those whose line came in more than one call, with their pieces."""
    table, broken = folder / "row.csv", folder / "broken.http"
    table.write_text("at,step\n0,5\nx,7\n")
    broken.write_text("GET /x HTTP/1.1\r\n")
    faults = [(["serve", str(folder / "missing"), "--port", "1", "--count", "1"], b"auction: file: Store\n"),
              ([*REPLAY, "--bands", str(table)], b"auction: bands: Row 2\n"),
              (["audit", str(broken), str(broken), "--member", "2"], b"auction: LEFT is no list of messages\n")]
    given = [(words, line, pieces(program, words)) for words, line in faults]
    return len(faults), [(words, found) for words, line, found in given if found != [line]]


def main():
    program = str(pathlib.Path(sys.argv[1]).resolve())
    with tempfile.TemporaryDirectory() as name, open("/dev/full", "wb") as full:
        count, in_pieces = lines_in_pieces(program, pathlib.Path(name))
        wrong = len(in_pieces)
        for words, found in in_pieces:
            print(f"{words}: a line in {found}")
        for case, words, devices, judge in cases(pathlib.Path(name), full):
            result = subprocess.run([program, *words], stderr=subprocess.PIPE, timeout=PATIENCE, **devices)
            count += 1
            if not judge(result):
                wrong += 1
                print(f"{case}: {result}")
    print(f"{count} cases, {wrong} wrong")
    return 1 if wrong else 0


if __name__ == "__main__":
    sys.exit(main())
