"""How many instructions a message costs `auction replay`, and how many messages a second it answers.

`replay.py PROGRAM [PLAIN]` measures the program that `make test` leaves, or `make auction`, and beside it PLAIN: a house
in plain Rust that takes the same words, `replay --preset`, and is sent the same messages. Instructions of a kind of message are
the difference of two streams that begin alike and of which one has more of that kind, by the number that it has more,
under valgrind's callgrind, which counts whatever else the machine does. Of a stream of bids and a mixed one, which
`workload.py` makes, it counts the instructions of a message and tells messages a second: the median of some runs of both
programs in turn, by the processor time that each takes from the end of the messages that set the house up. Their answers are
compared. It needs `valgrind`.
"""
import pathlib
import subprocess
import sys

sys.path.insert(0, str(pathlib.Path(__file__).resolve().parent.parent / "tests"))
import workload  # noqa: E402
from lib.sent import answers_in, command, compact, read  # noqa: E402
from measured import counted, in_turn, paths, shown, shown_rounds, timed, without_lacking  # noqa: E402

MORE = 1_000
# By stream, of how many messages times are shown and instructions are counted.
STREAMS = {"bids": (200_000, 3_000), "mixed": (100_000, 10_000)}
OPEN_TO, MOMENT = 4_000_000_000, 1_001


def maximum(value):
    return compact({"maximum": value})


def listed():
    """Two items more, which member 1 sells to the end of all moments."""
    return [command("/items", 1, MOMENT, listing(f"B{number}")) for number in (2, 3)]


def listing(lot):
    return compact({"category": 1, "end": OPEN_TO, "lot": lot, "start": 500, "text": "", "title": "Globe"})


def bids(count):
    """Accepted bids of members 2 and 3 in turn, each a raise of its own maximum over the price."""
    return [command(f"/items/{2 + place // 10_000}/bids", 2 + place % 2, MOMENT,
                    maximum(100_000 + 10_000 * (place % 10_000))) for place in range(count)]


# Of each kind the status of its answers, and so many messages of it; the bids before them are the same for all.
KINDS = {
    "accepted bid": (201, bids),
    "refused bid": (409, lambda count: [command("/items/2/bids", 2, MOMENT, maximum(1))] * count),
    "listing": (201, lambda count: [command("/items", 1, MOMENT, listing(f"C{number}")) for number in range(count)]),
    "registration": (201, lambda count: [command("/members", 0, MOMENT, compact({"name": f"member {number}"}))
                                         for number in range(count)]),
    "item page": (200, lambda count: [read("/items/1", 2)] * count),
    "caller's bids": (200, lambda count: [read("/me/bids/1", 2)] * count),
}
WORDS = ["replay", "--preset"]


def text(requests):
    return b"".join(request.text() for request in requests)


def answered(programs, stream):
    """What our program answers to a stream, which has to be what plain Rust's answers."""
    outputs = {name: subprocess.run([program, *WORDS], input=stream, capture_output=True, check=True).stdout
            for name, program in programs.items()}
    if len(set(map(without_lacking, outputs.values()))) != 1:
        sys.exit("replay.py: the programs answer differently")
    return outputs["ours"]


def checked(programs, stream, count, status):
    """Whether the last so many answers have the status that the kind should have."""
    answers, _ = answers_in(answered(programs, stream))
    wrong = [answer for answer in answers[-count:] if not answer.startswith(b"HTTP/1.1 %d " % status)]
    if wrong or len(answers) < count:
        sys.exit(f"replay.py: a stream is not answered {status}: {wrong[:1]}")


def more(programs, few, many, count):
    """For each program how many instructions a message of a stream takes that another doesn't have."""
    return {name: (counted([program, *WORDS], many) - counted([program, *WORDS], few)) / count
            for name, program in programs.items()}


def kinds(programs):
    # Room grows by doubling: both streams of a kind begin where it has grown.
    before = text(listed() + bids(MORE))
    for kind, (status, messages) in KINDS.items():
        # After those before, so that each bid is over the last.
        few, many = (before + text(messages(MORE + further)[MORE if messages is bids else 0:])
                     for further in (MORE, 2 * MORE))
        checked(programs, many, MORE, status)
        shown(kind, more(programs, few, many, MORE), "instructions")


def stream(programs, kind, count):
    """The messages that set a house up, and those of a stream; all answer them alike."""
    before, messages = workload.made(kind, count)
    answered(programs, b"".join(before + messages))
    return b"".join(before), b"".join(messages)


def words_of(programs):
    """The words of each program, and those by which plain Rust copies rows out, as ours does."""
    words = {who: [program, *WORDS] for who, program in programs.items()}
    return words | ({"copies": [programs["plain"], *WORDS, "--copies"]} if "plain" in programs else {})


def show_stream(kind, found, unit):
    """What was found of a stream, by whose it is."""
    copies = found.pop("copies", None)
    shown_rounds(kind, found, unit)
    if copies:
        shown_rounds(f"{kind} by the same steps", {"ours": found["ours"], "plain": copies}, unit)


def counts(programs):
    kinds(programs)
    for kind, (_, count) in STREAMS.items():
        before, messages = stream(programs, kind, count)
        show_stream(f"{kind}, a message", {who: [(counted(words, before + messages) - counted(words, before)) / count]
                                           for who, words in words_of(programs).items()}, "instructions")


def times(programs):
    for kind, (count, _) in STREAMS.items():
        before, messages = stream(programs, kind, count)

        def a_second(words, into_pipe=False):
            return 1 / timed(words, before, {kind: (messages, count)}, into_pipe)[kind]

        every = words_of(programs)
        show_stream(kind, in_turn(every, a_second), "messages a second")
        every.pop("copies", None)
        shown_rounds(f"{kind} into a pipe", in_turn(every, lambda words: a_second(words, True)), "messages a second")


def main(*programs):
    counts(paths(*programs))
    times(paths(*programs))


if __name__ == "__main__":
    main(*sys.argv[1:])
