"""What reading a message and writing an answer cost on the wire, beside plain Rust, on the same bytes.

`compare.py PROGRAM PLAIN` measures the program `bench_wire` and that of `bench/plain`: messages read, messages read of which two fields
are asked for by name, and answers written into a kept buffer. Instructions of one are those of a thousand rounds more. Times are
medians of runs of both in turn, by processor time. Both have to print the same. It needs `valgrind`.
"""
import sys

from measured import counted, in_turn, kept, medians, seconds, shown

ROUNDS = {"frames": 200_000, "asks": 200_000, "answers": 2_000_000}
MORE, AT_A_TIME = 1_000, 16


def instructions(program, what):
    few, many = (counted([program, what, rounds]) for rounds in (MORE, 2 * MORE))
    return (many - few) / MORE / AT_A_TIME


def nanoseconds(programs, what, rounds):
    texts = set()

    def once(program):
        time, text = seconds([program, what, rounds])
        texts.add(text)
        return time / rounds / AT_A_TIME * 1e9

    found = medians(in_turn(programs, once))
    if len(texts) != 1:
        sys.exit("compare.py: the programs print different texts")
    return found


def main(program, plain):
    programs = {"ours": program, "plain": plain}
    with kept("wire", "bench/wire.sh"):
        for what, rounds in ROUNDS.items():
            shown(what, {name: instructions(path, what) for name, path in programs.items()}, "instructions")
            shown(what, nanoseconds(programs, what, rounds), "ns", 1)


if __name__ == "__main__":
    main(*sys.argv[1:])
