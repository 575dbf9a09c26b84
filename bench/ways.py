"""What stands in the way of the lines of TABLE.md that aren't as far ahead as the goal.

A way has a pattern of the lines of which it is said, each as `WHAT, UNIT`, and a text with the figures that show it. There `\\1` is
what the first parentheses of the pattern met, `[RUN: WHAT, UNIT]` stands for ours of a figure in figures.json, and
`[RUN: WHAT, UNIT|COLUMN]` for another column of it, as pages show them.
"""
import collections
import re

GOAL = 1.3
# What is said of a line where nothing is known.
NOTHING = "nobody has found out."
NAMED = re.compile(r"\[([^\]|]+: [^\]|]+, [^\]|]+)(?:\|(\w+))?\]")
Way = collections.namedtuple("Way", "lines text")

WAYS = [
    Way(r"mixed, messages a second",
        "a look-up hands out copies of rows, [samples: mixed, copying rows, ns] ns of a message, which plain Rust lends. Where plain "
        "Rust copies rows too, ours is [table: mixed by the same steps, messages a second|ahead] times ahead. Waits for memory and for "
        "branches guessed wrong take at most [misses: a message of the mixed stream, all at most, ns] ns of ours and "
        "[misses: a message of the mixed stream, all at most, ns|plain] of plain Rust's, where instructions are as far apart as above."),
    Way(r"(mixed) into a pipe, messages a second|\d+ items: (list) of fifty into a pipe, ns",
        "of a message of the mixed stream the kernel takes [samples: mixed into a pipe, the kernel, ns] ns of ours and "
        "[samples: mixed into a pipe, the kernel, ns|plain] of plain Rust's where answers go into a pipe, and "
        "[samples: mixed, the kernel, ns] and [samples: mixed, the kernel, ns|plain] where they go to nobody. What is neither the "
        "kernel's nor moves, allocates or copies takes ours [samples: mixed into a pipe, anything else, ns] ns then in place of "
        "[samples: mixed, anything else, ns], and plain Rust [samples: mixed into a pipe, anything else, ns|plain] in place of "
        "[samples: mixed, anything else, ns|plain]; the samples don't tell why."),
    Way(r"(\d+ items): text of item(?: by the same steps)?, ns",
        "a text alone is the difference of an item page and an empty list, [table: \\1: item, ns] and [table: \\1: empty list, ns] ns, "
        "and goes further from round to round than the programs are apart. By instructions ours is "
        "[table: \\1: text of item by the same steps, instructions|ahead] times ahead by the same steps, and by time "
        "[table: 100000 items: text of item by the same steps, ns|ahead] in the house of 100,000 items."),
    Way(r"(\d+ items: text of list of fifty), ns",
        "plain Rust writes rows that it holds. By the steps that ours takes, ours is [table: \\1 by the same steps, ns|ahead] times "
        "ahead: it copies the rows out, copies the text into an answer, and hands that on."),
    Way(r"100000 items: record, ns",
        "ours copies all rows out of the keep first. Where plain Rust does so too, ours is "
        "[table: 100000 items: record by the same steps, ns|ahead] times ahead. Of ours the kernel takes [samples: the record, the "
        "kernel, ns] ns and of plain Rust's [samples: the record, the kernel, ns|plain], most of it for pages of memory that are "
        "touched first, of which there are [misses: the record of 100000 items, pages touched first, waits] and "
        "[misses: the record of 100000 items, pages touched first, waits|plain]."),
    Way(r"bids, each in its turn, a second|the server's time of one, us",
        "the kit's SQLite takes [kit: a bid, processor time, us|kit] us of processor time for the four statements of a bid and their "
        "commit, where nothing else is done. Plain Rust takes [table: the server's time of one, us|plain] us for all of a bid, over the "
        "C library's SQLite. Of ours the kernel takes [served samples: a bid, the kernel, us] us and functions of the kit's SQLite "
        "[served samples: a bid, the kit's SQLite, us] us."),
    Way(r"mixed at once, a second|mixed, by the server's time, a second",
        "of a message the kernel takes [served samples: a mixed message, the kernel, us] us and functions of the kit's SQLite "
        "[served samples: a mixed message, the kit's SQLite, us] us. Plain Rust answers "
        "[table: mixed, by the server's time, a second|plain] a second, over the C library's SQLite."),
    Way(r"(?:1000|100000) items, (?:to listening|its processor time), ms",
        "the kit's SQLite alone takes [kit: 1000 items, to listening, ms|kit] and [kit: 100000 items, to listening, ms|kit] ms to "
        "connect to the house of 1,000 and of 100,000 items, because it reads the whole file, and a start "
        "[connects twice](README.md#why-a-start-reads-the-file-twice)."),
    Way(r"memory, MB|(?:1000|100000) items, memory, MB",
        "the kit's SQLite alone holds [kit: 1000 items, memory, MB|kit] and [kit: 100000 items, memory, MB|kit] MB once it has "
        "connected to the house of 1,000 and of 100,000 items."),
]


def way_of(line, shown):
    """What stands in the way of a line, by what pages may show of each figure."""
    for way in WAYS:
        found = re.fullmatch(way.lines, line)
        if found:
            return NAMED.sub(lambda named: shown[named[1]][named[2] or "ours"], found.expand(way.text))
    return NOTHING


def ways_of(ahead, shown):
    """What stands in the way of those lines that are under the goal, by how far each is ahead: an item of a list for each way."""
    behind = collections.defaultdict(list)
    for line, times in ahead.items():
        if times and float(times) < GOAL:
            behind[way_of(line, shown)].append(f"**{line}** ({times})")
    return [f"- {', '.join(lines)}: {way}" for way, lines in behind.items()]
