"""How many instructions, and how long, the item page, a list of fifty items and the public record take, at several sizes.

`pages.py PROGRAM [PLAIN]` measures the program that `make test` leaves, or `make auction`, on houses of 1,000 and 100,000
items. A page is what `auction replay` takes for a message more, and the record what it takes with `--record` more than without.
Beside it is what a house in plain Rust takes for the same message (PLAIN, which takes the words `replay --preset`, and has no
record). The text alone is a page less an empty one. Beside it is what `bench/plain`, by `serde_json` and `derive`, takes to make
the same text from the same rows, which it reads from the record: from the rows as they lie; and by the steps that ours takes,
which copies the rows out, copies the text behind the head of an answer, and hands that on. Each makes the record once, and writes
it. All texts are compared. Instructions are the difference of two streams. Times are medians of rounds of all programs in turn,
by the processor time that each takes after the house is set up, that of the larger house's record until it is written. It needs `valgrind`, and `cargo` with Debian's packages, as `wire.sh` says.
"""
import dataclasses
import os
import pathlib
import subprocess
import sys

ROOT = pathlib.Path(__file__).resolve().parent.parent
sys.path.insert(0, str(ROOT / "tests"))
import workload  # noqa: E402
from lib.sent import Request, command, compact, read  # noqa: E402
from measured import Running, by_thing, counted, in_turn, paths, shown, shown_rounds, timed, without_lacking  # noqa: E402
from replay import WORDS  # noqa: E402

SIZES = [1_000, 100_000]
CATEGORIES, MOMENT = 20, 1_001
PLAIN = ROOT / "bench" / "plain"
PAGES = pathlib.Path(os.environ.get("CARGO_TARGET_DIR", PLAIN / "target")) / "release" / "pages"


# What a text is called, by how far plain Rust goes for it: it writes rows as they lie, or takes the steps that ours takes.
TEXTS = {"held": "text of {}", "handed": "text of {} by the same steps"}
RECORDS = {"held": "record", "copied": "record by the same steps"}


@dataclasses.dataclass(frozen=True)
class Kind:
    """A page: a message that asks for it, how many more are counted and timed, and what plain Rust is told to make its text."""
    request: Request
    tallied: int
    timed: int
    what: str = ""


@dataclasses.dataclass(frozen=True)
class More:
    """Two runs, each its words and its input, of which the second does so much more of something."""
    few: tuple
    many: tuple
    count: int


def made(items):
    """A house of so many items after the preset's, in twenty categories, of which each tenth has two bids."""
    texts = [command("/categories", 0, MOMENT, compact({"name": f"C{number}"})) for number in range(2, CATEGORIES + 1)]
    for number in range(2, items + 1):
        row = {"category": number % CATEGORIES + 1, "end": workload.FAR, "lot": f"L{number}", "start": 500,
               "text": "Text" * 20, "title": "Title"}
        texts.append(command("/items", 1, MOMENT, compact(row)))
        if number % 10 == 0:
            texts += [command(f"/items/{number}/bids", member, MOMENT, compact({"maximum": 1_000 * member}))
                      for member in (2, 3)]
    return b"".join(request.text() for request in texts)


def kinds(items):
    return {"item": Kind(read(f"/items/{items}", 2), 1_000, 300_000, f"item {items}"),
            "list of fifty": Kind(read("/categories/1/items/1", 2), 100, 20_000, "list 1 1"),
            "empty list": Kind(read("/items/1/questions/1", 2), 1_000, 300_000)}


def output(words, stream):
    return subprocess.run(words, input=stream, capture_output=True, check=True).stdout


def last(answers):
    """The body of the last answer."""
    return answers[answers.rindex(b"\r\n\r\n") + 4:]


def same(text, other):
    if text != other:
        sys.exit(f"pages.py: the texts differ: {text[:200]}, {other[:200]}")


def asked(program, stream, kind, count):
    """A run that asks for a page once, and one that asks so many times more."""
    words = [program, *WORDS]
    return More((words, stream + kind.request.text()), (words, stream + kind.request.text() * (count + 1)), count)


def order(count, steps, what):
    """What plain Rust is told to make so often, and how far to go."""
    return f"{count} {steps} {what}\n".encode()


def by_plain(steps, what, record, count):
    """A run of plain Rust that makes a text from the rows of a record once, and one that makes it so many times more."""
    few, many = (([PAGES], record + b"\n" + order(number, steps, what)) for number in (1, count + 1))
    return More(few, many, count)


def with_record(program, stream):
    """A run without the record, and one with it."""
    return More(([program, *WORDS], stream), ([program, *WORDS, "--record"], stream), 1)


def record_by_plain(record, steps="held"):
    """The same of plain Rust, which makes and writes it once, as ours does."""
    return More(([PAGES], record + b"\n"), ([PAGES], record + b"\n" + order(1, steps, "record")), 1)


def record_of(program, stream):
    """The public record of the house that a stream makes."""
    return output(*with_record(program, stream).many)[len(output([program, *WORDS], stream)):-1]


@dataclasses.dataclass(frozen=True)
class House:
    """A house: how many items it has, the messages that make it, its record, its pages, and who shows each as ours does."""
    items: int
    stream: bytes
    record: bytes
    kinds: dict
    showing: dict


def shows(programs, stream, record, kind):
    """The programs that show a page as ours does; what plain Rust makes of the rows has to be the same."""
    bodies = {who: last(output([program, *WORDS], stream + kind.request.text())) for who, program in programs.items()}
    for steps in TEXTS if kind.what else ():
        text = output(*by_plain(steps, kind.what, record, 1).few)
        same(last(text) if steps == "handed" else text, bodies["ours"])
    return {who: programs[who] for who, body in bodies.items() if without_lacking(body) == without_lacking(bodies["ours"])}


def house(programs, items):
    stream = made(items)
    if output([programs["ours"], *WORDS], stream).count(b"HTTP/1.1 201 ") != stream.count(b" HTTP/1.1\r\n"):
        sys.exit("pages.py: a house is not made")
    record = record_of(programs["ours"], stream)
    for steps in RECORDS:
        same(output(*record_by_plain(record, steps).many), record)
    every = kinds(items)
    return House(items, stream, record, every, {name: shows(programs, stream, record, kind) for name, kind in every.items()})


def show(items, unit, pages, texts):
    """Pages, by who shows them, and the texts of some, by how far plain Rust goes."""
    for name, found in pages.items():
        shown_rounds(f"{items} items: {name}", found, unit)
    for name, found in texts.items():
        ours = [whole - empty for whole, empty in zip(pages[name]["ours"], pages["empty list"]["ours"])]
        for steps, plain in found.items():
            shown_rounds(f"{items} items: {TEXTS[steps].format(name)}", {"ours": ours, "plain": plain}, unit)


def instructions(run):
    """How many instructions its second run takes for one thing more, as one round."""
    return [(counted(*run.many) - counted(*run.few)) / run.count]


def count_house(house):
    pages = {name: {who: instructions(asked(program, house.stream, kind, kind.tallied))
                    for who, program in house.showing[name].items()} for name, kind in house.kinds.items()}
    texts = {name: {steps: instructions(by_plain(steps, kind.what, house.record, kind.tallied)) for steps in TEXTS}
             for name, kind in house.kinds.items() if kind.what}
    show(house.items, "instructions", pages, texts)


def count_record(program, house):
    ours = instructions(with_record(program, house.stream))
    for steps, name in RECORDS.items():
        costs = {"ours": ours, "plain": instructions(record_by_plain(house.record, steps))}
        shown_rounds(f"{house.items} items: {name}", costs, "instructions")
        if steps == "held":
            shown(f"of {len(house.record):,} bytes, a byte", {who: cost / len(house.record) for who, [cost] in costs.items()},
                  "instructions", 1)


def time_house(programs, house):
    sent = {name: (kind.request.text() * kind.timed, kind.timed) for name, kind in house.kinds.items()}
    with_text = {name: kind for name, kind in house.kinds.items() if kind.what}
    orders = {(name, steps): (order(kind.timed, steps, kind.what), kind.timed) for name, kind in with_text.items() for steps in TEXTS}
    runs = {who: ([program, *WORDS], house.stream, {name: sent[name] for name, showing in house.showing.items() if who in showing})
            for who, program in programs.items()}
    runs["texts"] = ([PAGES], house.record + b"\n", orders)
    found = in_turn(runs, lambda run: {name: 1e9 * time for name, time in timed(*run).items()})
    texts = found.pop("texts")
    show(house.items, "ns", by_thing(found),
         {name: {steps: [one[name, steps] for one in texts] for steps in TEXTS} for name in with_text})


def time_into_pipe(house, name="list of fifty"):
    """A page again, where the answers go into a pipe."""
    kind = house.kinds[name]
    things = {name: (kind.request.text() * kind.timed, kind.timed)}
    found = in_turn(house.showing[name], lambda program: 1e9 * timed([program, *WORDS], house.stream, things, True)[name])
    shown_rounds(f"{house.items} items: {name} into a pipe", found, "ns")


def record_time(words, before, last=b""):
    """The processor time, in billionths of a second, that a program takes for the record, until it writes it."""
    run = Running(words, into_pipe=True)
    run.send(before)
    return 1e9 * run.send_last(last)


def time_record(program, house):
    runs = {"ours": ([program, *WORDS, "--record"], house.stream),
            **{steps: ([PAGES], house.record + b"\n", order(1, steps, "record")) for steps in RECORDS}}
    found = in_turn(runs, lambda run: record_time(*run))
    for steps, name in RECORDS.items():
        shown_rounds(f"{house.items} items: {name}", {"ours": found["ours"], "plain": found[steps]}, "ns")


def counts(programs):
    built()
    for items in SIZES:
        made_house = house(programs, items)
        count_house(made_house)
        count_record(programs["ours"], made_house)


def times(programs):
    built()
    small, large = (house(programs, items) for items in SIZES)
    for one in small, large:
        time_house(programs, one)
    time_into_pipe(small)
    # That of the smaller house is within a run's noise.
    time_record(programs["ours"], large)


def built():
    """Builds what makes the texts in plain Rust."""
    subprocess.run(["cargo", "build", "--release", "--offline", "--quiet"], cwd=PLAIN, check=True)


def main(*programs):
    counts(paths(*programs))
    times(paths(*programs))


if __name__ == "__main__":
    main(*sys.argv[1:])
