"""Where the instructions of an accepted bid go, step by step.

`steps.py PROGRAM [-v]` measures the program that `make test` leaves, or `make auction`: of two streams of `replay.py`, of which one has a
thousand bids more, callgrind tells how often each function was called and what it took. A step begins with a function; what that function
takes, and what it calls, counts there, down to functions with which another step begins. A function that is called
from several steps is shared out by what each of them spent there. A function that LLVM has put into its caller counts there.
With `-v` it also lists the functions, each with what it takes itself and with all it calls. It needs `valgrind`.
"""
import collections
import pathlib
import re
import sys
import tempfile

from measured import counted
from replay import MORE, WORDS, bids, listed, text

# Each step with the beginnings of the names of functions with which it begins; the first that fits counts.
STEPS = {
    "head of the frame": ["httparse::", "wire::front", "wire::look", "wire::inbox", "wire::head", "wire::frame"],
    "fields asked for by name": ["site_request::heads::"],
    "route": ["matchit::", *(f"site_request::{name}::" for name in ("routes", "numbers", "segment", "table"))],
    "body": ["site_bodies::", *(f"site_request::{name}::" for name in ("commands", "field", "fields"))],
    "decision": ["house::", "proxy::"],
    "change of the tables": ["store_list::", "list_"],
    "the answer, and its bytes": ["site_results::", "site_replies::", "pages_text::", "pages_json::", "wire::response", "itoa::"],
    "reading and writing": ["device::", "site_serve::"],
    "the rest of a message": ["site::", "site_request::", "site_acts::"],
}
OTHER = "the rest: start, words"


class Dump:
    """What each function took itself, and what each call took, of a file that callgrind wrote."""

    def __init__(self, path):
        self.own, self.calls = collections.Counter(), collections.Counter()
        names, function, called = {}, None, None
        for line in path.read_text().splitlines():
            head, _, rest = line.partition("=")
            if head in ("fn", "cfn"):
                number, name = re.fullmatch(r"\((\d+)\)(?: (.*))?", rest).groups()
                name = names.setdefault(number, name)
                function, called = (name, called) if head == "fn" else (function, name)
            elif re.match(r"[-+*\d]", line):
                cost = int(line.split()[1])
                if called:
                    self.calls[function, called] += cost
                else:
                    self.own[function] += cost
                called = None


def step_of(name):
    return next((step for step, beginnings in STEPS.items() if name.startswith(tuple(beginnings))), None)


def shares(own, calls):
    """For each function how much of it counts to which step."""
    into = collections.defaultdict(dict)
    for (caller, called), cost in calls.items():
        if caller != called and cost > 0:
            into[called][caller] = cost
    found = {name: {step_of(name) or OTHER: 1.0} for name in own}
    for _ in range(40):
        for name, callers in into.items():
            if step_of(name) is None:
                share, whole = collections.Counter(), sum(callers.values())
                for caller, cost in callers.items():
                    for step, part in found.get(caller, {OTHER: 1.0}).items():
                        share[step] += part * cost / whole
                found[name] = share
    return found


def main(program, *verbose):
    before = text(listed() + bids(MORE))
    streams = [before + text(bids(2 * MORE)[MORE:]), before + text(bids(3 * MORE)[MORE:])]
    with tempfile.TemporaryDirectory() as folder:
        dumps = []
        for stream in streams:
            counted([program, *WORDS], stream, folder)
            dumps.append(Dump(pathlib.Path(folder, "dump")))
    own, calls = (collections.Counter({key: (cost - few[key]) / MORE for key, cost in many.items() if cost != few[key]})
                  for few, many in ((dumps[0].own, dumps[1].own), (dumps[0].calls, dumps[1].calls)))
    whole = sum(own.values())
    if verbose:
        all_of = collections.Counter(own)
        for (caller, called), cost in calls.items():
            all_of[caller] += cost
        for name, cost in sorted(all_of.items(), key=lambda pair: -pair[1]):
            if cost >= 1:
                callers = ", ".join(f"{caller[:60]} {cost:.0f}" for (caller, called), cost in calls.items()
                                    if called == name and cost >= 1)
                print(f"{cost:8,.0f} {own[name]:8,.0f}  {name[:110]}  <- {callers}")
    found, sums = shares(own, calls), collections.Counter()
    for name, cost in own.items():
        for step, part in found[name].items():
            sums[step] += part * cost
    for step in [*STEPS, OTHER]:
        print(f"{step:44} {sums[step]:7,.0f} {sums[step] / whole:5.0%}")
    print(f"{'together':44} {whole:7,.0f}")


if __name__ == "__main__":
    main(*sys.argv[1:])
