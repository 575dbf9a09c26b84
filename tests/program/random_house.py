#!/usr/bin/env python3
"""Compares a house with plain lists on random commands: `random_house.py PROGRAM WORD`.

The program is that of the crate `test_store`, with `memory` for a house in memory and `sqlite` for one in SQLite. By a fixed seed
it is given 2,000 commands, accepted or refused, and after each twentieth every look-up and list; four times it goes on with a
house that `fill` has filled with its changes. Each answer has to be that of tests/lib/plain_house.py. The last line is 'N of N
answers, M wrong'.

Promise: operations
"""
import sys

from lib.chance import Chance
from lib.plain_house import House
from lib.played import compared, spelled

COMMANDS = 2_000
SEED = 2026


def flat(words):
    """The words of a command, of which a band table has two for each band."""
    return [part for word in words for part in ([n for pair in word for n in pair] if isinstance(word, list) else [word])]


def script_of(house):
    """A random script: its lines, and what is to be answered to each that has an answer."""
    chance = Chance(house, SEED)
    lines = [("record", None)]
    for number in range(1, COMMANDS + 1):
        moment, caller, name, *words = chance.command()
        lines.append((" ".join([str(moment), str(caller), name, *map(spelled, flat(words))]),
                      house.order(moment, caller, name, *words)))
        if number % 500 == 0:
            lines.append(("fill", "ok"))
        if number % 20 == 0:
            lines += [(" ".join(["?", name, *map(spelled, words)]), getattr(house, name)(*words))
                      for name, *words in chance.questions()]
    return lines


def main():
    return compared(sys.argv[1:], script_of(House()))


if __name__ == "__main__":
    sys.exit(main())
