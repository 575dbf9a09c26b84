#!/usr/bin/env python3
"""Prints how many lines of definitions there are, and how many say the five promises: `definitions.py`.

It is a sentence of docs/PROMISES.md.

Promise: none
"""
from lib.places import ROOT

CRATES = ROOT / "crates"
# Whose definitions the contracts name that README's table of promises leads to.
STATING = ["auction", "auction_runs", "auction_words", "house", "house_laws", "house_rows", "lives", "office", "pages",
           "pages_laws", "pages_text", "proxy", "settle", "site", "site_acts", "site_audit", "site_connections", "site_replies",
           "site_request", "site_results", "site_serve", "steps", "store", "store_files", "store_house", "store_rows",
           "tree_order", "wire"]
ROUND = 500


def lines(crates):
    """The lines of these crates' definitions, rounded."""
    count = sum(len(path.read_text().splitlines()) for crate in crates for path in (CRATES / crate / "specs").rglob("*.antt"))
    return f"{round(count / ROUND) * ROUND:,}"


def told():
    """The sentence of a document that says so."""
    every = [path.parent.name for path in CRATES.glob("*/specs")]
    *front, last = [f"`{name}`" for name in STATING]
    return (f"some {lines(every)} lines in `specs/`. The five promises are stated by some {lines(STATING)} of them, in "
            f"{', '.join(front)} and {last}.")


if __name__ == "__main__":
    print(told())
