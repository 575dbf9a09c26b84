#!/usr/bin/env python3
"""Prints the crates of the kit that ours stand on, as crates.txt names them: `ported.py`.

These are trusted to be stated rightly, and are a list in docs/PROMISES.md.

Promise: none
"""
from lib.crates import listed

if __name__ == "__main__":
    print(listed())
