#!/usr/bin/env python3
"""Prints the statement of `bench_settle N`, by Python alone: `print_statement.py N`.

The sales are those that crates/bench_settle/src/sales.rt makes. The civil day of a moment is the C library's, by localtime(3)
under the environment variable TZ, and the CSV is written by Python's csv. The file crates/bench_settle/stdout is `python3
tests/office/print_statement.py 240`.

Promise: operations
"""
import sys

from lib.statement import statement

if __name__ == "__main__":
    sys.stdout.write(statement(int(sys.argv[1])))
