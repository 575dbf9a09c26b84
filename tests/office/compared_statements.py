#!/usr/bin/env python3
"""Compares statements with those that Python makes: `compared_statements.py PROGRAM`.

The program is that of the crate `bench_settle`. Its output has to be that of tests/lib/statement.py, and Python's csv has to read
the fields of each line in it. The last line is 'N statements, M wrong'.

Promise: operations
"""
import csv
import pathlib
import subprocess
import sys

from lib.sent import PATIENCE
from lib.statement import lines, records, statement

# Without a line, with one, with so few that they are sorted in place, with more, and with many.
SALES = [0, 10, 200, 240, 100_000]


def fields_read(output, count):
    """The fields that Python's csv reads in the last records of an output, with the head."""
    table = output.splitlines(keepends=True)[-(count + 1):]
    return list(csv.reader(table, strict=True))


def is_right(program, sales):
    result = subprocess.run([program, str(sales)], capture_output=True, text=True, timeout=PATIENCE)
    expected = records(lines(sales))
    read = fields_read(result.stdout, len(expected) - 1)
    return (result.returncode == 0 and result.stdout == statement(sales)
            and read == [[str(field) for field in record] for record in expected])


def main():
    program = str(pathlib.Path(sys.argv[1]).resolve())
    wrong = [sales for sales in SALES if not is_right(program, sales)]
    for sales in wrong:
        print(f"the statement of {sales} sales is wrong")
    print(f"{len(SALES)} statements, {len(wrong)} wrong")
    return 1 if wrong else 0


if __name__ == "__main__":
    sys.exit(main())
