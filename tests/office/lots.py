#!/usr/bin/env python3
"""Imports lot files into houses in files: `lots.py PROGRAM [ROWS [SEED]]`.

The files are written as spreadsheets write them, and as nobody should; each import has to print what was worked out by hand or
what tests/lib/plain_office.py prints, and the house has to have the items that this lists. A second import of the same file
leaves every table as it was. A file of 20 MB, of which all is there already, is imported, and so is one of ROWS rows, 20,000
without it, in the least memory in which a hundred rows are, and a megabyte. The last line is 'N checks, M wrong'.

53 files were worked out by hand: quotes, line ends of all kinds, a byte order mark, files that end inside quotes, bodies of
16,384 and 16,385 bytes, every fault; 40 are made at random, and each is imported twice.

Promise: operations
"""
import contextlib
import csv
import io
import pathlib
import random
import sqlite3
import sys
import tempfile

from lib.checks import check, verdict
from lib.lot_office import SEED, Office
from lib.plain_office import HEAD, MARK, imported
from lib.plain_site import MOST_BODY, Site
from lib.sent import compact
from lib.serving import Program

HEAD_LINE = ",".join(HEAD).encode() + b"\n"
# The most that a longer import may take, in KiB of its addresses; how near the least is found, and what is always enough.
MORE_MEMORY, NEAR, ENOUGH = 1_024, 128, 1 << 17
LONG_FILE = 20_000_000


def totals(listed, there, refused):
    return f"{listed} listed, {there} there already, {refused} refused"


def long_text(size, *, more=""):
    """The text, with more at its beginning, of a row of the lot that is there whose body has so many bytes."""
    members = {"category": 1, "end": 5000, "lot": "A1", "start": 500, "title": "Atlas", "text": more}
    return more + "x" * (size - len(compact(members)))


LISTED = ["row 1: item 2", totals(1, 0, 0)]
RANGE = ["row 1: refused Range", totals(0, 0, 1)]
HEADS, CSV = b"auction: lots: Head\n", b"auction: lots: Csv\n"

# Rows after the head, and what is printed; the last of them is the line on standard error.
WRITTEN_ROWS = [
    ("commas and semicolons in quotes", b'B2,1,"Globe; large","Brass, wood; 1952",7.50,,6000\n', LISTED, b""),
    ("quotes doubled", b'B2,1,"A ""great"" globe","""",7.50,,6000\n', LISTED, b""),
    ("quotes in a plain field", b'B2,1,A "great" globe,"",7.50,,6000\n', LISTED, b""),
    ("bytes after a closing quote", b'B2,1,"Glo"be,,7.50,,6000\n', LISTED, b""),
    ("no last line end", b"B2,1,Globe,,7.50,,6000", LISTED, b""),
    ("spaces", b"B2,1, Globe ,  ,7.50,,6000\n", LISTED, b""),
    ("letters of all kinds", "B2,1,Étoile €😀,\u2028\x85,7.50,,6000\n".encode(), LISTED, b""),
    ("ends in CR", b"B2,1,Globe,,7.50,,6000\rC3,1,Chart,,5,,6000\r",
     ["row 1: item 2", "row 2: item 3", totals(2, 0, 0)], b""),
    ("ends of all kinds", b"\r\n\nB2,1,Globe,,7.50,,6000\r\r\nC3,1,Chart,,5,,6000\n\n\r\n\r\rA1,1,Atlas,,5,,6000\n\n",
     ["row 1: item 2", "row 2: item 3", "row 3: there already", totals(2, 1, 0)], b""),
    ("ends inside quotes", b'B2,1,Globe,,7.50,,"6000', LISTED, b""),
    ("ends inside quotes early", b'B2,1,Globe,,7.50,,6000\nC3,1,"Chart,,5,,6000\nD4,1,Novel,,5,,6000\n', LISTED[:1],
     CSV),
    ("a short record", b"B2,1,Globe,,7.50,,6000\nC3,1,Chart\nD4,1,Novel,,5,,6000\n", LISTED[:1], CSV),
    ("a long record", b"B2,1,Globe,,7.50,,6000\nC3,1,Chart,,5,,6000,\n", LISTED[:1], CSV),
    ("a line of one quote pair", b'""\n', [], CSV),
    ("no row", b"", [totals(0, 0, 0)], b""),
    ("a line end in quotes", b'B2,1,Globe,"one\ntwo",7.50,,6000\n', RANGE, b""),
    ("a tab", b"B2,1,Globe\t,,7.50,,6000\n", RANGE, b""),
    ("a zero", b"B2,1,Globe\0,,7.50,,6000\n", RANGE, b""),
    ("a long text", b"B2,1,Globe,%s,7.50,,6000\nC3,1,Chart,%s,5,,6000\n" % (b"x" * 2000, b"x" * 2001),
     ["row 1: item 2", "row 2: refused Range", totals(1, 0, 1)], b""),
    ("the longest body", b"A1,1,Atlas,%s,5,,5000\n" % long_text(MOST_BODY).encode(),
     ["row 1: there already", totals(0, 1, 0)], b""),
    ("a body that is too long", b"A1,1,Atlas,%s,5,,5000\n" % long_text(MOST_BODY + 1).encode(), RANGE, b""),
    ("the longest body with line ends", b'A1,1,Atlas,"%s",5,,5000\n' % long_text(MOST_BODY, more="\n" * 8000).encode(),
     ["row 1: there already", totals(0, 1, 0)], b""),
    ("a body with line ends that is too long",
     b'A1,1,Atlas,"%s",5,,5000\n' % long_text(MOST_BODY + 1, more="\n" * 8000).encode(), RANGE, b""),
    ("a body of 60,000", b"B2,1,Globe,%s,7.50,,6000\nC3,1,Chart,,5,,6000\n" % (b"x" * 60_000),
     ["row 1: refused Range", "row 2: item 2", totals(1, 0, 1)], b""),
    ("numbers with zeros", b"B2,0000000001,Globe,,0007.50,00020.00,0000006000\n", LISTED, b""),
    ("categories", b"B2,0,Globe,,7.50,,6000\nB2,2,Globe,,7.50,,6000\nB2,,Globe,,7.50,,6000\nB2,+1,Globe,,7.50,,6000\n"
     b"B2,00000000001,Globe,,7.50,,6000\nB2,1.0,Globe,,7.50,,6000\nB2, 1,Globe,,7.50,,6000\n",
     ["row 1: refused Unknown", "row 2: refused Unknown", *(f"row {row}: fault category" for row in range(3, 8)),
      totals(0, 0, 7)], b""),
    ("starts", b"B2,1,Globe,,0,,6000\nB2,1,Globe,,10000000.01,,6000\nB2,1,Globe,,,,6000\nB2,1,Globe,,7.5,,6000\n"
     b"B2,1,Globe,,7.,,6000\nB2,1,Globe,,.50,,6000\nB2,1,Globe,,-1,,6000\nB2,1,Globe,,\"7,50\",,6000\n"
     b"B2,1,Globe,,7 ,,6000\nB2,1,Globe,,1e1,,6000\nB2,1,Globe,,10000000.00,,6000\n",
     ["row 1: refused Range", *(f"row {row}: fault start" for row in range(2, 11)), "row 11: item 2", totals(1, 0, 10)],
     b""),
    ("prices for buying at once", b"B2,1,Globe,,7.50,7.49,6000\nB2,1,Globe,,7.50,x,6000\nB2,1,Globe,,7.50,0,6000\n"
     b"B2,1,Globe,,7.50,10000000.01,6000\nB2,1,Globe,,7.50,7.50,6000\n",
     ["row 1: refused Range", "row 2: fault buy_now", "row 3: refused Range", "row 4: fault buy_now", "row 5: item 2",
      totals(1, 0, 4)], b""),
    ("ends", b"B2,1,Globe,,7.50,,1000\nB2,1,Globe,,7.50,,4102444801\nB2,1,Globe,,7.50,,99999999999\n"
     b"B2,1,Globe,,7.50,,\nB2,1,Globe,,7.50,,1970-01-02\nB2,1,Globe,,7.50,,1001\n",
     ["row 1: refused Range", "row 2: refused Range", "row 3: fault end", "row 4: fault end", "row 5: fault end",
      "row 6: item 2", totals(1, 0, 5)], b""),
    ("the first of some faults", b"B 2,x,,,x,x,x\nB 2,1,,,x,x,x\nB 2,1,,,5,x,x\nB 2,1,,,5,,x\nB 2,1,,,5,,6000\n"
     b"A1,9,,,5,,6000\n",
     ["row 1: fault category", "row 2: fault start", "row 3: fault buy_now", "row 4: fault end", "row 5: refused Range",
      "row 6: there already", totals(0, 1, 5)], b""),
    ("the same lot twice", b"B2,1,Globe,,7.50,,6000\nB2,1,Globe,,7.50,,6000\n",
     ["row 1: item 2", "row 2: there already", totals(1, 1, 0)], b""),
]
ROW = b"B2,1,Globe,,7.50,,6000\n"

# Whole files, and what is printed.
FILES = [
    ("all in quotes", b'"lot","category","title","text","start","buy_now","end"\r\n'
     b'"B2","1","Globe","","7.50","20.00","6000"\r\n', LISTED, b""),
    ("a mark of the byte order", MARK + HEAD_LINE + ROW, LISTED, b""),
    ("a mark before quotes", MARK + b'"lot"' + HEAD_LINE[3:] + ROW, LISTED, b""),
    ("two marks", MARK * 2 + HEAD_LINE + ROW, [], HEADS),
    ("a mark alone", MARK, [], HEADS),
    ("half a mark", MARK[:2] + HEAD_LINE, [], HEADS),
    ("semicolons", HEAD_LINE.replace(b",", b";") + ROW.replace(b",", b";"), [], HEADS),
    ("tabs", HEAD_LINE.replace(b",", b"\t") + ROW.replace(b",", b"\t"), [], HEADS),
    ("nothing", b"", [], HEADS),
    ("line ends alone", b"\r\n\n\r", [], HEADS),
    ("no head", ROW, [], HEADS),
    ("a short head", b"lot,category\n" + ROW, [], HEADS),
    ("a long head", HEAD_LINE[:-1] + b",more\n" + ROW, [], HEADS),
    ("another order", b"category,lot,title,text,start,buy_now,end\n" + ROW, [], HEADS),
    ("capitals", HEAD_LINE.title() + ROW, [], HEADS),
    ("spaces in the head", HEAD_LINE.replace(b",", b", ") + ROW, [], HEADS),
    ("a head that is no text", HEAD_LINE.replace(b"title", b"title\xff") + ROW, [], HEADS),
    ("a head in quotes to the end", b'"' + HEAD_LINE + ROW, [], HEADS),
    ("empty lines first", b"\n\r\n" + HEAD_LINE + ROW, LISTED, b""),
    ("head and row end in CR", (HEAD_LINE + ROW).replace(b"\n", b"\r"), LISTED, b""),
    *((name, HEAD_LINE + rows, printed, error) for name, rows, printed, error in WRITTEN_ROWS),
]
# Bytes that are no text, of which no plain import knows.
NO_TEXTS = [
    (b"B2,1,Globe\xff,,7.50,,6000\nB2,1,Globe,\xc3,7.50,,6000\nB\xff2,1,Globe,,x,,6000\nB2,1,Globe\xff,,x,,6000\n",
     ["row 1: fault title", "row 2: fault text", "row 3: fault lot", "row 4: fault title", totals(0, 0, 4)]),
    (b"B2,\xff,Globe\xff,,7.50,,6000\nB2,1,Globe,,\xff,,6000\n",
     ["row 1: fault category", "row 2: fault start", totals(0, 0, 2)]),
]


def plain_items(house):
    return [(item.number, item.seller, item.category, item.lot, item.title, item.text, item.start, item.buy_now,
             item.end) for item in house.rows]


def ended(printed, error):
    """How an import ends that prints these lines."""
    done = not error and printed[-1].endswith(", 0 refused")
    return 0 if done else 1, "".join(f"{line}\n" for line in printed).encode(), error


def written(office):
    """Files whose outcome was worked out by hand."""
    for name, text, printed, error in FILES:
        site = Site(preset=True)
        check(f"{name} by the plain import", imported_or_none(site.house, text), ended(printed, error))
        check(name, office.imports(office.copy(), text), ended(printed, error))
        check(f"{name}, the items", office.items("copy"), plain_items(site.house))
    for rows, printed in NO_TEXTS:
        check(f"no text {rows[:30]}", office.imports(office.copy(), HEAD_LINE + rows), ended(printed, b""))


def imported_or_none(house, text):
    """What the plain import prints; a head that is no text is no head."""
    try:
        return imported(house, 1, 1000, text)
    except UnicodeDecodeError:
        return 1, b"", HEADS


def random_lots(chance):
    """A lot file at random."""
    out = io.StringIO()
    ends = chance.choice(["\n", "\r\n", "\r"])
    writer = csv.writer(out, lineterminator=ends, quoting=chance.choice([csv.QUOTE_MINIMAL, csv.QUOTE_ALL]))
    writer.writerow(HEAD)
    for _ in range(chance.randint(0, 30)):
        row = [chance.choice(["A1", f"L-{chance.randint(1, 12)}", "a b", "", "x" * 21]),
               chance.choice(["1", "1", "1", "01", "0", "2", "x", "", "12345678901"]),
               words(chance, 80), words(chance, 2000) if chance.random() < 0.5 else "",
               chance.choice(["5", "5.00", "7.50", "0.01", "0", "x", "5.0", "10000000.00", "10000000.01", ""]),
               chance.choice(["", "", "", "20.00", "5", "0.00", "y", "10000000.00"]),
               chance.choice(["5000", "6000", "1001", "1000", "0", "4102444801", "", "end", "5000.0"])]
        if chance.random() < 0.01:
            row = row[:chance.randint(1, 6)] or row + [""]
        writer.writerow(row)
        out.write(chance.choice(["", "", "", ends, ends * 2]))
    text = out.getvalue().encode()
    return chance.choice([b"", b"", MARK]) + text[:len(text) - chance.choice([0, 0, 1, 7])]


def words(chance, most):
    if chance.random() < 0.05:
        return chance.choice(["x" * most, "x" * (most + 1), "\n", "a\rb", "\t", "\x7f", ""])
    return "".join(chance.choices('ab ,;"\'é€😀', k=chance.randint(1, 9)))


def at_random(office, chance, count):
    """Random files, each imported twice into one house."""
    for number in range(count):
        text, site, file = random_lots(chance), Site(preset=True), office.copy()
        member, moment = chance.choice([1, 1, 2, 3]), chance.choice([1000, 1000, 1000, 999, 2000])
        check(f"random file {number}", office.imports(file, text, member, moment),
              imported(site.house, member, moment, text))
        check(f"random file {number}, the items", office.items(file), plain_items(site.house))
        before = office.dump(file)
        check(f"random file {number} again", office.imports(file, text, member, moment),
              imported(site.house, member, moment, text))
        # What was listed is there, and what was refused is refused again.
        check(f"random file {number}, every table", office.dump(file), before)


def twice(office):
    """A second import prints that all is there, and changes no table."""
    text = HEAD_LINE + b"A1,1,Atlas,,5.00,,5000\nB2,1,Globe,,7.50,20.00,6000\n"
    file = office.copy()
    check("first", office.imports(file, text),
          (0, b"row 1: there already\nrow 2: item 2\n1 listed, 1 there already, 0 refused\n", b""))
    before = office.dump(file)
    for moment in (1000, 2000):
        check("second", office.imports(file, text, moment=moment),
              (0, b"row 1: there already\nrow 2: there already\n0 listed, 2 there already, 0 refused\n", b""))
        check("second, every table", office.dump(file), before)


def with_items(office, count):
    """A house with so many items more, which SQLite writes."""
    file = office.copy()
    with contextlib.closing(sqlite3.connect(office.folder / file)) as tables:
        row = "?, 1, 1, ?, 'Globe', '', 750, NULL, 6000, 0, NULL, 750, NULL, NULL, NULL, 0"
        tables.executemany(f"INSERT INTO item VALUES ({row})",
                           ((number, f"L-{number}") for number in range(2, count + 2)))
        tables.commit()
    return file


def lot_rows(count, text=""):
    return b"".join(b"L-%d,1,Globe,%s,7.50,,6000\n" % (number, text.encode()) for number in range(2, count + 2))


def all_there(count):
    rows = "".join(f"row {row}: there already\n" for row in range(1, count + 1))
    return (rows + totals(0, count, 0) + "\n").encode()


def long_file(office):
    """A file of 20 MB."""
    file = with_items(office, 100)
    once = lot_rows(100, "x" * 2000)
    times = -(-LONG_FILE // len(once))
    before = office.dump(file)
    check("a file of 20 MB", office.imports(file, HEAD_LINE + once * times), (0, all_there(100 * times), b""))
    check("a file of 20 MB, every table", office.dump(file), before)


def memory(office, count):
    """The memory of an import of so many rows, against a hundred, of a house that has them all."""
    file = with_items(office, count)
    before = office.dump(file)
    least, enough = 0, ENOUGH
    check("100 rows", is_imported(office, file, 100, enough), True)
    while enough - least > NEAR:
        middle = (least + enough) // 2
        least, enough = (least, middle) if is_imported(office, file, 100, middle) else (middle, enough)
    check(f"{count} rows", is_imported(office, file, count, enough + MORE_MEMORY), True)
    check(f"{count} rows, every table", office.dump(file), before)
    print(f"the least memory for 100 rows: {enough} KiB, and {MORE_MEMORY} more for {count}")


def is_imported(office, file, count, size):
    """Whether so many rows are imported where the process may have no more memory than so many KiB."""
    (office.folder / "lots.csv").write_bytes(HEAD_LINE + lot_rows(count))
    words = [office.program.path, "import", file, "lots.csv", "--member", "1", "--moment", "1000"]
    ending = Program("/bin/sh", office.folder).ended("-c", 'ulimit -v "$0" && exec "$@"', str(size), *words)
    return ending == (0, all_there(count), b"")


def main():
    count, seed = (int(word) for word in [*sys.argv[2:], *("20000", str(SEED))[len(sys.argv) - 2:]])
    with tempfile.TemporaryDirectory() as folder:
        office = Office(Program(str(pathlib.Path(sys.argv[1]).resolve()), folder), folder)
        written(office)
        at_random(office, random.Random(seed), 40)
        twice(office)
        long_file(office)
        memory(office, count)
    return verdict()


if __name__ == "__main__":
    sys.exit(main())
