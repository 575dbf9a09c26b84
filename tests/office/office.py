#!/usr/bin/env python3
"""Lists lots, prints statements and audits runs: `office.py PROGRAM`.

Each fault of `import`, `statement`, `bands`, `audit` and `surplus` has its line and its exit status, and of two faults the one
that comes first in order is reported. What is printed has to be what the worked rows have; an import that is made again lists
nothing and leaves every table as it was; and the file alone is then the house. An import ends where its output or the store
fails, and what it printed remains. The last line is 'N checks, M wrong'.

Promise: operations
"""
import contextlib
import pathlib
import shutil
import sqlite3
import sys
import tempfile

from lib.checks import check, verdict
from lib.confined import limited, on_full_device
from lib.sales import AS_CSV, BOTH_DAYS, BY_ANA, COLUMNS, HEAD, READ_ITEM, SALES, house, printed, run, written
from lib.serving import EXAMPLE, PRESET, Program, fault, message

LOTS = HEAD + "A1,1,Atlas,,5.00,,5000\nB2,1,Globe,,7.50,20.00,6000\n"
FIRST_IMPORT = b"row 1: there already\nrow 2: item 2\n1 listed, 1 there already, 0 refused\n"
SECOND_IMPORT = b"row 1: there already\nrow 2: there already\n0 listed, 2 there already, 0 refused\n"

# A field of a row that can't be read, each with its name.
UNREAD = [("C3,x,T,,5.00,,5000", "category"), ("C3,00000000001,T,,5.00,,5000", "category"),
          ("C3,1,T,,5,,50000000000", "end"), ("C3,1,T,,5.0,,5000", "start"), ("C3,1,T,,,,5000", "start"),
          ("C3,1,T,,5.00,x,5000", "buy_now"), ("C3,1,T,,5.00,,", "end"), ("C3,x,T,,x,x,x", "category")]
FIRST_DAY = COLUMNS + b"""\
1970-01-01        1 sell        2           9.99           0.99           9.00
sold 9.99
fees 0.99
net 9.00
bought 0.00
"""
BOUGHT = COLUMNS + b"""\
1970-01-02        2 buy         1           0.01           0.00           0.01
sold 0.00
fees 0.00
net 0.00
bought 0.01
"""
NO_DAY = COLUMNS + b"sold 0.00\nfees 0.00\nnet 0.00\nbought 0.00\n"
LAST_MOMENT = 4_102_444_800


def rows(folder, name):
    """All that a house's file has, by SQLite, without its log."""
    shutil.copy(folder / name, folder / "alone")
    database = sqlite3.connect(folder / "alone")
    dump = list(database.iterdump())
    database.close()
    (folder / "alone").unlink()
    return dump


def imports(program, folder):
    """Lot files that are good, and made again."""
    lots = written(folder, "lots.csv", LOTS)
    check("first import", program.ended("import", "house", lots, *BY_ANA), printed(FIRST_IMPORT))
    before = rows(folder, "house")
    check("its row is there", sum("'B2'" in row for row in before), 1)
    check("second import", program.ended("import", "house", lots, *BY_ANA), printed(SECOND_IMPORT))
    check("which changes nothing", rows(folder, "house"), before)
    none = b"0 listed, 0 there already, 0 refused\n"
    check("no row", program.ended("import", "house", written(folder, "none.csv", HEAD), *BY_ANA), printed(none))
    for number, (row, name) in enumerate(UNREAD):
        lots = written(folder, "unread.csv", HEAD + row + "\n")
        lines = b"row 1: fault %s\n0 listed, 0 there already, 1 refused\n" % name.encode()
        check(f"unread {number}", program.ended("import", "house", lots, *BY_ANA), printed(lines, 1))
    lots = written(folder, "mixed.csv", HEAD + "A1,1,Atlas,,5.00,,5000\nC3,2,T,,5.00,,5000\nC3,1,T,,5.00,,5000\n"
                   + "D4,1," + "T" * 16384 + ",,5.00,,5000\n" + "E5,1,T,,5.00,,999\n")
    lines = (b"row 1: there already\nrow 2: refused Unknown\nrow 3: item 3\nrow 4: refused Range\n"
            b"row 5: refused Range\n1 listed, 1 there already, 3 refused\n")
    check("mixed", program.ended("import", "house", lots, *BY_ANA), printed(lines, 1))
    reasons = [b"MomentBehind"] * 3 + [b"Range", b"MomentBehind"]
    none_listed = b"0 listed, 0 there already, 5 refused\n"
    check("a moment behind", program.ended("import", "house", "mixed.csv", "--member", "1", "--moment", "999"),
          printed(b"".join(b"row %d: refused %s\n" % row for row in enumerate(reasons, 1)) + none_listed, 1))


def import_faults(program, folder):
    """Each fault of an import, and each beside the next in order."""
    lots = written(folder, "good.csv", LOTS)
    written(folder, "text", b"This is no house. " * 1000)
    by_nobody = ["--member", "9", "--moment", "1000"]
    check("no house", program.ended("import", "missing", lots, *BY_ANA), fault("file: Store"))
    check("a text", program.ended("import", "text", lots, *BY_ANA), fault("file: Damaged"))
    check("the file before the member", program.ended("import", "text", lots, *by_nobody), fault("file: Damaged"))
    nowhere = changed(folder, "nowhere", "UPDATE house SET zone = 'nowhere'")
    check("the zone before the member", program.ended("import", nowhere, lots, *by_nobody), fault("file: Damaged"))
    check("no member", program.ended("import", "house", lots, *by_nobody), fault("no member"))
    check("the member before the lots", program.ended("import", "house", "missing.csv", *by_nobody),
          fault("no member"))
    check("no lots", program.ended("import", "house", "missing.csv", *BY_ANA), fault("input: Read"))
    check("a folder of lots", program.ended("import", "house", ".", *BY_ANA), fault("input: Read"))
    for number, text in enumerate(["", "A1,1,Atlas,,5.00,,5000\n", HEAD.replace("end", "ends"),
                                   HEAD.replace(",end", ""), HEAD.replace("end", "end,reserve"), HEAD.upper()]):
        check(f"no head {number}", program.ended("import", "house", written(folder, "head.csv", text), *BY_ANA),
              fault("lots: Head"))
    before = rows(folder, "house")
    short = written(folder, "short.csv", HEAD + "S1,1,Short,,5.00,,5000\nS2,1,Short,,5.00,,5000,\nS3,1\n")
    status, output, error = program.ended("import", "house", short, *BY_ANA)
    check("a long record", (status, output.startswith(b"row 1: item "), output.count(b"\n"), error),
          (1, True, 1, b"auction: lots: Csv\n"))
    check("its row before it is there", len(rows(folder, "house")), len(before) + 1)
    check("full", on_full_device(program, "import", "house", lots, *BY_ANA), (1, b"auction: output: Write\n"))
    check("a long record before a full output", on_full_device(program, "import", "house", short, *BY_ANA),
          (1, b"auction: lots: Csv\n"))


def changed(folder, name, *statements):
    """A copy of a house, in which SQLite has changed rows."""
    shutil.copy(folder / "house", folder / name)
    with contextlib.closing(sqlite3.connect(folder / name)) as tables:
        for statement in statements:
            tables.execute(statement)
        tables.commit()
    return name


def items(folder, name):
    """How many items a house's file has, by SQLite, without its log."""
    return sum("INSERT INTO \"item\"" in row for row in rows(folder, name))


def failed_imports(program, folder):
    """Imports that end between their rows: the output fails, or the store."""
    unread = written(folder, "unread.csv", HEAD + "U1,x,T,,5.00,,5000\n" * 600 + "U2,1,T,,5.00,,5000\n")
    file = changed(folder, "unprinted")
    before = items(folder, file)
    check("a full output, many rows", on_full_device(program, "import", file, unread, *BY_ANA),
          (1, b"auction: output: Write\n"))
    check("no row is listed after a failed output", items(folder, file), before)
    many = written(folder, "many.csv", HEAD + "".join(f"M{row},1,T,,5.00,,5000\n" for row in range(60)))
    file = changed(folder, "tight")
    tight = Program(program.path, program.folder, limited(300_000))
    status, output, error = tight.ended("import", file, many, *BY_ANA)
    listed = output.count(b"\n")
    check("a full disk", (status, error), (1, b"auction: file: Store\n"))
    check("its rows", output, b"".join(b"row %d: item %d\n" % (row, row + before) for row in range(1, listed + 1)))
    ended = program.ended("import", file, many, *BY_ANA)[1].splitlines()
    check("which are there, and at most one more", sum(b"there already" in line for line in ended[:-1]) - listed in (0, 1),
          True)


def band_tables(program, folder):
    """Band tables that are set, each fault of it, and each beside the next in order."""
    table, bad = written(folder, "new.csv", "at,step\n0,7\n100,9\n"), written(folder, "bad.csv", "at,steps\n0,7\n")
    now, past = ["--moment", "1000"], ["--moment", "999"]
    file = changed(folder, "tabled")
    first = items(folder, file) + 1
    check("a table", program.ended("bands", file, table, *now), printed(b"edition 2\n"))
    check("another", program.ended("bands", file, "bands.csv", *now), printed(b"edition 3\n"))
    with contextlib.closing(sqlite3.connect(folder / file)) as tables:
        check("their rows", tables.execute("SELECT edition, first FROM edition").fetchall(), [(2, first), (3, first)])
        check("their bands", tables.execute("SELECT edition, at, step FROM later_band ORDER BY rowid").fetchall(),
              [(2, 0, 7), (2, 100, 9), *((3, at, step) for at, step in EXAMPLE)])
    before = rows(folder, file)
    check("the table before the file", program.ended("bands", "missing", bad, *past), fault("bands: Head"))
    check("no table", program.ended("bands", file, "missing.csv", *now), fault("bands: Device"))
    check("no house", program.ended("bands", "missing", table, *past), fault("file: Store"))
    check("a text", program.ended("bands", "text", table, *past), fault("file: Damaged"))
    check("a moment behind", program.ended("bands", file, table, *past), fault("refused MomentBehind"))
    check("which changes nothing", rows(folder, file), before)
    check("a full output", on_full_device(program, "bands", file, table, *now), (1, b"auction: output: Write\n"))
    check("after which the table is there", program.ended("bands", file, table, *now), printed(b"edition 5\n"))
    full = changed(folder, "full", *(f"INSERT INTO edition VALUES ({edition}, {first})" for edition in range(2, 101)),
                   *(f"INSERT INTO later_band VALUES ({edition}, 0, 5)" for edition in range(2, 101)))
    check("one too many", program.ended("bands", full, table, *now), fault("refused Limit"))
    for number, statements in enumerate([["INSERT INTO edition VALUES (2, 9)"],
                                         ["INSERT INTO edition VALUES (3, 9)", "INSERT INTO later_band VALUES (3, 0, 5)"],
                                         ["INSERT INTO edition VALUES (2, 9)", "INSERT INTO later_band VALUES (2, 1, 5)"],
                                         ["INSERT INTO edition VALUES (2, -1)", "INSERT INTO later_band VALUES (2, 0, 5)"],
                                         ["INSERT INTO later_band VALUES (2, 0, 5)"]]):
        spoiled = changed(folder, "spoiled", *statements)
        check(f"no edition {number}", program.ended("bands", spoiled, table, *now), fault("file: Damaged"))


def edges(program, folder):
    """The first and the last moment, and a member of a large house."""
    row = written(folder, "row.csv", HEAD + f"E1,1,T,,5.00,,{LAST_MOMENT}\n")
    file = changed(folder, "early", "UPDATE house SET clock = 0")
    listed = items(folder, file) + 1
    lines = b"row 1: item %d\n1 listed, 0 there already, 0 refused\n" % listed
    check("at moment 0", program.ended("import", file, row, "--member", "2", "--moment", "0"), printed(lines))
    file = changed(folder, "large", *(f"INSERT INTO member VALUES ({row}, 'n{row}')" for row in range(4, 301)))
    by_last = ["--member", "300", "--moment", str(LAST_MOMENT - 1)]
    check("before the last moment", program.ended("import", file, row, *by_last), printed(lines))
    check("of the last member", program.ended("statement", file, "--member", "300", "--from", "1970-01-01", "--to",
                                              "2100-12-31"), printed(NO_DAY))


def statements(program, folder):
    """The statements of two sales, and each fault."""
    def statement(member, first, last, *more, file="sales"):
        return program.ended("statement", file, "--member", member, "--from", first, "--to", last, *more)

    before = rows(folder, "sales")
    check("both days", statement("1", "1970-01-01", "1970-01-02"), printed(BOTH_DAYS))
    check("the first day", statement("1", "1970-01-01", "1970-01-01"), printed(FIRST_DAY))
    check("bought", statement("2", "1970-01-02", "2100-12-31"), printed(BOUGHT))
    check("no day", statement("1", "1970-01-03", "2100-12-31"), printed(NO_DAY))
    check("as CSV", statement("1", "1970-01-01", "1970-01-02", "--csv"), printed(AS_CSV))
    check("no day as CSV", statement("1", "1970-01-03", "1970-01-03", "--csv"),
          printed(b"day,item,role,other,price,fee,net\n"))
    check("nothing is changed", rows(folder, "sales"), before)
    for day in ("1970-01-1", "1969-12-31", "2101-01-01", "2026-02-29", "1970/01/01", "", "19700101"):
        check(f"from {day}", statement("1", day, "1970-01-02"), fault("date"))
        check(f"to {day}", statement("1", "1970-01-02", day), fault("date"))
    check("order", statement("1", "1970-01-02", "1970-01-01"), fault("order"))
    check("the date before the order", statement("1", "1970-01-02", "1970-01-00"), fault("date"))
    check("the date before the file", statement("1", "x", "1970-01-02", file="missing"), fault("date"))
    check("the order before the file", statement("1", "1970-01-02", "1970-01-01", file="missing"), fault("order"))
    check("no house", statement("1", "1970-01-01", "1970-01-02", file="missing"), fault("file: Store"))
    check("the file before the member", statement("9", "1970-01-01", "1970-01-02", file="text"),
          fault("file: Damaged"))
    check("no member", statement("9", "1970-01-01", "1970-01-02"), fault("no member"))
    words = ["--member", "1", "--from", "1970-01-01", "--to", "1970-01-02"]
    check("full", on_full_device(program, "statement", "sales", *words), (1, b"auction: output: Write\n"))


def sealed(reserve, maximum=700, rest=()):
    """A run in which an item has a reserve, and one member bids on it and looks at it."""
    listing = '{"category":1,"end":6000,"lot":"B2","reserve":%d,"start":500,"text":"","title":"Globe"}' % reserve
    return b"".join([*PRESET, message("POST", "/items", 1, 1000, listing),
                     message("POST", "/items/2/bids", 2, 1001, '{"maximum":%d}' % maximum),
                     message("GET", "/items/2", 2), *rest])


def audits(program, folder):
    """Runs that look alike to a member or don't."""
    files = {"left": run(3000), "right": run(8000), "near": run(1040), "mid": run(1500),
             "long": run(3000, [READ_ITEM]), "empty": b"", "named": b"".join(PRESET[:2]),
             "broken": run(3000) + b"GET", "other": run(3000, [b"G\r\n\r\n"]),
             "sealed": sealed(900), "higher": sealed(2000), "met": sealed(600),
             "raised": sealed(900, 900, [message("GET", "/items/2", 3)])}
    for name, data in files.items():
        written(folder, name, data)

    def audit(left, right, member="2", *more):
        return program.ended("audit", left, right, "--member", member, *more)

    check("equal", audit("left", "right"), printed(b"equal, 2 replies\n"))
    check("another price", audit("left", "near"), printed(b"apart at step 7\n", 1))
    check("for who bid", audit("left", "right", "3"), printed(b"apart at step 7\n", 1))
    check("for another", audit("left", "right", "1"), printed(b"equal, 1 replies\n"))
    check("another reserve", audit("sealed", "higher"), printed(b"equal, 2 replies\n"))
    check("a reserve that is met", audit("sealed", "met"), printed(b"apart at step 7\n", 1))
    check("another reserve, for its seller", audit("sealed", "higher", "1"), printed(b"apart at step 6\n", 1))
    # What waits for a seller's answer is the seller's to see.
    for name, text in (("asked", "Old?"), ("asked-so", "New?")):
        written(folder, name, b"".join([*PRESET, message("POST", "/items/1/questions", 2, 1001, '{"text":"%s"}' % text)]))
    check("another question waits", audit("asked", "asked-so", "1"), printed(b"apart at step 6\n", 1))
    check("which others don't see", audit("asked", "asked-so", "3"), printed(b"equal, 0 replies\n"))
    # An own bid that leads on one side alone is the first to show what was sealed, and the last message.
    for name, third in (("leads", 3000), ("trails", 8000)):
        written(folder, name, run(third, [message("POST", "/items/1/bids", 2, 1003, '{"maximum":5000}')]))
    check("an own bid shows it", audit("leads", "trails"), printed(b"apart at step 9\n", 1))
    check("one more on the right", audit("left", "long"), printed(b"apart at step 9\n", 1))
    check("one more on the left", audit("long", "left"), printed(b"apart at step 9\n", 1))
    check("no message", audit("empty", "empty"), printed(b"equal, 0 replies\n"))
    check("no message and one", audit("empty", "named"), printed(b"apart at step 1\n", 1))
    settings = ["--bands", "bands.csv", "--rate", "2000", "--zone", "CET-1"]
    check("by other settings", audit("left", "right", "2", *settings), printed(b"equal, 2 replies\n"))
    # A step over 1000 is 1050 by the example table, and 2000 by the wide one, which is over what was sealed.
    check("by narrow bands", audit("left", "mid"), printed(b"equal, 2 replies\n"))
    check("by wide bands", audit("left", "mid", "2", "--bands", "wide.csv"), printed(b"apart at step 7\n", 1))
    for broken in ("broken", "other"):
        check(f"{broken} left", audit(broken, "left"), fault("LEFT is no list of messages"))
        check(f"{broken} right", audit("left", broken), fault("RIGHT is no list of messages"))
    check("both broken", audit("broken", "broken"), fault("LEFT is no list of messages"))
    check("no left", audit("missing", "left"), fault("input: Read"))
    check("no right", audit("left", "missing"), fault("input: Read"))
    check("a folder on the left", audit(".", "left"), fault("input: Read"))
    check("left before right", audit("missing", "broken"), fault("input: Read"))
    check("a broken left before right", audit("broken", "missing"), fault("LEFT is no list of messages"))
    wrong = ["--bands", "missing.csv", "--zone", "nowhere"]
    check("bands before the zone", audit("missing", "left", "2", *wrong), fault("bands: Device"))
    check("the zone before left", audit("missing", "left", "2", *wrong[2:]), fault("zone"))
    for name in ("right", "near"):
        check(f"full, {name}", on_full_device(program, "audit", "left", name, "--member", "2"),
              (1, b"auction: output: Write\n"))
    # Long lists, with long messages, that differ in the last of all alone.
    text = message("POST", "/items", 2, 1002, '{"category":1,"end":5000,"lot":"L","start":1,"text":"%s","title":"T"}'
                   % ("x" * 9_000))
    many = run(3000, [READ_ITEM, text] * 150)
    written(folder, "many", many)
    written(folder, "more", many + message("POST", "/items/1/bids", 3, 1002, '{"maximum":9000}'))
    written(folder, "most", many + message("POST", "/items/1/bids", 1, 1002, '{"maximum":9000}'))
    check("many messages", audit("many", "many"), printed(b"equal, 302 replies\n"))
    check("apart at the last of many", audit("more", "most"), printed(b"apart at step 309\n", 1))


def surpluses(program, folder):
    """Bids that are sealed higher than they need be, or aren't, in lists of messages."""
    def surplus(name, place, maximum, member="2", *more):
        words = ["--place", str(place), "--maximum", str(maximum), "--member", member, *more]
        return program.ended("surplus", name, *words)

    none = printed(b"not covered\n", 1)
    check("covered", surplus("left", 7, 8000), printed(b"same, 2 replies\n"))
    check("covered, for the seller", surplus("left", 7, 8000, "1"), printed(b"same, 1 replies\n"))
    check("up to the limit", surplus("left", 7, 1_000_000_000), printed(b"same, 2 replies\n"))
    check("no greater maximum", surplus("left", 7, 3000), none)
    check("a maximum of 0", surplus("left", 7, 0), none)
    check("for who bid it", surplus("left", 7, 8000, "3"), none)
    check("of who doesn't lead", surplus("left", 6, 8000, "1"), none)
    check("of what is no bid", surplus("left", 8, 8000), none)
    check("of no message", surplus("left", 9, 8000), none)
    check("of no message at all", surplus("empty", 1, 8000), none)
    check("under the reserve", surplus("sealed", 7, 800, "3"), none)
    check("under the reserve, and raised over it", surplus("sealed", 7, 8000, "3"), none)
    check("at the reserve", surplus("raised", 7, 8000, "3"), printed(b"same, 1 replies\n"))
    # A step over 1000 is 1050 by the example table, and 2000 by the wide one.
    check("too near the second", surplus("near", 7, 8000), none)
    check("by narrow bands", surplus("mid", 7, 8000), printed(b"same, 2 replies\n"))
    check("by wide bands", surplus("mid", 7, 8000, "2", "--bands", "wide.csv"), none)
    settings = ["--bands", "bands.csv", "--rate", "2000", "--zone", "CET-1"]
    check("by other settings", surplus("left", 7, 8000, "2", *settings), printed(b"same, 2 replies\n"))
    for broken in ("broken", "other"):
        check(f"a {broken} list", surplus(broken, 7, 8000), fault("LIST is no list of messages"))
    check("no list", surplus("missing", 7, 8000), fault("input: Read"))
    check("a folder as list", surplus(".", 7, 8000), fault("input: Read"))
    wrong = ["--bands", "missing.csv", "--zone", "nowhere"]
    check("bands before the zone, of a surplus", surplus("missing", 7, 8000, "2", *wrong), fault("bands: Device"))
    check("the zone before a list", surplus("missing", 7, 8000, "2", *wrong[2:]), fault("zone"))
    check("the zone before a broken list", surplus("broken", 7, 8000, "2", *wrong[2:]), fault("zone"))
    for place in ("7", "8"):
        words = ["--place", place, "--maximum", "8000", "--member", "2"]
        check(f"full, place {place}", on_full_device(program, "surplus", "left", *words),
              (1, b"auction: output: Write\n"))


def main():
    with tempfile.TemporaryDirectory() as name:
        folder = pathlib.Path(name)
        program = Program(str(pathlib.Path(sys.argv[1]).resolve()), name)
        written(folder, "bands.csv", "at,step\n" + "".join(f"{at},{step}\n" for at, step in EXAMPLE))
        written(folder, "wide.csv", "at,step\n0,1000\n")
        house(program, "house", ["--bands", "bands.csv", "--rate", "1000", "--zone", "UTC0"], PRESET)
        house(program, "sales", ["--bands", "bands.csv", "--rate", "1000", "--zone", "CET-1"], SALES)
        imports(program, folder)
        import_faults(program, folder)
        failed_imports(program, folder)
        band_tables(program, folder)
        edges(program, folder)
        statements(program, folder)
        audits(program, folder)
        surpluses(program, folder)
    return verdict()


if __name__ == "__main__":
    sys.exit(main())
