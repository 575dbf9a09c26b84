#!/usr/bin/env python3
"""Serves houses with a spoiled row: `spoiled_house.py PROGRAM`.

A house of the messages of tests/lib/routes.py has one column of one row changed by Python's sqlite3, so that the row is no row of
a house's. Then every page is asked by everybody, and commands name each item. What needs the row is answered 500 `damaged`, and
has not acted; what only names it may be; everything else is answered as the plain site answers it, on the same connection, and so
it is when the house is served again. Of lists of fifty from sixty rows and more those that end before the row are answered as if
it were sound. The last line is 'N answers, M wrong'.

Promise: operations
"""
import pathlib
import sys
import tempfile

from lib.plain_house import BANDS
from lib.serving import Program
from lib.spoiled_rows import CLOSE, SPOILED, Houses, Spoiled, names, reached, shows

RESERVES = ((1, "/me/reserves/1"),)
UNBID = shows(6, 1) + RESERVES + CLOSE, names(6, 1)
UNMET = shows(7, 1, bidders=(3,)) + RESERVES + CLOSE, names(7, 1, 3)
MET = shows(8, 1, bidders=(3,)) + RESERVES + CLOSE, names(8, 1, 3)
BOUGHT = shows(9, 1, parties=(1, 3)) + RESERVES, names(9, 1, 3)

# By the sealed ones: items 6 to 9 have a start of 500 and a reserve of 900. Item 6 is open without a bid, item 7 with one
# of 700 at 500, item 8 with one of 1000 at 900, and item 9 was bought for 2000, all by 3.
SPOILED_RESERVES = [
    Spoiled("UPDATE item SET price = 900 WHERE id = 6", *UNBID),
    Spoiled("UPDATE reserve SET amount = 500 WHERE item = 6", *UNBID),
    Spoiled("UPDATE item SET price = 950 WHERE id = 7", *UNMET),
    Spoiled("UPDATE item SET top = 900 WHERE id = 7", *UNMET),
    Spoiled("UPDATE reserve SET amount = 600 WHERE item = 7", *UNMET),
    Spoiled("UPDATE item SET price = 500 WHERE id = 8", *MET),
    Spoiled("UPDATE reserve SET amount = 500 WHERE item = 8", *MET),
    Spoiled("UPDATE reserve SET amount = 1001 WHERE item = 8", *MET),
    Spoiled("DELETE FROM reserve WHERE item = 8", shows(8, 1, bidders=(3,)) + CLOSE, names(8, 1, 3), RESERVES),
    Spoiled("UPDATE item SET price = 900 WHERE id = 9", *BOUGHT),
    Spoiled("UPDATE reserve SET amount = 2001 WHERE item = 9", *BOUGHT),
]

BIDS = "/me/bids/"
ASKED = "/me/questions/"
PUBLISHED = "/items/1/questions/"
GIVEN = "/members/1/feedback/"
SEALED = "/me/reserves/"
MAPS = "/categories/1/items/"

# By `long_lists`. A list of fifty from item 1 ends at item 50, Ben's questions at item 31, the published questions at
# the tenth of asker 4, the feedback at item 110, Ben's reserves at item 171. A row with a number or a rating that is none of ours may be
# elsewhere: a rating of none after all items, a question's number below 0 before all others of its asker.
REACHED = [
    reached("UPDATE bid SET maximum = -1 WHERE item = 60", BIDS, (1, 10), (11, 60)),
    reached("UPDATE bid SET maximum = -1 WHERE item = 51", BIDS, (1, 52), (2, 51)),
    reached("UPDATE bid SET maximum = -1 WHERE item = 50", BIDS, (51,), (1, 50)),
    reached("UPDATE bid SET no = -1 WHERE item = 60", BIDS, (1, 10), (11, 60)),
    reached("UPDATE item SET top = 499 WHERE id = 60", BIDS, (1, 10), (11, 60)),
    reached("UPDATE item SET top = 499 WHERE id = 51", BIDS, (1, 52), (2, 51)),
    reached("UPDATE item SET top = 499 WHERE id = 50", BIDS, (51,), (1, 50)),
    reached("UPDATE item SET title = char(10) WHERE id = 60", MAPS, (1, 10), (11, 60)),
    reached("UPDATE item SET title = char(10) WHERE id = 51", MAPS, (1, 52), (2, 51)),
    reached("UPDATE item SET title = char(10) WHERE id = 50", MAPS, (51,), (1, 50)),
    reached("UPDATE item SET title = char(10) WHERE id = 50", BIDS, (1, 50), ()),
    reached("UPDATE question SET body = '' WHERE item = 60", ASKED, (1, 10), (11, 60)),
    reached("UPDATE question SET body = '' WHERE item = 32", ASKED, (1, 33), (2, 32)),
    reached("UPDATE question SET body = '' WHERE item = 31", ASKED, (32,), (1, 31)),
    reached("UPDATE question SET answer = '' WHERE item = 1 AND asker = 4 AND n = 20", PUBLISHED, (1, 2), (3, 4)),
    reached("UPDATE question SET answer = '' WHERE item = 1 AND asker = 4 AND n = 11", PUBLISHED, (1, 2), (3, 4)),
    reached("UPDATE question SET answer = '' WHERE item = 1 AND asker = 4 AND n = 10", PUBLISHED, (), (1, 2, 4)),
    reached("UPDATE question SET n = -1 WHERE item = 1 AND asker = 2 AND n = 20", PUBLISHED, (3, 4), (1, 2)),
    reached("UPDATE question SET n = -1 WHERE item = 60", ASKED, (1, 10), (11, 60)),
    reached("UPDATE feedback SET body = char(10) WHERE item = 120", GIVEN, (1, 61, 70), (71, 120)),
    reached("UPDATE feedback SET body = char(10) WHERE item = 111", GIVEN, (1, 61, 112), (62, 111)),
    reached("UPDATE feedback SET body = char(10) WHERE item = 110", GIVEN, (111,), (1, 61, 110)),
    reached("UPDATE feedback SET rating = 5 WHERE item = 120", GIVEN, (1, 61, 70), (71, 120)),
    reached("UPDATE feedback SET rating = 5 WHERE item = 61", GIVEN, (62, 71), (1, 61, 72, 120)),
    reached("UPDATE item SET top = 499 WHERE id = 181", SEALED, (1, 131), (132, 181)),
    reached("UPDATE item SET top = 499 WHERE id = 172", SEALED, (1, 122, 173), (123, 172)),
    reached("UPDATE item SET top = 499 WHERE id = 171", SEALED, (172,), (1, 122, 171)),
    reached("UPDATE item SET top = 499 WHERE id = 121", SEALED, (1, 121, 122), ()),
    reached("UPDATE item SET title = char(10) WHERE id = 122", SEALED, (1, 122), ()),
    reached("UPDATE reserve SET amount = 500 WHERE item = 172", SEALED, (1, 122, 173), (123, 172)),
]


def main():
    with tempfile.TemporaryDirectory() as folder:
        rows = "".join(f"{at},{step}\n" for at, step in BANDS)
        pathlib.Path(folder, "bands.csv").write_text("at,step\n" + rows)
        houses = Houses(Program(str(pathlib.Path(sys.argv[1]).resolve()), folder), folder)
        houses.make()
        # A house that isn't spoiled answers everything.
        for spoiled in [Spoiled("UPDATE item SET id = 1 WHERE id = 1", ()), *SPOILED, *SPOILED_RESERVES]:
            houses.spoil(spoiled)
        for reached in REACHED:
            houses.reach(reached)
    rows = [*SPOILED, *SPOILED_RESERVES, *REACHED]
    print(f"{len(rows)} spoiled houses, {houses.damaged} answers of 500")
    print(f"{houses.count} answers, {houses.wrong} wrong")
    return 1 if houses.wrong else 0


if __name__ == "__main__":
    sys.exit(main())
