"""The rows of a house's tables as the definitions type them, which of them fit, and which houses are opened.

For comparison alone, from the definitions and not from the program: crates/store_rows/specs/Rows and ItemRows say which
row a stored one is, crates/house_rows/specs/Fits and Keeping and crates/proxy/specs which rows fit, and
crates/store_house/specs/Opening which houses are opened. A number outside 32 bits is NONE, which fits nowhere.
"""
import contextlib
import dataclasses
import functools
import sqlite3

from lib.plain_house import LAST_MOMENT, MOST_CENTS, is_table, over
from lib.plain_site import AHEAD

NONE, NO_TEXT = 2**64, b"\0\x80"
OPEN, SOLD, UNSOLD, SETTLED = range(4)
MOST_MEMBERS, MOST_CATEGORIES, MOST_ITEMS, MOST_BIDS, MOST_QUESTIONS, MOST_EDITIONS = (
    100_000, 1_000, 1_000_000, 10_000, 20, 100)
TABLES = ("house", "band", "member", "category", "item", "bid", "watch", "question", "feedback", "reserve", "edition",
          "later_band")
# Each column that names a row: its table, its place, and the table whose first column it names.
REFERENCES = (("item", 1, "member"), ("item", 2, "category"), ("item", 12, "member"), ("bid", 0, "item"),
              ("bid", 2, "member"), ("watch", 0, "member"), ("watch", 1, "item"), ("question", 0, "item"),
              ("question", 1, "member"), ("feedback", 0, "item"), ("feedback", 1, "member"), ("feedback", 2, "member"),
              ("reserve", 0, "item"), ("later_band", 0, "edition"))


# Stored values.

def stored(path):
    """The rows of each table of a file as they are stored, by rowid; a text is its bytes."""
    with contextlib.closing(sqlite3.connect(path)) as tables:
        tables.text_factory = bytes
        return {name: tables.execute(f"SELECT * FROM {name} ORDER BY rowid").fetchall() for name in TABLES}


def number(value):
    return value if 0 <= value < 2**32 else NONE


def maybe_number(value):
    return None if value is None else number(value)


def text(value):
    try:
        value.decode()
    except UnicodeDecodeError:
        return NO_TEXT
    return value


def maybe_text(value):
    return None if value is None else text(value)


# Rows.

@dataclasses.dataclass(frozen=True)
class Named:
    """A member, or a category."""
    number: int
    name: bytes


@dataclasses.dataclass(frozen=True)
class Kept:
    """What an item's row keeps of its bids."""
    start: int
    reserve: int | None
    price: int
    leader: int | None
    top: int | None
    second: int | None
    count: int


@dataclasses.dataclass(frozen=True)
class Item:
    number: int
    seller: int
    category: int
    lot: bytes
    title: bytes
    text: bytes
    start: int
    buy_now: int | None
    end: int
    state: int
    closed: int | None
    price: int
    leader: int | None
    count: int
    met: bool | None
    kept: Kept

    def was_sold(self):
        return self.state in (SOLD, SETTLED)

    def is_due(self, moment):
        return self.state == OPEN and self.end <= moment


@dataclasses.dataclass(frozen=True)
class Bid:
    item: int
    number: int
    member: int
    maximum: int


@dataclasses.dataclass(frozen=True)
class Question:
    item: int
    asker: int
    number: int
    text: bytes
    answer: bytes | None


@dataclasses.dataclass(frozen=True)
class Feedback:
    item: int
    giver: int
    receiver: int
    rating: int
    text: bytes


@dataclasses.dataclass(frozen=True)
class Edition:
    number: int
    first: int
    bands: tuple


def met_by(reserve, top):
    if reserve is None:
        return None
    return top is not None and reserve <= top


def kept_from(start, reserve, price, leader, top, second, count):
    """A leader with no top has bought the item at once, and then nobody has bid."""
    if leader is not None and top is None:
        return Kept(start, reserve, start, None, None, second, count)
    return Kept(start, reserve, price, leader, top, second, count)


def item_row(row, reserves):
    """An item by its stored row and the reserves; where its state is none, its start is none of ours."""
    seller, category, start, end, state, price, count = (number(row[at]) for at in (1, 2, 6, 8, 9, 11, 15))
    buy_now, closed, leader, top, second = (maybe_number(row[at]) for at in (7, 10, 12, 13, 14))
    reserve = next((amount for item, amount in reserves if item == number(row[0])), None)
    is_bought = leader is not None and top is None
    met = (None if reserve is None else True) if is_bought else met_by(reserve, top)
    kept = kept_from(start, reserve, price, leader, top, second, count)
    return Item(number(row[0]), seller, category, text(row[3]), text(row[4]), text(row[5]),
                start if state <= SETTLED else NONE, buy_now, end, min(state, SETTLED), closed, price, leader, count,
                met, kept)


def feedback_row(row):
    """A rating that is none is as if on no item."""
    item, giver, receiver, rating, body = row
    is_rating = rating in (-1, 0, 1)
    return Feedback(number(item) if is_rating else NONE, number(giver), number(receiver), rating if is_rating else 0,
                    text(body))


def edition_row(row, later):
    edition, first = map(number, row)
    bands = tuple((number(at), number(step)) for of, at, step in later if number(of) == edition)
    return Edition(edition, first, bands)


def pairs(rows):
    return [(number(first), number(second)) for first, second in rows]


class Rows:
    """The typed rows of each table, in the order of their keys, and which items fit."""

    def __init__(self, tables):
        _, _, self.clock, self.rate, self.zone = next(row for row in tables["house"] if row[0] == 1)
        self.bands = pairs(tables["band"])
        self.editions = [edition_row(row, tables["later_band"]) for row in tables["edition"]]
        self.members = [Named(number(row[0]), text(row[1])) for row in tables["member"]]
        self.categories = [Named(number(row[0]), text(row[1])) for row in tables["category"]]
        reserves = pairs(tables["reserve"])
        self.items = [item_row(row, reserves) for row in tables["item"]]
        # Of two items of one number the first is found.
        self.by_number = {row.number: row for row in reversed(self.items)}
        self.bids = sorted((Bid(*map(number, row)) for row in tables["bid"]), key=lambda b: (b.item, b.number))
        self.watches = sorted(tuple(map(number, row)) for row in tables["watch"])
        self.questions = sorted((Question(*map(number, row[:3]), text(row[3]), maybe_text(row[4]))
                                 for row in tables["question"]), key=lambda q: (q.item, q.asker, q.number))
        self.feedback = sorted(map(feedback_row, tables["feedback"]), key=lambda f: (f.item, f.giver))

    def edition_of(self, item):
        """The last edition whose first item is at or before an item: its number and its bands."""
        found = 1, self.bands
        for edition in self.editions:
            found = (edition.number, edition.bands) if edition.first <= item else found
        return found

    def item(self, item):
        return self.by_number.get(item)

    @functools.cache
    def stands(self, row):
        """Whether an item's row fits as far as its own columns but the texts tell."""
        return terms_fit(row) and reserve_fits(row) and shows_standing(self.edition_of(row.number)[1], row)

    @functools.cache
    def may_fit(self, row):
        """The same with its texts."""
        return self.stands(row) and texts_fit(row)

    @functools.cache
    def fits(self, row):
        """Whether an item's row fits: there are bids that leave it too."""
        placed = [(bid.member, bid.maximum) for bid in self.bids if bid.item == row.number]
        return self.may_fit(row) and has_bids(self.edition_of(row.number)[1], row, placed)


# What fits.

def is_plain(value):
    return all(byte >= 32 and byte != 127 for byte in value)


def is_text(least, most, value):
    return least <= len(value) <= most and is_plain(value)


def is_lot(value):
    return 1 <= len(value) <= 20 and all(chr(byte).isalnum() or byte == 45 for byte in value) and value.isascii()


def is_within(most, value):
    return 1 <= value <= most


def member_fits(row):
    return is_within(MOST_MEMBERS, row.number) and is_text(1, 40, row.name)


def category_fits(row):
    return is_within(MOST_CATEGORIES, row.number) and is_text(1, 40, row.name)


def bid_fits(row):
    return (is_within(MOST_ITEMS, row.item) and is_within(MOST_MEMBERS, row.member) and row.maximum <= MOST_CENTS
            and is_within(MOST_BIDS, row.number))


def watch_fits(row):
    return is_within(MOST_MEMBERS, row[0]) and is_within(MOST_ITEMS, row[1])


def question_fits(row):
    return (is_within(MOST_ITEMS, row.item) and is_within(MOST_MEMBERS, row.asker)
            and is_within(MOST_QUESTIONS, row.number) and is_text(1, 500, row.text)
            and (row.answer is None or is_text(1, 500, row.answer)))


def feedback_fits(row):
    return (is_within(MOST_ITEMS, row.item) and is_within(MOST_MEMBERS, row.giver)
            and is_within(MOST_MEMBERS, row.receiver) and is_text(0, 200, row.text))


def terms_fit(row):
    return (is_within(MOST_ITEMS, row.number) and is_within(MOST_MEMBERS, row.seller)
            and is_within(MOST_CATEGORIES, row.category) and is_within(MOST_CENTS, row.start)
            and (row.buy_now is None or row.start <= row.buy_now <= MOST_CENTS) and row.end <= LAST_MOMENT
            and (row.closed is None or row.closed <= LAST_MOMENT) and row.price <= MOST_CENTS
            and (row.leader is None or is_within(MOST_MEMBERS, row.leader)) and row.leader != row.seller
            and row.count <= MOST_BIDS
            and (not row.was_sold() or row.leader is not None and row.closed is not None))


def texts_fit(row):
    return is_lot(row.lot) and is_text(1, 80, row.title) and is_text(0, 2000, row.text)


def reserve_fits(row):
    reserve = row.kept.reserve
    return reserve is None or row.start < reserve <= min(MOST_CENTS, MOST_CENTS if row.buy_now is None else row.buy_now)


def shows_standing(bands, row):
    """Whether an item's row shows what it keeps, which some bids may leave, or that it was bought at once."""
    kept = row.kept
    if kept.start != row.start or not is_shape(bands, kept) or (kept.top or 0) > MOST_CENTS or row.count != kept.count:
        return False
    is_bought = row.was_sold() and kept.count == 0 and row.buy_now == row.price and row.met in (None, True)
    return is_bought or (row.price, row.leader, row.met) == (kept.price, kept.leader, met_by(kept.reserve, kept.top))


def price_from(bands, kept, top, second):
    price = kept.start if second is None else max(kept.start, min(top, over(second, bands)))
    return max(price, kept.reserve) if kept.reserve is not None and kept.reserve <= top else price


def is_shape(bands, kept):
    """Nobody has bid; or one member has; or several have, with a second between start and top."""
    if kept.leader is None:
        return (kept.top, kept.second, kept.count, kept.price) == (None, None, 0, kept.start)
    if kept.top is None or not (1 if kept.second is None else 2) <= kept.count <= MOST_BIDS:
        return False
    if not kept.start <= (kept.top if kept.second is None else kept.second) <= kept.top:
        return False
    return kept.price == price_from(bands, kept, kept.top, kept.second)


def after_bid(bands, kept, member, maximum):
    """What is kept after one more bid, or None where the bid is refused."""
    floor = over(kept.price, bands) if kept.count else kept.start
    leads = kept.leader == member
    if maximum <= kept.top if leads else maximum < floor:
        return None
    if kept.count >= MOST_BIDS:
        return None
    if leads or kept.leader is None:
        leader, top, second = member, maximum, kept.second
    elif maximum > kept.top:
        leader, top, second = member, maximum, kept.top
    else:
        leader, top, second = kept.leader, kept.top, max(maximum, kept.second or 0)
    return dataclasses.replace(kept, price=price_from(bands, kept, top, second), leader=leader, top=top, second=second,
                               count=kept.count + 1)


def after_bids(bands, start, reserve, bids):
    """What accepted bids leave, or None where one is refused."""
    kept = Kept(start, reserve, start, None, None, None, 0)
    for member, maximum in bids:
        kept = after_bid(bands, kept, member, maximum)
        if kept is None:
            return None
    return kept


def has_bids(bands, row, placed):
    """Whether there are bids that leave what a row keeps: those that were placed, or others as they are tried here."""
    kept = row.kept
    return any(after_bids(bands, row.start, kept.reserve, bids) == kept for bids in (placed, *tried_bids(kept)))


def tried_bids(kept):
    """Bids that might leave what is kept: the leader's alone, or with another's, before or among or after them."""
    if kept.leader is None:
        yield ()
    elif kept.second is None:
        rising = [*range(kept.start, kept.start + kept.count - 1), kept.top]
        yield tuple((kept.leader, maximum) for maximum in rising)
    else:
        other = (kept.leader + 1, kept.second)
        # The leader may raise its maximum from the start up, or by one at a time at last.
        low = [(kept.leader, maximum) for maximum in range(kept.start, kept.start + kept.count - 2)]
        high = [(kept.leader, maximum) for maximum in range(kept.top - kept.count + 2, kept.top)]
        top = (kept.leader, kept.top)
        yield from ((*low, top, other), (*low, other, top))
        yield from ((other, *high, top), (*high, other, top), (*high, top, other))


# Which houses are opened.

def references_hold(tables):
    """Whether each row that a row names is there."""
    keys = {name: {row[0] for row in tables[name]} for name in TABLES}
    return all(row[at] is None or row[at] in keys[named]
               for name, at, named in REFERENCES for row in tables[name])


def is_set_up(tables):
    """Whether the row of the house fits, and its bands are a table."""
    house = [row for row in tables["house"] if row[0] == 1]
    if not house:
        return False
    _, version, clock, rate, zone = house[0]
    return (version == 2 and 0 <= clock <= LAST_MOMENT and 0 <= rate <= 2_000 and zone in map(str.encode, AHEAD)
            and is_table(pairs(tables["band"])))


def are_numbered(tables):
    """Whether members, categories and items have numbers from 1 to how many there are."""
    return all(1 <= row[0] <= len(tables[name]) for name in ("member", "category", "item") for row in tables[name])


def are_reserved(tables):
    return all(item <= len(tables["item"]) and amount <= MOST_CENTS for item, amount in pairs(tables["reserve"]))


def are_set(tables):
    """Whether the editions are numbered in turn, and each has bands that are a table, and none is over."""
    rows, later = tables["edition"], tables["later_band"]
    editions = [edition_row(row, later) for row in rows]
    return (len(rows) < MOST_EDITIONS and [row[0] for row in rows] == list(range(2, len(rows) + 2))
            and all(edition.first < 2**32 and is_table(edition.bands) for edition in editions)
            and all(2 <= row[0] <= len(rows) + 1 and NONE not in map(number, row) for row in later))


def opens(tables):
    """Whether a house of these stored rows is opened."""
    return (references_hold(tables) and is_set_up(tables) and are_numbered(tables) and are_reserved(tables)
            and are_set(tables))
