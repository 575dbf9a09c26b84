"""A house with two sales, a lot file's head, and the statements and runs that are worked out by hand of it."""
import pathlib

from lib.checks import check
from lib.serving import PRESET, message, served

HEAD = "lot,category,title,text,start,buy_now,end\n"
BY_ANA = ["--member", "1", "--moment", "1000"]

# Two sales, the second of which falls on the next day in the house's zone.
SALES = [
    message("POST", "/members", 0, 1000, '{"name":"Ana"}'),
    message("POST", "/members", 0, 1000, '{"name":"Ben"}'),
    message("POST", "/categories", 0, 1000, '{"name":"Books"}'),
    message("POST", "/items", 1, 1000,
            '{"category":1,"end":5000,"lot":"A1","start":999,"text":"","title":"Atlas"}'),
    message("POST", "/items", 1, 1000,
            '{"category":1,"end":84600,"lot":"B2","start":1,"text":"","title":"Globe"}'),
    message("POST", "/items/1/bids", 2, 1001, '{"maximum":999}'),
    message("POST", "/items/2/bids", 2, 1001, '{"maximum":1}'),
    message("POST", "/close", 0, 84600),
]
COLUMNS = b"day            item role    other          price            fee            net\n"
BOTH_DAYS = COLUMNS + b"""\
1970-01-01        1 sell        2           9.99           0.99           9.00
1970-01-02        2 sell        2           0.01           0.00           0.01
sold 10.00
fees 0.99
net 9.01
bought 0.00
"""
AS_CSV = (b"day,item,role,other,price,fee,net\n1970-01-01,1,sell,2,9.99,0.99,9.00\n"
          b"1970-01-02,2,sell,2,0.01,0.00,0.01\n")

READ_ITEM = message("GET", "/items/1", 2)


def printed(text, status=0):
    return status, text, b""


def house(program, name, init, messages):
    """A house in a file of which messages were answered, its log thrown away."""
    check(f"{name} made", program.ended("init", name, *init), (0, b"created\n", b""))
    _, ending = program.answers(name, [b"".join(messages)])
    check(f"{name} served", ending, served(1))
    for log in pathlib.Path(program.folder).glob(f"{name}-*"):
        log.unlink()


def written(folder, name, text):
    data = text if isinstance(text, bytes) else text.encode()
    (folder / name).write_bytes(data)
    return name


def run(third, rest=()):
    """A run in which one member bids and another bids so much, and the first looks at the item."""
    return b"".join([*PRESET, message("POST", "/items/1/bids", 2, 1001, '{"maximum":1000}'),
                     message("POST", "/items/1/bids", 3, 1002, '{"maximum":%d}' % third), READ_ITEM, *rest])
