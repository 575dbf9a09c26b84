"""The messages of a line of the section `pages` of crates/test_site/stdin, whose lines page_script.rt there describes."""
from lib.sent import command, read


def ordered(line):
    member, moment, target, *body = line.split(" ", 3)
    return command(target, member, moment, "".join(body).encode())


def requests(word, rest):
    """The messages of a line."""
    if word == "post":
        return [ordered(rest)]
    if word == "each":
        count, _, line = rest.partition(" ")
        return [ordered(line.replace("#", str(number))) for number in range(1, int(count) + 1)]
    if word == "get":
        member, target = rest.split(" ")
        return [read(target, member)]
    if word not in ("", "--"):
        raise ValueError(word)
    return []
