"""Transcripts: scripts whose lines are printed beside their answers, as the crate `transcript` prints them."""

MARK = "> "
# What the line of a section begins with; its name comes after it.
SECTION = MARK + "section "


def lines(text):
    """The lines of a script or a transcript; a page or a text in one may have any other end of a line in it."""
    return text.removesuffix("\n").split("\n")


def section(text, name):
    """A section of a script or a transcript, which has to be there, without the line by which it begins."""
    _, begin, rest = text.partition(f"{SECTION}{name}\n")
    if not begin:
        raise ValueError(f"no section {name}")
    return rest.partition(SECTION)[0]


def is_printed(line):
    """Whether a line of a script is printed: one with the mark, a comment or an empty one."""
    return not line or line.startswith((MARK, "--"))


def played(line):
    """What is played of a line of a script."""
    return line.removeprefix(MARK)


def pairs(text):
    """The lines of a transcript that are played, each with those of its answer, none of which may look like a script's."""
    found = []
    for line in lines(text):
        if line.startswith(MARK):
            found.append((played(line), []))
        elif not is_printed(line):
            found[-1][1].append(line)
    return found
