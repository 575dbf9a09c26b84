"""The crates of the repository, as crates.txt names them, what each stands on, and copies of some of them."""
import pathlib
import re
import shutil

from lib.places import ROOT


def dependencies(folder):
    """By crate of a repository, lowest first, the crates of the repository that it stands on, all the way down."""
    lines = (folder / "crates.txt").read_text().splitlines()
    rows = dict(line.split(":") for line in lines if re.match(r"\w+:", line))
    below = {}
    for crate, row in rows.items():
        named = {name for name in row.split() if name in rows}
        wanted = named.union(*(below[name] for name in named))
        below[crate] = [name for name in rows if name in wanted]
    return below


def crates_of(words, folder):
    """The crates that `rt ci` goes through, each with those below it: all, or those that are named with what is below."""
    below = dependencies(folder)
    named = [word for word in words[2:] if word in below] or list(below)
    wanted = {crate for name in named for crate in [name, *below[name]]}
    return {crate: below[crate] for crate in below if crate in wanted}


def copy_below(name, folder):
    """Copies a crate, and those below it, as a repository of their own."""
    wanted = crates_of(["rt", "ci", name], ROOT)
    lines = (ROOT / "crates.txt").read_text().splitlines(keepends=True)
    (folder / "crates.txt").write_text("".join(line for line in lines if line.split(":")[0] in wanted))
    shutil.copy(ROOT / "HANDLES", folder)
    for crate in wanted:
        place = ROOT / "crates" / crate
        shutil.copytree(place, folder / "crates" / crate, symlinks=True,
                        ignore=lambda at, _: ["out", "must-fail"] if pathlib.Path(at) == place else [])


def ported():
    """The crates that some line of crates.txt names and none begins with, in the order of the alphabet."""
    lines = re.findall(r"^(\w+):(.*)$", (ROOT / "crates.txt").read_text(), re.M)
    ours = {name for name, _ in lines}
    return sorted({name for _, below in lines for name in below.split()} - ours)


def listed():
    """Their names as a list in a document."""
    *front, last = [f"`{name}`" for name in ported()]
    return f"{', '.join(front)} and {last}"
