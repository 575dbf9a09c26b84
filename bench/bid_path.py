"""Which functions of ours a bid goes through, from its bytes to the file and back: `bid_path.py PROGRAM [-v]`.

A house in a file is served under callgrind, with one accepted bid and with two. What is called more often is on the path of a bid: functions
of `crates/` by module and name, each once however many types it is made for, without those that a compiler writes (drops, clones, compared
fields). A function that a compiler has put into its caller isn't met: PROGRAM has to be a build without that, or few are met. `-v` lists them by
file. It needs `valgrind`.
"""
import collections
import pathlib
import re
import sys
import tempfile

ROOT = pathlib.Path(__file__).resolve().parent.parent
sys.path.insert(0, str(ROOT / "tests"))
from lib.counted import Counted  # noqa: E402
from lib.serving import message  # noqa: E402

CRATES = {path.name for path in (ROOT / "crates").iterdir()}


def calls(dump):
    """How often each function was called, by what callgrind wrote."""
    names, counts, called = {}, collections.Counter(), None
    for line in dump.read_text().splitlines():
        found = re.fullmatch(r"c?fn=\((\d+)\)(?: (.*))?", line)
        if found:
            name = names.setdefault(found[1], found[2])
            called = name if line.startswith("cfn=") else called
        elif line.startswith("calls="):
            counts[called] += int(line[6:].split()[0])
    return counts


def defined():
    """The functions of each file, by the crate and the name of its module."""
    found = collections.defaultdict(set)
    for path in (ROOT / "crates").glob("*/src/**/*.rt"):
        module = "::".join([path.parts[-3], path.stem])
        for name in re.findall(r"\bfn (\w+)", path.read_text()):
            found[module].add(name)
    return found


def module_of(files, parts):
    """Where a function is written: a method may be in another module of its crate than its type."""
    own = "::".join(parts[:2])
    return own if parts[-1] in files[own] else next(
        (module for module, names in files.items() if module.startswith(parts[0] + "::") and parts[-1] in names), None)


def path_of(before, after):
    """Functions of ours that are called more often after than before."""
    files, path = defined(), set()
    for name, count in after.items():
        parts = re.split(r"::<|'", name)[0].split("::")
        if count > before[name] and parts[0] in CRATES and len(parts) > 2:
            module = module_of(files, parts)
            if module:
                path.add((module, "::".join(parts[2:])))
    return path


def main(program, *verbose):
    bids = [message("POST", "/items/1/bids", 2, 1002, '{"maximum":%d}' % maximum) for maximum in (900, 1_000)]
    with tempfile.TemporaryDirectory() as folder:
        watched = Counted(str(pathlib.Path(program).resolve()), folder)
        counts = []
        for stream in (bids[0], b"".join(bids)):
            watched.statements(stream)
            counts.append(calls(watched.dump))
    path = path_of(*counts)
    by_file = collections.defaultdict(list)
    for module, name in sorted(path):
        by_file[module].append(name)
    if verbose:
        for module, names in by_file.items():
            print(f"{module}: {', '.join(names)}")
    print(f"a bid over SQLite: {len(path)} functions in {len(by_file)} files of {len({name.split('::')[0] for name in by_file})} crates")


if __name__ == "__main__":
    main(*sys.argv[1:])
