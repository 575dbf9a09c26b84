"""The figures that pages show, which `bench/figures.json` has.

They are kept by run. A run has the script that measured it, the commit, the machine, and, where files were written, how many
commits of a row a second Python's `sqlite3` made on the same disk. Its figures stand by part, each with what was measured, the
unit, ours, and another's beside it; and, where each round gave its own, how many times ours was ahead at least and at most. A page
names the figure that it shows by a comment, `<!-- figure: RUN: WHAT, UNIT -->`, and `tests/documents/figures.py` compares the two.
"""
import json
import os
import pathlib
import re
import subprocess

import ways

FILE = pathlib.Path(__file__).with_name("figures.json")
TABLE = pathlib.Path(__file__).with_name("TABLE.md")
# Whose figures stand beside ours.
OTHERS = {"plain": "plain Rust", "kit": "the kit alone", "postgres": "PostgreSQL", "sqlite": "SQLite"}


def commit():
    """The commit that is measured: the last that changed a crate, wrong bodies aside."""
    words = ["git", "log", "-1", "--format=%h", "--", ":/crates", ":(exclude,top)crates/*/wrong/*", ":(exclude,top)crates/*/must-fail/*"]
    return subprocess.run(words, cwd=FILE.parent, capture_output=True, text=True, check=True).stdout.strip()


def machine():
    """The processor, and how much other work it has."""
    names = [line.split(": ")[1] for line in pathlib.Path("/proc/cpuinfo").read_text().splitlines() if line.startswith("model name")]
    return f"{len(names)} processors ({names[0]}), load {os.getloadavg()[0]:.1f} at the start"


def read():
    """The runs by name."""
    return json.loads(FILE.read_text())


def keep(name, run):
    """Puts a run in the place of the one of this name."""
    text = json.dumps({**(read() if FILE.exists() else {}), name: run}, indent=1)
    # A figure takes one line.
    FILE.write_text(re.sub(r"\{\s+([^{}]*?)\s+\}", lambda figure: "{" + " ".join(figure[1].split()) + "}", text) + "\n")


def figure(what, found, unit):
    """A figure as it is kept."""
    return {"what": what, "unit": unit, **{whose: round(value, 4) for whose, value in found.items()}}


def number(value):
    """A number as pages show it."""
    if isinstance(value, int):
        return f"{value:,}"
    return f"{value:,.{0 if value >= 100 else 1 if value >= 1 else 2}f}"


def times_ahead(found, unit):
    """How many times ours is ahead of the other, so that more than 1 is better whatever the unit; or nothing."""
    other = next((found[whose] for whose in OTHERS if whose in found), None)
    if not other or not found["ours"]:
        return ""
    ratio = found["ours"] / other if "a second" in unit else other / found["ours"]
    return f"{ratio:.2f}" if ratio >= 0.1 else f"{ratio:.2g}"


def shown_by_name(runs):
    """What pages may show of each figure: by its name, by column, each as it is spelled."""
    names = {}
    for run_name, run in runs.items():
        if "commits" in run:
            names[f"{run_name}: commits, a second"] = {"ours": number(run["commits"])}
        for found in sum(run["parts"].values(), []):
            columns = {whose: number(found[whose]) for whose in ("ours", *OTHERS) if whose in found}
            ahead = {"ahead": times_ahead(found, found["unit"])}
            if "least" in found:
                ahead["spread"] = f"{found['least']:.2f} to {found['most']:.2f}"
            names[f"{run_name}: {found['what']}, {found['unit']}"] = {**columns, **ahead}
    return names


def row(found):
    plain = number(found["plain"]) if "plain" in found else ""
    spread = f"{found['least']:.2f} to {found['most']:.2f}" if "least" in found else ""
    return f"| {found['what']} | {found['unit']} | {number(found['ours'])} | {plain} | {times_ahead(found, found['unit'])} | {spread} |"


def table(run):
    """The page that shows all figures of a run, and what stands in the way of those that are under the goal."""
    shown = shown_by_name({**read(), "table": run})
    lines = ["# Ours beside plain Rust", "", f"Commit `{run['commit']}`, {run['machine']}. On the disk of this run Python's `sqlite3` "
             f"made {number(run['commits'])} commits of a row a second.", "",
             "Ahead is how many times ours is ahead: over 1 it is better than plain Rust, under 1 worse. A time is the median of some "
             "rounds of both in turn; the last column says how far ahead ours was in the worst round and in the best. The goal is "
             f"{ways.GOAL} times ahead. Under each table stands what is in the way of those lines that don't show it.", ""]
    for title, figures in run["parts"].items():
        lines += [f"## {title}", "", "| What | Unit | Ours | Plain Rust | Ahead | From round to round |", "|---|---|---|---|---|---|",
                  *map(row, figures), ""]
        ahead = {f"{found['what']}, {found['unit']}": times_ahead(found, found["unit"]) for found in figures}
        behind = ways.ways_of(ahead, shown)
        lines += [f"In the way of {ways.GOAL} stands:", "", *behind, ""] if behind else []
    return "\n".join(lines)
