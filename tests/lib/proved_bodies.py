"""Wrong bodies that were proved, and what a person found each to be.

A body that meets the contract shows that a clause is missing, unless it means the same as the right one, or no clause can speak of
what it does. The file has a line for each, with tabs between: the crate, the place, the body, and the reason why no clause refuses
it.
"""
from lib.places import ROOT

ROWS = ROOT / "tests" / "kit" / "proved.tsv"


def reasons_given():
    """By crate, place and body, the reason."""
    rows = [line.split("\t") for line in ROWS.read_text().splitlines() if line and not line.startswith("#")]
    return {(crate, place, body): reason for crate, place, body, reason in rows}


def cell(text):
    """A text as code in a cell of a table."""
    return f"`{text}`".replace("|", "\\|") if text else "nothing"
