"""Houses in files into which lots are imported."""
import contextlib
import pathlib
import shutil
import sqlite3

from lib.checks import check
from lib.plain_house import BANDS
from lib.plain_site import setup

SEED = 2026


class Office:
    """Houses in files, of which `house` has what `--preset` stands for."""

    def __init__(self, program, folder):
        self.program, self.folder = program, pathlib.Path(folder)
        rows = "".join(f"{at},{step}\n" for at, step in BANDS)
        (self.folder / "bands.csv").write_text("at,step\n" + rows)
        self.make("house", "1000", "UTC0", [request.text() for request in setup()])

    def make(self, file, rate, zone, texts):
        check(f"{file} made", self.program.ended("init", file, "--bands", "bands.csv", "--rate", rate, "--zone", zone),
              (0, b"created\n", b""))
        return self.program.answers(file, [b"".join(texts)])[0][0]

    def copy(self):
        """A copy of the house."""
        shutil.copy(self.folder / "house", self.folder / "copy")
        return "copy"

    def imports(self, file, text, member=1, moment=1000):
        """How an import of a file with this text ends."""
        (self.folder / "lots.csv").write_bytes(text)
        return self.program.ended("import", file, "lots.csv", "--member", str(member), "--moment", str(moment))

    def dump(self, file):
        """Each statement that makes the house again, by SQLite."""
        with contextlib.closing(sqlite3.connect(self.folder / file)) as tables:
            return list(tables.iterdump())

    def items(self, file):
        """The items of a house, by SQLite."""
        columns = "id, seller, category, lot, title, body, start, buy_now, ending"
        with contextlib.closing(sqlite3.connect(self.folder / file)) as tables:
            return tables.execute(f"SELECT {columns} FROM item ORDER BY id").fetchall()
