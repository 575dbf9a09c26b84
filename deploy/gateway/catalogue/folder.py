"""A folder of files that is written whole or not at all: readers see the old one, or the new one."""
import contextlib
import gzip
import itertools
import json
import os
import pathlib
import shutil


def compact(value):
    return json.dumps(value, sort_keys=True, separators=(",", ":"), ensure_ascii=False).encode()


class Folder:
    """A name that leads to the folder that was written last."""

    def __init__(self, path):
        self.path = pathlib.Path(path)

    def read(self, name):
        """The value of a file, or None where there is none, or where a power cut has left something else."""
        with contextlib.suppress(FileNotFoundError, ValueError):
            return json.loads((self.path / name).read_bytes())
        return None

    def names(self, pattern):
        return sorted(file.relative_to(self.path).as_posix() for file in self.path.glob(pattern))

    def write(self, files, stamp):
        """Writes files, each a name and a value, and then turns the name to them."""
        new = self.unused(stamp)
        for name, value in files:
            self.write_file(new / name, self.path / name, compact(value))
        turned = self.path.with_name(f"{self.path.name}-turned")
        turned.unlink(missing_ok=True)
        turned.symlink_to(new.name)
        os.replace(turned, self.path)
        self.remove_others(new)

    def unused(self, stamp):
        """A name that no folder has: another round may have the same stamp, and what it wrote is being read."""
        names = (self.path.with_name(f"{self.path.name}-{stamp}.{number}") for number in itertools.count(1))
        return next(name for name in names if not name.exists())

    def write_file(self, file, before, text):
        """A file and the same packed. One that is the same as before is the same file, so that who keeps it asks no more."""
        file.parent.mkdir(parents=True, exist_ok=True)
        packed = file.with_name(file.name + ".gz")
        if before.is_file() and before.read_bytes() == text:
            os.link(before, file)
            os.link(before.with_name(before.name + ".gz"), packed)
            return
        file.write_bytes(text)
        packed.write_bytes(gzip.compress(text, mtime=0))

    def remove_others(self, new):
        for other in self.path.parent.glob(f"{self.path.name}-*"):
            if other != new and other.is_dir():
                shutil.rmtree(other)
