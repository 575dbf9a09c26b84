#!/usr/bin/env python3
"""Mounts a folder at another place, where calls fail on demand: `failing_files.py FOLDER PLACE SWITCH`, as root.

Each call is passed on to the folder. While the file SWITCH is there, those that it names, of `write`, `fsync` and `truncate`, end
with an I/O error, as of a disk that fails. It goes on until PLACE is unmounted. failed_disk.py runs it. The Debian package is
python3-fusepy.

Promise: none
"""
import errno
import fusepy
import os
import pathlib
import sys


class Files(fusepy.Operations):
    """The files of a folder. A handle is the number of a file that is open here."""

    def __init__(self, folder, switch):
        self.folder, self.switch = folder, pathlib.Path(switch)

    def __call__(self, operation, path, *words):
        if operation in ("write", "fsync", "truncate") and self.fails(operation):
            raise fusepy.FuseOSError(errno.EIO)
        return super().__call__(operation, self.folder + path, *words)

    def fails(self, operation):
        try:
            return operation in self.switch.read_text().split()
        except FileNotFoundError:
            return False

    def getattr(self, path, handle=None):
        found = os.lstat(path)
        return {name: getattr(found, name) for name in
                ("st_atime", "st_ctime", "st_gid", "st_mode", "st_mtime", "st_nlink", "st_size", "st_uid")}

    def readdir(self, path, handle):
        return [".", "..", *os.listdir(path)]

    def statfs(self, path):
        found = os.statvfs(path)
        return {name: getattr(found, name) for name in ("f_bavail", "f_bfree", "f_blocks", "f_bsize", "f_frsize", "f_namemax")}

    def open(self, path, flags):
        return os.open(path, flags)

    def create(self, path, mode, info=None):
        return os.open(path, os.O_RDWR | os.O_CREAT, mode)

    def read(self, path, size, place, handle):
        return os.pread(handle, size, place)

    def write(self, path, data, place, handle):
        return os.pwrite(handle, data, place)

    def fsync(self, path, only_data, handle):
        os.fsync(handle)

    def truncate(self, path, length, handle=None):
        os.truncate(path, length)

    def release(self, path, handle):
        os.close(handle)

    def unlink(self, path):
        os.unlink(path)

    def chown(self, path, user, group):
        os.chown(path, user, group)

    def chmod(self, path, mode):
        os.chmod(path, mode)


if __name__ == "__main__":
    fusepy.FUSE(Files(sys.argv[1], sys.argv[3]), sys.argv[2], foreground=True, nothreads=True)
