# SPDX-License-Identifier: Apache-2.0
"""Room of a disk that is kept: blocks that a file has after its end. Its size does not say so, and who reads it sees what was written, and no more; but what
others write to the disk leaves these blocks alone."""
from __future__ import annotations

import ctypes
import errno
import os
from pathlib import Path

# The file beside a journal's, which has nothing but room.
SPARE = "spare"
KEEP_SIZE, PUNCH_HOLE, NO_REPLACE, HERE = 1, 2, 1, -100
# What a start needs for small files beside the journal and the store, in bytes.
LENT = 65_536
# By these a disk says that it is full, or that its owner may have no more of it.
FULL = (errno.ENOSPC, errno.EDQUOT)
# The unit of `st_blocks`.
_BLOCK = 512
_libc = ctypes.CDLL(None, use_errno=True)


def hold(descriptor: int, size: int) -> None:
    """Has a file keep a number of bytes after its end. If there are fewer it may keep some of them. Raises OSError."""
    _checked(_libc.fallocate(descriptor, KEEP_SIZE, ctypes.c_int64(os.fstat(descriptor).st_size), ctypes.c_int64(size)))


def give_back(descriptor: int) -> int:
    """Has a file keep nothing after its end, and gives how many bytes that were. Raises OSError."""
    before = os.fstat(descriptor)
    os.ftruncate(descriptor, before.st_size)
    return (before.st_blocks - os.fstat(descriptor).st_blocks) * _BLOCK


def check_room(folder: Path, more: int, left: int) -> None:
    """Raises OSError unless a folder's disk has these bytes more, and leaves others to all."""
    found = os.statvfs(folder)
    if found.f_bavail * found.f_frsize < more + left:
        raise OSError(errno.ENOSPC, os.strerror(errno.ENOSPC))


def kept_in(folder: Path) -> int:
    """How many bytes the spare file in a folder keeps; 0 if it is not there."""
    try:
        return os.stat(folder / SPARE).st_blocks * _BLOCK
    except OSError:
        return 0


def _checked(result: int) -> None:
    if result < 0:
        raise OSError(ctypes.get_errno(), os.strerror(ctypes.get_errno()))


class Spare:
    """The spare file of a journal's folder. Once the disk is full it becomes the journal's next file."""

    def __init__(self, folder: Path, size: int) -> None:
        """`size` is how many bytes it is to keep; 0 stands for no such file."""
        self._folder = folder
        self._path = folder / SPARE
        self._size = size
        self.there = False

    @property
    def wanted(self) -> bool:
        """Whether it is to be there, and is not."""
        return self._size > 0 and not self.there

    def keep(self, own: int = 0) -> None:
        """Has it there. It leaves at least as much again to others, so that it is not what fills the disk; if that cannot be, it has what it had before, or
        nearly all of the bytes that are its `own`, since the journal has just given them back. Raises OSError if there is none."""
        before = kept_in(self._folder)
        if not self._size or before > 2 * self._size:
            # It is wanted no more, or was larger.
            self._path.unlink(missing_ok=True)
            before = 0
        if not self._size:
            return
        size = self._size
        try:
            check_room(self._folder, max(0, size - before), size if before < size else 0)
        except OSError:
            size = min(size, max(before, own - LENT))
            if size <= 0:
                raise
        descriptor = os.open(self._path, os.O_WRONLY | os.O_CREAT | os.O_CLOEXEC, 0o600)
        try:
            hold(descriptor, size)
            os.fsync(descriptor)
        except OSError:
            self._path.unlink(missing_ok=True)
            raise
        finally:
            os.close(descriptor)
        self.there = True

    def lend(self) -> None:
        """Gives some of it to a disk that is full: a front that starts there replaces small files. Raises OSError."""
        try:
            check_room(self._folder, LENT, 0)
        except OSError:
            before = kept_in(self._folder)
            if (lent := min(LENT, before // 2)) > 0:
                with self._path.open("r+b") as file:
                    _checked(_libc.fallocate(file.fileno(), KEEP_SIZE | PUNCH_HOLE, ctypes.c_int64(before - lent), ctypes.c_int64(lent)))

    def becomes(self, path: Path) -> int:
        """Gives it another name, which nothing has, and opens it. Raises OSError."""
        self.there = False
        _checked(_libc.renameat2(HERE, os.fsencode(self._path), HERE, os.fsencode(path), NO_REPLACE))
        return os.open(path, os.O_WRONLY | os.O_CLOEXEC)
