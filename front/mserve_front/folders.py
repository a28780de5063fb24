# SPDX-License-Identifier: Apache-2.0
"""Names in folders, and files that are replaced whole, so that a crash leaves the one or the other."""
from __future__ import annotations

import os
from pathlib import Path


def write_whole(path: Path, data: bytes) -> None:
    """Replaces a file by one that is on the disk before it has the name."""
    made = path.with_name(path.name + ".new")
    with made.open("wb") as file:
        file.write(data)
        file.flush()
        os.fsync(file.fileno())
    made.replace(path)
    sync_folder(path.parent)


def sync_folder(folder: Path) -> None:
    """Has the names in a folder on the disk."""
    descriptor = os.open(folder, os.O_RDONLY | os.O_DIRECTORY)
    try:
        os.fsync(descriptor)
    finally:
        os.close(descriptor)


def give_to_owner(path: Path) -> None:
    """Gives what root has made, with all that is in it, to the owner of the folder that it is in: a service of that user is to have it."""
    if os.geteuid() == 0:
        owner = path.parent.stat()
        for made in (path, *path.rglob("*")):
            os.chown(made, owner.st_uid, owner.st_gid, follow_symlinks=False)
