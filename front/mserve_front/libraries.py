# SPDX-License-Identifier: Apache-2.0
"""Libraries that an update has replaced: a process runs those of before until it is started again."""
from __future__ import annotations

from pathlib import Path

from .metrics import family

MAPS = Path("/proc/self/maps")
FIGURE = "mfront_libraries_replaced"
# What the status of a front calls it.
REPLACED = "libraries replaced"
# What the system adds to the name of a file that is gone, or has had its name taken by another one.
GONE = " (deleted)"


def replaced() -> int:
    """How many of the libraries, and of the programs, that this process runs have been replaced; 0 where the system does not say."""
    found = set()
    try:
        for line in MAPS.read_text(encoding="utf-8", errors="replace").splitlines():
            _, rights, _, _, _, *path = line.split(maxsplit=5)
            # Memory that has no file has such names too, and is neither.
            if "x" in rights and path and path[0].endswith(GONE) and (".so" in path[0] or "/bin/" in path[0]):
                found.add(path[0])
    except (OSError, ValueError):
        return 0
    return len(found)


def of_libraries(count: int | None = None) -> list[str]:
    """The figure, in the text format of Prometheus: of this process, unless another one has counted."""
    about = "Libraries that an update has replaced since the process began, which runs those of before."
    return family(FIGURE, "gauge", about, {"": replaced() if count is None else count})
