#!/usr/bin/env python3
# SPDX-License-Identifier: Apache-2.0
"""Whether each source file says its licence in one of its first three lines, as `SPDX-License-Identifier: Apache-2.0` in a comment.

Sources are the files of code, definitions and proofs, by their endings, and the files that begin with `#!`. Status 1 if a file has no such
line; the first of them are named."""
import os
import sys

from sources import TOP

LINE = "SPDX-License-Identifier: Apache-2.0"
ENDINGS = (".rt", ".antt", ".py", ".c", ".h", ".js", ".css")
# What is made, or is no source of ours: what was built and tested, the examples' data, patches.
PASSED_OVER = {".git", "out", "__pycache__", ".hypothesis", ".pytest_cache", "unpacked", "wip", "examples", "pictures"}


def is_source(path: str, first: str) -> bool:
    return path.endswith(ENDINGS) or first.startswith("#!")


def without_line() -> list[str]:
    """The source files that do not have the line."""
    found = []
    for folder, folders, files in os.walk(TOP):
        folders[:] = sorted(set(folders) - PASSED_OVER)
        for name in sorted(files):
            path = os.path.join(folder, name)
            with open(path, encoding="utf-8", errors="replace") as file:
                head = [file.readline(400) for _ in range(3)]
            if is_source(path, head[0]) and LINE not in "".join(head):
                found.append(os.path.relpath(path, TOP))
    return found


def main() -> int:
    found = without_line()
    for path in found[:20]:
        print(f"licence_lines: {path}: no line {LINE}")
    return 1 if found else 0


if __name__ == "__main__":
    sys.exit(main())
