# SPDX-License-Identifier: Apache-2.0
"""Journals that tests write and read by hand."""
from __future__ import annotations

from pathlib import Path

from mserve_front.journal_file import FileLog, FileReader, files_of
from mserve_front.records import Flush, LineRecord, ReplyRecord, StartRecord


def flushes(count: int = 5) -> list[Flush]:
    """A journal: a start, and flushes of a line each and the reply of the line before."""
    found = [Flush(7, 1, 1, 0, 1_000, (StartRecord(1, 1_000, 0, None, True, b"[[account]]\n"),))]
    for number in range(1, count):
        line = LineRecord(number, 1_000 + number, 9999, "ada", b"S ^X(%d)=1\t" % number)
        reply = (ReplyRecord(number - 1, bytes(range(16)), "M6" if number % 2 else ""),) if number > 1 else ()
        found.append(Flush(7, number + 1, number + 1, number - 1, 1_000 + number, (line, *reply)))
    return found


def written(folder: Path, parts: list[Flush], roll: int = 1 << 20) -> Path:
    """A journal with these flushes in a folder, and its last file."""
    log = FileLog(folder, roll)
    log.take()
    for flush in parts:
        log.append(flush)
    log.close()
    return files_of(folder)[-1][1]


def read(reader: FileReader) -> list[Flush]:
    """All that has come."""
    found: list[Flush] = []
    while part := reader.more():
        found += part
    return found
