# SPDX-License-Identifier: Apache-2.0
"""The journal that the settings name: in a folder, or in a table of PostgreSQL."""
from __future__ import annotations

from collections.abc import Callable
from typing import Protocol

from . import journal_file
from .journal import Log, Tail
from .records import BadJournal, Flush
from .settings import JournalSettings


class Reader(Protocol):
    """Reads a journal, which may be written meanwhile. Its calls wait for the disk or the network."""

    def more(self) -> list[Flush]:
        """The flushes that have come since. Raises `BadJournal` if one is damaged or missing, and `LogFault` if none can be had now."""

    def says(self, name: str, text: str) -> None:
        """Says beside the journal what a standby says of itself; nothing, once it leaves in order. Raises `LogFault`."""

    def close(self) -> None:
        """Leaves the journal."""


def writer_of(settings: JournalSettings, tell: Callable[[str], None] = lambda text: None) -> Log:
    """What writes the journal; `tell` is called with what the operator is to know of its disk."""
    if settings.folder is not None:
        return journal_file.FileLog(settings.folder, settings.roll, settings.spare, tell)
    # Not above: it needs a package that a journal in a folder does without.
    from .journal_table import TableLog
    return TableLog(str(settings.database), settings.name)


def reader_of(settings: JournalSettings, line: int) -> Reader:
    """What reads the journal from a line on."""
    if settings.folder is not None:
        return journal_file.FileReader(settings.folder, line)
    from .journal_table import TableReader
    return TableReader(str(settings.database), settings.name, line)


def end_of(settings: JournalSettings) -> Tail:
    """Where a journal ends. Raises `BadJournal`, or `LogFault` if it cannot be had now."""
    if settings.folder is not None:
        return journal_file.tail_of(settings.folder)
    from . import journal_table
    return journal_table.end_of(str(settings.database), settings.name)


def said_beside(settings: JournalSettings) -> list[str]:
    """What standbys say of themselves beside a journal. Raises `LogFault`."""
    if settings.folder is not None:
        return journal_file.said_in(settings.folder)
    from . import journal_table
    return journal_table.said_in(str(settings.database), settings.name)


def last_line(settings: JournalSettings) -> int:
    """The number of the last line of a journal; 0 if it has none. Raises as `end_of` does."""
    return end_of(settings).next - 1


def first_of(settings: JournalSettings) -> int:
    """The number of the first line that a journal has, or of the next one if it has none: what comes before it may have expired. It is 1 if the journal is
    damaged there, as who reads it finds then. Raises `LogFault` if it cannot be had now."""
    try:
        if settings.folder is not None:
            return journal_file.first_of(settings.folder)
        from . import journal_table
        return journal_table.first_of(str(settings.database), settings.name)
    except BadJournal:
        return 1


def last_of(settings: JournalSettings, writer: int) -> Flush | None:
    """The last flush of a writer, or None if the journal has none of it. All that the journal keeps is read, unless that writer was the last one. Raises
    `BadJournal`, or `LogFault` if it cannot be had now."""
    tail = end_of(settings)
    if tail.writer == writer:
        return Flush(tail.journal, tail.sequence, tail.next, tail.answered, tail.time, (), writer)
    reader, last = reader_of(settings, 1), None
    try:
        # Another front may be writing meanwhile: what comes after the end that was found is its own.
        while flushes := reader.more():
            last = next((flush for flush in reversed(flushes) if flush.writer == writer), last)
            if flushes[-1].sequence >= tail.sequence:
                break
    finally:
        reader.close()
    return last


def expire(settings: JournalSettings, journal: int, line: int) -> str:
    """Removes what has no line after this one, and says how much that was. Raises `BadJournal` if it is another journal."""
    if settings.folder is not None:
        return f"{journal_file.expire_files(settings.folder, journal, line)} files"
    from . import journal_table
    return f"{journal_table.expire_rows(str(settings.database), settings.name, journal, line)} rows"
