# SPDX-License-Identifier: Apache-2.0
"""What a journal tells, in order: lines with their replies, and starts, at which all sessions began again."""
from __future__ import annotations

from collections.abc import Iterable, Iterator
from dataclasses import dataclass

from .records import BadJournal, BeginRecord, Flush, LineRecord, ReplyRecord, RowsRecord, StartRecord, StoreAtStart

# Codes after which a line may have written a first part of what it was to write, and its session is gone.
CUT_SHORT = ("ZMEM", "ZSTORE")


@dataclass(frozen=True, slots=True)
class Answered:
    """A line that was run, and its reply."""

    line: LineRecord
    reply: ReplyRecord


@dataclass(frozen=True, slots=True)
class Began:
    """All sessions began again, after the line `answered` had its reply, or 0 if no reply was read yet. `unknown` are later lines that may have been run or
    not, `unsent` those that were not. `rows` are the parts of the store that come with the start, if it is known what these lines did."""

    start: BeginRecord | StartRecord
    answered: int
    unknown: tuple[LineRecord, ...]
    unsent: tuple[LineRecord, ...]
    rows: tuple[bytes, ...] = ()

    @property
    def held(self) -> StoreAtStart:
        """What the store held then. A start of version 1 says it less well: a store that was put back to a line before `answered` is UNKNOWN there too."""
        if isinstance(self.start, BeginRecord):
            return self.start.held
        if self.start.fresh:
            return StoreAtStart.ALL
        return StoreAtStart.RUN if self.start.base is not None and self.start.base >= self.answered else StoreAtStart.UNKNOWN


Event = Answered | Began


class History:
    """Puts the lines and the replies of flushes together. `at` is the number of the last line with a reply, `last` that of the last line."""

    def __init__(self, after: int | None = 0) -> None:
        """What stands up to the line of this number is passed over; None begins with what comes first."""
        self._anywhere = after is None
        self._after = self.at = self.last = after or 0
        self._waiting: dict[int, LineRecord] = {}
        self._rows: list[bytes] = []

    def take(self, flushes: Iterable[Flush]) -> Iterator[Event]:
        """What flushes add. Raises `BadJournal` if lines are missing."""
        for flush in flushes:
            if self._anywhere:
                self._anywhere = False
                self._after = self.at = self.last = flush.first - 1
            for record in flush.records:
                if isinstance(record, LineRecord):
                    self._line(record)
                elif isinstance(record, ReplyRecord):
                    if record.number > self.at:
                        yield self._answered(record)
                elif isinstance(record, RowsRecord):
                    self._part(record)
                elif record.number > self._after:
                    yield self._began(record)

    @property
    def unanswered(self) -> list[LineRecord]:
        """The lines that have no reply yet."""
        return list(self._waiting.values())

    def _line(self, line: LineRecord) -> None:
        """Notes a line. One whose flush failed may come twice: the later one counts, and those after it were never sent."""
        if line.number <= self._after:
            return
        if line.number <= self.last:
            self._forget(line.number)
        self._expect(line.number)
        self._waiting[line.number] = line
        self.last = line.number

    def _answered(self, reply: ReplyRecord) -> Answered:
        number = next(iter(self._waiting), None)
        if number != reply.number:
            raise BadJournal(f"line {reply.number} has a reply before line {number}" if number else f"line {reply.number} is missing, and has a reply")
        self.at = number
        return Answered(self._waiting.pop(number), reply)

    def _part(self, record: RowsRecord) -> None:
        """Notes rows for the start that comes. The first part takes the place of those of a start that never came."""
        if record.part == 0:
            self._rows.clear()
        if record.part == len(self._rows):
            self._rows.append(record.rows)

    def _began(self, start: BeginRecord | StartRecord) -> Began:
        self._forget(start.number)
        self._expect(start.number)
        # A reader that has read no reply yet may begin with a store that comes after this start, as one of a snapshot does.
        answered, self.at = self.at if self.at > self._after else 0, self.last
        lines, self._waiting = list(self._waiting.values()), {}
        unknown = tuple(line for line in lines if line.number <= start.sent)
        rows, self._rows = tuple(self._rows), []
        wanted = start.parts if isinstance(start, BeginRecord) else 0
        if len(rows) < wanted:
            raise BadJournal(f"the start before line {start.number} has {wanted} parts of the store, and {len(rows)} are there")
        return Began(start, answered, unknown, tuple(lines[len(unknown):]), rows[:wanted])

    def _forget(self, number: int) -> None:
        """Forgets lines from a number on."""
        for later in [one for one in self._waiting if one >= number]:
            del self._waiting[later]
            self.last = min(self.last, later - 1)

    def _expect(self, number: int) -> None:
        if number != self.last + 1:
            raise BadJournal(f"lines {self.last + 1} to {number - 1} are missing" if number > self.last + 1 else
                             f"line {number} stands where line {self.last + 1} is to be")
