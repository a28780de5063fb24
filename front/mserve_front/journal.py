# SPDX-License-Identifier: Apache-2.0
"""The journal of lines: no line is sent before its record is durable, and no reply is handed out before the record of its digest is.

Records that come while a flush is under way share the next one, so that many users' lines cost one flush. A record waits for nothing else. If a flush
fails, no line goes on: those that were to be sent are refused, replies of lines that were sent are kept until they can be noted, and the journal is
tried again each second."""
from __future__ import annotations

import asyncio
import contextlib
import secrets
import time
from collections.abc import Callable, Iterator
from concurrent.futures import ThreadPoolExecutor
from dataclasses import dataclass
from typing import Any, Generic, Protocol, TypeVar

from .faults import Causes, HeldBack, NoJournal
from .history import CUT_SHORT
from .lines import HALT, Line
from .metrics import Metrics
from .records import BeginRecord, Flush, LineRecord, Record, ReplyRecord, RowsRecord, StoreAtStart, size_of

# Seconds between two attempts to write again, and those after which a reply that cannot be noted is given up.
RETRY, HELD = 1.0, 30.0
# Seconds that the end waits for a flush.
CLOSING = 5.0
# A step back of the clock that is reported, in microseconds.
STEP = 1_000_000


class LogFault(Exception):
    """What is to be kept cannot be kept now; the text says why."""


class LogTaken(Exception):
    """Another front writes this journal."""


@dataclass(frozen=True, slots=True)
class Tail:
    """Where a journal ends: its number, its last flush, the next line, the last line with a reply, the last time, who wrote it; and what to
    say to the operator."""

    journal: int
    sequence: int
    next: int
    answered: int
    time: int
    told: str = ""
    writer: int = 0


class Log(Protocol):
    """What keeps flushes. Its calls wait for the disk or the network, and are made from one thread."""

    @property
    def in_spare(self) -> bool:
        """Whether the disk is full, and it goes on in the room that was kept for that."""

    def take(self, force: bool = False) -> Tail:
        """Takes the journal for this process, with `force` from another one, and gives its end. Raises `LogTaken`, `LogFault` or `BadJournal`."""

    def append(self, flush: Flush) -> None:
        """Keeps a flush: it is durable once this returns. Raises `LogFault`, or `LogTaken` if another front has the journal by now."""

    def mend(self) -> int:
        """Gets ready to go on after a fault, and gives the number of the last flush that is kept: one that failed may be. Raises as `append` does."""

    def close(self) -> None:
        """Gives the journal back."""

    def abandon(self) -> None:
        """Ends a call that waits, from another thread."""


class Asked(Protocol):
    """A line on its way."""

    terminal: int
    line: Line
    user: str
    since: float
    number: int


A = TypeVar("A", bound=Asked)
T = TypeVar("T")


class Carrier(Protocol[A]):
    """What sends lines once they are durable."""

    def go_on(self, chosen: list[A]) -> bool:
        """Sends lines, and says whether it did."""

    def refuse(self, why: str) -> None:
        """Ends all lines that were not sent by `NoJournal`."""


@dataclass(slots=True)
class _Lines(Generic[A]):
    """Lines that are to be sent."""

    carrier: Carrier[A]
    asks: list[A]


@dataclass(slots=True)
class _Reply:
    """A reply that is to be handed out: `hand` does it, and `drop` ends the line by `HeldBack`."""

    asked: Asked
    digest: bytes
    code: str
    hand: Callable[[], None]
    drop: Callable[[Exception], None]


@dataclass(slots=True)
class _Rows:
    """Rows of the store, for the start that comes."""

    part: int
    rows: bytes
    done: asyncio.Future[None]


@dataclass(slots=True)
class _Start:
    """A start: sessions begin again."""

    held: StoreAtStart
    base: int
    parts: int
    settings: bytes
    done: asyncio.Future[None]
    number: int = 0


def _next_of(parts: Iterator[bytes]) -> bytes | None:
    return next(parts, None)


_Entry = _Lines[Any] | _Reply | _Rows | _Start


class Witness(Protocol):
    """Notes beside the store what a later start needs to know. `cut` says that a line was cut short, so that its reply does not tell what it wrote."""

    cut: bool

    def sending(self, number: int) -> None:
        """Lines from this number on are about to be sent."""

    def flushed(self, flush: Flush) -> None:
        """A flush is durable."""

    def begun(self) -> None:
        """All sessions have begun again."""


class Journal:
    """A journal that this process writes. `fault` says why it cannot be written, or is None; `taken` is done if another front has taken it."""

    def __init__(self, log: Log, metrics: Metrics, tell: Callable[[str], None]) -> None:
        self._log = log
        self._metrics = metrics
        self._tell = tell
        self._thread = ThreadPoolExecutor(1, thread_name_prefix="journal")
        self._waiting: list[_Entry] = []
        self._work: asyncio.Task[None] | None = None
        self._time = 0
        self._stepped = False
        self.number = 0
        self.sequence = 0
        # Who writes from now on, and who wrote last.
        self.writer = secrets.randbits(63) | 1
        self.before = 0
        # The next line's number, the last line's that was sent, and the last one's that has a reply; and the terminals whose sessions are not new.
        self.next = 1
        self.sent = 0
        self.answered = 0
        self.open: set[int] = set()
        self.fault: str | None = None
        self._causes = Causes()
        # Since when it cannot be written.
        self.faulty = 0.0
        self.witness: Witness | None = None
        self.handed: Callable[[int, float, int], None] | None = None
        self.taken: asyncio.Future[str] = asyncio.get_running_loop().create_future()

    async def take(self, force: bool = False) -> None:
        """Takes the journal where it ends, with `force` from another front that has it. Raises `LogTaken`, `LogFault` or `BadJournal`."""
        tail = await self._in_thread(self._log.take, force)
        self.number, self.sequence, self.next, self.answered, self._time = tail.journal, tail.sequence, tail.next, tail.answered, tail.time
        self.sent, self.before = self.next - 1, tail.writer
        if tail.told:
            self._tell(tail.told)

    @property
    def in_spare(self) -> bool:
        """Whether the disk is full, and the journal goes on in the room that was kept for that."""
        return self._log.in_spare

    @property
    def waiting(self) -> int:
        """How many lines and replies wait to be durable."""
        return sum(len(entry.asks) if isinstance(entry, _Lines) else 1 for entry in self._waiting)

    def count_in(self, metrics: Metrics) -> None:
        """Has the figures counted with others from now on."""
        self._metrics = metrics

    def stands_at(self, number: int) -> None:
        """Notes up to which line the store has run: the lines after it were not."""
        self.sent = number

    async def begin(self, held: StoreAtStart, base: int, settings: bytes, parts: Iterator[bytes] = iter(())) -> None:
        """Notes that all sessions begin again, and what the store holds then: `parts` are its rows, if these are to be given. Raises `NoJournal`."""
        count = 0
        while (part := await asyncio.to_thread(_next_of, parts)) is not None:
            await self._kept(_Rows(count, part, asyncio.get_running_loop().create_future()))
            count += 1
        await self._kept(_Start(held, base, count, settings, asyncio.get_running_loop().create_future()))

    async def renew(self, settings: bytes, rows: Iterator[bytes] | None) -> None:
        """Notes that all sessions begin again between two lines, with all rows of the store if these are given. Raises `NoJournal`."""
        if rows is None:
            await self.begin(StoreAtStart.RUN, self.next - 1, settings)
        else:
            await self.begin(StoreAtStart.ALL, 0, settings, rows)

    async def _kept(self, entry: _Rows | _Start) -> None:
        """Waits until an entry is durable. Raises `NoJournal`."""
        if self.fault is not None:
            raise NoJournal(self.fault)
        self._waiting.append(entry)
        self._kick()
        await entry.done

    def lines(self, carrier: Carrier[A], asks: list[A]) -> None:
        """Has lines sent once they are durable."""
        self._waiting.append(_Lines(carrier, asks))
        self._kick()

    def reply(self, asked: Asked, digest: bytes, code: str | None, hand: Callable[[], None], drop: Callable[[Exception], None]) -> None:
        """Has a reply handed out once its digest is durable."""
        if code in CUT_SHORT and self.witness is not None:
            self.witness.cut = True
        self._waiting.append(_Reply(asked, digest, code or "", hand, drop))
        self._kick()

    async def settled(self) -> None:
        """Waits until nothing waits for the disk. Raises `NoJournal` if it cannot be written."""
        while self._work is not None and self.fault is None:
            await asyncio.wait([self._work], timeout=RETRY / 4)
        if self.fault is not None:
            raise NoJournal(self.fault)

    async def mended(self) -> None:
        """Waits until the journal can be written, where it cannot."""
        while self.fault is not None:
            await asyncio.sleep(RETRY / 4)

    async def close(self) -> bool:
        """Ends the writing, and says whether all that was sent has its reply in the journal."""
        with contextlib.suppress(NoJournal, TimeoutError):
            await asyncio.wait_for(self.settled(), CLOSING)
        whole = self._work is None and self.fault is None and not self._waiting and self.answered == self.next - 1
        if self._work is not None:
            self._work.cancel()
        closed = asyncio.ensure_future(self._in_thread(self._log.close))
        await asyncio.wait([closed], timeout=CLOSING)
        if not closed.done():
            self._log.abandon()
        self._thread.shutdown(wait=False)
        return whole

    async def _in_thread(self, act: Callable[..., T], *given: object) -> T:
        return await asyncio.get_running_loop().run_in_executor(self._thread, act, *given)

    def _kick(self) -> None:
        if self._work is None:
            self._work = asyncio.get_running_loop().create_task(self._write())

    async def _write(self) -> None:
        """Writes what waits, flush by flush; after a fault it tries until that is fixed."""
        began = 0.0
        try:
            while (self._waiting or self.fault is not None) and not self.taken.done():
                batch, self._waiting = self._waiting, []
                # Before the first flush that fails: somebody may await it.
                began = began or time.monotonic()
                if await self._flushed(batch):
                    began = 0.0
                    self._mend()
                    for entry in batch:
                        self._done(entry)
                    continue
                if time.monotonic() - began > HELD:
                    self._give_up()
                await asyncio.sleep(RETRY)
        finally:
            self._work = None

    async def _flushed(self, batch: list[_Entry]) -> bool:
        """Makes a batch durable; if that fails, its lines and all that wait are refused, and the rest waits on."""
        before = self.next, self.answered
        began = time.monotonic()
        try:
            if self.fault is not None:
                # Lines of a flush that is kept all the same were not sent: those that get their numbers now take their place.
                self.sequence = await self._in_thread(self._log.mend)
            flush = self._packed(batch)
            await self._in_thread(self._log.append, flush)
        except Exception as error:
            # Whatever it was: nothing of the batch may go on.
            self.next, self.answered = before
            self._failed(batch, error)
            return False
        self.sequence += 1
        if self.witness is not None:
            self.witness.flushed(flush)
        self._metrics.flushed(len(flush.records), time.monotonic() - began)
        return True

    def _packed(self, batch: list[_Entry]) -> Flush:
        """A flush of a batch, whose lines get their numbers."""
        now = self._now()
        records: list[Record] = []
        for entry in batch:
            if isinstance(entry, _Lines):
                for asked in entry.asks:
                    asked.number = self.next
                    self.next += 1
                    records.append(LineRecord(asked.number, now, asked.terminal, asked.user, asked.line.data))
            elif isinstance(entry, _Reply):
                self.answered = entry.asked.number
                records.append(ReplyRecord(entry.asked.number, entry.digest, entry.code))
            elif isinstance(entry, _Rows):
                records.append(RowsRecord(entry.part, entry.rows))
            else:
                entry.number, self.answered = self.next, self.next - 1
                records.append(BeginRecord(self.next, now, self.sent, entry.held, entry.base, entry.parts, entry.settings))
        return Flush(self.number, self.sequence + 1, self.next, self.answered, now, records, self.writer)

    def _now(self) -> int:
        """The time, which never steps back: a record's time is not before that of the record before it."""
        now = time.time_ns() // 1000
        if now < self._time - STEP and not self._stepped:
            self._tell(f"the clock stepped back by {(self._time - now) / 1e6:.0f} s: the journal keeps the time of its last record until the clock is there "
                       "again")
        self._stepped = now < self._time - STEP
        self._time = max(self._time, now)
        return self._time

    def _done(self, entry: _Entry) -> None:
        """What was to happen once an entry is durable."""
        if isinstance(entry, _Lines):
            if self.witness is not None:
                self.witness.sending(entry.asks[0].number)
            if entry.carrier.go_on(entry.asks):
                self.sent = entry.asks[-1].number
                self.open.update(asked.terminal for asked in entry.asks)
        elif isinstance(entry, _Reply):
            if entry.asked.line == HALT:
                self.open.discard(entry.asked.terminal)
            entry.hand()
            if self.handed is not None:
                asked = entry.asked
                self.handed(asked.terminal, asked.since, size_of(asked.user, asked.line.data, entry.code))
        else:
            if isinstance(entry, _Start):
                self._begun(entry)
            if not entry.done.done():
                entry.done.set_result(None)

    def _begun(self, start: _Start) -> None:
        self.sent = start.number - 1
        self.open.clear()
        if self.witness is not None:
            self.witness.begun()

    def _failed(self, batch: list[_Entry], error: Exception) -> None:
        first, self.fault = self.fault is None, str(error)
        if isinstance(error, LogTaken) and not self.taken.done():
            self.taken.set_result(str(error))
        self._metrics.journal_faults += 1
        entries = batch + self._waiting
        self._waiting = [entry for entry in entries if isinstance(entry, _Reply)]
        known = self._causes.has(error)
        if first:
            self.faulty = time.monotonic()
            self._tell(f"the journal cannot be written: {error}: no line goes on until it can")
        elif not known:
            self._tell(f"the journal cannot be written yet: {error}")
        for entry in entries:
            if isinstance(entry, _Lines):
                entry.carrier.refuse(self.fault)
            elif isinstance(entry, _Rows | _Start) and not entry.done.done():
                entry.done.set_exception(NoJournal(self.fault))

    def _mend(self) -> None:
        if self.fault is not None:
            self.fault = None
            self._causes.clear()
            self._tell("the journal is written again")

    def _give_up(self) -> None:
        """Ends lines whose replies could not be noted for long; their records wait on."""
        for entry in self._waiting:
            if isinstance(entry, _Reply):
                entry.drop(HeldBack())
