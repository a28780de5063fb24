# SPDX-License-Identifier: Apache-2.0
"""What waits for the journal: lines and replies, while a flush is under way, while the disk is full, and while a clock steps back."""
from __future__ import annotations

import asyncio
import random
import threading
import time
from collections.abc import Iterator

import pytest
from front import in_loop, until
from mserve_front import journal as journal_module
from mserve_front.faults import HeldBack, NoJournal
from mserve_front.history import Began, History
from mserve_front.journal import Journal, LogFault, LogTaken, Tail
from mserve_front.lines import Line
from mserve_front.metrics import Metrics
from mserve_front.records import Flush, LineRecord, ReplyRecord, StoreAtStart
from mserve_front.turns import FairConnection, Lost, Unsent
from test_turns import Peer


class Memory:
    """A log in memory: a flush waits as long as a test says, or until it may go on, or fails. `begun` counts the flushes, with those that wait."""

    def __init__(self) -> None:
        self.flushes: list[Flush] = []
        self.fails: Exception | None = None
        self.waits = 0.0
        self.goes = threading.Event()
        self.goes.set()
        self.begun = 0
        self.mended = 0

    def take(self, force: bool = False) -> Tail:
        return Tail(7, 0, 1, 0, 0)

    def append(self, flush: Flush) -> None:
        self.begun += 1
        time.sleep(self.waits)
        self.goes.wait(30)
        if self.fails:
            raise self.fails
        self.flushes.append(flush)

    def mend(self) -> int:
        self.mended += 1
        return self.flushes[-1].sequence if self.flushes else 0

    def close(self) -> None:
        pass


class Kept:
    """A connection whose lines go through a journal."""

    def __init__(self) -> None:
        self.log, self.told = Memory(), []
        self.metrics = Metrics()
        self.journal = Journal(self.log, self.metrics, self.told.append)
        self.turns = FairConnection(1_000_000, lambda waited, taken: None)
        self.peer = Peer(self.turns)

    async def begin(self) -> Kept:
        await self.journal.take()
        await self.journal.begin(StoreAtStart.ALL, 0, b"")
        self.turns.keep(self.journal)
        return self

    def records(self) -> list[object]:
        return [record for flush in self.log.flushes for record in flush.records]


@pytest.fixture(autouse=True)
def _impatient(monkeypatch: pytest.MonkeyPatch) -> Iterator[None]:
    monkeypatch.setattr(journal_module, "RETRY", 0.02)
    yield


@in_loop()
async def test_no_line_is_sent_and_no_reply_handed_out_before_its_record_is_durable() -> None:
    kept = await Kept().begin()
    kept.log.goes.clear()
    reply = kept.turns.ask(1, Line(b"W 1"), "ada")
    await until(lambda: kept.log.begun == 2, "the flush of the line")
    await asyncio.sleep(0.05)
    assert not kept.peer.lines and len(kept.records()) == 1
    kept.log.goes.set()
    await until(lambda: kept.peer.lines, "the line")
    assert kept.peer.lines == [b"1 W 1"] and isinstance(kept.records()[-1], LineRecord) and kept.records()[-1].user == "ada"
    kept.log.goes.clear()
    kept.peer.reply(b"1")
    await until(lambda: kept.log.begun == 3, "the flush of the reply")
    await asyncio.sleep(0.05)
    assert not reply.done() and len(kept.records()) == 2
    kept.log.goes.set()
    assert (await reply).reply.rest == "1" and kept.records()[-1].number == 1
    assert await kept.journal.close()


@in_loop()
async def test_many_lines_share_a_flush() -> None:
    kept = await Kept().begin()
    kept.log.waits = 0.01
    replies = [kept.turns.ask(terminal, Line(b"W 1")) for terminal in range(1, 41)]
    while len(kept.peer.lines) < 40:
        await asyncio.sleep(0.005)
    for _ in range(40):
        kept.peer.reply()
    await asyncio.gather(*replies)
    assert len(kept.records()) == 81 and len(kept.log.flushes) <= 5
    text = kept.metrics.text({}, 0, 0, True, (40, True))
    assert "mfront_journal_records_total 81" in text and "mfront_journal_line 40" in text


@in_loop()
async def test_drawn_replies_keep_their_digests_however_bytes_are_cut() -> None:
    """The same bytes have the same digest, whatever of a reply is kept."""
    rng, found = random.Random(5), []
    for size in (1, 3, 1000):
        kept = await Kept().begin()
        kept.turns._reader._room = rng.choice([50, 1_000_000])
        reply = kept.turns.ask(7, Line(b"W 1"))
        while not kept.peer.lines:
            await asyncio.sleep(0.001)
        data = b"7:a\\0Ab\n7:" + b"x" * 200 + b"\n7-c\n7!M6\n"
        for start in range(0, len(data), size):
            kept.turns.data_received(data[start:start + size])
        await reply
        found.append(kept.records()[-1])
    assert found[0] == found[1] == found[2] and found[0].code == "M6"


@in_loop()
async def test_a_journal_that_cannot_be_written() -> None:
    """Lines that were not sent are refused, those that were keep their replies until these are noted, and then all goes on without a gap."""
    kept = await Kept().begin()
    sent = kept.turns.ask(1, Line(b"W 1"))
    waits = kept.turns.ask(1, Line(b"W 2"))
    while not kept.peer.lines:
        await asyncio.sleep(0.001)
    kept.log.fails = LogFault("journal: No space left on device")
    refused = kept.turns.ask(2, Line(b"W 3"))
    with pytest.raises(NoJournal, match="No space left"):
        await refused
    with pytest.raises(NoJournal):
        await waits
    with pytest.raises(NoJournal):
        await kept.turns.ask(3, Line(b"W 4"))
    kept.peer.reply(b"1")
    await tried_in_vain(kept)
    assert not sent.done() and kept.peer.lines == [] and kept.told == [
        "the journal cannot be written: journal: No space left on device: no line goes on until it can"]
    # Another cause is reported too, and once.
    for process in (7, 8):
        kept.log.fails = LogFault(f"journal: process {process} has the lock")
        await tried_in_vain(kept)
    assert not sent.done() and kept.told[1:] == ["the journal cannot be written yet: journal: process 7 has the lock"]
    kept.log.fails = None
    assert (await sent).reply.rest == "1" and kept.told[-1] == "the journal is written again" and kept.log.mended > 1
    after = kept.turns.ask(2, Line(b"W 5"))
    while not kept.peer.lines:
        await asyncio.sleep(0.001)
    kept.peer.reply(b"5")
    await after
    numbers = [record.number for record in kept.records()[1:]]
    assert numbers == [1, 1, 2, 2] and [flush.sequence for flush in kept.log.flushes] == list(range(1, len(kept.log.flushes) + 1))
    assert kept.metrics.journal_faults > 1


async def tried_in_vain(kept: Kept) -> None:
    """Waits until it was tried again twice, however busy the machine is: the first attempt may have begun before."""
    before = kept.log.mended
    while kept.log.mended < before + 2:
        await asyncio.sleep(0.001)


@in_loop()
async def test_a_reply_that_cannot_be_noted_for_long_is_held_back(monkeypatch: pytest.MonkeyPatch) -> None:
    monkeypatch.setattr(journal_module, "HELD", 0.1)
    kept = await Kept().begin()
    sent = kept.turns.ask(1, Line(b"W 1"))
    while not kept.peer.lines:
        await asyncio.sleep(0.001)
    kept.log.fails = LogFault("full")
    kept.peer.reply(b"1")
    with pytest.raises(HeldBack):
        await sent
    kept.log.fails = None
    await kept.journal.mended()
    assert isinstance(kept.records()[-1], ReplyRecord) and kept.records()[-1].number == 1


@in_loop()
async def test_lines_whose_connection_ends_while_they_wait_for_the_disk_are_not_sent() -> None:
    """They are in the journal, and the next start says that they were not sent."""
    kept = await Kept().begin()
    first = kept.turns.ask(1, Line(b"W 1"))
    while not kept.peer.lines:
        await asyncio.sleep(0.001)
    kept.log.goes.clear()
    second = kept.turns.ask(2, Line(b"W 2"))
    await until(lambda: kept.log.begun == 3, "the flush of the second line")
    kept.turns.abort()
    kept.log.goes.set()
    with pytest.raises(Unsent):
        await second
    await kept.journal.begin(StoreAtStart.UNKNOWN, 0, b"")
    history = History()
    began = list(history.take(kept.log.flushes))[-1]
    assert isinstance(began, Began) and [line.number for line in began.unknown] == [1] and [line.number for line in began.unsent] == [2]
    assert isinstance(first.exception(), Lost)


@in_loop()
async def test_a_clock_that_steps_back(monkeypatch: pytest.MonkeyPatch) -> None:
    """Records keep the last time until the clock is there again, and that is reported once."""
    kept = await Kept().begin()
    clock = [2_000_000_000 * 10**9]
    monkeypatch.setattr(journal_module.time, "time_ns", lambda: clock[0])
    for number, back in enumerate((0, 3600, 3590, -1)):
        clock[0] = (2_000_000_000 - back) * 10**9
        reply = kept.turns.ask(number + 1, Line(b"W 1"))
        while not kept.peer.lines:
            await asyncio.sleep(0.001)
        kept.peer.reply()
        await reply
    times = [record.time for record in kept.records() if isinstance(record, LineRecord)]
    assert times == [2_000_000_000 * 10**6] * 3 + [2_000_000_001 * 10**6]
    assert [text for text in kept.told if "stepped back by 3600 s" in text] == kept.told


@in_loop()
async def test_another_front_that_took_the_journal() -> None:
    kept = await Kept().begin()
    kept.log.fails = LogTaken("another front writes this journal")
    with pytest.raises(NoJournal):
        await kept.turns.ask(1, Line(b"W 1"))
    assert "another front" in await kept.journal.taken
