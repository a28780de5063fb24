# SPDX-License-Identifier: Apache-2.0
"""The rule of the journal (docs/FORMATS.md) as a model: a leader that is killed at any step, a standby and a replay that read what it wrote.

A line counts a node that all lines share, and sets nodes of its own, one write after the other, so that a kill finds it anywhere. Its reply is what the
shared node holds then: a reader whose store differs gives another one. The records and `History` are the program's own, and so is what a start says; what
the server, the disk and a reader do is written here, from the rule."""
from __future__ import annotations

from collections import deque
from dataclasses import dataclass, field

import pytest
from hypothesis import HealthCheck, settings
from hypothesis import strategies as st
from hypothesis.stateful import RuleBasedStateMachine, invariant, precondition, rule, run_state_machine_as_test
from mserve_front.history import Began, History
from mserve_front.records import BeginRecord, Flush, LineRecord, Record, ReplyRecord, RowsRecord, StoreAtStart, read_flush
from mserve_front.rows import packed, unpacked
from mserve_front.starts import Known, held

SHARED = b"shared"
Store = dict[bytes, int]


def writes_of(text: bytes) -> list[bytes]:
    """The nodes that a line writes, in their order: its text says how many of its own, and between which of them the shared one comes."""
    name, own, place = text.split()
    nodes = [name + b"/%d" % number for number in range(int(own))]
    nodes.insert(int(place), SHARED)
    return nodes


def digest(store: Store) -> bytes:
    """What the reply of a line has, once it is run."""
    return store.get(SHARED, 0).to_bytes(16, "big")


@dataclass
class Reader:
    """A standby, or a replay: it runs lines that have a reply, and does what a start says. `differs` is the line that it answers otherwise."""

    store: Store = field(default_factory=dict)
    history: History = field(default_factory=History)
    differs: int | None = None
    read: int = 0

    def reads(self, flushes: list[bytes]) -> None:
        """Reads what has come."""
        parts = [read_flush(data, 0)[0] for data in flushes[self.read:]]
        self.read = len(flushes)
        for event in self.history.take(parts):
            if isinstance(event, Began):
                self._begins(event)
                continue
            for node in writes_of(event.line.text):
                self.store[node] = self.store.get(node, 0) + 1
            if digest(self.store) != event.reply.digest:
                self.differs = self.differs or event.line.number

    def _begins(self, event: Began) -> None:
        if event.held is StoreAtStart.ALL:
            self.store.clear()
        for node, text in unpacked(event.rows):
            self.store.pop(node, None)
            if text is not None:
                self.store[node] = int(text)


class Leading(RuleBasedStateMachine):
    """A leader: what its users were told, its journal, its server and its store; and a standby."""

    # Whether a start says what the store held.
    says = True

    def __init__(self) -> None:
        super().__init__()
        self.flushes: list[bytes] = []
        self.store: Store = {}
        # The nodes that the store's log has, and the last line that was sent before the log was begun: such a line may have written what it has not.
        self.log: set[bytes] = set()
        self.before_log = 0
        self.next, self.answered, self.sent, self.count = 1, 0, 0, 0
        self.waiting: list[Record] = []
        self.queue: deque[LineRecord] = deque()
        self.place = 0
        self.acknowledged: list[bytes] = []
        self.known: int | None = None
        self.standby = Reader()
        self.starts(fresh=True)

    def flush(self, records: list[Record]) -> None:
        """Makes records durable."""
        for record in records:
            if isinstance(record, ReplyRecord | BeginRecord):
                self.answered = record.number - isinstance(record, BeginRecord)
        made = Flush(7, len(self.flushes) + 1, self.next, self.answered, 0, records)
        self.flushes.append(made.packed())

    def starts(self, fresh: bool = False) -> None:
        """All sessions begin again, and what the store holds is said."""
        what, base = held(Known(fresh, True, False, self.known, self.sent, self.answered, False, self.answered >= self.before_log))
        rows: dict[bytes, int | None] = {}
        if not self.says:
            what = StoreAtStart.UNKNOWN
        elif what is StoreAtStart.ALL:
            rows = dict(self.store)
        elif what is StoreAtStart.CHANGED:
            rows = {node: self.store.get(node) for node in self.log}
        parts = list(packed((node, None if count is None else b"%d" % count) for node, count in rows.items()))
        for number, part in enumerate(parts):
            self.flush([RowsRecord(number, part)])
        self.flush([BeginRecord(self.next, 0, self.sent, what, base, len(parts), b"")])
        self.sent, self.known = self.next - 1, None
        self.queue.clear()
        self.waiting.clear()
        self.place = 0

    @rule(own=st.integers(0, 3), place=st.integers(0, 3))
    def a_user_sends_a_line(self, own: int, place: int) -> None:
        """It waits for the disk."""
        self.count += 1
        self.waiting.append(LineRecord(0, 0, 1, "ada", b"L%d %d %d" % (self.count, own, min(place, own))))

    @precondition(lambda self: self.waiting)
    @rule(lost=st.booleans())
    def the_disk_has_what_waits(self, lost: bool) -> None:
        """Lines are sent then, and replies handed out; `lost` says that the front is killed before it does any of it."""
        records: list[Record] = []
        for record in self.waiting:
            if isinstance(record, LineRecord):
                record = LineRecord(self.next, 0, 1, record.user, record.text)
                self.next += 1
            records.append(record)
        self.waiting.clear()
        self.flush(records)
        if lost:
            self.the_front_is_killed()
            return
        for record in records:
            if isinstance(record, LineRecord):
                self.queue.append(record)
                self.sent = record.number
            else:
                self.acknowledged.append(self.texts.pop(record.number))

    @property
    def texts(self) -> dict[int, bytes]:
        """The texts of lines whose reply waits."""
        return self.__dict__.setdefault("_texts", {})

    @precondition(lambda self: self.queue)
    @rule(steps=st.integers(1, 9))
    def the_server_goes_on(self, steps: int) -> None:
        """It writes node by node; after the last one of a line its reply comes, and waits for the disk."""
        for _ in range(steps):
            if not self.queue:
                return
            line = self.queue[0]
            nodes = writes_of(line.text)
            if self.place < len(nodes):
                node = nodes[self.place]
                self.store[node] = self.store.get(node, 0) + 1
                self.log.add(node)
                self.place += 1
                continue
            self.queue.popleft()
            self.place = 0
            self.texts[line.number] = line.text
            self.waiting.append(ReplyRecord(line.number, digest(self.store), ""))

    @rule()
    def the_log_is_copied_into_the_file(self) -> None:
        """What the log had is gone from it: it tells what lines changed that are sent from now on."""
        self.log.clear()
        self.before_log = self.sent

    @rule()
    def the_server_is_killed(self) -> None:
        """Replies that have come are noted; lines that wait were not sent."""
        replies = [record for record in self.waiting if isinstance(record, ReplyRecord)]
        if replies:
            self.flush(list(replies))
            self.acknowledged.extend(self.texts.pop(record.number) for record in replies)
        self.starts()

    @rule()
    def the_front_is_killed(self) -> None:
        """And its server with it: replies that wait for the disk are lost. It starts again, and knows no more than the journal says."""
        self.texts.clear()
        self.sent = self.next - 1
        self.starts()

    @rule()
    def the_front_is_killed_while_it_starts(self) -> None:
        """Some rows were written, and no start: they count for nothing."""
        self.flush([RowsRecord(0, next(packed([(b"nothing", b"1")])))])
        self.the_front_is_killed()

    @rule()
    def the_standby_reads(self) -> None:
        self.standby.reads(self.flushes)

    @rule()
    def the_standby_takes_over(self) -> None:
        """The leader is gone; another standby begins with the journal."""
        self.standby.reads(self.flushes)
        assert self.standby.differs is None, f"line {self.standby.differs} is answered otherwise"
        self.store, self.log, self.known = self.standby.store, set(), self.standby.history.at
        self.texts.clear()
        self.sent = self.before_log = self.known
        self.standby = Reader()
        self.starts()

    @invariant()
    def what_was_answered_is_there_once(self) -> None:
        """Of any line each node is written once at most; of an acknowledged one each once."""
        own = {node: count for node, count in self.store.items() if node != SHARED}
        assert all(count == 1 for count in own.values())
        for text in self.acknowledged:
            assert all(node in self.store for node in writes_of(text))
        assert self.store.get(SHARED, 0) <= self.count

    @invariant()
    def a_replay_is_the_store(self) -> None:
        """It answers each line as it was, and holds what the leader's store did at its last start, with the lines that were answered since."""
        replay = Reader()
        replay.reads(self.flushes)
        assert replay.differs is None, f"line {replay.differs} is answered otherwise"
        if self.answered == self.sent and self.place == 0 and not self.texts:
            assert {node: count for node, count in replay.store.items() if count} == {node: count for node, count in self.store.items() if count}


class Silent(Leading):
    """As it was: a start does not say what the store held."""

    says = False


def drawn(count: int) -> settings:
    """How many runs are drawn."""
    return settings(max_examples=60 * count, stateful_step_count=40, deadline=None, suppress_health_check=list(HealthCheck))


@pytest.mark.long
def test_kills_at_every_step(count: int) -> None:
    run_state_machine_as_test(Leading, settings=drawn(count))


def test_without_what_the_store_held_a_reader_stops() -> None:
    """The model finds what was wrong: a line that was run and has no reply."""
    with pytest.raises(AssertionError, match="answered otherwise|assert"):
        run_state_machine_as_test(Silent, settings=settings(drawn(10), derandomize=True, report_multiple_bugs=False, database=None))
