# SPDX-License-Identifier: Apache-2.0
"""A journal in a table of PostgreSQL: a row for each flush. Its writer holds an advisory lock of the database by the connection that it writes over,
so that no two fronts write; a database with synchronous replication answers only once the row is on both machines."""
from __future__ import annotations

import contextlib
import math
import os
import secrets
import select
import socket
import time
import zlib
from collections.abc import Generator, Iterator
from selectors import EVENT_READ, EVENT_WRITE
from typing import Any, LiteralString

import psycopg
from psycopg.conninfo import conninfo_to_dict, make_conninfo

from .faults import TAKEN
from .journal import LogFault, LogTaken, Tail
from .records import BadJournal, Flush, Torn, read_flush

TABLE = """CREATE TABLE IF NOT EXISTS mfront_journal (
    name text NOT NULL, sequence bigint NOT NULL, next bigint NOT NULL, answered bigint NOT NULL, at timestamptz NOT NULL, flush bytea NOT NULL,
    PRIMARY KEY (name, sequence))"""
INSERT = """INSERT INTO mfront_journal (name, sequence, next, answered, at, flush)
    VALUES (%s, %s, %s, %s, to_timestamp(%s / 1000000.0), %s)"""
# The first half of the lock's key; the second is made of the journal's name.
LOCK = 0x6D66726F
# A database that is away is noticed within this many seconds, and milliseconds; and by the database, a front that is away. The lock of a machine without
# power would be kept for hours otherwise.
CONNECTING, SILENT = 2, 5_000
# Seconds after which a database that has not answered is asked, over another connection, whether it is at the statement: what is between may keep a
# connection open whose database is gone; and those for an answer that is on its way then. And those after which a flush is given up whatever the database
# is at, as one that waits for a replica that is away.
ANSWER, LAST, LONGEST = 2.0, 0.5, 20.0
ALIVE = {"tcp_keepalives_idle": 2, "tcp_keepalives_interval": 1, "tcp_keepalives_count": 4, "tcp_user_timeout": SILENT}
# This connection's process of the database, and since when it is there; and whether such a process is at a statement, as far as the database keeps that
# (track_activities).
SELF = "SELECT pid, backend_start FROM pg_stat_activity WHERE pid = pg_backend_pid()"
WORKS = "SELECT state IN ('active', 'disabled') FROM pg_stat_activity WHERE pid = %s AND backend_start = %s"
# The same of the one that has the lock.
HOLDER = """SELECT pid, backend_start FROM pg_locks JOIN pg_stat_activity USING (pid) WHERE locktype = 'advisory' AND granted AND objsubid = 2
    AND classid::bigint = %s AND objid::bigint = %s AND pg_locks.database = (SELECT oid FROM pg_database WHERE datname = current_database())"""
# Seconds for the database to end a connection, and between two looks.
ENDING, LOOK = 5.0, 0.05
# How many rows are read at once.
ROWS = 256


Process = tuple[int, object]


class Answered(psycopg.Connection[tuple[Any, ...]]):
    """A connection whose statements end: one that the database is not at any more is given up."""

    # How it is connected to, and its process of the database; None until that is known.
    place = ""
    own: Process | None = None
    # Seconds after which a statement is given up whatever the database is at.
    longest = math.inf

    def wait(self, gen: Generator[Any, Any, Any], *_: Any, **__: Any) -> Any:
        """Runs what `gen` does between two waits for the socket. Raises `psycopg.OperationalError` for what is given up."""
        began = time.monotonic()
        try:
            wanted = next(gen)
            while True:
                wanted = gen.send(self._ready(int(wanted), began))
        except StopIteration as ended:
            return ended.value

    def _ready(self, wanted: int, began: float) -> int:
        """Waits for the socket, and says what it is ready for."""
        poll = select.poll()
        poll.register(self.pgconn.socket, (select.POLLIN if wanted & EVENT_READ else 0) | (select.POLLOUT if wanted & EVENT_WRITE else 0))
        idle = 0
        while not (found := poll.poll(ANSWER * 1000)):
            waited, works = time.monotonic() - began, self._works()
            # A database that is busy may not have come to the statement yet, so that counts the second time.
            idle = 0 if works else idle + 1
            # What ended while it was asked after has its answer on the way.
            if waited > self.longest or (works is None or idle > 1) and not poll.poll(LAST * 1000):
                self.pgconn.finish()
                raise psycopg.OperationalError(f"no answer within {waited:.0f} s")
        event = found[0][1]
        # A socket that is broken is ready for both: what is tried there finds that.
        return wanted & ((EVENT_READ if event & ~select.POLLOUT else 0) | (EVENT_WRITE if event & ~select.POLLIN else 0))

    def _works(self) -> bool | None:
        """Whether the database is at this connection's statement, as another connection sees it; None if its process there is gone, or nobody answers."""
        if self.own is None:
            return False
        with contextlib.suppress(psycopg.Error), opened(self.place) as other:
            found = other.execute(WORKS, self.own).fetchone()
            return None if found is None else bool(found[0])
        return None


def machines_of(place: str) -> list[str]:
    """How each of the machines that a place names is connected to: psycopg waits for one that is silent as long as for all, and tries no other."""
    words = conninfo_to_dict(place)
    lists = {key: str(words[key]).split(",") for key in ("host", "hostaddr", "port") if words.get(key)}
    count = max(map(len, lists.values()), default=1)
    if count == 1:
        return [place]
    return [make_conninfo(**words | {key: found[at % len(found)] for key, found in lists.items()}) for at in range(count)]


def opened(place: str) -> Answered:
    """A connection that waits for no statement longer than `ANSWER` seconds. Raises `psycopg.Error`."""
    faults_of = []
    for one in machines_of(place):
        try:
            base = Answered.connect(one, autocommit=True, connect_timeout=CONNECTING, tcp_user_timeout=SILENT, keepalives_idle=2,
                                    keepalives_interval=1, keepalives_count=4, application_name="mfront")
        except psycopg.Error as error:
            faults_of.append(error)
            continue
        assert isinstance(base, Answered)
        base.place = one
        return base
    raise psycopg.OperationalError("; ".join(map(str, faults_of)))


def connected(place: str) -> Answered:
    """A connection. Raises `LogFault`."""
    with faults():
        base = opened(place)
        row = base.execute(SELF).fetchone()
        base.own = None if row is None else (row[0], row[1])
        return base


def told(error: psycopg.Error) -> str:
    """What an error of the database says, in one line."""
    return "database: " + (" ".join(str(error).split()) or type(error).__name__)


@contextlib.contextmanager
def faults() -> Iterator[None]:
    """Raises `LogFault` for an error of the database."""
    try:
        yield
    except psycopg.Error as error:
        raise LogFault(told(error)) from error


def value_of(base: Answered, statement: LiteralString, *given: object) -> Any:
    """The one value that a statement gives."""
    row = base.execute(statement, given).fetchone()
    assert row is not None, "it gives a row in any case"
    return row[0]


def tail_of(base: Answered, name: str) -> Tail:
    """The end of a journal; of an empty one, that of a new journal. Raises `BadJournal` if its last flush is damaged."""
    row = base.execute("SELECT sequence, flush FROM mfront_journal WHERE name = %s ORDER BY sequence DESC LIMIT 1", (name,)).fetchone()
    if row is None:
        return Tail(secrets.randbits(63) | 1, 0, 1, 0, 0)
    last = flush_of(name, *row)
    return Tail(last.journal, last.sequence, last.next, last.answered, last.time, writer=last.writer)


def flush_of(name: str, sequence: int, data: bytes) -> Flush:
    """The flush of a row. Raises `BadJournal` if it is damaged."""
    try:
        flush, end = read_flush(data, 0)
    except (Torn, BadJournal) as error:
        raise BadJournal(f"table mfront_journal: {name}, {sequence}: {str(error) or 'the end of the flush is missing'}") from error
    if flush.sequence != sequence or end != len(data):
        raise BadJournal(f"table mfront_journal: {name}, {sequence}: this row has another flush")
    return flush


class TableLog:
    """The journal in a table, as its one writer has it."""

    # The database's disk is not the front's.
    in_spare = False

    def __init__(self, place: str, name: str) -> None:
        self._place = place
        self._name = name
        self._base: Answered | None = None
        # The last flush that the database said is kept, and the last that was tried; and who wrote the last one.
        self._kept = self._tried = 0
        self._writer = 0
        # The processes of the database that this one was connected to. One may have the lock yet.
        self._own: set[Process] = set()

    def take(self, force: bool = False) -> Tail:
        """Takes the lock, makes the table if it is not there, and finds the end. With `force` the connection of the one who has the lock is ended."""
        self.close()
        self._base = base = connected(self._place)
        with faults():
            self._refuse_replica(base)
            if force:
                self._end_holder(base, self._holder(base))
            self._lock(base)
            if value_of(base, "SELECT to_regclass('mfront_journal')") is None:
                base.execute(TABLE)
            tail = tail_of(base, self._name)
        self._kept = self._tried = tail.sequence
        self._writer = tail.writer
        return tail

    def append(self, flush: Flush) -> None:
        """Writes a row, and returns once the database says that it is kept."""
        if self._base is None:
            raise LogFault("database: not connected")
        self._tried, self._writer = flush.sequence, flush.writer
        with faults():
            self._base.execute(INSERT, (self._name, flush.sequence, flush.next, flush.answered, flush.time, flush.packed()))
        self._kept = flush.sequence

    def mend(self) -> int:
        """Connects again, takes the lock, and gives the last row: one that failed may be there all the same, and gone again if a replica took over that had
        not got it. `LogTaken` if others wrote meanwhile."""
        self.close()
        self._base = base = connected(self._place)
        with faults():
            self._refuse_replica(base)
            if (holder := self._holder(base)) in self._own:
                # The database has not seen the end of a connection before this one.
                self._end_holder(base, holder)
            self._lock(base)
            tail = tail_of(base, self._name)
        if not self._kept <= tail.sequence <= self._tried or tail.sequence > self._kept and tail.writer != self._writer:
            raise LogTaken("another front has written this journal, or the database has lost a part of it")
        return tail.sequence

    def close(self) -> None:
        """Ends the connection, and the lock with it."""
        if self._base is not None:
            with contextlib.suppress(psycopg.Error):
                self._base.close()
            self._base = None

    def abandon(self) -> None:
        """Breaks the connection: a database may wait for its replica as long as that is away."""
        base = self._base
        if base is not None and not base.closed:
            with contextlib.suppress(OSError, psycopg.Error), socket.socket(fileno=os.dup(base.fileno())) as peer:
                peer.shutdown(socket.SHUT_RDWR)

    def _refuse_replica(self, base: Answered) -> None:
        """Raises `LogFault` if the database is a replica: it may lag, and nothing can be written there."""
        if value_of(base, "SELECT pg_is_in_recovery()"):
            self.close()
            raise LogFault("database: it is a replica, and read-only: promote it, or connect to the primary (target_session_attrs=read-write)")

    def _holder(self, base: Answered) -> Process | None:
        """The process of the database that has the lock, and since when it is there; None if nobody has it."""
        row = base.execute(HOLDER, (LOCK, key_of(self._name) % (1 << 32))).fetchone()
        return None if row is None else (row[0], row[1])

    def _end_holder(self, base: Answered, holder: Process | None) -> None:
        """Ends the connection that has the lock, and waits until it is over."""
        end = time.monotonic() + ENDING
        while holder is not None and self._holder(base) == holder and time.monotonic() < end:
            base.execute("SELECT pg_terminate_backend(%s)", (holder[0],))
            time.sleep(LOOK)

    def _lock(self, base: Answered) -> None:
        """Takes the lock. Commits are to wait for the disk, and for a synchronous replica if there is one."""
        # This comes first: if the answer is lost, it is known who has the lock.
        assert base.own is not None, "it is connected"
        self._own.add(base.own)
        base.longest = LONGEST
        while not value_of(base, "SELECT pg_try_advisory_lock(%s, %s)", LOCK, key_of(self._name)):
            holder = self._holder(base)
            if holder in self._own:
                self.close()
                raise LogFault("database: the connection before this one has not ended yet, and has the lock")
            if holder is not None:
                self.close()
                raise LogTaken(f"{TAKEN} (an advisory lock of the database, for {self._name})")
        self._own = {base.own}
        for name, value in ALIVE.items():
            base.execute("SELECT set_config(%s, %s, false)", (name, str(value)))
        if value_of(base, "SHOW synchronous_commit") in ("off", "local"):
            base.execute("SET synchronous_commit = on")


def key_of(name: str) -> int:
    """The second half of the lock's key."""
    return zlib.crc32(name.encode()) - (1 << 31)


def begin_of(name: str) -> str:
    """What the names of connections begin with by which standbys of a journal say where they are."""
    return f"{zlib.crc32(name.encode()):08x} "


def said_in(place: str, name: str) -> list[str]:
    """What standbys say of themselves: by the names of their connections, which end with these. It is asked over a connection of its own, so that who
    writes finds a fault of the database as if nobody had asked. Raises `LogFault`."""
    begin = begin_of(name)
    with faults(), opened(place) as base:
        rows = base.execute("SELECT application_name FROM pg_stat_activity WHERE starts_with(application_name, %s)", (begin,)).fetchall()
    return [str(row[0]).removeprefix(begin) for row in rows]


class TableReader:
    """Reads the journal in a table from the flush on that a line is in. Its writer may be writing meanwhile."""

    def __init__(self, place: str, name: str, line: int = 1) -> None:
        self._place = place
        self._name = name
        self._line = line
        self._base: Answered | None = None
        self._voice: Answered | None = None
        self._expected: int | None = None

    def more(self) -> list[Flush]:
        """The flushes that have come since. Raises `BadJournal` if one is damaged or missing, `LogFault` if the database is away."""
        if self._base is None:
            self._base = connected(self._place)
        try:
            return self._rows(self._base)
        except psycopg.errors.UndefinedTable:
            return []
        except psycopg.Error as error:
            self._leave()
            raise LogFault(told(error)) from error

    def says(self, _: str, text: str) -> None:
        """Names a connection by what a standby says of itself. It is one of its own, so that who reads finds a fault of the database as if nothing had been
        said. Raises `LogFault`."""
        if not text:
            self._hush()
            return
        try:
            self._voice = self._voice or opened(self._place)
            self._voice.execute("SELECT set_config('application_name', %s, false)", (f"{begin_of(self._name)}{text}",))
        except psycopg.Error as error:
            self._hush()
            raise LogFault(told(error)) from error

    def _hush(self) -> None:
        """Says nothing any more."""
        voice, self._voice = self._voice, None
        if voice is not None:
            with contextlib.suppress(psycopg.Error):
                voice.close()

    def close(self) -> None:
        """Ends the connections."""
        self._hush()
        self._leave()

    def _leave(self) -> None:
        """Ends the connection that it reads by."""
        if self._base is not None:
            with contextlib.suppress(psycopg.Error):
                self._base.close()
            self._base = None

    def _rows(self, base: Answered) -> list[Flush]:
        if self._expected is None:
            self._expected = value_of(base, "SELECT min(sequence) FROM mfront_journal WHERE name = %s AND next >= %s", self._name, self._line)
        if self._expected is None:
            return []
        rows = base.execute("SELECT sequence, flush FROM mfront_journal WHERE name = %s AND sequence >= %s ORDER BY sequence LIMIT %s",
                            (self._name, self._expected, ROWS)).fetchall()
        found = []
        for sequence, data in rows:
            if sequence != self._expected:
                raise BadJournal(f"table mfront_journal: {self._name}: flushes {self._expected} to {sequence - 1} are missing")
            found.append(flush_of(self._name, sequence, data))
            self._expected += 1
        return found


def end_of(place: str, name: str) -> Tail:
    """Where a journal ends; one that nobody has begun, as an empty one. Raises `BadJournal` or `LogFault`."""
    with connected(place) as base, faults():
        begun = base.execute("SELECT to_regclass('mfront_journal')").fetchone() != (None,)
        return tail_of(base, name) if begun else Tail(0, 0, 1, 0, 0)


def first_of(place: str, name: str) -> int:
    """The number of the first line that a journal has, or of the next one if it has none. Raises `BadJournal` or `LogFault`."""
    with connected(place) as base, faults():
        if base.execute("SELECT to_regclass('mfront_journal')").fetchone() == (None,):
            return 1
        row = base.execute("SELECT sequence, flush FROM mfront_journal WHERE name = %s ORDER BY sequence LIMIT 1", (name,)).fetchone()
        return 1 if row is None else flush_of(name, *row).first


def expire_rows(place: str, name: str, journal: int, line: int) -> int:
    """Removes the rows that have no line after this one, but for the last, and gives how many. Raises `BadJournal` if it is another journal."""
    with connected(place) as base, faults():
        tail = tail_of(base, name)
        if tail.journal != journal or tail.next <= line:
            raise BadJournal("table mfront_journal: the snapshot is of another journal than this one")
        return base.execute("DELETE FROM mfront_journal WHERE name = %s AND next <= %s AND sequence < %s", (name, line + 1, tail.sequence)).rowcount
