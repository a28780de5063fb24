# SPDX-License-Identifier: Apache-2.0
"""The journal's part of the service: it is taken before the server starts, it answers operators, and at the end it is noted where the store stands."""
from __future__ import annotations

import asyncio
import contextlib
import shutil
import socket
import tempfile
import time
from collections.abc import Iterator
from dataclasses import dataclass
from datetime import UTC, datetime
from pathlib import Path

from .audit import Audit, NoAudit
from .connection import NoStart
from .control import Answered, Control, ControlError, Handler
from .faults import NoJournal
from .figures import ByAccount, of_backup, of_journal
from .journal import RETRY, Journal, LogFault, LogTaken, Tail
from .libraries import REPLACED, replaced
from .metrics import Metrics
from .places import said_beside, writer_of
from .records import BadJournal, StoreAtStart
from .rows import packed
from .server import Child, Condition, Server, tell
from .settings import Settings
from .snapshots import PART, SETTINGS, STORE, Manifest, copied
from .standbys import LOOK, SELDOM, Behind, Standbys, figures_of
from .standing import Standing, place_of, read_standing, write_standing
from .starts import Known, held
from .store_log import BadLog, changes, image
from .turns import Lost, Unsent
from .witness import StoreWitness, lost
from .witness import place_of as head_of


# What to do with a store that is not the journal's last.
BACK = "put back a snapshot (mbackup restore, mjournal replay), or stand by (mfront --follow)"


@dataclass(frozen=True, slots=True)
class Promoted:
    """What a promoted standby serves with: its server, the journal that it has taken, the line up to which its store has run all, the ports that it
    holds, and what is set by a stop, which may come before the service hears of stops itself. `whole`: something was lost, so its start has to give all that
    the store holds."""

    child: Child
    journal: Journal
    line: int
    places: dict[int, socket.socket]
    stopping: asyncio.Event
    whole: bool = False


class Keeper:
    """Keeps the journal of a service."""

    def __init__(self, settings: Settings, metrics: Metrics, audit: Audit, promoted: Promoted | None = None) -> None:
        self._settings = settings
        self._audit = audit
        self._promoted = promoted
        self._store = None if settings.volatile or settings.store is None else Path(settings.store)
        self._server: Server | None = None
        self._witness = None if self._store is None else StoreWitness(self._store, settings.journal.folder is None)
        # The line at which the store is known to stand, until it has begun to serve; and whether the journal had anything before.
        self._known = None if promoted is None or promoted.whole else promoted.line
        self._first = promoted is not None and promoted.whole
        self._control = Control(settings.journal.control, {"status": self._status, "snapshot": self._snapshot})
        self.journal = Journal(writer_of(settings.journal, tell), metrics, tell) if promoted is None else promoted.journal
        if promoted is not None:
            promoted.journal.count_in(metrics)
        self.standbys = Standbys()
        self.accounts = ByAccount(settings.terminals)
        self.journal.handed = self.accounts.handed
        metrics.more += [self.accounts.text, self._figures]

    async def begin(self, server: Server) -> Child | None:
        """Takes the journal, and notes where the store stands. It waits for a database that is away. Gives the server that runs already, if one does. Raises
        `NoStart`."""
        self._server = server
        server.begins(self._begun)
        self.journal.witness = self._witness
        if self._promoted is not None:
            self.journal.stands_at(self._promoted.line)
            return self._promoted.child
        try:
            await self._take()
            self._first = not self.journal.sequence
            if self._store is not None:
                self._hold(self._store, read_standing(self._store))
        except (LogTaken, LogFault, BadJournal) as error:
            raise NoStart(f"the journal cannot be used: {error}") from error
        return None

    async def _take(self) -> None:
        """Takes the journal, once its database is there: a machine may be up before that, and nobody looks after the front. Raises `LogTaken`, `LogFault` for
        one in a folder, or `BadJournal`."""
        away = Condition("the journal cannot be used yet: {}; it is tried again", "the journal can be used")
        while True:
            try:
                await self.journal.take()
                away.goes()
                return
            except LogFault as error:
                if self._settings.journal.database is None:
                    raise
                away.comes(error)
            await asyncio.sleep(RETRY)

    async def _begun(self, fresh: bool, settings: bytes) -> None:
        """Notes that this front serves with the store, before the journal has anything of it; then the start, with what the store holds. Raises
        `NoJournal`, or `NoStart` if the store cannot be read."""
        if self._store is not None:
            write_standing(self._store, Standing(self.journal.number, None, writers=(self.journal.writer, self.journal.before)))
        await self.journal.settled()
        what, line = held(self._knows(fresh))
        try:
            await self.journal.begin(what, line, settings, self._rows(what, fresh))
        except (BadLog, OSError) as error:
            raise NoStart(f"what the store holds cannot be read: {error}") from error
        self._known, self._first = None, False

    def _knows(self, fresh: bool) -> Known:
        """What is known of the store at a start. No line is on its way."""
        journal, witness = self.journal, self._witness
        cut, covers = (witness.cut, witness.covers) if witness is not None else (False, False)
        return Known(fresh, witness is not None, self._first, self._known, journal.sent, journal.answered, cut, covers)

    def _rows(self, what: StoreAtStart, fresh: bool) -> Iterator[bytes]:
        """The rows of the store that a start gives."""
        if self._store is None or fresh or what not in (StoreAtStart.CHANGED, StoreAtStart.ALL):
            return iter(())
        return packed(image(self._store) if what is StoreAtStart.ALL else changes(self._store))

    async def began(self) -> None:
        """The server is up."""
        if self._promoted is not None:
            self._note("promoted", line=self._promoted.line)
        await self._control.listen()

    def answer(self, ask: str, handler: Handler) -> None:
        """Answers one more kind of request of operators; each that is done is noted."""
        async def noted(request: Answered) -> Answered:
            found = await handler(request)
            self._note(ask, **found)
            return found
        self._control.answer(ask, noted)

    def _note(self, event: str, **what: object) -> None:
        """Notes what an operator did."""
        with contextlib.suppress(NoAudit):
            self._audit.note(event, **what)

    async def looks(self) -> None:
        """Looks again and again at what standbys say of themselves."""
        kept = self._settings.journal
        in_files = kept.folder is not None
        while True:
            # Apart: it waits for the disk or the network. While the journal cannot be written there is nothing to be seen.
            if self.journal.fault is None:
                with contextlib.suppress(LogFault):
                    texts = await asyncio.to_thread(said_beside, kept)
                    self.standbys.take(texts, self.journal.answered, in_files)
            await asyncio.sleep(LOOK if in_files else SELDOM)

    def behind(self) -> list[Behind]:
        """How far each standby lags."""
        return self.standbys.behind(self.journal.answered)

    async def lost(self) -> None:
        """Raises `NoStart` once another front has taken the journal."""
        # The journal asks it too: a stop cancels this task, and not what it waits for.
        raise NoStart(f"it does not go on: {await asyncio.shield(self.journal.taken)}")

    async def end(self, whole: bool) -> None:
        """Leaves the journal. If the server ended in order (`whole`), and all that was sent was answered, it is known where the store stands. So it is
        if a standby was promoted, and a stop came before it served."""
        self._control.close()
        whole = await self.journal.close() and whole
        if self._witness is not None:
            self._witness.close()
        line = self.journal.next - 1 if whole else self._known
        if line is not None and self._store is not None and self._store.exists():
            write_standing(self._store, Standing(self.journal.number, line))

    def _hold(self, store: Path, standing: Standing | None) -> None:
        """Holds what is known of the store against the journal. Raises `NoStart` if the store is not the one that has run it."""
        journal, last, place = self.journal, self.journal.next - 1, place_of(store)
        reached = self._witness.reached if standing is not None and self._witness is not None else None
        if reached is not None and reached.journal == journal.number and reached.sequence > journal.sequence:
            tail = Tail(journal.number, journal.sequence, journal.next, journal.answered, 0)
            raise NoStart(f"{head_of(store)}: {lost(reached, tail)}. The store may have run what is missing: put it back, or {BACK}; or move the journal away, "
                          f"remove {place} and {head_of(store)}, and serve: a new journal begins with all that the store holds")
        if standing is None:
            if journal.sequence:
                raise NoStart(f"{store}: nobody knows whether it has run this journal, since there is no {place.name} beside it: {BACK}")
            return
        if not store.exists():
            raise NoStart(f"{place}: it says where a store stands that is not there: put the store back, or remove {place}")
        if not journal.sequence and standing.writers[1:] == (0,):
            # The first start of this journal ended before it had anything.
            return
        if standing.journal != journal.number:
            raise NoStart(f"{place}: the store has run another journal than this one. If a new journal is meant, remove {place}, and make a snapshot")
        if standing.number is None:
            if journal.before not in standing.writers:
                raise NoStart(f"{store}: another front has served since this store was in use: {BACK}")
            return
        if standing.number > last:
            raise NoStart(f"{place}: the store has run the journal up to line {standing.number}, and the journal ends with line {last}: it has lost what comes "
                          f"between. The store has all of it: move the journal away, remove {place}, and make a snapshot of what is there")
        if standing.number < journal.answered and not standing.restored:
            raise NoStart(f"{store}: it stands after line {standing.number}, and another front has served since, up to line {last}: {BACK}")
        if standing.number < journal.answered:
            tell(f"the store was put back to where it stood after line {standing.number}: lines up to {journal.answered} are undone")
        self._known = standing.number
        journal.stands_at(standing.number)

    def _figures(self) -> list[str]:
        """Figures of the journal, and of the backups."""
        journal, kept = self.journal, self._settings.journal
        faulty = 0.0 if journal.fault is None else time.monotonic() - journal.faulty
        lines = of_journal(journal.next - 1 - journal.answered, journal.waiting, faulty, kept.folder, kept.spare) + figures_of(self.behind())
        return lines if kept.backup is None else lines + of_backup(kept.backup)

    async def _status(self, _: dict[str, object]) -> Answered:
        journal = self.journal
        return {"state": "leader", "line": journal.next - 1, "answered": journal.answered, "fault": journal.fault or "", "open": len(journal.open),
                REPLACED: replaced() or ""}

    async def _snapshot(self, request: dict[str, object]) -> Answered:
        """Copies the store between two lines into a new folder, and says its name."""
        folder, ended, rows = Path(str(request.get("folder", ""))), request.get("anew") is True, request.get("all") is True
        if self._store is None:
            raise ControlError("there is no file to copy: the store is in memory, or the front has joined a server (server.join)")
        if not folder.is_dir():
            raise ControlError(f"{folder}: there is no such folder")
        part = folder
        try:
            part = Path(tempfile.mkdtemp(prefix=PART, dir=folder))
            made, seconds = await self._copied(self._store, part, ended, rows)
            shutil.copyfile(self._settings.server_settings, part / SETTINGS)
        except (OSError, Unsent, Lost, NoJournal, BadLog) as error:
            if part != folder:
                shutil.rmtree(part, ignore_errors=True)
            raise ControlError(_why(part, error)) from error
        self._note("snapshot", line=made.number, folder=str(folder), ended=ended)
        return {"part": str(part), "journal": made.journal, "number": made.number, "time": made.time, "open": made.open, "sequence": made.sequence,
                "seconds": round(seconds, 3)}

    async def _copied(self, store: Path, part: Path, ended: bool, rows: bool) -> tuple[Manifest, float]:
        """Copies between two lines; with `ended` all sessions are ended there, and with `rows` the journal gets all that the store holds."""
        made: list[Manifest] = []
        assert self._server is not None, "it has begun"
        server: Server = self._server

        async def between() -> None:
            journal, sequence = self.journal, self.journal.sequence
            if ended:
                await server.renew(packed(image(store)) if rows else None)
            made.append(Manifest(journal.number, journal.next - 1, datetime.now(UTC).isoformat(timespec="seconds"), sorted(journal.open), sequence=sequence))
        seconds = await copied(store, part / STORE, server.quiet, between)
        return made[0], seconds


def _why(part: Path, error: Exception) -> str:
    if isinstance(error, OSError):
        return f"{error.filename or part}: {error.strerror}"
    if isinstance(error, BadLog):
        return f"what the store holds cannot be read: {error}"
    return f"the journal cannot be written: {error}" if isinstance(error, NoJournal) else "the server is being started: try again"
