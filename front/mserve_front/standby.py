# SPDX-License-Identifier: Apache-2.0
"""A standby: it runs the journal's lines as they come over a store of its own, and compares each reply's digest. It serves nobody until it is
promoted: then it has taken the journal, so that no other front can write it, and run all that was answered.

It outlives what befalls its leader: what keeps it from going on it tells, and waits for."""
from __future__ import annotations

import asyncio
import contextlib
import itertools
import signal
import socket
import time
from collections import deque
from dataclasses import dataclass, field
from pathlib import Path

from . import ending
from .admin import Page, Told, alarms_of, figures_of
from .connection import NoStart
from .control import Answered, Control, ControlError
from .doors import held
from .figures import of_standby
from .history import Answered as Ran
from .history import Began, Event, History
from .journal import Journal, LogFault, LogTaken
from .keeper import Promoted
from .libraries import REPLACED, replaced
from .metrics import Metrics
from .places import end_of, first_of, last_line, last_of, reader_of, writer_of
from .player import NotYet, Stage, Stopped
from .records import BadJournal, Flush, LineRecord, StoreAtStart
from .server import Condition, tell
from .settings import Settings
from .snapshots import BadSnapshot, latest, put_back
from .standbys import SAYS, Said, name_of
from .standing import Standing, forget_standing, place_of, read_standing, write_standing

# What to do with a store of which nobody knows up to which line it has run the journal.
SNAPSHOT = "put back a snapshot (mbackup restore)"
# After which a standby goes on whatever its store holds.
ALL = "the leader has written all that its store holds into the journal (mbackup take --end-sessions --all)"
# Seconds between two looks at the journal, and between two after one that failed.
POLL, RETRY = 0.02, 1.0
# Lines that are named, of those that a promotion would lose.
SHOWN = 20


@dataclass(slots=True)
class Passed:
    """Lines with replies that were not run as they were answered: how many, the first of them, and the number of the last."""

    count: int = 0
    first: list[LineRecord] = field(default_factory=list)
    last: int = 0

    def add(self, line: LineRecord) -> None:
        """One more."""
        self.count, self.last = self.count + 1, line.number
        if len(self.first) < SHOWN:
            self.first.append(line)


class Standby:
    """A standby, from its start to its promotion or its end."""

    def __init__(self, settings: Settings) -> None:
        self._settings = settings
        self._store = None if settings.volatile or settings.store is None else Path(settings.store)
        self._stage = Stage(settings.program, str(settings.store), tell, settings.server_settings)
        self._history = History()
        self._journal_number = 0
        self._reader = reader_of(settings.journal, 1)
        self._stopping = asyncio.Event()
        self._wanted: asyncio.Future[Answered] | None = None
        self._force = False
        self._wake = asyncio.Event()
        self._control = Control(settings.journal.control, {"status": self._status, "promote": self._promote})
        self._page = Page(settings.admin, self._told)
        self._fault = Condition("the journal cannot be read: {}; it is tried again", "the journal can be read again")
        # What it waits for, so that it can go on; and whether that is because its store is not as the leader's.
        self._waits = Condition("it stands still, and waits: {}", "it goes on")
        self._differs = False
        # The journal's first line, where it does not reach back to what the store has run; and whether that was looked at since the reading began.
        self._gone: int | None = None
        self._looked = False
        self._events: deque[Event] = deque()
        # What would be lost if it were promoted.
        self._lost = Passed()
        self._idle = False
        self._follows = False
        self._places: dict[int, socket.socket] = {}
        self._name = name_of(settings.store, settings.path)

    async def run(self) -> Promoted | None:
        """Follows until it is promoted, or stopped: then it is None. Raises `NoStart` if it cannot begin, or if it is stopped while its store is not as the
        leader's was; the store is not to be used then, unless it says otherwise."""
        for number in (signal.SIGTERM, signal.SIGINT):
            ending.hear(number, self._stop)
        # It is there for a certificate and an audit log that are new: both are opened at a promotion.
        ending.hear(signal.SIGHUP, tell, "it stands by: certificate and audit log are opened once it serves")
        promoted, saying = None, None
        try:
            self._hold_ports()
            await self._control.listen()
            await self._page.begin()
            try:
                await self._begin()
            except BadJournal as error:
                # What is noted beside the store stays: nothing was run.
                raise NoStart(f"it cannot stand by: {error}") from error
            if self._stopping.is_set():
                return None
            self._follows = True
            saying = asyncio.create_task(self._says())
            tell(f"standing by, after line {self._stage.at} of the journal")
            promoted = await self._follow()
            return promoted
        finally:
            self._control.close()
            await self._page.end()
            if saying is not None:
                saying.cancel()
                await self._say("")
            await asyncio.to_thread(self._reader.close)
            if promoted is None:
                await self._stage.end()
                for place in self._places.values():
                    place.close()

    async def _says(self) -> None:
        """Says again and again where it is: so its leader's operator sees it too."""
        for count in itertools.count():
            await self._say(Said(self._name, self._stage.at, bool(self._fault.text or self._waits.text), count).text())
            await asyncio.sleep(SAYS)

    async def _say(self, text: str) -> None:
        """Says a text beside the journal, if that can be."""
        with contextlib.suppress(LogFault):
            await asyncio.to_thread(self._reader.says, self._name, text)

    def _hold_ports(self) -> None:
        """Holds the ports that it is to serve at, where nobody has them: at a promotion it is late to hear that one is taken."""
        settings = self._settings
        for port in (settings.listen.port, settings.listen.lines_port):
            try:
                if port is not None:
                    self._places[port] = held(settings.listen.host, port, shared=settings.listen.gate is not None)
            except OSError as error:
                tell(f"{error.strerror}: it cannot serve as long as that is so")

    def _stop(self) -> None:
        self._stopping.set()
        self._wake.set()

    async def _begin(self) -> None:
        """Finds where the store stands, and starts its server. It waits for a journal that cannot be read now."""
        if self._settings.join is not None:
            raise NoStart("a standby has a server of its own: server.store in place of server.join")
        standing = None if self._store is None else read_standing(self._store)
        if standing is None and self._store is not None and self._store.exists():
            raise NoStart(f"{self._store}: nobody knows up to which line it has run the journal, since there is no {place_of(self._store).name} beside it: "
                          f"{SNAPSHOT}")
        if standing is not None and self._store is not None and not self._store.exists():
            raise NoStart(f"{place_of(self._store)}: it says where a store stands that is not there: put the store back, or remove it")
        while standing is not None and not self._stopping.is_set():
            try:
                await self._begins_at(standing)
                break
            except LogFault as error:
                self._fault.comes(error)
                await self._rest(RETRY)
        self._history = History(self._stage.at)
        self._reader = reader_of(self._settings.journal, self._stage.at + 1)

    async def _begins_at(self, standing: Standing) -> None:
        """Begins over a store of which it is noted where it stands. Raises `LogFault` if the journal cannot be read now."""
        number = await asyncio.to_thread(self._left_at, standing) if standing.number is None else standing.number
        await asyncio.to_thread(self._hold_against, number)
        self._fault.goes()
        self._journal_number, self._stage.at = standing.journal, number
        if standing.open:
            tell(f"{len(standing.open)} sessions were open where the store stands, and their variables and locks are in no store: if a line that "
                 "needs them comes, the standby stands still; it is to begin with an exact snapshot")
        await self._stage.begin(self._settings.server_settings.read_bytes())
        assert self._store is not None, "it stands somewhere"
        forget_standing(self._store)

    def _left_at(self, standing: Standing) -> int:
        """The line at which the front that served with the store left it, where that did not end in order. A reply is durable in the store before it is in
        the journal: if all lines that this front had in the journal have one, the store has run these, and no others."""
        begun = f"{self._store}: the front that served with it did not end in order"
        flush = last_of(self._settings.journal, standing.writers[0]) if standing.writers else None
        if flush is None or flush.journal != standing.journal:
            raise NoStart(f"{begun}, and the journal has nothing of that front: {SNAPSHOT}")
        if flush.answered != flush.next - 1:
            lines = f"line {flush.next - 1}" if flush.answered == flush.next - 2 else f"lines {flush.answered + 1} to {flush.next - 1}"
            raise NoStart(f"{begun}, and {lines} had no reply then, and may have been run: {SNAPSHOT}. If no other front has served since, it can serve "
                          "again: start it without --follow")
        return flush.answered

    def _hold_against(self, number: int) -> None:
        """Holds where the store stands against the journal's end."""
        last = last_line(self._settings.journal)
        if number > last:
            raise BadJournal(f"the store has run it up to line {number}, and it ends with line {last}: it has lost what comes between, or is another")

    async def _follow(self) -> Promoted | None:
        """Runs what comes, until it is promoted or stopped."""
        while True:
            came = await self._advanced()
            if self._wanted is not None:
                promoted = await self._taken(self._wanted)
                if promoted is not None:
                    return promoted
            # This comes last: a stop may have come while it was to be promoted, and then that was given up.
            if self._stopping.is_set():
                await self._left()
                return None
            if not came:
                await self._rest(RETRY if self._fault.text or self._waits.text else POLL)

    async def _rest(self, seconds: float) -> None:
        """Waits for so long, or until something is wanted."""
        with contextlib.suppress(TimeoutError):
            await asyncio.wait_for(self._wake.wait(), seconds)
        self._wake.clear()

    async def _advanced(self) -> bool:
        """Runs what has come, and says whether anything has. What keeps it from going on it waits for: it is there when it is to be promoted."""
        try:
            if self._gone is not None and self._stage.child is None:
                await self._begins_with_snapshot(self._gone)
            came = await self._step()
            if not self._differs:
                self._waits.goes()
            return came
        except NotYet as error:
            self._waits.comes(error)
        except Stopped as error:
            self._stands_still(error)
        except BadJournal as error:
            # The store is what it was. The journal may be put back.
            self._waits.comes(error)
            await self._reads_again()
        except LogFault as error:
            self._fault.comes(error)
        return False

    def _stands_still(self, error: Stopped) -> None:
        """Runs no line any more, until a start of the leader gives all that its store holds: this one is not as the leader's was."""
        self._differs = True
        self._waits.comes_again(Stopped(f"{error}. It goes on once {ALL}, or begin with a snapshot"))
        self._gone = None
        for line in self._stage.give_up():
            self._lost.add(line)

    async def _reads_again(self) -> None:
        """Begins to read after what is run."""
        try:
            await self._stage.drained()
        except Stopped as error:
            self._stands_still(error)
        await self._reads_from(self._stage.at)

    async def _reads_from(self, line: int | None) -> None:
        """Begins to read after a line, or with what the journal has."""
        await asyncio.to_thread(self._reader.close)
        self._events.clear()
        self._looked = line is None
        self._history = History(line)
        self._reader = reader_of(self._settings.journal, 1 if line is None else line + 1)

    async def _look(self) -> None:
        """Looks whether the journal reaches back to what is run. Where that has expired, lines are passed over, as by a store that differs: up to a start that
        gives all. Raises `LogFault`."""
        at, first = self._stage.at, await asyncio.to_thread(first_of, self._settings.journal)
        self._looked = True
        # A store that is not as the leader's was waits for the same start already, and says why.
        others = self._differs and self._gone is None
        if first <= at + 1:
            self._differs, self._gone = others, None
            return
        if not others:
            self._differs, self._gone = True, first
            self._waits_for(BadJournal(f"the journal begins with line {first}, and {self._needs(first - 1)}"))
        await self._reads_from(None)

    def _needs(self, line: int) -> str:
        """What it needs to begin over a journal that has nothing up to a line."""
        if self._stage.child is not None:
            return f"the store has run it up to line {self._stage.at}. It goes on once {ALL}, or begin with a snapshot"
        backup = self._settings.journal.backup
        place = "" if backup is None else f"is in {backup}, or "
        return f"there is no store here. It goes on once an exact snapshot of line {line} or later {place}is put back (mbackup restore), or once {ALL}"

    def _waits_for(self, error: Exception) -> None:
        """Waits, and tells for what, if that is something else than before."""
        if self._waits.text != str(error):
            self._waits.comes_again(error)

    async def _begins_with_snapshot(self, first: int) -> None:
        """Begins with a snapshot that was put back, or with the latest one that the journal, which begins with this line, goes on from; if there is one in the
        folder that the settings name. Raises `LogFault` or `NoStart`."""
        store, kept = self._store, self._settings.journal
        if store is None:
            return
        try:
            if not store.exists() and kept.backup is not None:
                tail = await asyncio.to_thread(end_of, kept)
                found = await asyncio.to_thread(latest, kept.backup, tail.journal, first - 1, tail.next - 1)
                if found is not None:
                    await asyncio.to_thread(put_back, found, store)
                    tell(f"it begins with the snapshot {found}")
            standing = read_standing(store)
            if standing is None or not store.exists():
                return
            await self._begins_at(standing)
        except (BadSnapshot, BadJournal) as error:
            # It may be being copied there.
            self._waits_for(error)
            return
        self._differs, self._gone, self._lost = False, None, Passed()
        await self._reads_again()

    async def _step(self) -> bool:
        """Runs what has come, and says whether anything has. Raises `Stopped` or `BadJournal`."""
        child = self._stage.child
        if child is not None and child.process.returncode is not None and not self._differs:
            raise Stopped(f"its server ended with status {child.process.returncode}")
        bad = None if self._events else await self._read()
        came = bool(self._events)
        self._idle = self._idle and not came
        # A stop waits for the lines that are on their way, and for no others: the store is known to come before them.
        while self._events and not self._stopping.is_set():
            event = self._events.popleft()
            try:
                await self._take(event)
            except NotYet:
                self._events.appendleft(event)
                raise
        if not came and not self._differs:
            await self._stage.drained()
        self._idle = not came
        if bad is not None:
            raise bad
        return came

    async def _read(self) -> BadJournal | None:
        """Reads what has come; what is wrong after it, if anything is."""
        try:
            if not self._looked:
                await self._look()
            flushes: list[Flush] = await asyncio.to_thread(self._reader.more)
            self._fault.goes()
        except LogFault as error:
            self._fault.comes(error)
            return None
        try:
            for flush in flushes:
                self._journal_number = self._journal_number or flush.journal
                if flush.journal != self._journal_number:
                    raise BadJournal("the store has run lines of another journal than this one: put back a snapshot")
            self._events.extend(self._history.take(flushes))
        except BadJournal as error:
            return error
        return None

    async def _take(self, event: Event) -> None:
        """Runs a line, or begins again. While the store differs from the leader's, lines are passed over, up to a start that gives all."""
        if self._differs and not (isinstance(event, Began) and event.held is StoreAtStart.ALL):
            if isinstance(event, Ran):
                self._lost.add(event.line)
            return
        await self._stage.take(event)
        if self._differs:
            self._differs, self._gone, self._lost = False, None, Passed()

    async def _left(self) -> None:
        """Ends in order: the store is known to stand where it does. Raises `NoStart` if it is not as the leader's was."""
        if not self._differs or self._gone is not None:
            with contextlib.suppress(Stopped):
                await self._stage.drained()
                at, terminals, began = self._stage.at, tuple(self._stage.open), self._stage.child is not None
                await self._stage.end()
                if began and self._store is not None and self._store.exists():
                    write_standing(self._store, Standing(self._journal_number, at, terminals))
                return
        raise NoStart(f"the standby ends, and its store is not to be used: {self._waits.text or 'its server ended'}")

    async def _status(self, _: dict[str, object]) -> Answered:
        try:
            answered = (await asyncio.to_thread(end_of, self._settings.journal)).answered
        except (BadJournal, LogFault):
            answered = self._history.at
        behind = max(0, answered - self._stage.at)
        return {"state": "standby", "line": self._stage.at, "behind": behind, "seconds": round(self._stage.behind(), 3), "reported": self._stage.reported,
                # It was idle at its last look, and the journal may have grown since.
                "caught up": self._idle and not behind and not self._fault.text and not self._waits.text, "fault": self._fault.text or self._waits.text,
                "differs": self._differs and self._gone is None or "", REPLACED: replaced() or ""}

    async def _told(self) -> Told:
        """What the operator's page shows."""
        status = await self._status({})
        figures = figures_of(of_standby(status))
        lines = "1 line" if status["behind"] == 1 else f"{status['behind']} lines"
        state = f"It stands by, {lines} behind its leader" + (f", and waits: {status['fault']}" if status["fault"] else "")
        return {"time": round(time.time()), "state": state, "alarms": alarms_of(figures), "figures": figures}

    async def _promote(self, request: dict[str, object]) -> Answered:
        """Asks for the promotion, and waits for what comes of it."""
        if not self._follows:
            raise ControlError(f"not promoted: it has not begun, and waits for the journal: {self._fault.text}")
        if self._wanted is None:
            self._force = request.get("force") is True
            self._wanted = asyncio.get_running_loop().create_future()
            self._wake.set()
        return await asyncio.shield(self._wanted)

    async def _taken(self, wanted: asyncio.Future[Answered]) -> Promoted | None:
        """Takes the journal, and runs what was answered. None if another front has it, something would be lost, or a stop has come."""
        began = time.monotonic()
        journal = Journal(writer_of(self._settings.journal, tell), Metrics(), tell)
        try:
            lost = await self._ready(journal)
        except (Stopped, BadJournal, ControlError, LogTaken, LogFault, NoStart) as error:
            await journal.close()
            self._wanted = None
            wanted.set_exception(ControlError(f"not promoted: {error}"))
            # The one who asked hears of it before this process ends.
            await asyncio.sleep(0.1)
            return None
        child = await self._stage.handed_on()
        unsent = [line.number for line in self._history.unanswered]
        tell(f"promoted after line {self._history.at}" + (f": lines {unsent[0]} to {unsent[-1]} had no reply, and were not run" if unsent else ""))
        for text in lost:
            tell(f"promoted by force: {text}")
        wanted.set_result({"line": self._history.at, "not run": unsent, "seconds": round(time.monotonic() - began, 3), "lost": lost})
        await asyncio.sleep(0)
        return Promoted(child, journal, self._history.at, self._places, self._stopping, whole=bool(lost))

    async def _ready(self, journal: Journal) -> list[str]:
        """Takes the journal, and runs what was answered. Gives what is lost, which is nothing unless it is promoted by force. Raises `ControlError` if it
        cannot be promoted, something would be lost, or a stop has come."""
        self._go_on()
        if self._gone is not None and self._stage.child is None and await self._caught_up() and self._gone is not None:
            # This comes first: it has nothing to serve with, so that the one that has the journal keeps it.
            raise ControlError(self._waits.text)
        await journal.take(self._force)
        wrong = await self._caught_up()
        # From here to the promotion it waits for nothing, unless something is lost: a stop that comes later is for the service.
        self._go_on()
        lost = [*wrong, *self._told_lost()]
        if self._history.last != journal.next - 1:
            lost.append(f"the journal was read up to line {self._history.last}, and ends with line {journal.next - 1}")
        if self._stage.child is None:
            raise ControlError("; ".join(lost) or "the journal has no start: there is nothing to promote")
        if lost and not self._force:
            raise ControlError(f"{'; '.join(lost)}. To lose that, and serve: mfront promote --force")
        if lost:
            self._stage.give_up()
            await self._stage.begins_again()
        return lost

    async def _caught_up(self) -> list[str]:
        """Runs all that has come, and gives what keeps it from doing so."""
        try:
            while await self._step():
                self._go_on()
        except Stopped as error:
            self._stands_still(error)
        except BadJournal as error:
            return [str(error)]
        return [text for text in (self._fault.text, self._waits.text if self._differs else "") if text]

    def _told_lost(self) -> list[str]:
        """The lines that were answered, and are not as they were answered here."""
        lost = self._lost
        if not lost.count:
            return []
        shown = [f"{line.number} (terminal {line.terminal}, {line.user or 'the front'})" for line in lost.first]
        more = f" and {lost.count - SHOWN} more, up to {lost.last}" if lost.count > SHOWN else ""
        return [f"{lost.count} lines that were answered would be lost: {', '.join(shown)}{more}"]

    def _go_on(self) -> None:
        """Raises `ControlError` if a stop has come."""
        if self._stopping.is_set():
            raise ControlError("it is being stopped")
