# SPDX-License-Identifier: Apache-2.0
"""Runs a journal's lines in their order over a store of its own, and compares the digest of each reply with the leader's."""
from __future__ import annotations

import asyncio
import socket
import sqlite3
import tempfile
import time
from collections import deque
from collections.abc import Callable
from dataclasses import replace
from pathlib import Path

from mserve_client import ClientError

from . import enclosure
from .connection import Connection, joined
from .history import CUT_SHORT, Answered, Began, Event
from .lines import HALT, Line
from .records import LineRecord, StartRecord, StoreAtStart
from .replies import Answer
from .rows import apply
from .server import CONNECTIONS, PATIENCE, Child, launched
from .shares import WINDOW
from .turns import Lost

# Bytes of a reply that are kept: its code is wanted, and its digest is of all of them.
ROOM = 4096


class Stopped(Exception):
    """The lines cannot be run any further; the text says why, and at which line."""


class NotYet(Stopped):
    """The lines cannot be run any further until something is done; then they can, with what came last."""


class Differs(Stopped):
    """A line is answered otherwise than it was."""

    def __init__(self, event: Answered, answer: Answer) -> None:
        line, here, there = event.line, answer.reply.code or "no code", event.reply.code or "no code"
        how = "with another output" if here == there else f"with {here} here, and with {there} there"
        super().__init__(f"line {line.number}, of terminal {line.terminal}, is answered otherwise than it was, {how}: the two stores differ")
        self.number = line.number


class Player(Connection):
    """A connection over which lines are run in the order in which they come."""

    def __init__(self) -> None:
        super().__init__(ROOM)
        self._reader.keep_digests()
        self._flying: deque[tuple[int, asyncio.Future[Answer]]] = deque()
        # What is to be sent once who plays waits: each call of the system costs as much as all else that is done with a line.
        self._unsent: list[bytes] = []

    def play(self, terminal: int, text: bytes) -> asyncio.Future[Answer]:
        """The answer of a line, once it comes. It ends by `Lost` if the server does."""
        loop = asyncio.get_running_loop()
        reply = loop.create_future()
        if self._transport is None or self._transport.is_closing():
            self._ends(reply)
            return reply
        self._flying.append((terminal, reply))
        if not self._unsent:
            loop.call_soon(self._send)
        self._unsent.append(Line(text).sent_by(terminal))
        return reply

    def _send(self) -> None:
        """Sends what waits, at once."""
        lines, self._unsent = self._unsent, []
        if self._transport is not None:
            self._transport.write(b"".join(lines))

    def close(self) -> None:
        """Ends the connection in order: the server reads its end."""
        if self._transport is not None:
            if self._unsent:
                self._send()
            self._transport.close()

    def connection_lost(self, error: Exception | None) -> None:
        """Ends what still waits for a reply."""
        self._transport = None
        for _, reply in self._flying:
            if not reply.done():
                self._ends(reply)
        self._flying.clear()

    def _ends(self, reply: asyncio.Future[Answer]) -> None:
        reply.set_exception(self._lost())
        # A replay that differs leaves answers that nobody asks for, of which asyncio would tell.
        reply.exception()

    def _lost(self) -> Lost:
        return Lost(self.fault or "the server ended")

    def _turn(self) -> int | None:
        return self._flying[0][0] if self._flying else None

    def _answered(self, answer: Answer) -> None:
        _, reply = self._flying.popleft()
        if not reply.done():
            reply.set_result(answer)


class Stage:
    """A server over a store of its own, and how far it has run the journal. `at` is the last line that is run and compared, `open` are the terminals
    that may have variables or locks; `reported` counts what was told of lines whose effect is not known."""

    def __init__(self, program: Path, store: str, tell: Callable[[str], None], settings: Path | None = None, connections: int = CONNECTIONS) -> None:
        """`settings` are those that the leader's have to be; without them the leader's own are taken."""
        self._program = program
        self._store = store
        self._tell = tell
        self._settings = settings
        self._connections = connections
        self._text = b""
        self._player: Player | None = None
        self._due: deque[tuple[Answered, asyncio.Future[Answer]]] = deque()
        self.child: Child | None = None
        # The server's next connection, for the one who serves with it after this: users would wait for it then.
        self._ahead: asyncio.Task[socket.socket | None] | None = None
        self.at = 0
        self.open: set[int] = set()
        self.reported = 0

    async def begin(self, text: bytes) -> None:
        """Starts the server by settings. Raises `NoStart`."""
        self._text = text
        with tempfile.NamedTemporaryFile(suffix=".toml") as made:
            made.write(text)
            made.flush()
            self.child = await launched(self._program, self._settings or Path(made.name), self._store, self._connections)
            self._player = await joined(self.child.port, Player, self.child.process, ways=self.child.ways)
        if self._connections > 1 and self.child.ways is not None:
            self._ahead = asyncio.create_task(enclosure.connected(self.child.process, self.child.port, self.child.ways))
        self.open.clear()

    async def take(self, event: Event) -> None:
        """Runs a line, or begins again. What differs shows at one of the next events, or at `drained`. Raises `Stopped`."""
        if isinstance(event, Began):
            await self._began(event)
            return
        if self._player is None:
            raise Stopped(f"line {event.line.number} comes before a start: begin with a snapshot")
        line = event.line
        if line.text == HALT.data:
            self.open.discard(line.terminal)
        else:
            self.open.add(line.terminal)
        self._due.append((event, self._player.play(line.terminal, line.text)))
        if event.reply.code in CUT_SHORT:
            await self._cut_short(event)
        while self._due and (self._due[0][1].done() or len(self._due) >= WINDOW):
            await self._compare()

    async def drained(self) -> None:
        """Waits until all lines are run and compared. Raises `Stopped`."""
        while self._due:
            await self._compare()

    def give_up(self) -> list[LineRecord]:
        """Compares no more of what is due, and gives these lines: the store is not as the leader's was."""
        lines = [event.line for event, _ in self._due]
        self._due.clear()
        return lines

    async def begins_again(self) -> None:
        """Starts the server again over the store that it has. Raises `NoStart`."""
        await self.end()
        await self.begin(self._text)

    def behind(self) -> float:
        """The seconds since the oldest line that is not compared yet was sent by the leader."""
        return max(0.0, time.time() - self._due[0][0].line.time / 1e6) if self._due else 0.0

    async def leave(self) -> None:
        """Ends the connection in order, and leaves the server as it is."""
        if self._player is not None:
            self._player.close()
            self._player = None

    async def handed_on(self) -> Child:
        """Leaves the server to somebody else, with its next connection if that is made."""
        await self.leave()
        assert self.child is not None
        return replace(self.child, ahead=await self._made_ahead())

    async def _made_ahead(self) -> socket.socket | None:
        """The connection that was made ahead; none if it is not made yet, or could not be."""
        ahead, self._ahead = self._ahead, None
        if ahead is None:
            return None
        if not ahead.done():
            ahead.cancel()
            await asyncio.wait([ahead])
        return None if ahead.cancelled() or ahead.exception() is not None else ahead.result()

    async def end(self) -> None:
        """Ends the server in order, if it has one connection alone, and at once if it has more."""
        await self.leave()
        if (ahead := await self._made_ahead()) is not None:
            ahead.close()
        if self.child is None:
            return
        process, self.child = self.child.process, None
        if self._connections > 1 and process.returncode is None:
            process.terminate()
        try:
            await asyncio.wait_for(process.wait(), PATIENCE)
        except TimeoutError:
            process.kill()
            await process.wait()

    async def _compare(self) -> None:
        """Compares the oldest reply that is due."""
        event, reply = self._due[0]
        try:
            answer = await reply
        except Lost as error:
            raise Stopped(f"line {event.line.number} could not be run: {error}") from error
        if event.reply.code not in CUT_SHORT and answer.digest != event.reply.digest:
            raise Differs(event, answer)
        self._due.popleft()
        self.at = event.line.number

    async def _cut_short(self, event: Answered) -> None:
        """A line that had no memory, or no disk: its session is gone there, and a first part of its writes stands."""
        await self.drained()
        self._report(f"line {event.line.number}, of terminal {event.line.terminal}, was answered {event.reply.code}: of what it was to write a first "
                     "part stands there, and all of it may stand here")
        await self._halt({event.line.terminal})

    async def _began(self, event: Began) -> None:
        """All sessions begin again, by settings that may be others, over the store as the leader's was then."""
        await self.drained()
        start, held = event.start, event.held
        if isinstance(start, StartRecord):
            self._by_version_1(start, event.answered)
        elif held is StoreAtStart.RUN and start.base < event.answered:
            raise Stopped(f"the start before line {start.number} goes on after line {start.base}, and lines up to {event.answered} have been run here: two "
                          "fronts have written the journal")
        if held is StoreAtStart.UNKNOWN:
            if self.child is None and not self.at:
                raise Stopped("the journal begins over a store that was there before: begin with a snapshot")
            for line in event.unknown:
                self._report(f"line {line.number}, of terminal {line.terminal}, had no reply when the leader's server ended: it may have been run there, "
                             "in part or whole, and is not run here")
        elif event.unknown:
            lines = f"line {event.unknown[0].number}" if len(event.unknown) == 1 else f"lines {event.unknown[0].number} to {event.unknown[-1].number}"
            self._tell(f"{lines} had no reply when the leader's server ended: what the leader's store held then is in the journal, and stands here too")
        emptied = held is StoreAtStart.ALL and self._store == "memory" and not event.rows
        if held in (StoreAtStart.CHANGED, StoreAtStart.ALL) and not emptied and (event.rows or self.at or self.child is not None):
            await self._given(event)
        await self._renewed(start.settings, emptied)
        self.at = start.number - 1

    def _by_version_1(self, start: StartRecord, answered: int) -> None:
        """A start of version 1 has no rows: what they would be needed for stops this. Raises `Stopped`."""
        if start.base is not None and start.base < answered:
            raise Stopped(f"before line {start.number} the leader's store was put back to where it stood after line {start.base}: "
                          f"lines {start.base + 1} to {answered} were undone there, and have been run here")
        if start.fresh and self._store != "memory" and self.at:
            raise Stopped(f"before line {start.number} the leader's store was recreated: begin there with an empty store")

    async def _given(self, event: Began) -> None:
        """Ends the server, and gives the store the rows of a start. Raises `Stopped`."""
        if self._store == "memory":
            raise Stopped(f"the start before line {event.start.number} gives rows of a store, and this one is in memory")
        await self.end()
        try:
            await asyncio.to_thread(apply, Path(self._store), event.rows, event.held is StoreAtStart.ALL)
        except (sqlite3.Error, ClientError) as error:
            raise Stopped(f"the rows before line {event.start.number} cannot be stored: {error}") from error

    async def _renewed(self, text: bytes, emptied: bool) -> None:
        """Ends all sessions; the server is started again if its settings are others, or its store is a new one."""
        if self._settings is not None and self._settings.read_bytes() != text:
            raise NotYet(f"from line {self.at + 1} on the leader has other settings than {self._settings}: copy them there")
        if self.child is None or emptied or text != self._text:
            await self.end()
            await self.begin(text)
        else:
            await self._halt(set(self.open))

    async def _halt(self, terminals: set[int]) -> None:
        player = self._player
        assert player is not None, "its server runs"
        try:
            await asyncio.gather(*(player.play(terminal, HALT.data) for terminal in terminals))
        except Lost as error:
            raise Stopped(f"after line {self.at}: {error}") from error
        self.open -= terminals

    def _report(self, text: str) -> None:
        self.reported += 1
        self._tell(text)
