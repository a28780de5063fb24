# SPDX-License-Identifier: Apache-2.0
"""Lines over TLS for programs: a sign-on line `USER PASSWORD`, and then lines of M, each answered by a line of JSON."""
from __future__ import annotations

import asyncio
import contextlib
import json
from collections.abc import Callable

from .audit import NoAudit
from .doors import Door, Doors
from .sessions import LINES, Carried, Over, Record, Session, Sessions
from .settings import Limits
from .signing import Signing, Slowed, Wrong
from .terminals import AllInUse, NotUp
from .unread import LEAST, UNCOUNTED, Unread
from .web import plain_address


class LinePort:
    """Serves the connections of programs."""

    def __init__(self, sessions: Sessions, signing: Signing, limits: Limits, doors: Doors) -> None:
        self._sessions = sessions
        self._signing = signing
        self._limits = limits
        self._doors = doors

    def door(self, doors: Doors, place: str, left: Callable[[Door], None]) -> Door:
        """The door of a new connection."""
        async def serve(reader: asyncio.StreamReader, writer: asyncio.StreamWriter) -> None:
            await self._serve(reader, writer, door)

        reader = asyncio.StreamReader(limit=self._limits.body)
        door = Door(asyncio.StreamReaderProtocol(reader, serve), doors.deadline(), place, left)
        # A reader has no other word for what it has.
        door.ready = lambda: b"\n" in reader._buffer  # type: ignore[attr-defined]
        return door

    async def _serve(self, reader: asyncio.StreamReader, writer: asyncio.StreamWriter, door: Door) -> None:
        peer = LinePeer(reader, writer, self._limits, door, self._sessions.unread)
        session = None
        try:
            session = await self._sign_on(peer, door)
            if session is not None:
                await self._carry(peer, session)
        except (ConnectionError, TimeoutError, Over, ValueError):
            peer.cut()
        finally:
            if session is not None:
                self._sessions.sign_off(session, "left")
            writer.close()

    async def _sign_on(self, peer: LinePeer, door: Door) -> Session | None:
        """The session that the first line asks for, or None if it is refused. Once that line is there, no time runs for the connection."""
        name, _, secret = (await peer.line()).decode("utf-8", "replace").partition(" ")
        door.open()
        peer.address = plain_address(door.address)
        try:
            user, proof = await self._signing.by_password(name, secret, peer.address, tokens=True)
            session = await self._sessions.sign_on(user, LINES, peer.address, proof)
        except (Wrong, Slowed, AllInUse, NotUp) as error:
            await peer.tell({"error": str(error)})
            return None
        except NoAudit:
            await peer.tell({"error": "the audit log cannot be written"})
            return None
        self._doors.is_known(door)
        session.listener, peer.account = peer, session.account
        await peer.tell(self._sessions.record(session))
        return session

    async def _carry(self, peer: LinePeer, session: Session) -> None:
        while not session.over:
            line = await peer.line()
            with Carried(session):
                await peer.tell(await self._sessions.run(session, line))


class LinePeer:
    """A program's connection. One that does not take what it is sent is cut off."""

    def __init__(self, reader: asyncio.StreamReader, writer: asyncio.StreamWriter, limits: Limits, door: Door, unread: Unread) -> None:
        self._door = door
        self._unread = unread
        self.account = ""
        self._reader = reader
        self._writer = writer
        self._limits = limits
        self.address = plain_address(door.address)

    async def line(self) -> bytes:
        """The next line, without its line feed. Raises ConnectionError at the end: a line that was cut off is not run; ValueError if it is far too long."""
        try:
            self._door.more()
            return (await self._reader.readuntil(b"\n"))[:-1]
        except asyncio.IncompleteReadError as error:
            raise ConnectionResetError from error
        except asyncio.LimitOverrunError as error:
            raise ValueError("a line without an end") from error

    async def tell(self, event: Record) -> None:
        """Sends a line of JSON. Raises ConnectionError if the connection has ended."""
        if self._writer.is_closing():
            # What it is made of may be gone by now.
            raise ConnectionResetError
        data = json.dumps(event).encode() + b"\n"
        if len(data) < LEAST and not self._writer.transport.get_write_buffer_size():
            # Nothing waits before it, so it does not wait either, and needs no clock.
            self._writer.write(data)
            await self._writer.drain()
            return
        with self._unread.sent(self.account, len(data), self.cut) if len(data) >= LEAST else UNCOUNTED:
            async with asyncio.timeout(self._limits.slow):
                self._writer.write(data)
                await self._writer.drain()

    async def end(self, event: Record) -> None:
        """Sends a last event, and closes."""
        with contextlib.suppress(TimeoutError, ConnectionError):
            await self.tell(event)
        self._writer.close()

    def cut(self) -> None:
        """Ends the connection at once."""
        self._writer.transport.abort()
