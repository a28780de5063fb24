# SPDX-License-Identifier: Apache-2.0
"""The WebSocket of the page: lines come in, records of replies and events go out."""
from __future__ import annotations

import asyncio
import contextlib
import json
import time
from collections.abc import Awaitable, Callable

from aiohttp import WSCloseCode, WSMsgType, web

from .doors import HttpDoor
from .sessions import Carried, Over, Record, Session, Sessions
from .settings import Limits
from .unread import LEAST, UNCOUNTED, Unread

MOST_ID = 1 << 53


class Gone(Exception):
    """The peer is gone, or takes nothing."""


class PageSocket:
    """A WebSocket of a session. A peer that does not take what it is sent, or sends nothing for too long, is cut off."""

    def __init__(self, request: web.Request, limits: Limits, door: HttpDoor, spared: Callable[[], Awaitable[None]], account: str, unread: Unread) -> None:
        """`spared` is awaited for each frame that is no line: it is paced. `unread` bounds what the account does not take."""
        self._limits = limits
        self._account = account
        self._unread = unread
        self._transport = request.transport
        self._door = door
        self._spared = spared
        # Since when it awaits the peer's next frame; None while it does not.
        self._since: float | None = None
        self.socket = web.WebSocketResponse(compress=False, max_msg_size=limits.body, timeout=2.0, autoping=False)

    async def begin(self, request: web.Request) -> None:
        """Answers the handshake. Frames come from now on as they are wanted."""
        await self.socket.prepare(request)
        self._door.become_socket(self._has_come)

    def _has_come(self) -> bool:
        """Whether the reader has a frame, or its end."""
        reader = self.socket._reader
        return reader is not None and (bool(reader._buffer) or reader.at_eof() or reader.exception() is not None)

    async def send(self, record: Record) -> None:
        """Sends a record. Raises `Gone`."""
        text = json.dumps(record)
        try:
            if len(text) < LEAST and self._transport is not None and not self._transport.get_write_buffer_size():
                # Nothing waits before it, so it does not wait either, and needs no clock.
                await self.socket.send_str(text)
                return
            with self._unread.sent(self._account, len(text), self.cut) if len(text) >= LEAST else UNCOUNTED:
                async with asyncio.timeout(self._limits.slow):
                    await self.socket.send_str(text)
        except (TimeoutError, ConnectionError, RuntimeError) as error:
            self.cut()
            raise Gone from error

    async def receive(self) -> str | None:
        """The next text, or None at the end."""
        while True:
            self._door.more()
            self._since = time.monotonic()
            try:
                message = await self.socket.receive()
                self._since = None
                if message.type is WSMsgType.TEXT:
                    return str(message.data)
                if message.type is WSMsgType.PING:
                    async with asyncio.timeout(self._limits.slow):
                        await self.socket.pong(message.data)
            except (TimeoutError, ConnectionError, RuntimeError) as error:
                self.cut()
                raise Gone from error
            if message.type not in (WSMsgType.PING, WSMsgType.PONG):
                break
            await self._spared()
        if message.type is WSMsgType.BINARY:
            await self.socket.close(code=WSCloseCode.UNSUPPORTED_DATA, message=b"texts only")
        return None

    async def beat(self) -> None:
        """Pings the peer, for as long as it is there, and cuts it off if not even an answer to a ping comes. That is looked at beside the frames: a timer
        for each of them costs more than all else that is done with it."""
        step, due = self._limits.heartbeat / 2, False
        while not self.socket.closed:
            await asyncio.sleep(step)
            if self._since is not None and time.monotonic() - self._since > 5 * step or due and not await self._pinged():
                self.cut()
                return
            due = not due

    async def _pinged(self) -> bool:
        """Sends a ping, and says whether it went out."""
        try:
            async with asyncio.timeout(self._limits.slow):
                await self.socket.ping()
        except (TimeoutError, ConnectionError, RuntimeError):
            return False
        return True

    async def tell(self, event: Record) -> None:
        """Sends an event."""
        with contextlib.suppress(Gone):
            await self.send(event)

    async def end(self, event: Record) -> None:
        """Sends a last event, and closes."""
        with contextlib.suppress(Gone, RuntimeError, ConnectionError):
            await self.send(event)
            await self.socket.close(code=WSCloseCode.GOING_AWAY, message=str(event["why"]).encode())

    def cut(self) -> None:
        """Ends the connection at once."""
        if self._transport is not None:
            self._transport.abort()


async def carry(request: web.Request, session: Session, sessions: Sessions, limits: Limits, door: HttpDoor,
                greeting: Record | None = None) -> web.WebSocketResponse:
    """Carries a user's lines, one after the other, until the connection or the session ends. A `greeting` is the record of a session that began with it."""
    page = PageSocket(request, limits, door, lambda: sessions.spared(session), session.account, sessions.unread)
    await page.begin(request)
    beat = asyncio.create_task(page.beat())
    try:
        await sessions.attach(session, page)
        if greeting is not None:
            await page.send({"event": "signed-on", **greeting})
        while (text := await page.receive()) is not None and await carried(page, text, session, sessions):
            pass
    except Gone:
        pass
    except Over:
        # If the session ended before this connection joined it, nobody has told it yet.
        await page.end({"event": "signed-off", "why": session.why})
    finally:
        beat.cancel()
        sessions.detach(session, page)
    return page.socket


async def carried(page: PageSocket, text: str, session: Session, sessions: Sessions) -> bool:
    """Carries what a user has sent, and says whether there may be more."""
    asked = asked_by(text)
    if asked is None:
        await page.socket.close(code=WSCloseCode.POLICY_VIOLATION, message=b'this is no {"id": n, "line": ".."}')
        return False
    if session.listener is not page:
        # Another connection has taken the session over: what was sent here before is not run there.
        return False
    place, line, generation = asked
    with Carried(session):
        await page.send({"id": place, **await sessions.run(session, line, generation)})
    return True


def asked_by(text: str) -> tuple[int, bytes, int | None] | None:
    """The number, the line and the server's generation of a message, or None if it is no message. The generation may have its old name, `session`."""
    try:
        found = json.loads(text)
    except (ValueError, RecursionError):
        return None
    if not isinstance(found, dict) or not isinstance(found.get("line"), str):
        return None
    place, generation = found.get("id"), found.get("generation", found.get("session"))
    if type(place) is not int or not 0 <= place < MOST_ID or generation is not None and type(generation) is not int:
        return None
    return place, found["line"].encode("utf-8", "surrogatepass"), generation
