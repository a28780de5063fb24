# SPDX-License-Identifier: Apache-2.0
"""A connection to the server: what the one of a front and that of a replay have in common."""
from __future__ import annotations

import asyncio
import contextlib
import socket
from collections.abc import Callable
from typing import TypeVar

from mserve_client import BadReply

from . import enclosure
from .replies import Answer, ReplyReader

HOST = "127.0.0.1"
# Seconds between two attempts to connect: the first and the longest.
FIRST_PAUSE, LONGEST_PAUSE = 0.005, 0.1
# Bytes that are read at once. Others have their turn only after what these hold was taken apart, which is some milliseconds where all of it is escapes.
AT_ONCE = 32_768


class NoStart(Exception):
    """The server ended before it served."""


class Connection(asyncio.BufferedProtocol):
    """A connection. Each reply goes to `_answered` once it is whole; bytes that are none end the connection, and `fault` says why."""

    def __init__(self, room: int) -> None:
        """`room` is the most bytes of a reply that are kept."""
        self._reader = ReplyReader(self._turn, room)
        self._came = bytearray(AT_ONCE)
        self._transport: asyncio.Transport | None = None
        self._socket: socket.socket | None = None
        self.fault: str | None = None

    def _turn(self) -> int | None:
        """The terminal that the next reply is due to, or None if none is."""
        raise NotImplementedError

    def _answered(self, answer: Answer) -> None:
        """Takes the answer of the first line on its way."""
        raise NotImplementedError

    def _fed(self) -> None:
        """What is to be done once all answers that came at once are taken."""

    def connection_made(self, transport: asyncio.BaseTransport) -> None:
        """Keeps the connection."""
        assert isinstance(transport, asyncio.Transport)
        self._transport = transport
        self._socket = transport.get_extra_info("socket")

    def get_buffer(self, sizehint: int) -> bytearray:
        """Where what comes is put."""
        return self._came

    def buffer_updated(self, nbytes: int) -> None:
        """Takes what has come."""
        self.data_received(bytes(memoryview(self._came)[:nbytes]))

    def data_received(self, data: bytes) -> None:
        """Takes bytes of replies."""
        try:
            self._reader.feed(data, self._answered)
        except BadReply as error:
            self.fault = str(error)
            self.abort()
            return
        self._fed()
        if self._socket is not None:
            # The server sends a small reply only once the one before it is acknowledged, which the system would put off for 40 milliseconds.
            self._socket.setsockopt(socket.IPPROTO_TCP, socket.TCP_QUICKACK, 1)

    def abort(self) -> None:
        """Ends the connection at once."""
        if self._transport is not None:
            self._transport.abort()


Kind = TypeVar("Kind", bound=Connection)


async def joined(port: int, made: Callable[[], Kind], process: asyncio.subprocess.Process | None, patient: bool = True,
                 ways: list[socket.socket] | None = None, ahead: socket.socket | None = None) -> Kind:
    """A connection to a server, which may be starting: the opening of a store takes time. Raises `NoStart` if its process ends, and at once if
    nobody listens, unless it is `patient`. One in a network of its own has `ways`, sockets that are there; `ahead` is a connection that was made already."""
    loop, pause = asyncio.get_running_loop(), FIRST_PAUSE
    if ahead is not None:
        return (await loop.create_connection(made, sock=ahead))[1]
    if ways is not None and process is not None:
        there = await enclosure.connected(process, port, ways)
        if there is None:
            await process.wait()
            raise NoStart(f"it ended with status {process.returncode} before it served")
        return (await loop.create_connection(made, sock=there))[1]
    while True:
        if process is not None and process.returncode is not None:
            raise NoStart(f"it ended with status {process.returncode} before it served")
        with contextlib.suppress(ConnectionRefusedError):
            _, connection = await loop.create_connection(made, HOST, port)
            return connection
        if not patient:
            raise NoStart(f"nobody listens at port {port} of {HOST} (server.join)")
        await asyncio.sleep(pause)
        pause = min(2 * pause, LONGEST_PAUSE)
