# SPDX-License-Identifier: Apache-2.0
"""Doors: connections are accepted, counted by address, and ended if nothing comes of them in time.

A door is in front of the protocol of each connection. What comes is handed on in small pieces, and only once the protocol wants more, so that a
peer who sends ahead takes bounded memory and bounded turns of the loop. Of HTTP a request is handed on once the one before it is answered."""
from __future__ import annotations

import asyncio
import asyncio.sslproto
import functools
import json
import logging
import socket
import ssl
import time
from collections import Counter, OrderedDict
from collections.abc import Callable, Coroutine
from typing import Any

from .fair import Pace
from .http_head import END, BadRequest, Head, read_head
from .preamble import MOST, told_by
from .server import tell
from .settings import Limits
from .slowdown import network_of

# Seconds for the handshake of TLS.
HANDSHAKE = 10.0
# The most bytes of a head; those of one piece that is handed on; and those that wait, after which no more are read.
HEAD, PIECE, WAITING = 8192, 4096, 8192
# Bytes that are read at once, of a connection with TLS or without; and thousands of them that wait within TLS before no more are read.
CHUNK, TLS_WAITING = 1 << 14, 16
# Units of work a second that all peers who are not signed on have together, and all who are; what a request and a connection cost of them.
UNSIGNED, SIGNED, REQUEST_COST, CONNECTION_COST = 600.0, 3000.0, 1.0, 2.0
# Requests of a connection after which it is ended, while its peer is not signed on.
MOST_REQUESTS = 100
BACKLOG = 512
# Seconds between two reports of a refusal.
TELLING = 60.0
REASONS = {400: "Bad Request", 413: "Content Too Large", 431: "Request Header Fields Too Large"}
# No delay for small frames; a peer that is gone without a word is noticed within three minutes.
OPTIONS = ((socket.IPPROTO_TCP, socket.TCP_NODELAY, 1), (socket.SOL_SOCKET, socket.SO_KEEPALIVE, 1), (socket.IPPROTO_TCP, socket.TCP_KEEPIDLE, 60),
           (socket.IPPROTO_TCP, socket.TCP_KEEPINTVL, 15), (socket.IPPROTO_TCP, socket.TCP_KEEPCNT, 4),
           # Linux has it, and the types of mypy do not say so.
           (socket.IPPROTO_TCP, socket.TCP_USER_TIMEOUT, 120_000))  # type: ignore[attr-defined]


def quiet(name: str) -> logging.Logger:
    """A logger that is silent from now on: what peers send, and when they leave, is no fault of who serves them, and may be secret."""
    made = logging.getLogger(name)
    made.setLevel(logging.CRITICAL + 1)
    return made


def spare_memory() -> None:
    """Has connections over TLS that are made from now on take little memory. asyncio gives each one a buffer of 256 KB, for as long as it lasts, and reads
    256 KB ahead, and users' lines are short: for thousands of users that was most of the memory."""
    if hasattr(asyncio.sslproto.SSLProtocol, "max_size"):
        asyncio.sslproto.SSLProtocol.max_size = CHUNK
    # asyncio has no word for it.
    asyncio.sslproto.constants.FLOW_CONTROL_HIGH_WATER_SSL_READ = TLS_WAITING  # type: ignore[attr-defined]


def strict(context: ssl.SSLContext) -> None:
    """Has a context take what is good today alone: of TLS 1.2 only suites with forward secrecy and authenticated encryption."""
    context.minimum_version = ssl.TLSVersion.TLSv1_2
    context.options |= ssl.OP_NO_RENEGOTIATION | ssl.OP_NO_COMPRESSION
    context.set_ciphers("ECDHE+AESGCM:ECDHE+CHACHA20")


def held(host: str, port: int, shared: bool = False) -> socket.socket:
    """A socket that has a port, or any if it is 0, and does not listen yet: no other user of the machine can take the port, and who connects is refused.
    `shared` says that another process of this user may have it too: a gate holds the ports of its fronts. Raises OSError if it is taken.

    Linux lets two users have a port by SO_REUSEADDR as long as neither listens, and by SO_REUSEPORT never."""
    if not shared:
        _bound(host, port, socket.SO_REUSEADDR).close()
    try:
        return _bound(host, port, socket.SO_REUSEPORT)
    except OSError:
        if shared:
            raise
        # Connections of a front that did not have it by SO_REUSEPORT are not over yet.
        return _bound(host, port, socket.SO_REUSEADDR)


def _bound(host: str, port: int, how: int) -> socket.socket:
    family = socket.AF_INET6 if ":" in host else socket.AF_INET
    place = socket.socket(family)
    try:
        place.setsockopt(socket.SOL_SOCKET, how, 1)
        if family == socket.AF_INET6:
            place.setsockopt(socket.IPPROTO_IPV6, socket.IPV6_V6ONLY, 1)
        place.bind((host, port))
    except OSError as error:
        place.close()
        raise OSError(error.errno, f"{host}, port {port}: {error.strerror}") from error
    return place


class Door(asyncio.Protocol):
    """A connection. What comes is handed to its protocol piece by piece, once that wants more (`more`), until the deadline; None stands for no
    limit. `ready` says that the protocol has what it waits for. `gate` takes the first line, where a gate hands users on, and says whether it is one of
    this machine's gate; `address` is the user's."""

    def __init__(self, inner: asyncio.Protocol, deadline: float | None, place: str, left: Callable[[Door], None]) -> None:
        """`place` is the address; `left` is called at the end."""
        self.inner = inner
        self.deadline = deadline
        self.place = place
        self.ready: Callable[[], bool] = lambda: False
        self.transport: asyncio.Transport | None = None
        self.task: asyncio.Task[None] | None = None
        self.address = place
        self.gate: Callable[[Door, bytes], bool] | None = None
        self._left = left
        self._held = bytearray()
        self._wanted = False
        self._soon = False
        self._paused = False
        self._ended = False

    def open(self) -> None:
        """Takes the deadline away, once the peer is signed on."""
        self.deadline = None

    def more(self) -> None:
        """The protocol wants something, unless it has it already."""
        if not self.ready():
            self._wanted = True
            self._hand()

    def connection_made(self, transport: asyncio.BaseTransport) -> None:
        """Keeps the connection, and reads of it a piece at a time."""
        assert isinstance(transport, asyncio.Transport)
        self.transport = transport
        if hasattr(transport, "max_size"):
            transport.max_size = CHUNK
        self.inner.connection_made(transport)

    def data_received(self, data: bytes) -> None:
        """Keeps what came until the gate's preamble is read, and reads no more while much waits."""
        self._held += data
        if self.gate is None or self._introduced():
            self._hand()
        if len(self._held) > WAITING and not self._paused and self.transport is not None and not self.transport.is_closing():
            self._paused = True
            self.transport.pause_reading()

    def _introduced(self) -> bool:
        """Takes the first line, and says whether it has come."""
        end = self._held.find(b"\n", 0, MOST)
        if end < 0 and len(self._held) < MOST:
            return False
        gate, self.gate = self.gate, None
        line = bytes(self._held[:max(end, 0)])
        del self._held[:end + 1]
        if gate is None or not gate(self, line):
            self.cut()
        return True

    def eof_received(self) -> bool | None:
        """Hands the end on once all that came before it was."""
        self._ended = True
        return True if self._held else self.inner.eof_received()

    def pause_writing(self) -> None:
        """Hands that on."""
        self.inner.pause_writing()

    def resume_writing(self) -> None:
        """Hands that on."""
        self.inner.resume_writing()

    def connection_lost(self, error: Exception | None) -> None:
        """Drops what waits, and hands that on."""
        self._held.clear()
        self.inner.connection_lost(error)
        self._left(self)

    def cut(self) -> None:
        """Ends the connection at once."""
        if self.transport is not None:
            self.transport.abort()
        elif self.task is not None:
            self.task.cancel()
        else:
            self._left(self)

    def _hand(self) -> None:
        """Hands on a piece, if one is wanted; the next one comes in another turn of the loop."""
        if self._wanted and self._held and not self._soon:
            self._give(PIECE)
            self._wanted = not self.ready()
            self._hand_soon()

    def _hand_soon(self) -> None:
        if self._held and not self._soon:
            self._soon = True
            asyncio.get_running_loop().call_soon(self._hand_again)

    def _hand_again(self) -> None:
        self._soon = False
        self._hand()

    def _give(self, size: int) -> int:
        """Gives the protocol this many bytes at most, and says how many these are."""
        if len(self._held) <= size:
            piece = bytes(self._held)
            self._held.clear()
        else:
            piece = bytes(self._held[:size])
            del self._held[:size]
        self.inner.data_received(piece)
        if self._ended and not self._held and self.transport is not None and not self.inner.eof_received():
            self.transport.close()
        if self._paused and len(self._held) <= WAITING and self.transport is not None and not self.transport.is_closing():
            self._paused = False
            self.transport.resume_reading()
        return len(piece)


Who = Callable[[Head, str], tuple[str, bool]]


class HttpDoor(Door):
    """A connection of HTTP, up to the WebSocket that it may become."""

    def __init__(self, inner: asyncio.Protocol, deadline: float | None, place: str, left: Callable[[Door], None], doors: Doors, who: Who) -> None:
        """`who` gives whose turn a request of an address takes, and whether that is somebody who is signed on."""
        super().__init__(inner, deadline, place, left)
        self._doors = doors
        self._who = who
        self._free = True
        self._body = 0
        self._socket = False
        self._requests = 0
        self._known = False

    @property
    def worn(self) -> bool:
        """Whether its peer has sent as many requests as one who is not signed on may send over a connection."""
        return self._requests >= MOST_REQUESTS and not self._known

    def become_socket(self, ready: Callable[[], bool]) -> None:
        """From now on frames come, which are handed on as they are wanted."""
        self._socket = True
        self.ready = ready
        self.open()

    def answered(self) -> None:
        """A request is answered: the next one may come."""
        self._free = True
        self._hand_soon()

    def _hand(self) -> None:
        if self._socket:
            super()._hand()
        elif self._soon or self.transport is None or self.transport.is_closing():
            return
        elif self._body:
            self._body -= self._give(min(self._body, PIECE))
            self._hand_soon()
        elif self._free and self._held:
            self._begin()

    def _begin(self) -> None:
        """Takes up a request, once its head is there and it is its peer's turn."""
        end = self._held.find(END, 0, HEAD)
        if end < 0 and len(self._held) < HEAD:
            return
        try:
            if end < 0:
                raise BadRequest(431, "the head of the request is too long")
            head = read_head(bytes(self._held[:end + len(END)]), self._doors.limits.body)
        except BadRequest as error:
            self._refuse(error)
            return
        self._free = False
        self._requests += 1
        key, self._known = self._who(head, self.place)
        if self._known:
            self._doors.is_known(self)
        # From here on the wait is not for the peer.
        self.deadline = None
        pace = self._doors.signed if self._known else self._doors.unsigned
        pace.enter(key, lambda: self._admit(end + len(END), head.length), REQUEST_COST)

    def _admit(self, size: int, body: int) -> None:
        if self.transport is not None and not self.transport.is_closing():
            self._body = body
            self._give(size)
            self._hand_soon()

    def _refuse(self, error: BadRequest) -> None:
        """Answers what is no request, and ends the connection."""
        body = json.dumps({"error": str(error)}).encode()
        self._held.clear()
        if self.transport is None:
            return
        self.transport.write((f"HTTP/1.1 {error.status} {REASONS[error.status]}\r\nContent-Type: application/json\r\nContent-Length: {len(body)}\r\n"
                              "Cache-Control: no-store\r\nX-Content-Type-Options: nosniff\r\nConnection: close\r\n\r\n").encode() + body)
        self.transport.close()


Made = Callable[["Doors", str, Callable[[Door], None]], Door]


class Doors:
    """All connections, and how many each address has."""

    def __init__(self, limits: Limits, context: ssl.SSLContext | None, places: dict[int, socket.socket], gate: str | None = None) -> None:
        """`places` are ports that are held already. `gate` is the secret of this machine's gate, if that hands users on."""
        self.limits = limits
        self._gate = gate
        self.unsigned = Pace(UNSIGNED)
        self.signed = Pace(SIGNED)
        self._places = places
        self._context = context
        self._of_address: Counter[str] = Counter()
        self._doors: dict[asyncio.BaseProtocol, Door] = {}
        # Those whose peers are not signed on, the oldest first.
        self._unknown: OrderedDict[Door, None] = OrderedDict()
        self._unknown_of: Counter[str] = Counter()
        self._tasks: set[asyncio.Task[None]] = set()
        self._listeners: list[socket.socket] = []
        self._refused = -TELLING

    def listen(self, host: str, port: int, made: Made) -> None:
        """Accepts connections, each with a door of its own. Raises OSError if the port is taken."""
        listener = self._places.pop(port, None) or held(host, port, shared=self._gate is not None)
        # Connections that are over keep the port for a while, and the next front takes it all the same.
        listener.setsockopt(socket.SOL_SOCKET, socket.SO_REUSEADDR, 1)
        listener.listen(BACKLOG)
        listener.setblocking(False)
        self._listeners.append(listener)
        self._spawn(self._accept(listener, made))

    def of(self, protocol: asyncio.BaseProtocol | None) -> Door | None:
        """The door of a protocol."""
        return self._doors.get(protocol) if protocol is not None else None

    def is_known(self, door: Door) -> None:
        """The peer of a door is signed on: it is not among those that end first."""
        if door in self._unknown:
            del self._unknown[door]
            self._count(self._unknown_of, door.place, -1)

    def deadline(self) -> float:
        """When a connection that begins now has to be signed on."""
        return time.monotonic() + self.limits.sign_on

    def sweep(self) -> None:
        """Ends the connections whose time is over."""
        now = time.monotonic()
        for door in list(self._doors.values()):
            if door.deadline is not None and now > door.deadline:
                door.cut()

    def close(self) -> None:
        """Accepts no more connections, and holds no ports."""
        for listener in (*self._listeners, *self._places.values()):
            listener.close()
        for task in self._tasks:
            task.cancel()

    async def _accept(self, listener: socket.socket, made: Made) -> None:
        loop = asyncio.get_running_loop()
        while True:
            try:
                peer, address = await loop.sock_accept(listener)
            except OSError as error:
                tell(f"no connection could be accepted: {error.strerror}")
                await asyncio.sleep(0.2)
                continue
            place = network_of(address[0])
            # A gate counts the connections of each address itself.
            if self._gate is None and not self._has_room(place):
                peer.close()
                continue
            door = made(self, place, self._forget)
            door.gate = None if self._gate is None else self._introduced
            self._doors[door.inner] = door
            self._unknown[door] = None
            self._count(self._unknown_of, place, 1)
            self._count(self._of_address, place, 1)
            self.unsigned.enter(place, functools.partial(self._begin, door, peer), CONNECTION_COST)
            await asyncio.sleep(0)

    def _introduced(self, door: Door, line: bytes) -> bool:
        """Takes what a gate says of a user, and counts the connection as one of the user's address."""
        address = None if self._gate is None else told_by(line, self._gate)
        if address is None:
            return False
        before, place = door.place, network_of(address)
        for counter in (self._of_address, self._unknown_of):
            self._count(counter, before, -1)
            self._count(counter, place, 1)
        door.address, door.place = address, place
        return True

    def _has_room(self, place: str) -> bool:
        """Makes room for a connection, if there is none: the oldest ends whose peer is not signed on, first of the same address."""
        limits = self.limits
        if self._unknown_of[place] >= limits.unsigned_of_address or self._of_address[place] >= limits.connections_of_address:
            oldest, bound = next((door for door in self._unknown if door.place == place), None), "connections_of_address"
        elif self._of_address.total() >= limits.connections:
            oldest, bound = next(iter(self._unknown), None), "connections"
        else:
            return True
        if oldest is None:
            self._refuses(bound)
            return False
        self._forget(oldest)
        oldest.cut()
        return True

    def _refuses(self, bound: str) -> None:
        """Tells of a connection that is refused; of those that follow soon it tells nothing."""
        now = time.monotonic()
        if now >= self._refused + TELLING:
            self._refused = now
            tell(f"a connection is refused: all that limits.{bound} allows are of users who are signed on")

    def _begin(self, door: Door, peer: socket.socket) -> None:
        if door.inner in self._doors:
            door.task = self._spawn(self._welcome(door, peer))
        else:
            peer.close()

    async def _welcome(self, door: Door, peer: socket.socket) -> None:
        """Shakes hands, and hands the connection to its protocol."""
        try:
            for level, option, value in OPTIONS:
                peer.setsockopt(level, option, value)
            timeout = HANDSHAKE if self._context else None
            await asyncio.get_running_loop().connect_accepted_socket(lambda: door, peer, ssl=self._context, ssl_handshake_timeout=timeout)
        except (OSError, TimeoutError, asyncio.CancelledError):
            peer.close()
            if door.transport is None:
                self._forget(door)

    def _forget(self, door: Door) -> None:
        """A door is not there any more."""
        if self._doors.pop(door.inner, None) is not None:
            self.is_known(door)
            self._count(self._of_address, door.place, -1)

    @staticmethod
    def _count(counter: Counter[str], place: str, step: int) -> None:
        counter[place] += step
        if counter[place] <= 0:
            del counter[place]

    def _spawn(self, work: Coroutine[Any, Any, None]) -> asyncio.Task[None]:
        task = asyncio.get_running_loop().create_task(work)
        self._tasks.add(task)
        task.add_done_callback(self._done)
        return task

    def _done(self, task: asyncio.Task[None]) -> None:
        self._tasks.discard(task)
        if not task.cancelled() and task.exception() is not None:
            tell(f"a connection failed: {type(task.exception()).__name__}")
