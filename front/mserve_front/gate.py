# SPDX-License-Identifier: Apache-2.0
"""The gate of a machine: users of any island connect here, and are handed on to the front of their own, on this machine or over mutual TLS on another.

It reads what names the user (the first line, the sign-on, a cookie or a token), and nothing else of what it carries. Whether the user is who they say
is for the island's front. While that cannot be reached, it is for any other one: what it answers tells nobody whether a name exists, and who has the
right password hears that it is to be tried again."""
from __future__ import annotations

import asyncio
import contextlib
import json
import ssl
from collections.abc import Awaitable, Callable
from itertools import islice
from typing import NamedTuple

from .doors import CHUNK, Door, Doors
from .connection import HOST
from .http_head import END, BadRequest, Head, read_head
from .islands import Islands
from .preamble import preamble
from .signing import AWAY
from .users import token_hash

# Bytes of a head and of a body, and seconds for them to come, and for a connection to be made.
HEAD, BODY, COMING, REACHING = 8192, 8192, 20.0, 5.0
COOKIE, INNER = "__Host-mfront", "mfront"
HTTP, LINES = "http", "lines"
# What is carried: nothing else of an island's front is for users.
CARRIED = {"/": "GET", "/session": "GET", "/ws": "GET", "/health": "GET", "/signon": "POST", "/signoff": "POST", "/line": "POST", "/password": "POST"}
PAGE, FIGURES = "/page/", "/metrics/"
REASONS = {400: "Bad Request", 404: "Not Found", 405: "Method Not Allowed", 413: "Content Too Large", 431: "Request Header Fields Too Large",
           503: "Service Unavailable"}
# Other machines of which the front of an island is tried, where any does: each may take `REACHING`.
MACHINES = 2
Streams = tuple[asyncio.StreamReader, asyncio.StreamWriter]
# What ends a connection, and nothing else.
BROKEN = (OSError, ValueError, KeyError, TypeError, asyncio.IncompleteReadError, asyncio.LimitOverrunError)


class Away(Exception):
    """An island cannot be reached now. Which one it is, is not for users."""

    def __str__(self) -> str:
        return AWAY


class Request(NamedTuple):
    """A request of HTTP: its head and its body."""

    head: Head
    body: bytes


class Outer:
    """A connection of a user, of which more is read as it is wanted."""

    def __init__(self, reader: asyncio.StreamReader, writer: asyncio.StreamWriter, door: Door, doors: Doors) -> None:
        self._reader = reader
        self.writer = writer
        self._door = door
        self._doors = doors

    @property
    def address(self) -> str:
        """Where the user comes from."""
        return self._door.address

    def lasts(self) -> None:
        """What was to come first is there: its time is the front's matter from now on."""
        self._door.open()

    def known(self) -> None:
        """The front knows the user: the connection is not among those that end first."""
        self._doors.is_known(self._door)

    async def until(self, end: bytes) -> bytes:
        """What comes up to an end. Raises as `StreamReader.readuntil` does."""
        self._door.more()
        return await self._reader.readuntil(end)

    async def exactly(self, size: int) -> bytes:
        """This many bytes, and no more than are read at once."""
        self._door.more()
        return await self._reader.readexactly(size)

    async def read(self) -> bytes:
        """What has come; empty at the end."""
        self._door.more()
        return await self._reader.read(CHUNK)


Serve = Callable[[Outer], Awaitable[None]]


class Gate:
    """Carries the connections of a machine."""

    def __init__(self, name: str, islands: Islands, peers: ssl.SSLContext | None) -> None:
        """`peers` is what this machine shows others, and wants of them; it is None for one that is alone."""
        self._name = name
        self._islands = islands
        self._peers = peers

    # ---- where to

    def of_user(self, name: str) -> str | None:
        """The island of a user; None of a name that nobody has: any will say that it is wrong."""
        user = self._islands.users.get(name)
        return None if user is None else self._islands.of_account.get(user.account)

    def of_request(self, request: Request) -> str | None:
        """The island of a request: of a cookie, a sign-on or a token, or the one whose figures are wanted; else None: any has the page."""
        head = request.head
        if head.target == "/signon":
            try:
                return self.of_user(str(json.loads(request.body)["user"]))
            except (ValueError, KeyError, TypeError, RecursionError):
                return None
        secret = head.field("authorization").partition(" ")[2].strip()
        if head.target == "/line" or head.target == "/ws" and secret:
            return self.of_user(self._islands.of_token.get(token_hash(secret), ""))
        named = head.target.removeprefix(FIGURES) if head.target.startswith(FIGURES) else head.cookies().get(COOKIE, "").partition(".")[0]
        return named if named in self._islands.placed else None

    def _any(self) -> list[str]:
        """The islands of this machine, and one of each of some others."""
        placed = list(self._islands.placed.values())
        others = {island.machine: island.name for island in placed if island.machine != self._name}
        return [*(island.name for island in placed if island.machine == self._name), *islice(others.values(), MACHINES)]

    async def connected(self, island: str | None, kind: str, address: str, any_does: bool = False) -> tuple[str, Streams]:
        """A connection to an island's front, and whose that is: another one's if none is named, or if any does where this one is away. Raises `Away`."""
        named = [] if island is None else [island]
        for name in [*named, *(one for one in self._any() if one != island)] if any_does or island is None else named:
            with contextlib.suppress(Away):
                return name, await self.reach(name, kind, address)
        raise Away

    async def reach(self, island: str, kind: str, address: str) -> Streams:
        """A connection to an island's front, which knows the user's address. Raises `Away`."""
        placed = self._islands.placed.get(island)
        try:
            async with asyncio.timeout(REACHING):
                if placed is None:
                    raise Away
                if placed.machine == self._name:
                    return await self._here(island, kind, address)
                machine = self._islands.machines[placed.machine]
                reader, writer = await asyncio.open_connection(machine.host, machine.port, ssl=self._peers, server_hostname=machine.name, limit=HEAD)
                writer.write(json.dumps({"island": island, "kind": kind, "from": address}).encode() + b"\n")
                if await reader.readline() != b"here\n":
                    writer.close()
                    raise Away
                return reader, writer
        except (OSError, TimeoutError, KeyError) as error:
            raise Away from error

    async def _here(self, island: str, kind: str, address: str) -> Streams:
        port = self._islands.port(island, kind)
        if port is None:
            raise Away
        inner = await asyncio.open_connection(HOST, port, limit=HEAD)
        inner[1].write(preamble(self._islands.secret, address))
        return inner

    # ---- the ways in

    async def serve_peer(self, outer: Outer) -> None:
        """Another machine hands a user on. It has shown its certificate."""
        async with asyncio.timeout(COMING):
            asked = json.loads(await outer.until(b"\n"))
        outer.lasts()
        try:
            inner = await self._here(str(asked["island"]), str(asked["kind"]), str(asked["from"]))
        except (Away, OSError):
            outer.writer.write(b"away\n")
            return
        outer.writer.write(b"here\n")
        await spliced(outer, inner)

    async def serve_lines(self, outer: Outer) -> None:
        """A program: its first line begins with its user's name."""
        async with asyncio.timeout(COMING):
            first = await outer.until(b"\n")
        outer.lasts()
        try:
            _, inner = await self.connected(self.of_user(first.partition(b" ")[0].decode("utf-8", "replace")), LINES, outer.address, any_does=True)
        except Away as error:
            outer.writer.write(json.dumps({"error": str(error)}).encode() + b"\n")
            return
        try:
            inner[1].write(first)
            answer = await inner[0].readuntil(b"\n")
            if "error" not in json.loads(answer):
                outer.known()
            outer.writer.write(answer)
            await spliced(outer, inner)
        finally:
            inner[1].close()

    async def serve_http(self, outer: Outer) -> None:
        """A browser, or a program with a token: one request for each connection. What comes after it is carried on only if both sides have become a
        WebSocket by it."""
        try:
            async with asyncio.timeout(COMING):
                request = await read_request(outer)
            outer.lasts()
            island, inner = await self.connected(self.of_request(request), HTTP, outer.address, any_does=request.head.target == "/signon")
        except BadRequest as error:
            outer.writer.write(refusal(error.status, str(error)))
            return
        except Away as error:
            outer.writer.write(refusal(503, str(error)))
            return
        upgrades = request.head.target == "/ws" and request.head.upgrades
        try:
            inner[1].write(written_request(request, upgrades))
            head = await inner[0].readuntil(END)
            outer.writer.write(written_answer(head, island))
            if upgrades and head.startswith(b"HTTP/1.1 101 "):
                outer.known()
                await spliced(outer, inner)
            else:
                await carried(lambda: inner[0].read(CHUNK), outer.writer)
        except (asyncio.IncompleteReadError, asyncio.LimitOverrunError):
            outer.writer.write(refusal(503, AWAY))
        finally:
            inner[1].close()

    def door(self, serve: Serve, lasting: bool) -> Callable[[Doors, str, Callable[[Door], None]], Door]:
        """What makes the door of a way in. A connection that breaks, or is too slow, is left; `lasting` says that it is one of another machine."""
        def made(doors: Doors, place: str, left: Callable[[Door], None]) -> Door:
            async def guarded(reader: asyncio.StreamReader, writer: asyncio.StreamWriter) -> None:
                try:
                    outer = Outer(reader, writer, door, doors)
                    if lasting:
                        outer.known()
                    await serve(outer)
                    await writer.drain()
                except BROKEN:
                    writer.transport.abort()
                finally:
                    writer.close()
            reader = asyncio.StreamReader(limit=HEAD)
            # The time counts for the handshake; what comes after it has its own.
            door = Door(asyncio.StreamReaderProtocol(reader, guarded), doors.deadline(), place, left)
            # A reader has no other word for what it has.
            door.ready = lambda: len(reader._buffer) > HEAD  # type: ignore[attr-defined]
            return door
        return made


async def carried(read: Callable[[], Awaitable[bytes]], writer: asyncio.StreamWriter) -> None:
    """Carries bytes one way, up to their end."""
    with contextlib.suppress(ConnectionError, ssl.SSLError, TimeoutError):
        while data := await read():
            writer.write(data)
            await writer.drain()


async def spliced(outer: Outer, inner: Streams) -> None:
    """Carries bytes both ways until one side has ended."""
    tasks = [asyncio.create_task(carried(outer.read, inner[1])), asyncio.create_task(carried(lambda: inner[0].read(CHUNK), outer.writer))]
    try:
        await asyncio.wait(tasks, return_when=asyncio.FIRST_COMPLETED)
    finally:
        for task in tasks:
            task.cancel()
        inner[1].close()


async def read_request(outer: Outer) -> Request:
    """A request, with its body. Raises `BadRequest`."""
    try:
        head = read_head(await outer.until(END), BODY)
    except asyncio.LimitOverrunError:
        raise BadRequest(431, "the head of the request is too long") from None
    target = head.target.partition("?")[0]
    wanted = "GET" if target.startswith((PAGE, FIGURES)) else CARRIED.get(target)
    if wanted is None:
        raise BadRequest(404, "Not Found")
    if head.method != wanted:
        raise BadRequest(405, "Method Not Allowed")
    return Request(Head(head.method, target, head.fields, head.length), await outer.exactly(head.length))


def written_request(request: Request, upgrades: bool) -> bytes:
    """A request as an island's front reads it: the cookie is its own, the connection is for this request alone, and nothing of it is a gate's."""
    head = request.head
    target = "/metrics" if head.target.startswith(FIGURES) else head.target
    lines = [f"{head.method} {target} HTTP/1.1"]
    left_out = ("cookie", "connection", "keep-alive", "forwarded") + (() if upgrades else ("upgrade",))
    lines += [f"{name}: {value}" for name, value in head.fields if name.lower() not in left_out and not name.lower().startswith(("x-mgate-", "x-forwarded-"))]
    if key := head.cookies().get(COOKIE, "").partition(".")[2]:
        lines.append(f"Cookie: {INNER}={key}")
    lines.append(f"Connection: {'Upgrade' if upgrades else 'close'}")
    return "\r\n".join(lines).encode("latin1") + END + request.body


def written_answer(head: bytes, island: str) -> bytes:
    """The head of an answer as a user's browser reads it: the cookie names the island, and goes over TLS alone."""
    lines = []
    for line in head[:-4].decode("latin1").split("\r\n"):
        name, _, value = line.partition(":")
        if name.lower() == "set-cookie" and value.strip().startswith(f"{INNER}="):
            line = f"Set-Cookie: {COOKIE}={island}.{value.strip().removeprefix(f'{INNER}=')}; Secure"
        if name.lower() not in ("keep-alive",):
            lines.append(line)
    lines.append("Strict-Transport-Security: max-age=31536000")
    return "\r\n".join(lines).encode("latin1") + b"\r\n\r\n"


def refusal(status: int, why: str) -> bytes:
    """An answer of the gate itself."""
    body = json.dumps({"error": why}).encode()
    return (f"HTTP/1.1 {status} {REASONS[status]}\r\nContent-Type: application/json\r\nContent-Length: {len(body)}\r\nRetry-After: 1\r\n"
            "Cache-Control: no-store\r\nConnection: close\r\n\r\n").encode() + body
