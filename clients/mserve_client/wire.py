# SPDX-License-Identifier: Apache-2.0
"""The wire of `mserve serve`: a terminal's lines go out, and their replies come back.

    with Connection(9000, 1) as server:
        reply = server.send('SET ^VISIT("Ada")=1 WRITE $DATA(^VISIT)')
        print(reply.rest, reply.code)                       # 10 None
        for reply in server.pipeline(f"SET ^X({n})={n}" for n in range(1000)):
            assert reply.ok

The server serves one connection at a time. A client that connects while another one is served waits
for its first reply, so that a time-out mostly means: someone else is connected."""
from __future__ import annotations

import re
import signal
import socket
import struct
import time
from collections.abc import Iterable, Iterator
from dataclasses import dataclass
from select import select
from types import TracebackType
from typing import TYPE_CHECKING, TypeAlias

from .holder import holder, listener

if TYPE_CHECKING:
    from .front import FrontConnection

HOST = "127.0.0.1"
# The hosts whose processes can be looked at.
LOCAL = (HOST, "localhost")
LONGEST_LINE = 255
# Seconds without a byte from the server, after which a wait for a reply ends.
PATIENCE = 60.0
# How many lines may be sent before the reply of the first one is read.
WINDOW = 500
MAX_OUTGOING = 1 << 16
_MARK = re.compile(rb"(\d+|\?)([:\-.!])(.*)", re.DOTALL)
_ESCAPE = re.compile(rb"\\([0-9A-F]{2})")


class ClientError(Exception):
    """What keeps a client from an answer; its text says what happened and what to do."""


class NoServer(ClientError):
    """Nobody listens at the port."""


class ServerGone(ClientError):
    """The server ended the connection while a reply was due."""


class TimedOut(ClientError):
    """No byte came from the server for the time that was given."""


class BadReply(ClientError):
    """The bytes that came are no reply of mserve at this terminal."""


class BadLine(ClientError):
    """The text cannot be sent as one line."""


@dataclass(frozen=True, slots=True)
class Reply:
    """The reply of a line: each line of output that `!` ended, the unfinished rest, the code of a fault or None, and what a front says besides."""

    lines: tuple[str, ...] = ()
    rest: str = ""
    code: str | None = None
    note: str = ""

    @property
    def ok(self) -> bool:
        """Whether the line was run to its end."""
        return self.code is None

    @property
    def output(self) -> list[str]:
        """All lines of output, the unfinished one among them if there is one."""
        return [*self.lines, self.rest] if self.rest else list(self.lines)


def shown(data: bytes) -> str:
    """The text that stands for these bytes on the wire."""
    if b"\\" in data:
        data = _ESCAPE.sub(lambda found: bytes([int(found[1], 16)]), data)
    return data.decode("latin1")


class ReplyReader:
    """Puts replies together from the bytes of one terminal, however these are cut."""

    def __init__(self, terminal: int) -> None:
        self._terminal = b"%d" % terminal
        self._done = self._terminal + b"."
        self._left = b""
        self._lines: list[str] = []
        self._rest = ""

    def feed(self, data: bytes) -> list[Reply]:
        """The replies that these bytes end."""
        *lines, self._left = (self._left + data).split(b"\n")
        replies = []
        for line in lines:
            if line == self._done:
                replies.append(self._ended(None))
            elif (reply := self._take(line)) is not None:
                replies.append(reply)
        return replies

    def _take(self, line: bytes) -> Reply | None:
        """The reply that a line of the wire ends, if it ends one."""
        found = _MARK.fullmatch(line)
        if found is None or found[1] not in (self._terminal, b"?"):
            raise BadReply(f"this is no reply to terminal {self._terminal.decode()}: {line[:80]!r}: is it mserve's port?")
        if found[2] == b":":
            self._lines.append(shown(found[3]))
        elif found[2] == b"-":
            self._rest = shown(found[3])
        else:
            return self._ended(found[3].decode("latin1") if found[2] == b"!" else None)
        return None

    def _ended(self, code: str | None) -> Reply:
        reply = Reply(tuple(self._lines), self._rest, code)
        self._lines, self._rest = [], ""
        return reply


def late(timeout: float | None, why: str) -> str:
    """What is said of a reply that does not come."""
    return f"no reply within {timeout:g} seconds: {why}, or the line runs long; --timeout 0 waits as long as it takes"


def line_bytes(terminal: int, text: str | bytes) -> bytes:
    """The bytes that a text is sent as. A carriage return at its end is doubled by the one that goes with the line feed."""
    data = text.encode("utf-8", "surrogateescape") if isinstance(text, str) else text
    if b"\n" in data:
        raise BadLine('a line cannot have a line feed in it: write "first"_$CHAR(10)_"second"')
    return b"%d %s%s\n" % (terminal, data, b"\r" if data.endswith(b"\r") else b"")


# A terminal's connection: to the server, or through a front.
Connected: TypeAlias = "Connection | FrontConnection"


class Connection:
    """A connection for one terminal. As a context manager it is closed after the block; where an interrupt ends the block, the
    terminal's session is ended by HALT first."""

    # Whether texts are shown, and given, with the characters for which escapes stand. Lines and replies are ASCII in any case.
    in_utf_8 = False

    def __init__(self, port: int, terminal: int, *, host: str = HOST, timeout: float | None = PATIENCE) -> None:
        """Connects. With a `timeout` of None, it waits for replies without end."""
        self.port, self.terminal, self.timeout = port, terminal, timeout
        self._host = host
        self._listener = listener(port) if host in LOCAL else None
        # bytes that are not sent yet; whether the line before them is sent in part; how many whole lines are sent and not answered
        self._out = bytearray()
        self._unfinished = False
        self._under_way = 0
        self._ready: list[Reply] = []
        self._reader = ReplyReader(terminal)
        try:
            self._socket = socket.create_connection((host, port), timeout=timeout)
        except OSError as error:
            raise NoServer(f"no server at {host} port {port} ({error.strerror or error}): start one with "
                           f"./mserve serve --settings FILE --store FILE --port {port} --connections COUNT") from error
        self._socket.setsockopt(socket.IPPROTO_TCP, socket.TCP_NODELAY, 1)
        self._socket.setblocking(False)

    def __enter__(self) -> Connection:
        return self

    def __exit__(self, kind: type[BaseException] | None, error: BaseException | None, trace: TracebackType | None) -> None:
        if isinstance(error, KeyboardInterrupt):
            try:
                self.end_session()
                error.add_note("the terminal's session is ended")
            except ClientError:
                error.add_note("the terminal's session could not be ended; lines that were sent may be run yet")
        self.close()

    def send(self, text: str | bytes) -> Reply:
        """The reply of one line."""
        self._drain()
        [reply] = self.pipeline([text])
        return reply

    def pipeline(self, texts: Iterable[str | bytes], window: int = WINDOW) -> Iterator[Reply]:
        """The replies of lines, in their order, while further lines are on their way: `window` of them at most.

        The server runs all that was sent, also what follows a line that fails. Who wants to stop at the first
        code lets `texts` end there, reads the replies that are still due, and knows from these what was run."""
        self._drain()
        source, more, due = iter(texts), True, 0
        while more or due:
            while more and due < window and len(self._out) < MAX_OUTGOING:
                text = next(source, None)
                if text is None:
                    more = False
                else:
                    self._out += line_bytes(self.terminal, text)
                    due += 1
            if due and not self._ready:
                self._exchange()
            ready, self._ready = self._ready, []
            due -= len(ready)
            yield from ready

    def why_it_waits(self) -> str:
        """What a long wait may come from: who has the server, if that can be seen."""
        has = holder(self.port) if self._host in LOCAL else ""
        return f"the server serves one connection at a time, and {has} has it" if has else \
            "the server serves one connection at a time, so another client may be connected"

    def is_new_server(self) -> bool | None:
        """Whether another server listens at the port than when this connection was made; None if that cannot be seen."""
        now = listener(self.port) if self._host in LOCAL else None
        return None if now is None or self._listener is None else now != self._listener

    def end_session(self, patience: float = 5.0) -> Reply:
        """Ends the terminal's session by HALT: a line that is partly sent is finished, those after it are not sent, and replies that
        are due are passed over. The terminal's variables are gone then, and its locks given back."""
        self.timeout = patience
        self._drain()
        return self.send("HALT")

    def close(self) -> None:
        """Ends the connection. The terminal's session, with its variables and locks, stays. A line that was sent only in part is not run."""
        if self._unfinished:
            self._socket.setsockopt(socket.SOL_SOCKET, socket.SO_LINGER, struct.pack("ii", 1, 0))
        self._socket.close()

    def _drain(self) -> None:
        """Passes over the replies that are due from a pipeline that was left; lines of which no byte was sent are forgotten."""
        end = self._out.find(b"\n") + 1 if self._unfinished else 0
        del self._out[end:]
        while self._out or self._under_way:
            self._exchange()
        self._ready.clear()

    def _exchange(self) -> None:
        """Sends what the socket takes and reads what it has; waits until one of both is possible."""
        limit = None if self.timeout is None else time.monotonic() + self.timeout
        while not self._moved():
            left = None if limit is None else limit - time.monotonic()
            if left is not None and left <= 0:
                raise TimedOut(late(self.timeout, self.why_it_waits()))
            select([self._socket], [self._socket] if self._out else [], [], left)

    def _moved(self) -> bool:
        """Whether bytes went out or came. An interrupt waits meanwhile, so that no reply is lost or counted twice."""
        before = signal.pthread_sigmask(signal.SIG_BLOCK, {signal.SIGINT})
        try:
            written = self._write()
            return self._read() or written
        finally:
            signal.pthread_sigmask(signal.SIG_SETMASK, before)

    def _write(self) -> bool:
        if not self._out:
            return False
        try:
            count = self._socket.send(self._out)
        except BlockingIOError:
            return False
        except OSError as error:
            raise self._gone() from error
        if count:
            self._unfinished = self._out[count - 1] != 10
            self._under_way += self._out.count(b"\n", 0, count)
        del self._out[:count]
        return count > 0

    def _read(self) -> bool:
        try:
            # The server writes each reply by itself, and waits with the next one until this one was acknowledged: that is asked for at once.
            self._socket.setsockopt(socket.IPPROTO_TCP, socket.TCP_QUICKACK, 1)
            data = self._socket.recv(1 << 18)
        except BlockingIOError:
            return False
        except OSError as error:
            raise self._gone() from error
        if not data:
            raise self._gone()
        replies = self._reader.feed(data)
        self._under_way -= len(replies)
        self._ready += replies
        return True

    def _gone(self) -> ServerGone:
        return ServerGone(f"the server at port {self.port} went away; {self._under_way} lines that were sent have no reply, and may have been run or not")
