# SPDX-License-Identifier: Apache-2.0
"""Lines through a front (`mfront`): sign-on over HTTPS, and then the lines of one session over its WebSocket.

    with FrontConnection("https://front.example:8443", "ada", secret) as front:
        print(front.send("WRITE 1+2").rest)                 # 3

It is used as `Connection` is. The certificate is verified. A thread answers the front's pings, so that a session stays while nobody types."""
from __future__ import annotations

import base64
import http.client
import json
import os
import queue
import secrets
import select
import socket
import ssl
import struct
import threading
import time
from collections.abc import Iterable, Iterator
from contextlib import suppress
from dataclasses import dataclass, replace
from types import TracebackType
from urllib.parse import urlsplit

from .escape import shown_line, stored
from .wire import PATIENCE, BadLine, BadReply, ClientError, NoServer, Reply, ServerGone, TimedOut, late

# How many lines may be sent before the reply of the first one came.
AHEAD = 64
# What a token begins with.
TOKEN = "mft_"
LOOPBACK = ("127.0.0.1", "localhost", "::1")
TEXT, CLOSE, PING, PONG = 1, 8, 9, 10
LARGEST_FRAME = 1 << 28
SIGNED_OFF = {"idle": "nothing came for too long", "replaced": "the user signed on elsewhere too often", "stopping": "the front was stopped",
              "moved": "the account moved to another machine", "removed": "the user was removed, or has another password", "signed off": "it was asked for"}
Record = dict[str, object]


class NoSignOn(ClientError):
    """The front does not sign this user on."""


@dataclass(frozen=True, slots=True)
class Address:
    """Where a front is: its URL, cut into parts."""

    secure: bool
    host: str
    port: int

    @classmethod
    def of(cls, url: str) -> Address:
        """The place of a URL. ValueError if it is none that a secret may be sent to."""
        found = urlsplit(url if "://" in url else f"https://{url}")
        if found.scheme not in ("http", "https") or not found.hostname or found.path not in ("", "/") or found.query or found.username:
            raise ValueError(f"{url!r} is no front: it is https://HOST:PORT")
        if found.scheme == "http" and found.hostname not in LOOPBACK:
            raise ValueError(f"{url!r}: without TLS a secret goes to this machine alone: write https://")
        return cls(found.scheme == "https", found.hostname, found.port or (443 if found.scheme == "https" else 80))

    @property
    def authority(self) -> str:
        """Host and port, as in a URL."""
        host = f"[{self.host}]" if ":" in self.host else self.host
        return host if self.port == (443 if self.secure else 80) else f"{host}:{self.port}"

    @property
    def origin(self) -> str:
        """The origin of the front's page."""
        return f"{'https' if self.secure else 'http'}://{self.authority}"


def context(authority: str | None) -> ssl.SSLContext:
    """How certificates are verified: by the authority of a file, or by those of the system."""
    made = ssl.create_default_context(cafile=authority)
    made.minimum_version = ssl.TLSVersion.TLSv1_2
    return made


class FrontConnection:
    """A session of a user at a front. As a context manager it signs off after the block."""

    def __init__(self, url: str, user: str, secret: str, *, authority: str | None = None, timeout: float | None = PATIENCE) -> None:
        """Signs on: `secret` is the password of the user or a token, which says by itself whose it is; `authority` is a file with certificates. NoServer,
        NoSignOn."""
        self.place, self.user, self.timeout = Address.of(url), user, timeout
        self._verified = context(authority) if self.place.secure else None
        self._events: queue.SimpleQueue[Record | ClientError] = queue.SimpleQueue()
        self._due: set[int] = set()
        # The first lock is held for each call of the socket, the second for each frame: a pong never waits for a line.
        self._number, self._lock, self._writing = 0, threading.Lock(), threading.Lock()
        self._pongs: queue.SimpleQueue[bytes] = queue.SimpleQueue()
        self._over: ClientError | None = None
        self._told, self._cookie, self.record = threading.Event(), "", dict[str, object]()
        # A token is no password of the page: it opens a WebSocket of its own, without a cookie.
        self._token = secret if secret.startswith(TOKEN) else ""
        if not self._token:
            self._cookie, self.record = self._sign_on(secret)
        self._socket = self._joined()
        self._left = b""
        self._thread = threading.Thread(target=self._listen, daemon=True)
        self._thread.start()
        if self._token:
            self._await_record()
        # Lines and replies are ASCII here, with escapes; a front that puts these in and out itself is given what they stand for.
        self.in_utf_8 = self.record.get("text") == "utf-8"
        self._converts = self.in_utf_8

    def _await_record(self) -> None:
        """Waits for the record of a session that a token has opened. NoSignOn if it is another user's."""
        if not self._told.wait(self.timeout or PATIENCE) or not self.record:
            raise self._over or NoServer(f"{self.place.origin}: the front does not say whose session it is")
        if self.user and self.record["user"] != self.user:
            self.close()
            raise NoSignOn(f"{self.place.origin}: the token is one of {self.record['user']}, and not of {self.user}")
        self.user = str(self.record["user"])

    @property
    def terminal(self) -> int:
        """The terminal that the front gave."""
        return int(str(self.record["terminal"]))

    def __enter__(self) -> FrontConnection:
        return self

    def __exit__(self, kind: type[BaseException] | None, error: BaseException | None, trace: TracebackType | None) -> None:
        self.close()

    def send(self, text: str | bytes) -> Reply:
        """The reply of one line."""
        [reply] = self.pipeline([text])
        return reply

    def pipeline(self, texts: Iterable[str | bytes], window: int = AHEAD) -> Iterator[Reply]:
        """The replies of lines, in their order, while further lines are on their way: `window` of them at most."""
        self._drain()
        source, more = iter(texts), True
        while more or self._due:
            while more and len(self._due) < min(window, AHEAD):
                text = next(source, None)
                if text is None:
                    more = False
                else:
                    self._ask(text)
            if self._due:
                yield self._answer()

    def why_it_waits(self) -> str:
        """What a long wait may come from."""
        return "others' lines may come first"

    def is_new_server(self) -> bool | None:
        """Whether variables and locks are gone once the connection is: they are, since the front ends the terminal's session."""
        return True

    def end_session(self, patience: float = 5.0) -> Reply:
        """Ends the terminal's session by HALT."""
        self.timeout = patience
        return self.send("HALT")

    def close(self) -> None:
        """Signs off: the terminal's variables are gone then, and its locks released."""
        if self._cookie:
            with suppress(ClientError):
                self._request("POST", "/signoff", None)
        self._over = self._over or ServerGone("the session is closed")
        self._socket.close()

    # ---- HTTP

    def _request(self, method: str, path: str, body: Record | None) -> tuple[int, http.client.HTTPMessage, bytes]:
        """The status, the fields and the body of an answer."""
        made = http.client.HTTPSConnection(self.place.host, self.place.port, timeout=20, context=self._verified) if self._verified else \
            http.client.HTTPConnection(self.place.host, self.place.port, timeout=20)
        fields = {"Content-Type": "application/json", **({"Cookie": self._cookie} if self._cookie else {})}
        try:
            made.request(method, path, None if body is None else json.dumps(body), fields)
            answer = made.getresponse()
            return answer.status, answer.headers, answer.read(1 << 20)
        except (OSError, http.client.HTTPException) as error:
            raise self._unreached(error) from error
        finally:
            made.close()

    def _unreached(self, error: Exception) -> NoServer:
        """What keeps a front from being reached, in words."""
        if isinstance(error, ssl.SSLCertVerificationError):
            return NoServer(f"{self.place.origin}: its certificate is not verified: {error.verify_message}; --ca FILE names the authority that signed it")
        if isinstance(error, ssl.SSLError):
            return NoServer(f"{self.place.origin}: no TLS there ({error.reason or error}): is it the port of the front's page?")
        return NoServer(f"no front at {self.place.origin} ({getattr(error, 'strerror', None) or error or type(error).__name__})")

    def _sign_on(self, secret: str) -> tuple[str, Record]:
        """The cookie of a new session, and its record."""
        status, fields, body = self._request("POST", "/signon", {"user": self.user, "password": secret})
        try:
            record = json.loads(body)
        except ValueError as error:
            raise NoServer(f"{self.place.origin}: this is no front: it answers {status} and no JSON") from error
        if status in (429, 503):
            raise NoServer(f"{self.place.origin}: {record.get('error', status)}")
        cookie = fields.get("Set-Cookie", "").partition(";")[0]
        if status != 200 or not cookie or not isinstance(record, dict):
            raise NoSignOn(f"{self.place.origin}: {self.user} is not signed on: {record.get('error', status) if isinstance(record, dict) else status}")
        return cookie, record

    def _joined(self) -> socket.socket:
        """The socket of the session's WebSocket."""
        key = base64.b64encode(os.urandom(16)).decode()
        head = (f"GET /ws HTTP/1.1\r\nHost: {self.place.authority}\r\nUpgrade: websocket\r\nConnection: Upgrade\r\nSec-WebSocket-Key: {key}\r\n"
                f"Sec-WebSocket-Version: 13\r\nOrigin: {self.place.origin}\r\n"
                + (f"Authorization: Bearer {self._token}\r\n\r\n" if self._token else f"Cookie: {self._cookie}\r\n\r\n"))
        try:
            plain = socket.create_connection((self.place.host, self.place.port), timeout=20)
            plain.setsockopt(socket.IPPROTO_TCP, socket.TCP_NODELAY, 1)
            made = self._verified.wrap_socket(plain, server_hostname=self.place.host) if self._verified else plain
            made.sendall(head.encode())
            answer = b""
            while b"\r\n\r\n" not in answer:
                data = made.recv(1)
                if not data or len(answer) > 1 << 16:
                    raise NoServer(f"{self.place.origin}: the front ended the connection")
                answer += data
        except OSError as error:
            raise self._unreached(error) from error
        status = answer.split(b" ", 2)[1:2]
        if status == [b"503"]:
            raise NoServer(f"{self.place.origin}: no terminal is free, or the server is being started")
        if status == [b"401"]:
            raise NoSignOn(f"{self.place.origin}: the token is wrong")
        if status != [b"101"]:
            raise NoSignOn(f"{self.place.origin}: no WebSocket: {answer.splitlines()[0].decode('latin1')}: is this the address that users know "
                           "(listen.origins)?")
        made.setblocking(False)
        return made

    # ---- lines and replies

    def _ask(self, text: str | bytes) -> None:
        """Sends a line. A line that was written for an generation of the server that is over is not run; an older front calls an generation `session`."""
        line = text.decode("utf-8", "surrogateescape") if isinstance(text, bytes) else text
        if "\n" in line:
            raise BadLine('a line cannot have a line feed in it: write "first"_$CHAR(10)_"second"')
        if self._over is not None:
            raise ServerGone(f"{self._over}; this line was not sent")
        if self._converts:
            line = shown_line(line)
        self._number += 1
        self._due.add(self._number)
        name = "generation" if "generation" in self.record else "session"
        self._put(TEXT, json.dumps({"id": self._number, "line": line, name: self.record[name]}).encode())

    def _answer(self) -> Reply:
        """The next reply that is due."""
        try:
            found = self._events.get(timeout=self.timeout)
        except queue.Empty:
            raise TimedOut(late(self.timeout, self.why_it_waits())) from None
        if isinstance(found, ClientError):
            raise found
        self._due.discard(int(str(found["id"])))
        if found.get("unknown"):
            raise ServerGone(str(found.get("why")))
        if "refused" in found:
            if found["refused"] in ("restarted", "journal"):
                raise ServerGone(str(found.get("why")))
            return Reply(code=str(found["refused"]), note=str(found.get("why", "")))
        reply = reply_of(found)
        return replace(reply, lines=tuple(map(stored, reply.lines)), rest=stored(reply.rest)) if self._converts else reply

    def _drain(self) -> None:
        """Passes over the replies that are due from a pipeline that was left."""
        while self._due:
            self._answer()

    # ---- frames

    def _put(self, kind: int, data: bytes) -> None:
        """Sends a frame, and then the answers to pings that came meanwhile."""
        with self._writing:
            self._write(masked(kind, data))
        self._pong()

    def _pong(self) -> None:
        """Answers pings, unless a line is being sent: then its sender does."""
        while not self._pongs.empty() and self._writing.acquire(blocking=False):
            try:
                while not self._pongs.empty():
                    self._write(masked(PONG, self._pongs.get()))
            finally:
                self._writing.release()

    def _write(self, data: bytes) -> None:
        """Sends bytes."""
        left, limit = memoryview(data), time.monotonic() + (self.timeout or PATIENCE)
        while left:
            left = left[self._some(left):]
            if left and time.monotonic() > limit:
                raise TimedOut("the front takes no lines")

    def _some(self, data: memoryview) -> int:
        """Sends some bytes, and gives how many; waits for a while if none can be sent."""
        try:
            with self._lock:
                return self._socket.send(data)
        except (BlockingIOError, ssl.SSLWantWriteError, ssl.SSLWantReadError):
            select.select([], [self._socket], [], 1)
            return 0
        except (OSError, ValueError) as error:
            raise self._over or ServerGone(f"the connection to {self.place.origin} broke") from error

    def _listen(self) -> None:
        """Reads what comes, until the connection is over."""
        try:
            while self._over is None:
                self._take(*self._frame())
        except (OSError, ValueError, ClientError) as error:
            self._end(error if isinstance(error, ClientError) else ServerGone(
                f"the connection to {self.place.origin} broke; lines that were sent and have no reply may have been run or not"))

    def _frame(self) -> tuple[int, bytes]:
        """The next message: its kind and its bytes, put together if it came in parts."""
        kind, data, is_last = 0, b"", False
        while not is_last:
            first, second = self._bytes(2)
            size = second & 0x7F
            if size > 125:
                size = struct.unpack("!H" if size == 126 else "!Q", self._bytes(2 if size == 126 else 8))[0]
            if size > LARGEST_FRAME:
                raise BadReply("a frame that is too large")
            part = self._bytes(size)
            if first & 0x0F >= CLOSE:
                return first & 0x0F, part
            kind, data, is_last = kind or first & 0x0F, data + part, bool(first & 0x80)
        return kind, data

    def _bytes(self, count: int) -> bytes:
        """This many bytes of what comes."""
        while len(self._left) < count:
            data = self._some_read()
            if data is None:
                select.select([self._socket], [], [], 1)
            elif not data:
                raise ConnectionResetError
            else:
                self._left += data
        found, self._left = self._left[:count], self._left[count:]
        return found

    def _some_read(self) -> bytes | None:
        """Bytes that are there; None if there are none now, and no bytes at the end."""
        if self._over is not None:
            return b""
        try:
            with self._lock:
                return self._socket.recv(1 << 16)
        except (BlockingIOError, ssl.SSLWantReadError, ssl.SSLWantWriteError):
            return None

    def _take(self, kind: int, data: bytes) -> None:
        """Takes a message: answers a ping, hands a reply on, and keeps what an event says."""
        if kind == PING:
            self._pongs.put(data)
            self._pong()
        elif kind == CLOSE:
            raise self._over or ServerGone(f"the front at {self.place.origin} ended the session; lines that were sent and have no reply may have been "
                                           "run or not")
        elif kind == TEXT:
            found = json.loads(data)
            if "event" not in found:
                self._events.put(found)
            elif found["event"] == "signed-on":
                self.record = found
                self._told.set()
            elif found["event"] == "signed-off":
                why = str(found.get("why"))
                raise ServerGone(f"{self.user} was signed off ({SIGNED_OFF.get(why, why)}): the terminal's variables and locks are gone")
            elif found["event"] == "restarted":
                raise ServerGone("the server was started again: the terminal's variables and locks are gone"
                                 + (", and all globals" if found.get("volatile") else ""))

    def _end(self, error: ClientError) -> None:
        """Ends the connection for a reason, which each later line hears."""
        self._over = self._over or error
        self._events.put(error)
        self._told.set()


def masked(kind: int, data: bytes) -> bytes:
    """A frame of a client."""
    size, mask = len(data), secrets.token_bytes(4)
    length = bytes([0x80 | size]) if size < 126 else struct.pack("!BH", 0xFE, size) if size < 1 << 16 else struct.pack("!BQ", 0xFF, size)
    return bytes([0x80 | kind]) + length + mask + bytes(byte ^ mask[place % 4] for place, byte in enumerate(data))


def reply_of(found: Record) -> Reply:
    """The reply of a record. BadReply if it is none."""
    lines, rest, code = found.get("output"), found.get("rest"), found.get("code")
    if not isinstance(lines, list) or not isinstance(rest, str):
        raise BadReply(f"this is no reply of a front: {str(found)[:80]}")
    notes = [f"the front left out {found['cut']} bytes of this reply (limits.reply)"] if found.get("cut") else []
    notes += [str(found["quota"])] if "quota" in found else []
    return Reply(tuple(map(str, lines)), rest, None if code is None else str(code), "; ".join(notes))
