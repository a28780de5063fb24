# SPDX-License-Identifier: Apache-2.0
"""The head of a request of HTTP/1.1, read strictly: what two readers could take for different requests is refused."""
from __future__ import annotations

import ipaddress
import re
from dataclasses import dataclass

# The most bytes of a head.
HEAD = 16_384
END = b"\r\n\r\n"
_FIRST = re.compile(rb"([A-Z]{1,16}) (/[!-~]*) HTTP/1\.1", re.ASCII)
_FIELD = re.compile(rb"([!#$%&'*+.^_`|~0-9A-Za-z-]+):[ \t]*([\t -~\x80-\xff]*?)[ \t]*", re.ASCII)
_ONCE = ("host", "content-length", "content-type", "authorization", "cookie", "origin", "upgrade", "connection", "sec-websocket-key")


class BadRequest(Exception):
    """What came is no request that is carried: its status and why."""

    def __init__(self, status: int, why: str) -> None:
        super().__init__(why)
        self.status = status


@dataclass(frozen=True, slots=True)
class Head:
    """A head: its method, its target, its fields in order, and the length of the body."""

    method: str
    target: str
    fields: tuple[tuple[str, str], ...]
    length: int

    def field(self, name: str) -> str:
        """The value of a field; empty if there is none."""
        return next((value for key, value in self.fields if key.lower() == name), "")

    def cookies(self) -> dict[str, str]:
        """The cookies."""
        parts = (part.strip().partition("=") for part in self.field("cookie").split(";"))
        return {name: value for name, _, value in parts}

    @property
    def upgrades(self) -> bool:
        """Whether it is a handshake of a WebSocket, of version 13 with a key."""
        words = [word.strip().lower() for word in self.field("connection").split(",")]
        return (self.method == "GET" and self.field("upgrade").lower() == "websocket" and "upgrade" in words and self.field("sec-websocket-version") == "13"
                and len(self.field("sec-websocket-key")) == 24)


def names_loopback(host: str) -> bool:
    """Whether a field Host names the loopback, with a port or without. A name that begins like an address of it may be anybody's."""
    name = host.rpartition(":")[0] if host.rpartition(":")[2].isdigit() else host
    try:
        return name.lower() == "localhost" or ipaddress.ip_address(name.strip("[]")).is_loopback
    except ValueError:
        return False


def read_head(data: bytes, most_body: int) -> Head:
    """The head that these bytes are, up to its empty line. Raises `BadRequest`."""
    lines = data.removesuffix(END).split(b"\r\n")
    first, fields = _FIRST.fullmatch(lines[0]), [_FIELD.fullmatch(line) for line in lines[1:]]
    found = tuple((field[1].decode("ascii"), field[2].decode("latin1")) for field in fields if field is not None)
    if first is None or len(found) < len(fields):
        raise BadRequest(400, "this is no request that the service has")
    names = [name.lower() for name, _ in found]
    if names.count("host") != 1 or any(names.count(name) > 1 for name in _ONCE):
        raise BadRequest(400, "a field is missing, or stands twice")
    length = dict(zip(names, (value for _, value in found), strict=True)).get("content-length", "0")
    if "transfer-encoding" in names or not length.isascii() or not length.isdigit():
        raise BadRequest(400, "a body has to come with its length")
    if len(length) > 12 or int(length) > most_body:
        raise BadRequest(413, "the body is too long")
    return Head(first[1].decode(), first[2].decode(), found, int(length))
