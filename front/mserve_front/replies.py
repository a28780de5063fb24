# SPDX-License-Identifier: Apache-2.0
"""Puts the replies of many terminals together from the bytes of one connection."""
from __future__ import annotations

import hashlib
from collections.abc import Callable
from dataclasses import dataclass

from mserve_client import BadReply, Reply
from mserve_client.wire import shown

_MARKS = frozenset((b":", b"-", b".", b"!"))
# Bytes of a line that are kept in any case: those of a mark and a code among them.
_KEPT = 32
# What a line of output takes of the room, besides its bytes.
_LINE_COST = 64


def new_digest() -> hashlib.blake2b:
    """What computes the digest of a reply: of all bytes that the server sends for it."""
    return hashlib.blake2b(digest_size=16)


@dataclass(frozen=True, slots=True)
class Answer:
    """A reply, and how many of its bytes were left out since it was too long: those of the line of output that was too long, and all after it. The
    digest is that of all its bytes, where it was wanted."""

    reply: Reply
    cut: int = 0
    digest: bytes = b""


class ReplyReader:
    """Reads replies, each of the terminal whose turn it is. Of a reply, what is over `room` bytes is left out, so that memory is bounded."""

    def __init__(self, turn: Callable[[], int | None], room: int) -> None:
        """`turn` gives the terminal that the next reply is due to, or None if none is."""
        self._turn = turn
        self._room = room
        self._digests = False
        self._parts: list[bytes] = []
        self._size = 0
        self._begin()

    def _begin(self) -> None:
        self._left = self._room
        self._cut = 0
        self._lines: list[str] = []
        self._rest = ""
        self._digest = new_digest() if self._digests else None

    def keep_digests(self) -> None:
        """Gives each answer from now on its digest. No reply has begun."""
        self._digests = True
        self._begin()

    def feed(self, data: bytes, ended: Callable[[Answer], None]) -> None:
        """Takes bytes, and hands on each answer that they end. Raises `BadReply` if they are no reply of the terminal whose turn it is."""
        *lines, rest = data.split(b"\n")
        for line in lines:
            self._grow(line)
            if self._digest is not None:
                self._digest.update(b"\n")
            whole = b"".join(self._parts) if len(self._parts) != 1 else self._parts[0]
            self._parts.clear()
            self._size = 0
            answer = self._take(whole)
            if answer is not None:
                ended(answer)
        if rest:
            self._grow(rest)

    def _grow(self, piece: bytes) -> None:
        """Adds to the line that is being read what there is room for."""
        if self._digest is not None:
            self._digest.update(piece)
        room = max(self._left, _KEPT - self._size)
        if len(piece) > room:
            self._cut += len(piece) - room
            piece = piece[:room]
        self._left = max(0, self._left - len(piece))
        self._size += len(piece)
        self._parts.append(piece)

    def _take(self, line: bytes) -> Answer | None:
        """The answer that a line of the wire ends, if it ends one."""
        terminal = self._turn()
        begin = b"" if terminal is None else b"%d" % terminal
        place = len(begin)
        mark, text = line[place:place + 1], line[place + 1:]
        if not begin or not line.startswith(begin) or mark not in _MARKS:
            raise BadReply(f"this is no reply to terminal {terminal}: {line[:80]!r}")
        if mark in b".!":
            digest = b"" if self._digest is None else self._digest.digest()
            answer = Answer(Reply(tuple(self._lines), self._rest, text.decode("latin1") if mark == b"!" else None), self._cut, digest)
            self._begin()
            return answer
        if not self._left:
            self._cut += len(text)
            return None
        if mark == b":":
            self._left = max(0, self._left - _LINE_COST)
            self._lines.append(shown(text))
        else:
            self._rest = shown(text)
        return None
