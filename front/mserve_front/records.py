# SPDX-License-Identifier: Apache-2.0
"""The records of a journal, and the flushes that they are written in.

A flush is what becomes durable at once: a head of fixed size with the length of its body, CRC-32C of the head and of the body, and then its records,
each with its length. Flushes are counted, so that one that is missing shows. A flush that ends too early is torn, as a crash leaves it; any other
fault of its bytes is damage."""
from __future__ import annotations

import enum
import struct
import zlib
from collections.abc import Iterator, Sequence
from dataclasses import dataclass

import crc32c

# The length of the body, the journal, the flush's number; after it the next line's number, the last answered line's and the time; who wrote it, and
# the body's sum.
_HEAD = struct.Struct(">IQQQQQQI")
_SUM = struct.Struct(">I")
_LENGTH = struct.Struct(">I")
HEAD_SIZE = _HEAD.size + _SUM.size
_LINE = struct.Struct(">QQHB")
_REPLY = struct.Struct(">Q16s")
_START = struct.Struct(">QQQQB")
_BEGIN = struct.Struct(">BQQQBQI")
_PART = struct.Struct(">I")
# The version of the starts that are written.
VERSION = 2
_UNKNOWN = (1 << 64) - 1
# What a flush ends with, so that its last byte is not zero.
_END = b"\n"


class BadJournal(Exception):
    """A journal cannot be used as it is; the text says where, and what is wrong."""


class Torn(Exception):
    """A flush ends too early: it never became durable, or it is being written."""


@dataclass(frozen=True, slots=True)
class LineRecord:
    """A line, with its number, its time in microseconds since 1970, its terminal, and the user who sent it; the user is empty for the front's own."""

    number: int
    time: int
    terminal: int
    user: str
    text: bytes

    def packed(self) -> bytes:
        """Its bytes."""
        user = self.user.encode()
        return b"L" + _LINE.pack(self.number, self.time, self.terminal, len(user)) + user + self.text


@dataclass(frozen=True, slots=True)
class ReplyRecord:
    """The digest of a line's reply, and its code, which is empty for a line that was run to its end."""

    number: int
    digest: bytes
    code: str

    def packed(self) -> bytes:
        """Its bytes."""
        return b"R" + _REPLY.pack(self.number, self.digest) + self.code.encode("latin1")


def size_of(user: str, text: bytes, code: str) -> int:
    """The bytes that the records of a line and of its reply take in flushes."""
    return 2 * (_LENGTH.size + 1) + _LINE.size + len(user.encode()) + len(text) + _REPLY.size + len(code)


@dataclass(frozen=True, slots=True)
class StartRecord:
    """A start of version 1, which is read and no longer written: all sessions began again before the line of this number. Of the lines before it that have
    no reply, those up to `sent` may have been run, and those after it were not. `base` is the last line that the store has, where that is known; `fresh` says
    that the store was made again; `settings` are the server's."""

    number: int
    time: int
    sent: int
    base: int | None
    fresh: bool
    settings: bytes

    def packed(self) -> bytes:
        """Its bytes."""
        base = _UNKNOWN if self.base is None else self.base
        return b"S" + _START.pack(self.number, self.time, self.sent, base, self.fresh) + zlib.compress(self.settings)


class StoreAtStart(enum.IntEnum):
    """What the store of the one who writes held at a start."""

    # It had run all lines up to `base`, and nothing else.
    RUN = 0
    # What a reader's holds that has run all lines with a reply, but for the rows that are given.
    CHANGED = 1
    # The rows that are given, and no others.
    ALL = 2
    # Nobody could look: the front has joined a server, or the store is in memory.
    UNKNOWN = 3


@dataclass(frozen=True, slots=True)
class RowsRecord:
    """Rows of the store, of the start that comes: a part, counted from 0, as `rows.packed` makes it."""

    part: int
    rows: bytes

    def packed(self) -> bytes:
        """Its bytes."""
        return b"W" + _PART.pack(self.part) + self.rows


@dataclass(frozen=True, slots=True)
class BeginRecord:
    """A start: all sessions began again before the line of this number. Lines before it that have no reply are void: what they did is in what the store
    held. `sent` is the last line that was sent; `base` the last one that the store has run, where `held` is RUN; `parts` says how many records of rows
    come before it."""

    number: int
    time: int
    sent: int
    held: StoreAtStart
    base: int
    parts: int
    settings: bytes

    def packed(self) -> bytes:
        """Its bytes."""
        return b"B" + _BEGIN.pack(VERSION, self.number, self.time, self.sent, self.held, self.base, self.parts) + zlib.compress(self.settings)


Record = LineRecord | ReplyRecord | StartRecord | RowsRecord | BeginRecord


@dataclass(frozen=True, slots=True)
class Flush:
    """Records that became durable at once. After them the next line has the number `next`, and the last line with a reply is `answered`. `writer` is the
    number that a front draws each time that it takes the journal."""

    journal: int
    sequence: int
    next: int
    answered: int
    time: int
    records: Sequence[Record]
    writer: int = 0

    @property
    def first(self) -> int:
        """The number of its first line, or of the next one if it has none."""
        return self.next - sum(isinstance(record, LineRecord) for record in self.records)

    def packed(self) -> bytes:
        """Its bytes."""
        parts = [record.packed() for record in self.records]
        body = b"".join(_LENGTH.pack(len(part)) + part for part in parts) + _END
        head = _HEAD.pack(len(body), self.journal, self.sequence, self.next, self.answered, self.time, self.writer, crc32c.crc32c(body))
        return head + _SUM.pack(crc32c.crc32c(head)) + body


def read_flush(data: bytes, at: int, records: bool = True) -> tuple[Flush, int]:
    """The flush at a place, without its records if these are not wanted, and the place after it. Raises `Torn` if its end is missing, and `BadJournal`
    if it is damaged."""
    head, begin = data[at:at + _HEAD.size], at + HEAD_SIZE
    if len(data) < begin:
        raise Torn
    if _SUM.pack(crc32c.crc32c(head)) != data[at + _HEAD.size:begin]:
        raise Torn() if _is_empty(data, begin) else BadJournal("the head of a flush is damaged")
    length, journal, sequence, following, answered, time, writer, told = _HEAD.unpack(head)
    end = begin + length
    if len(data) < end:
        raise Torn
    if crc32c.crc32c(data[begin:end]) != told:
        raise Torn() if _is_empty(data, end - 1) else BadJournal("the records of a flush are damaged")
    return Flush(journal, sequence, following, answered, time, tuple(_records(data[begin:end - 1])) if records else (), writer), end


def _is_empty(data: bytes, at: int) -> bool:
    """Whether nothing is written from a place on: a crash may leave zeros where a flush was to be."""
    return not any(data[at:])


def body_size(head: bytes) -> int:
    """The length of the body that a head names; 0 if it is none."""
    whole = len(head) >= HEAD_SIZE and _SUM.pack(crc32c.crc32c(head[:_HEAD.size])) == head[_HEAD.size:HEAD_SIZE]
    return int(_LENGTH.unpack_from(head)[0]) if whole else 0


def _records(body: bytes) -> Iterator[Record]:
    """The records of a body whose sum is right."""
    at = 0
    while at < len(body):
        (length,) = _LENGTH.unpack_from(body, at)
        at += _LENGTH.size
        yield _record(body[at:at + length])
        at += length


def _record(data: bytes) -> Record:
    kind, rest = data[:1], data[1:]
    if kind == b"L":
        number, time, terminal, length = _LINE.unpack_from(rest)
        text = rest[_LINE.size:]
        return LineRecord(number, time, terminal, text[:length].decode(), text[length:])
    if kind == b"R":
        number, digest = _REPLY.unpack_from(rest)
        return ReplyRecord(number, digest, rest[_REPLY.size:].decode("latin1"))
    if kind == b"S":
        number, time, sent, base, fresh = _START.unpack_from(rest)
        return StartRecord(number, time, sent, None if base == _UNKNOWN else base, bool(fresh), zlib.decompress(rest[_START.size:]))
    if kind == b"W":
        return RowsRecord(_PART.unpack_from(rest)[0], rest[_PART.size:])
    if kind == b"B":
        return _begin(rest)
    raise BadJournal(f"there is no record of the kind {kind!r}: a later version wrote this journal")


def _begin(rest: bytes) -> BeginRecord:
    if rest[0] != VERSION:
        raise BadJournal(f"a start of version {rest[0]}, and this program knows {VERSION}: a later version wrote this journal")
    _, number, time, sent, held, base, parts = _BEGIN.unpack_from(rest)
    return BeginRecord(number, time, sent, StoreAtStart(held), base, parts, zlib.decompress(rest[_BEGIN.size:]))
