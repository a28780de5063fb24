# SPDX-License-Identifier: Apache-2.0
"""What the log of a store has changed, and what a store holds: read from its files between two lines, beside a server that has them or after its end.

A log (FILE-wal, SQLite's form) has pages in the order in which they were written. Until it is copied into the file, that is as it was when the log was
begun. So the rows of all pages that are in the log, and of these pages as they are in the file, are all rows that can have changed since."""
from __future__ import annotations

import os
import shutil
import sqlite3
import struct
import sys
import tempfile
from array import array
from collections.abc import Callable, Iterator
from dataclasses import dataclass, field
from pathlib import Path

from .rows import Row

_HEAD = struct.Struct(">8I")
_FRAME = struct.Struct(">6I")
# The first words of a log, by the order of bytes of its sums.
_LITTLE, _BIG = 0x377F0682, 0x377F0683
# The first byte of a page of a table that has rows.
_LEAF = 13
# Where the first page has the bytes that each page leaves, the first page of free ones, and its own rows.
_LEFT, _FREE, _FIRST = 20, 32, 100
# What the name of a copy begins with.
COPY = ".image-"

Page = Callable[[int], bytes]


class BadLog(Exception):
    """A log or a file is not in form; the text says where."""


Sums = tuple[int, int]


@dataclass(slots=True)
class Log:
    """The pages of a log, commit by commit."""

    page_size: int
    commits: list[list[tuple[int, bytes]]] = field(default_factory=list)


def read_log(store: Path) -> Log:
    """The log of a store, up to its last whole commit; an empty one if there is none."""
    path = store.with_name(store.name + "-wal")
    data = path.read_bytes() if path.exists() else b""
    if len(data) < _HEAD.size:
        return Log(0)
    magic, _, size, _, *salts_and_sum = _HEAD.unpack_from(data)
    if magic not in (_LITTLE, _BIG):
        return Log(0)
    salts: Sums = (salts_and_sum[0], salts_and_sum[1])
    seed: Sums = (salts_and_sum[2], salts_and_sum[3])
    pending: list[tuple[int, bytes]] = []
    log, at, begun = Log(size), _HEAD.size, _HEAD.size
    while at + _FRAME.size + size <= len(data):
        number, pages, first, second, *told = _FRAME.unpack_from(data, at)
        if (first, second) != salts:
            break
        pending.append((number, data[at + _FRAME.size:at + _FRAME.size + size]))
        at += _FRAME.size + size
        if pages:
            log.commits.append([(page, body) for page, body in pending if page <= pages])
            last, pending, begun, seed = (begun, at, seed), [], at, (told[0], told[1])
    if log.commits and not _is_whole(data, *last, size, magic == _BIG):
        log.commits.pop()
    return log


def _is_whole(data: bytes, begins: int, ends: int, seed: tuple[int, int], size: int, big: bool) -> bool:
    """Whether the sums of a commit are right: a server that was killed may have left a part of the last one."""
    at, told = begins, seed
    while at < ends:
        head = data[at:at + _FRAME.size]
        told = _summed(head[:8], told, big)
        told = _summed(data[at + _FRAME.size:at + _FRAME.size + size], told, big)
        if told != struct.unpack_from(">2I", head, 16):
            return False
        at += _FRAME.size + size
    return True


def _summed(data: bytes, before: tuple[int, int], big: bool) -> tuple[int, int]:
    words = array("I", data)
    if big == (sys.byteorder == "little"):
        words.byteswap()
    one, two = before
    for even, odd in zip(words[::2], words[1::2], strict=True):
        one = (one + even + two) & 0xFFFFFFFF
        two = (two + odd + one) & 0xFFFFFFFF
    return one, two


class _File:
    """The pages of a store's file."""

    def __init__(self, store: Path, size: int) -> None:
        self._file = os.open(store, os.O_RDONLY)
        self._size = size

    def page(self, number: int) -> bytes:
        """A page, or nothing if the file ends before it."""
        return os.pread(self._file, self._size, (number - 1) * self._size)

    def close(self) -> None:
        """Leaves the file."""
        os.close(self._file)


def changed(store: Path) -> dict[bytes, bytes | None]:
    """The rows that the log of a store can have changed, with their texts as they are now, or None for those that are gone. Raises `BadLog`."""
    log = read_log(store)
    if not log.commits:
        return {}
    file = _File(store, log.page_size)
    try:
        return _changed(log, file.page)
    except (struct.error, IndexError, ValueError) as error:
        raise BadLog(f"{store}: its log is not in form: {error}") from error
    finally:
        file.close()


def changes(store: Path) -> Iterator[Row]:
    """The same, read at the first one."""
    yield from changed(store).items()


def _changed(log: Log, before: Page) -> dict[bytes, bytes | None]:
    now: dict[int, bytes] = {}
    seen: set[bytes] = set()

    def page(number: int) -> bytes:
        return now[number] if number in now else before(number)
    free = set(_free(before))
    touched: set[bytes] = set()
    for commit in log.commits:
        for number, _ in commit:
            if number not in now and number not in free:
                touched.update(_keys(number, before, seen))
        now.update(commit)
        for number in dict.fromkeys(number for number, _ in commit):
            touched.update(_keys(number, page, seen))
    freed = set(_free(page))
    for number in freed - free - now.keys():
        touched.update(_keys(number, before, seen))
    held = {key: text for number in now.keys() - freed for key, text in _rows(number, page)}
    return {key: held.get(key) for key in sorted(touched)}


def _keys(number: int, page: Page, seen: set[bytes]) -> Iterator[bytes]:
    """The keys of a page's nodes but for rows that were seen already: of a page that is written again and again, most are the same."""
    for row, whole in _payloads(number, page):
        if row in seen and whole:
            continue
        seen.add(row)
        node = _node(row)
        if node is not None:
            yield node[0]


def _free(page: Page) -> Iterator[int]:
    """The pages that are free."""
    first = page(1)
    trunk = int.from_bytes(first[_FREE:_FREE + 4], "big") if first else 0
    while trunk:
        yield trunk
        body = page(trunk)
        trunk, count = struct.unpack_from(">2I", body)
        yield from struct.unpack_from(f">{count}I", body, 8)


def _rows(number: int, page: Page) -> Iterator[tuple[bytes, bytes]]:
    """The nodes of a page; none if it has no rows of a table."""
    for row, _ in _payloads(number, page):
        node = _node(row)
        if node is not None:
            yield node


def _payloads(number: int, page: Page) -> Iterator[tuple[bytes, bool]]:
    """What each row of a page has; and whether all of it is in the page. Nothing if it has no rows of a table."""
    body, at = page(number), _FIRST if number == 1 else 0
    if len(body) <= at or body[at] != _LEAF:
        return
    usable = len(body) - page(1)[_LEFT]
    most = usable - 35
    (count,) = struct.unpack_from(">H", body, at + 3)
    for place in struct.unpack_from(f">{count}H", body, at + 8):
        size, begins = _number(body, place)
        _, begins = _number(body, begins)
        if size <= most:
            yield body[begins:begins + size], True
        else:
            yield _spilled(body, begins, size, usable, page), False


def _spilled(body: bytes, at: int, size: int, usable: int, page: Page) -> bytes:
    """What a row has that goes on in further pages."""
    least = (usable - 12) * 32 // 255 - 23
    here = least + (size - least) % (usable - 4)
    here = here if here <= usable - 35 else least
    parts = [body[at:at + here]]
    left, further = size - here, int.from_bytes(body[at + here:at + here + 4], "big")
    while left > 0 and further:
        more = page(further)
        parts.append(more[4:4 + min(left, usable - 4)])
        left, further = left - len(parts[-1]), int.from_bytes(more[:4], "big")
    return b"".join(parts)


def _node(row: bytes) -> tuple[bytes, bytes] | None:
    """Key and text of a row; None if it is a row of another table."""
    head, at = _number(row, 0)
    first, at = _number(row, at)
    if at >= head:
        return None
    second, at = _number(row, at)
    if at != head or not all(kind >= 12 and kind % 2 == 0 for kind in (first, second)):
        return None
    middle = head + (first - 12) // 2
    return row[head:middle], row[middle:middle + (second - 12) // 2]


def _number(data: bytes, at: int) -> tuple[int, int]:
    """A number of SQLite's one to nine bytes, and the place after it."""
    found = data[at]
    if found < 0x80:
        return found, at + 1
    found = 0
    for place in range(at, at + 8):
        found = found << 7 | data[place] & 0x7F
        if data[place] < 0x80:
            return found, place + 1
    return found << 8 | data[at + 8], at + 9


def image(store: Path) -> Iterator[Row]:
    """All rows of a store, by a copy beside it that is made at the first one. Raises `BadLog` or OSError."""
    for left in store.parent.glob(f"{COPY}*"):
        # A front that was killed meanwhile left it.
        shutil.rmtree(left, ignore_errors=True)
    with tempfile.TemporaryDirectory(dir=store.parent, prefix=COPY) as folder:
        made = Path(folder) / "store"
        for end in ("", "-wal"):
            place = store.with_name(store.name + end)
            if place.exists():
                shutil.copyfile(place, f"{made}{end}")
        try:
            base = sqlite3.connect(made, check_same_thread=False)
            try:
                yield from base.execute("SELECT k, v FROM node ORDER BY k")
            finally:
                base.close()
        except sqlite3.Error as error:
            raise BadLog(f"{store}: {error}") from error
