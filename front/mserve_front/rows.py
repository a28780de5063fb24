# SPDX-License-Identifier: Apache-2.0
"""Rows of a store, as a start of the journal gives them: keys with their texts, or with none where a key is gone."""
from __future__ import annotations

import sqlite3
import struct
import zlib
from collections.abc import Iterable, Iterator, Sequence
from pathlib import Path
from urllib.parse import quote

from mserve_client.store_file import Store

Row = tuple[bytes, bytes | None]
_LENGTH = struct.Struct(">I")
_GONE = (1 << 32) - 1
# Bytes of rows that one part has, and a little more.
PART = 1 << 20


def packed(rows: Iterable[Row]) -> Iterator[bytes]:
    """The parts that rows make: each row the length of its key, the key, the length of its text and the text; all is compressed. The length of a text
    that is gone is all ones."""
    made, size = [], 0
    for key, text in rows:
        piece = _LENGTH.pack(len(key)) + key + (_LENGTH.pack(_GONE) if text is None else _LENGTH.pack(len(text)) + text)
        made.append(piece)
        size += len(piece)
        if size >= PART:
            yield zlib.compress(b"".join(made), 1)
            made, size = [], 0
    if made:
        yield zlib.compress(b"".join(made), 1)


def unpacked(parts: Iterable[bytes]) -> Iterator[Row]:
    """The rows of parts."""
    for part in parts:
        data, at = zlib.decompress(part), 0
        while at < len(data):
            key, at = _text(data, at)
            text, at = _text(data, at)
            yield key or b"", text


def _text(data: bytes, at: int) -> tuple[bytes | None, int]:
    (length,) = _LENGTH.unpack_from(data, at)
    at += _LENGTH.size
    return (None, at) if length == _GONE else (data[at:at + length], at + length)


def take_log(store: Path) -> None:
    """Copies the log of a store that nobody has open into its file. Raises `sqlite3.Error`, as for a file that is not there."""
    base = sqlite3.connect(f"file:{quote(str(store.absolute()))}?mode=rw", timeout=0, uri=True)
    try:
        if base.execute("PRAGMA wal_checkpoint(TRUNCATE)").fetchone()[0]:
            raise sqlite3.OperationalError("database is locked")
    finally:
        base.close()


def apply(store: Path, parts: Sequence[bytes], whole: bool) -> None:
    """Gives a store that nobody has open, and that is made if it is not there, the rows of parts; with `whole` it has no others afterwards. It is one
    transaction. Raises `sqlite3.Error` or `BadStore`."""
    if store.exists():
        take_log(store)
    with Store(str(store), make=True) as base, base.change():
        if whole:
            base.clear()
        base.remove(key for key, text in unpacked(parts) if text is None)
        base.put((key, text) for key, text in unpacked(parts) if text is not None)
