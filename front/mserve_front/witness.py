# SPDX-License-Identifier: Apache-2.0
"""FILE.head, beside a store with which a front serves: how far the journal went, and since when the store's file is as it is.

It is written over at each flush, after that is durable, and not synced: after a loss of power it may be older than it was, and never says more than is
so. A journal that ends before it has lost its end. And where the store's file is as it was before the first line without a reply was sent, all that
such lines changed is in the store's log (`store_log`)."""
from __future__ import annotations

import contextlib
import errno
import json
import os
import secrets
import time
from collections import deque
from concurrent.futures import ThreadPoolExecutor
from datetime import UTC, datetime
from pathlib import Path
from typing import Any, NamedTuple, Protocol

from .folders import sync_folder
from .records import Flush

# Seconds after which what is written is synced.
SYNC = 1.0
# Microseconds after which how far a journal went is noted again, where not each flush is.
SELDOM = 200_000
# Seconds for which nobody else takes a journal unseen: one who was held up for longer looks before it writes.
HELD_UP = 0.05
BOOT = Path("/proc/sys/kernel/random/boot_id")


class Note:
    """A file of 512 bytes that is written over in place, at once: a part of it would be no JSON."""

    def __init__(self, path: Path) -> None:
        self.path = path
        self._file = -1

    def write(self, text: bytes) -> None:
        """Writes it over by a text of JSON; one that cannot be written is left as it is."""
        try:
            if self._file < 0:
                self._file = os.open(self.path, os.O_WRONLY | os.O_CREAT | os.O_CLOEXEC, 0o600)
            os.pwrite(self._file, b"%-511s\n" % text, 0)
        except OSError:
            pass

    def sync(self) -> None:
        """Has it on the disk."""
        if self._file >= 0:
            with contextlib.suppress(OSError):
                os.fdatasync(self._file)

    def close(self) -> None:
        """Leaves it."""
        if self._file >= 0:
            os.close(self._file)
            self._file = -1


def read_note(path: Path) -> dict[str, object] | None:
    """What a note says; None if there is none, or it is torn."""
    try:
        found = json.loads(path.read_bytes())
        return found if isinstance(found, dict) else None
    except (OSError, ValueError):
        return None


class Seen(NamedTuple):
    """A store's file: which one it is, when it was written last, and since which start of the machine that can be believed."""

    inode: int
    written: int
    boot: str


def look(store: str, boot: str) -> Seen | None:
    """A store's file as it is now; None if it is not there."""
    try:
        status = os.stat(store)
    except OSError:
        return None
    return Seen(status.st_ino, status.st_mtime_ns, boot)


def boot_of_machine() -> str:
    """What tells this start of the machine from others. Where the system does not say that, it tells each time from all others, so that nothing of before is
    believed."""
    try:
        return BOOT.read_text().strip()
    except OSError:
        return secrets.token_hex(16)


class Reached(NamedTuple):
    """How far a journal went: the journal, its last flush, its next line, the last line with a reply, and the time."""

    journal: int
    sequence: int
    next: int
    answered: int
    time: int


def _shown(flush: Flush | Reached) -> bytes:
    """How far a journal went, as a note says it, without its braces. Each flush is noted, so this is not left to `json`, which takes ten times as long."""
    return b'"journal": %d, "sequence": %d, "next": %d, "answered": %d, "time": %d' % (flush.journal, flush.sequence, flush.next, flush.answered, flush.time)


class StoreWitness:
    """Notes beside a store. `reached` is how far the journal had gone by the note of the front before."""

    def __init__(self, store: Path, each: bool) -> None:
        """`each`: how far the journal went is noted at each flush, and else a few times a second, as the journal has a note of its own."""
        self._store = str(store)
        self._each = each
        self._last: Flush | None = None
        self._noted = 0.0
        self._note = Note(place_of(store))
        found = read_note(place_of(store))
        self.reached, seen = _told(found)
        # Of the store's file what was seen before lines from a number on were sent; the first is that of the first line without a reply.
        self._seen: deque[tuple[int, Seen | None]] = deque([(0, seen)])
        self._shown = b"null" if seen is None else _shown_seen(seen)
        self._boot = boot_of_machine()
        # Whether a line was cut short: what it wrote is not known from its reply.
        self.cut = bool(found and found.get("cut"))

    @property
    def covers(self) -> bool:
        """Whether all that lines without a reply have changed is in the store's log."""
        seen = self._seen[0][1]
        return seen is not None and seen == look(self._store, self._boot)

    def sending(self, number: int) -> None:
        """Lines from this number on are about to be sent."""
        now = look(self._store, self._boot)
        if now != self._seen[-1][1]:
            self._seen.append((number, now))

    def flushed(self, flush: Flush) -> None:
        """A flush is durable."""
        seen = self._seen
        if len(seen) > 1 and seen[1][0] <= flush.answered + 1:
            while len(seen) > 1 and seen[1][0] <= flush.answered + 1:
                seen.popleft()
            self._shown = b"null" if seen[0][1] is None else _shown_seen(seen[0][1])
        elif not self._each and flush.time - self._noted < SELDOM and not self.cut:
            self._last = flush
            return
        self._last, self._noted = None, flush.time
        self._write(flush)

    def _write(self, flush: Flush) -> None:
        self._note.write(b'{%s, "seen": %s, "cut": %s}' % (_shown(flush), self._shown, b"true" if self.cut else b"false"))

    def begun(self) -> None:
        """All sessions have begun again, and what the store held is in the journal."""
        self.cut = False

    def close(self) -> None:
        """Leaves the note, on the disk."""
        if self._last is not None:
            self._write(self._last)
        self._note.sync()
        self._note.close()


def _shown_seen(seen: Seen) -> bytes:
    return json.dumps(seen._asdict()).encode()


class End(Protocol):
    """Where a journal ends."""

    @property
    def sequence(self) -> int:
        """The number of its last flush."""

    @property
    def next(self) -> int:
        """The number of the line that comes next."""


def lost(reached: Reached, tail: End) -> str:
    """What a journal that went further has lost."""
    lines = f"lines {tail.next} to {reached.next - 1}" if reached.next > tail.next else "no lines"
    at = datetime.fromtimestamp(reached.time / 1e6, UTC).isoformat(timespec="seconds")
    return (f"the journal ends with flush {tail.sequence} and line {tail.next - 1}, and it went to flush {reached.sequence} and line {reached.next - 1}, at "
            f"{at}: its end is missing, {lines} and replies up to that of line {reached.answered}")


def place_of(store: Path) -> Path:
    """The file beside a store."""
    return store.with_name(store.name + ".head")


HEAD = "head"


class JournalHead:
    """The file `head` of a journal in a folder: how far it went, and its epoch, which grows each time that a front takes it. A front that takes the journal
    puts a file of its own there. One that had it before still has its own file, which is no more in the folder: so it finds that it writes no more."""

    def __init__(self, folder: Path) -> None:
        self._path = folder / HEAD
        self._name = str(self._path)
        self._note = Note(folder / f"{HEAD}.new")
        self._inode = 0
        self._epoch = 0
        self._synced = self._looked = 0.0
        # Has the note on the disk: a flush does not wait for that.
        self._apart: ThreadPoolExecutor | None = None

    def take(self, force: bool) -> None:
        """Takes the journal. With `force` what was there is not believed. Raises OSError, and leaves it then: how far it went is not to be lost."""
        before = read_note(self._path) or {}
        self._epoch = int(str(before.get("epoch", 0))) + 1
        self._note.close()
        self._note.path.unlink(missing_ok=True)
        self._note.write(json.dumps(({} if force else before) | {"epoch": self._epoch}).encode())
        self._note.sync()
        if read_note(self._note.path) is None:
            raise OSError(errno.ENOSPC, os.strerror(errno.ENOSPC))
        self._inode = self._note.path.stat().st_ino
        self._note.path.replace(self._path)
        sync_folder(self._path.parent)

    def reached(self, reached: Flush | Reached) -> None:
        """Notes how far the journal went; it is on the disk soon after a second of work."""
        self._note.write(b'{%s, "epoch": %d}' % (_shown(reached), self._epoch))
        if time.monotonic() - self._synced > SYNC:
            self._synced = time.monotonic()
            self._apart = self._apart or ThreadPoolExecutor(1, thread_name_prefix="head")
            self._apart.submit(self._note.sync)

    def is_own(self, again: bool = False) -> bool:
        """Whether nobody else has taken the journal; with `again` it is believed for a moment."""
        if again and time.monotonic() - self._looked < HELD_UP:
            return True
        try:
            own = os.stat(self._name).st_ino == self._inode
        except OSError:
            own = False
        self._looked = time.monotonic() if own else 0.0
        return own

    def close(self) -> None:
        """Leaves it."""
        if self._apart is not None:
            self._apart.shutdown()
            self._apart = None
        self._note.sync()
        self._note.close()


def reached_in(folder: Path) -> Reached | None:
    """How far the journal in a folder went, by its head; None if it has none."""
    return _told(read_note(folder / HEAD))[0]


def _told(found: dict[str, Any] | None) -> tuple[Reached | None, Seen | None]:
    """What a note says; nothing of what is not in form."""
    try:
        reached = Reached(*(int(str(found[name])) for name in ("journal", "sequence", "next", "answered", "time"))) if found else None
        seen = Seen(**found["seen"]) if found and found.get("seen") else None
        return reached, seen
    except (KeyError, TypeError, ValueError):
        return None, None
