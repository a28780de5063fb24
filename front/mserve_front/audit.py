# SPDX-License-Identifier: Apache-2.0
"""The audit log: who did what, when, from where and at which terminal, as JSON lines. Texts of lines are in it only if asked for."""
from __future__ import annotations

import contextlib
import json
import os
import stat
import time
from collections.abc import Mapping
from datetime import UTC, datetime
from pathlib import Path

from .kept_room import check_room, give_back, hold
from .metrics import Metrics
from .server import Condition


# Seconds after which room is looked for again, where none could be kept.
LOOK = 5.0


class NoAudit(Exception):
    """A record could not be written."""


class Audit:
    """The log at a path, or none. Each record is handed to the system by one write. Those of what has happened already are kept if they cannot be
    written; until they are, `check` fails, so that no line runs unnoted. Room of the disk is kept after the log's end: once the disk is full, it goes on
    there."""

    def __init__(self, path: Path | None, metrics: Metrics, spare: int = 0) -> None:
        """`spare` is how many bytes of the disk are kept. Raises OSError if the file cannot be written."""
        self._path = path
        self._spare = spare
        # The log's size, up to which size room is kept for it, and when to look for more.
        self._size = self._until = 0
        self._due = 0.0
        self._short = Condition(f"{path}: no more room is kept for the audit log, as audit.spare wants it: {{}}; it is tried again",
                                f"{path}: room is kept for the audit log again")
        self._metrics = metrics
        self._kept: list[bytes] = []
        self._fault = Condition(f"{path}: the audit log cannot be written: {{}}: nobody signs on, and no line goes on until it can",
                                f"{path}: the audit log is written again")
        self._descriptor = -1
        self.reopen()

    def reopen(self) -> None:
        """Opens the file again, after it was moved away."""
        if self._path is not None:
            descriptor = os.open(self._path, os.O_WRONLY | os.O_APPEND | os.O_CREAT | os.O_CLOEXEC, 0o600)
            if self._descriptor >= 0 and self._until:
                with contextlib.suppress(OSError):
                    give_back(self._descriptor)
            self.close()
            self._descriptor = descriptor
            found = os.fstat(descriptor)
            self._size = self._until = found.st_size
            if stat.S_ISREG(found.st_mode) and self._spare:
                self._keep_room(self._path.parent)

    def _keep_room(self, folder: Path) -> None:
        """Keeps room after the log's end; if that cannot be, the operator hears so, and it is tried again. What was kept before
        stays."""
        self._due = time.monotonic() + LOOK
        try:
            # As much again is left to others, so that this is not what fills the disk.
            check_room(folder, self._size + self._spare - self._until, self._spare)
            hold(self._descriptor, self._spare)
        except OSError as error:
            self._short.comes(error)
            return
        self._until = self._size + self._spare
        self._short.goes()

    def close(self) -> None:
        """Closes the file."""
        if self._descriptor >= 0:
            os.close(self._descriptor)
            self._descriptor = -1

    def note(self, event: str, **what: object) -> int:
        """Writes a record, and gives its bytes. Raises `NoAudit` if that fails, or if earlier ones still wait."""
        if self._path is None:
            return 0
        self.check()
        data = _record(event, packed(what))
        self._write(data)
        return len(data)

    def note_later(self, event: str, **what: object) -> int:
        """Writes a record of what has happened, and gives its bytes; if that fails, it is written once it can be."""
        return self.note_packed(event, packed(what))

    def note_packed(self, event: str, what: str) -> int:
        """The same, of what was packed before."""
        if self._path is None:
            return 0
        data = _record(event, what)
        if not self._kept:
            with contextlib.suppress(NoAudit):
                self._write(data)
                return len(data)
        self._kept.append(data)
        return len(data)

    @property
    def waiting(self) -> int:
        """How many records could not be written yet."""
        return len(self._kept)

    def check(self) -> None:
        """Raises `NoAudit` as long as records could not be written."""
        if self._kept and not self.mend():
            raise NoAudit(self._fault.text)

    def mend(self) -> bool:
        """Writes the records that were kept, and says whether none is left."""
        try:
            while self._kept:
                self._write(self._kept[0])
                self._kept.pop(0)
        except NoAudit:
            return False
        self._fault.goes()
        return True

    def _write(self, data: bytes) -> None:
        """Appends a record, or nothing: a part of one is taken back."""
        try:
            written = os.write(self._descriptor, data)
            if written != len(data):
                os.ftruncate(self._descriptor, os.fstat(self._descriptor).st_size - written)
                raise OSError("the disk is full")
        except OSError as error:
            self._metrics.audit_faults += 1
            self._fault.comes(error)
            raise NoAudit(str(error)) from error
        self._size += len(data)
        if self._path is not None and self._size + self._spare // 2 > self._until and time.monotonic() >= self._due:
            self._keep_room(self._path.parent)


def packed(what: Mapping[str, object]) -> str:
    """Keys and values, as they are in a record."""
    return json.dumps(what)[1:-1]


def _record(event: str, what: str) -> bytes:
    return f'{{"time": "{datetime.now(UTC).isoformat(timespec="milliseconds")}", "event": "{event}", {what}}}\n'.encode()
