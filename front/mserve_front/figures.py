# SPDX-License-Identifier: Apache-2.0
"""Figures of the journal and its part of the service, in the text format of Prometheus: by account, of disks, of the last backup that was verified,
and of a standby."""
from __future__ import annotations

import contextlib
import json
import os
import time
from bisect import bisect_left
from collections import Counter, defaultdict
from collections.abc import Callable, Mapping, Sequence
from pathlib import Path

from .kept_room import kept_in
from .libraries import REPLACED, of_libraries
from .metrics import SPAN, family, histogram

# The note that `mbackup verify` leaves beside the snapshots.
VERIFIED = "verified.json"
# The bounds of waits that are counted for each account, in seconds: few, since there may be thousands of accounts.
STEPS = (0.005, 0.02, 0.1, 0.5, 2.5)


class ByAccount:
    """How long lines of each account waited, from when they came to when their reply was handed out, and what they took of the journal."""

    def __init__(self, terminals: Mapping[str, Sequence[int]]) -> None:
        self.know(terminals)
        # Called with an account, and the bytes of the journal that it took.
        self.took: Callable[[str, int], None] = lambda account, size: None
        self._below: defaultdict[str, list[int]] = defaultdict(lambda: [0] * (len(STEPS) + 1))
        self._waited: defaultdict[str, float] = defaultdict(float)
        self._bytes: Counter[str] = Counter()
        self._longest: tuple[dict[str, float], dict[str, float]] = ({}, {})
        self._span = time.monotonic()

    def know(self, terminals: Mapping[str, Sequence[int]]) -> None:
        """Which terminals each account has, from now on."""
        self._of = {terminal: account for account, some in terminals.items() for terminal in some}

    def handed(self, terminal: int, since: float, size: int) -> None:
        """Notes a reply that is handed out, of a line that came then; `size` is what they took of the journal, in bytes."""
        now, account = time.monotonic(), self._of.get(terminal, "")
        waited = now - since
        self._below[account][bisect_left(STEPS, waited)] += 1
        self._waited[account] += waited
        self._bytes[account] += size
        self.took(account, size)
        self._turn(now)
        latest = self._longest[0]
        latest[account] = max(latest.get(account, 0.0), waited)

    def text(self) -> list[str]:
        """The figures."""
        self._turn(time.monotonic())
        latest, before = self._longest
        longest = {account: max(latest.get(account, 0.0), before.get(account, 0.0)) for account in latest.keys() | before.keys()}
        count = {account: sum(below) for account, below in self._below.items()}
        return [*family("mfront_account_lines_total", "counter", "Lines with a reply that was handed out, by account.", _labelled(count)),
                *family("mfront_account_wait_seconds_total", "counter", "Seconds that these lines waited.", _labelled(self._waited)),
                *family("mfront_account_longest_wait_seconds", "gauge", "The longest of these waits in the last minute or two.", _labelled(longest)),
                *histogram("mfront_account_reply_seconds", "How long lines of an account waited for their replies.", STEPS,
                           {f'account="{account}"': (below, self._waited[account]) for account, below in sorted(self._below.items())}),
                *family("mfront_account_journal_bytes_total", "counter", "Bytes of the journal that these lines and their replies took.",
                        _labelled(self._bytes))]

    def _turn(self, now: float) -> None:
        if now - self._span > SPAN:
            self._longest = ({}, self._longest[0] if now - self._span < 2 * SPAN else {})
            self._span = now


def _labelled(values: Mapping[str, float]) -> dict[str, float]:
    return {f'account="{account}"': value for account, value in sorted(values.items())}


def of_journal(open_lines: int, waiting: int, faulty: float, folder: Path | None, spare: int = 0) -> list[str]:
    """Figures of a journal: lines without a reply, what waits for the disk, for how many seconds it cannot be written, the room of its disk, and what is kept
    of it for when it is full, if any is to be."""
    lines = family("mfront_journal_open_lines", "gauge", "Lines in the journal that have no reply there yet.", {"": open_lines})
    lines += family("mfront_journal_waiting", "gauge", "Lines and replies that wait for the journal.", {"": waiting})
    lines += family("mfront_journal_fault_seconds", "gauge", "For how long the journal cannot be written; 0 if it can.", {"": faulty})
    if folder is not None:
        lines += family("mfront_journal_room_bytes", "gauge", "Bytes that are free on the journal's disk.", _room(folder))
        if spare:
            lines += family("mfront_journal_spare_bytes", "gauge", "Bytes that are kept for the journal for when its disk is full; 0 if it is in them.",
                            {"": kept_in(folder)})
    return lines


def of_disks(store: Path | None, audit: Path | None) -> list[str]:
    """Figures of the disks that the store and the audit log are on: lines fail once the first is full, and nobody signs on once the second is."""
    lines: list[str] = []
    if store is not None:
        lines += family("mfront_store_room_bytes", "gauge", "Bytes that are free on the store's disk.", _room(store.parent))
    if audit is not None:
        lines += family("mfront_audit_room_bytes", "gauge", "Bytes that are free on the audit log's disk.", _room(audit.parent))
    return lines


def _room(folder: Path) -> dict[str, float]:
    """The room of a folder's disk; nothing if it is not there: the other figures are wanted then all the more."""
    with contextlib.suppress(OSError):
        room = os.statvfs(folder)
        return {"": room.f_bavail * room.f_frsize}
    return {}


def of_backup(folder: Path) -> list[str]:
    """Figures of the last snapshot that was verified; if none was, line 0 in 1970: that is as long ago as an alarm wants."""
    try:
        found = json.loads((folder / VERIFIED).read_bytes())
        values = int(found["line"]), int(found["at"])
    except (OSError, ValueError, KeyError, TypeError):
        values = 0, 0
    return [*family("mfront_backup_verified_line", "gauge", "The line of the last snapshot that was verified by a replay.", {"": values[0]}),
            *family("mfront_backup_verified_timestamp_seconds", "gauge", "When that was, in seconds since 1970.", {"": values[1]})]


def of_standby(status: Mapping[str, object]) -> str:
    """Figures of a standby, or of a leader, by its status."""
    stands_by = status["state"] == "standby"
    lines = family("mfront_standby", "gauge", "1 if it stands by, 0 if it leads.", {"": int(stands_by)})
    lines += family("mfront_standby_line", "gauge", "The last line that its store has run.", {"": int(str(status["line"]))})
    lines += family("mfront_standby_fault", "gauge", "1 if it cannot go on: mfront status says why.", {"": int(status["fault"] != "")})
    if stands_by:
        lines += family("mfront_standby_behind_lines", "gauge", "Lines with a reply that it has not run yet.", {"": int(str(status["behind"]))})
        lines += family("mfront_standby_behind_seconds", "gauge", "How long ago the line that it is at was sent.", {"": float(str(status["seconds"]))})
    lines += of_libraries(int(str(status.get(REPLACED) or 0)))
    return "\n".join(lines) + "\n"
