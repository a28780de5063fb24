# SPDX-License-Identifier: Apache-2.0
"""What each account takes of the store, of the server's memory, of the journal and of the audit log. One that is over a quota hears so, and has one line a
second; others are not met by it. Once the disk is full, so has one that has taken more than its share of the room that is kept for the journal.

The server counts neither rows nor memory, so both are seen from beside it. Rows are counted in the store's file, which lacks what the store's log has.
Memory is what the server grew by while an account had nearly all of its time; what grew while several did is charged to nobody."""
from __future__ import annotations

import asyncio
import contextlib
import os
import sqlite3
import time
from collections import Counter, defaultdict, deque
from collections.abc import Callable, Iterable, Mapping
from pathlib import Path
from urllib.parse import quote

from mserve_client import keys

from .metrics import family
from .settings import Limits

# What the quotas are of, as their keys in [limits] name them; and how each is said in words.
ROWS, MEMORY, JOURNAL, AUDIT, SPARE = "rows", "memory", "journal", "audit", "spare"
WORDS = {ROWS: "rows", MEMORY: "bytes of memory", JOURNAL: "bytes of the journal in 24 hours", AUDIT: "bytes of the audit log in 24 hours",
         SPARE: "bytes of the room that is left now that the disk is full"}
# Those to which sign-ons count too.
OF_DISKS = {JOURNAL, AUDIT, SPARE}
# Seconds of an hour, and how many of them are a day.
HOUR, HOURS = 3600.0, 24
# Seconds between two lines of an account that is over a quota, and between two sign-ons of one of its users if it is over one that these count for.
PAUSE = 1.0
# Seconds between two counts of rows; and how many times as long as a count took there is none. A file that was written so short a time ago, in
# nanoseconds, may be written again with no other time.
COUNTED, REST, FRESH = 5.0, 50, 1_000_000_000
# The part of the server's time that an account has to have had for the memory that came meanwhile to be its own.
MOSTLY = 0.9
# An account's quotas that it is over: what it has of each, and what it may have.
Over = dict[str, tuple[int, int]]
Used = Callable[[], Mapping[str, tuple[int, float]]]
_PAGE = 4096


def size_of(process: int | None) -> int:
    """The bytes of memory that a process has; 0 if there is none."""
    try:
        return 0 if process is None else int(Path(f"/proc/{process}/statm").read_text().split()[1]) * _PAGE
    except OSError:
        return 0


def rows_of(store: Path, account: str) -> int | None:
    """How many rows an account has in a store's file. None if it cannot be told now: the server writes the file meanwhile."""
    try:
        with contextlib.closing(sqlite3.connect(f"file:{quote(str(store))}?mode=ro&immutable=1", uri=True)) as base:
            return int(base.execute("SELECT count(*) FROM node WHERE k >= ? AND k < ?", keys.bounds(account)).fetchone()[0])
    except sqlite3.Error:
        return None


def stamp_of(store: Path) -> tuple[int, int] | None:
    """What tells a store's file from what it was before it was written again; None if nothing does yet, or it is not there."""
    try:
        status = os.stat(store)
    except OSError:
        return None
    return None if time.time_ns() - status.st_mtime_ns < FRESH else (status.st_mtime_ns, status.st_size)


class Memory:
    """The memory by which the server grew for each account, since its sessions began."""

    def __init__(self, used: Used, size: Callable[[], int]) -> None:
        """`used` gives the seconds that the server has taken for each account, `size` its memory."""
        self._used, self._size = used, size
        self._before: Mapping[str, tuple[int, float]] = {}
        self._last = 0
        self.grown: Counter[str] = Counter()

    def look(self) -> None:
        """Charges what came since a line was answered last to the account that had the server meanwhile. What a line that is on its way takes is charged
        once it is answered: before that nobody has spent anything."""
        used, before = self._used(), self._before
        spent = {account: taken - before.get(account, (0, 0.0))[1] for account, (_, taken) in used.items()}
        if self._last and not any(spent.values()):
            return
        size = self._size()
        more, self._last, self._before = size - self._last if self._last else 0, size, used
        if more <= 0:
            return
        account = max(spent, key=spent.__getitem__, default="")
        if spent and spent[account] >= MOSTLY * sum(spent.values()) > 0:
            self.grown[account] += more

    def keep(self, accounts: Iterable[str]) -> None:
        """Those of no other accounts count: no variable of theirs is there any more."""
        kept = set(accounts)
        for account in [one for one in self.grown if one not in kept]:
            del self.grown[account]


class Day:
    """What each account took in the last day, to the hour."""

    def __init__(self) -> None:
        self.taken: Counter[str] = Counter()
        self._hours: deque[Counter[str]] = deque([Counter()])
        self._began = time.monotonic()

    def add(self, account: str, more: int) -> None:
        """Notes what an account takes."""
        self.taken[account] += more
        self._hours[-1][account] += more

    def look(self) -> None:
        """Leaves out what is a day old."""
        while time.monotonic() - self._began >= HOUR:
            self._began += HOUR
            self._hours.append(Counter())
            if len(self._hours) > HOURS:
                self.taken -= self._hours.popleft()


class Quotas:
    """The quotas of all accounts, which are the same."""

    def __init__(self, limits: Limits, memory: Memory, used: Used, told: Callable[[str, Over], None]) -> None:
        """`told` is called with an account, and what it is over, each time that this is another."""
        self.limit(limits)
        # What an account may take of the room that is kept for the journal, and whether that is in it.
        self.share = 0
        self.in_spare: Callable[[], bool] = lambda: False
        self._spare: Counter[str] = Counter()
        self._used, self._told = used, told
        self._next: dict[str, float] = {}
        # Of each account, when its users may sign on again.
        self._signed_on: defaultdict[str, dict[str, float]] = defaultdict(dict)
        # Of each account, how many lines it had had at its last count that succeeded, and the stamp of the file at its last count.
        self._lines: dict[str, int] = {}
        self._stamps: dict[str, tuple[int, int] | None] = {}
        self._due = 0.0
        self._freed: dict[str, asyncio.Event] = {}
        self.memory = memory
        self.days = {JOURNAL: Day(), AUDIT: Day()}
        self.rows: dict[str, int] = {}
        self.over: dict[str, Over] = {}

    def limit(self, limits: Limits) -> None:
        """What an account may have, from the next look on."""
        self._most = {ROWS: limits.rows, MEMORY: limits.memory, JOURNAL: limits.journal, AUDIT: limits.audit}

    def took(self, account: str, more: int) -> None:
        """Notes what an account takes of the journal."""
        self.days[JOURNAL].add(account, more)
        if self.in_spare():
            self._spare[account] += more

    async def count(self, store: Path) -> None:
        """Counts rows, if it is time, of the accounts that had lines since they were counted, if the file was written since then."""
        if time.monotonic() < self._due:
            return
        began, stamp = time.monotonic(), stamp_of(store)
        for account, (lines, _) in list(self._used().items()):
            if self._lines.get(account) == lines or stamp is not None and self._stamps.get(account) == stamp:
                continue
            found = await asyncio.to_thread(rows_of, store, account)
            self._stamps[account] = stamp
            if found is not None:
                self._lines[account], self.rows[account] = lines, found
        now = time.monotonic()
        self._due = now + REST * (now - began)

    def look(self) -> None:
        """Finds who is over a quota, and tells those for whom that is new, or no more."""
        for day in self.days.values():
            day.look()
        if not self.in_spare():
            self._spare.clear()
        most = self._most | {SPARE: self.share}
        found = {ROWS: self.rows, MEMORY: self.memory.grown, SPARE: self._spare, **{what: day.taken for what, day in self.days.items()}}
        for account in set(self.over).union(*found.values()):
            over = {what: (have[account], most[what]) for what, have in found.items() if have.get(account, 0) > most[what]}
            before = self.over.pop(account, {})
            if over:
                self.over[account] = over
            if over.keys() != before.keys():
                self._told(account, over)
            if not over:
                self._free(account)

    def _free(self, account: str) -> None:
        """Lets go on who waits."""
        self._next.pop(account, None)
        self._signed_on.pop(account, None)
        if (freed := self._freed.pop(account, None)) is not None:
            freed.set()

    async def turn(self, account: str) -> None:
        """Waits for the turn of an account that is over a quota, as long as it is."""
        now = time.monotonic()
        at = self._next[account] = max(now, self._next.get(account, 0.0) + PAUSE)
        freed = self._freed.setdefault(account, asyncio.Event())
        with contextlib.suppress(TimeoutError):
            await asyncio.wait_for(freed.wait(), at - now)

    def wait(self, account: str, user: str) -> float:
        """How many seconds a user is to wait before the next sign-on; if that is none, it is noted that they sign on now. Sign-ons take of the journal and of
        the audit log too. A user waits for their own sign-ons alone, so nobody keeps the others of the account out."""
        if not OF_DISKS & self.over.get(account, {}).keys():
            return 0.0
        now, own = time.monotonic(), self._signed_on[account]
        if (left := own.get(user, now) - now) <= 0:
            own[user] = now + PAUSE
        return max(0.0, left)

    def end(self) -> None:
        """Nobody waits any more."""
        for account in list(self._freed):
            self._free(account)

    def text(self) -> list[str]:
        """The figures."""
        over = {f'account="{account}",what="{what}"': 1 for account, some in sorted(self.over.items()) for what in some}
        return [*family("mfront_account_rows", "gauge", "Rows of each account, as they were counted last.", _labelled(self.rows)),
                *family("mfront_account_memory_bytes", "gauge", "By how much lines of the account made the server grow since its sessions began.",
                        _labelled(self.memory.grown)),
                *family("mfront_account_over_quota", "gauge", "1 for each quota that an account is over.", over)]


def in_words(over: Over) -> str:
    """What each reply says of it to the account."""
    parts = [f"{used:,} {WORDS[what]} of {most:,}" for what, (used, most) in over.items()]
    return f"the account is over its quota ({', '.join(parts)}): it has one line a second"


def _labelled(values: Mapping[str, int]) -> dict[str, float]:
    return {f'account="{account}"': value for account, value in sorted(values.items())}
