# SPDX-License-Identifier: Apache-2.0
"""Whose turn it is: that of the account which has used the least of the server's time, among those that have a line to send.

Turns go by account and not by terminal, so that an account with a thousand terminals gets no more of the server than one with a single terminal. A
line cannot be taken back once it is sent, so an account has few lines on their way that may take long, and one alone after a line that did."""
from __future__ import annotations

import heapq
import re
import time
from collections import deque
from collections.abc import Callable, Mapping
from dataclasses import dataclass, field
from typing import Generic, Protocol, TypeVar

# How many lines may be on their way at once: enough to keep the server busy, and few enough that little is unknown if it ends.
WINDOW = 64
# Where there are several accounts: the lines of one that may be on their way, and those of them that may take long.
ACCOUNT_WINDOW, LONG_WINDOW = 16, 4
# Seconds that all lines on their way are taken to cost at most, where they are more than two: what is sent is not in turns any more.
AHEAD = 0.05
# A line that took this many seconds was a slow one; then an account has one line on its way, for this many times as long.
SLOW, MEMORY = 0.05, 20
# What a line is taken to cost, in seconds, before any was answered; and the weight of the last line in what the next one is taken to cost.
FIRST_COST, LAST_WEIGHT = 0.0002, 0.1
# The commands that may run for long: they loop, run other lines, or remove many nodes. Texts in quotes may look like one; that costs nothing.
_MAY_TAKE_LONG = re.compile(rb"(?:^|[ \t.])(?:F|FOR|D|DO|X|XECUTE|G|GOTO|K|KILL)(?=[ \t:]|$)", re.IGNORECASE)


def may_take_long(data: bytes) -> bool:
    """Whether a line has a command that may run for long."""
    return _MAY_TAKE_LONG.search(data) is not None


class Waiting(Protocol):
    """A line that waits for its turn; `charged` is what its account was charged when it was chosen."""

    terminal: int
    long: bool
    charged: float


W = TypeVar("W", bound=Waiting)


@dataclass(eq=False, slots=True)
class Share(Generic[W]):
    """An account's part of the server: the lines whose turn may come, how many are on their way, and how many of these may take long; what it has used
    in the scale of all accounts (`due`); and until when it has one line on its way. `taken` and `lines` count since the start."""

    ready: deque[W] = field(default_factory=deque)
    flying: int = 0
    long: int = 0
    due: float = 0.0
    cost: float = FIRST_COST
    slow_until: float = 0.0
    entry: int = 0
    taken: float = 0.0
    lines: int = 0


class Shares(Generic[W]):
    """The shares of all accounts."""

    def __init__(self, accounts: Mapping[int, str]) -> None:
        """`accounts` has the account of each terminal; those that it does not have are of one account."""
        self._shares: dict[str, Share[W]] = {}
        self._share_of: dict[int, Share[W]] = {}
        self._least: list[tuple[float, int, Share[W]]] = []
        self._count = 0
        self._now = 0.0
        # Called after each line that took long.
        self.slow: Callable[[], None] = lambda: None
        self._flying = 0
        self._ahead = 0.0
        self.know(accounts)

    def know(self, accounts: Mapping[int, str]) -> None:
        """Which account each terminal is of, from now on."""
        self._account_of = accounts
        self._windows = (ACCOUNT_WINDOW, LONG_WINDOW) if len(set(accounts.values())) > 1 else (WINDOW, WINDOW)

    def of(self, account: str) -> Share[W]:
        """The share of an account."""
        if (found := self._shares.get(account)) is None:
            found = self._shares[account] = Share()
        return found

    def used(self) -> dict[str, tuple[int, float]]:
        """How many lines of each account were answered, and the seconds that the server took for them."""
        return {account: (share.lines, share.taken) for account, share in self._shares.items()}

    def add(self, asked: W) -> None:
        """A terminal's first line waits for its turn."""
        share = self._of(asked)
        if not share.ready and not share.flying:
            # Who had nothing to say has saved nothing up.
            share.due = max(share.due, self._now)
        share.ready.append(asked)
        if len(share.ready) == 1:
            self._list(share)

    def remove(self, asked: W) -> None:
        """A line does not wait any more."""
        self._of(asked).ready.remove(asked)

    def next(self) -> W | None:
        """The line whose turn it is, which is on its way from now on; None if none may go."""
        while self._least and not self._far_ahead():
            due, entry, share = heapq.heappop(self._least)
            if entry == share.entry and share.ready and self._may_go(share):
                self._now = max(self._now, due)
                return self._chosen(share)
        return None

    def answered(self, asked: W, taken: float) -> None:
        """A line on its way was answered, or is not sent after all (`taken` is 0): the server took this many seconds."""
        share = self._of(asked)
        self._flying -= 1
        self._ahead -= asked.charged
        share.flying -= 1
        share.long -= asked.long
        share.due += taken - asked.charged
        share.cost += LAST_WEIGHT * (taken - share.cost)
        share.taken += taken
        share.lines += 1
        if taken > SLOW:
            share.slow_until = time.monotonic() + MEMORY * taken
            self.slow()
        self._list(share)

    def clear(self) -> None:
        """No line waits, and none is on its way. What each account has used stays."""
        self._least.clear()
        # A terminal may be another account's by now; while its lines wait it is not.
        self._share_of.clear()
        self._flying, self._ahead = 0, 0.0
        for share in self._shares.values():
            share.ready.clear()
            share.flying = share.long = 0

    def _of(self, asked: W) -> Share[W]:
        found = self._share_of.get(asked.terminal)
        if found is None:
            found = self._share_of[asked.terminal] = self.of(self._account_of.get(asked.terminal, ""))
        return found

    def _far_ahead(self) -> bool:
        return self._windows[0] < WINDOW and self._flying >= 2 and self._ahead > AHEAD

    def _list(self, share: Share[W]) -> None:
        """Has a share found by what it has used by now."""
        if share.ready and self._may_go(share):
            self._count += 1
            share.entry = self._count
            heapq.heappush(self._least, (share.due, self._count, share))

    def _may_go(self, share: Share[W]) -> bool:
        most, most_long = self._windows
        if share.slow_until and most < WINDOW:
            if time.monotonic() < share.slow_until:
                most = 1
            else:
                share.slow_until = 0.0
        return share.flying < most and (not share.ready[0].long or share.long < most_long)

    def _chosen(self, share: Share[W]) -> W:
        asked = share.ready.popleft()
        self._flying += 1
        self._ahead += share.cost
        share.flying += 1
        share.long += asked.long
        asked.charged = share.cost
        share.due += share.cost
        self._list(share)
        return asked
