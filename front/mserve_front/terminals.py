# SPDX-License-Identifier: Apache-2.0
"""Terminals: which are free, and how one is given back. HALT was answered at a free one, or the server was started again since, so nobody meets
variables or locks of somebody before, and to be given one waits for nothing."""
from __future__ import annotations

import asyncio
from collections import Counter, deque
from collections.abc import Mapping, Sequence
from typing import TYPE_CHECKING

from .faults import HeldBack, NoJournal
from .lines import HALT
from .server import Server
from .turns import Lost, Unsent

if TYPE_CHECKING:
    from .journal import Journal


class AllInUse(Exception):
    """All terminals of the account are in use."""


class NotUp(Exception):
    """The server is being started, or the service stopped."""


class Terminals:
    """The terminals of all accounts."""

    def __init__(self, terminals: Mapping[str, Sequence[int]], server: Server, journal: Journal | None) -> None:
        self._server = server
        self._journal = journal
        self._all: set[int] = set()
        self._free: dict[str, deque[int]] = {}
        self.know(terminals)
        self._coming_back: Counter[str] = Counter()
        self._freed = asyncio.Event()

    def know(self, terminals: Mapping[str, Sequence[int]]) -> None:
        """Which terminals each account has, from now on: those that were not there before are free."""
        for account, own in terminals.items():
            self._free.setdefault(account, deque()).extend(terminal for terminal in own if terminal not in self._all)
            self._all.update(own)

    async def take(self, account: str) -> int:
        """A terminal of an account. If all are in use it waits for one that is being given back. Raises `AllInUse` or `NotUp`."""
        while True:
            if self._server.state != "up":
                raise NotUp("the server is being started")
            if self._journal is not None and self._journal.fault is not None:
                raise NotUp("the journal cannot be written")
            free = self._free.get(account)
            if free:
                return free.popleft()
            if not self._coming_back[account]:
                raise AllInUse(f"all terminals of {account} are in use")
            await self._freed.wait()

    def put_back(self, account: str, terminal: int) -> None:
        """Gives back a terminal at which no line was run."""
        self._free[account].append(terminal)
        self._freed.set()
        self._freed = asyncio.Event()

    async def release(self, account: str, terminal: int) -> None:
        """Gives a terminal back, once HALT was answered there."""
        self._coming_back[account] += 1
        try:
            while not await self.halted(terminal):
                pass
        finally:
            self._coming_back[account] -= 1
            self.put_back(account, terminal)

    async def halted(self, terminal: int) -> bool:
        """Ends a terminal's session, after the line that is on its way, and says whether that has ended: if not, another HALT took this one's place, or
        the journal could not be written and can again. If the server is down, its start ends all."""
        self._server.forget(terminal)
        generation = self._server.generation
        try:
            await self._server.ask(terminal, HALT)
        except (Lost, HeldBack):
            return True
        except Unsent:
            return not self._server.whole or self._server.generation != generation
        except NoJournal:
            assert self._journal is not None, "it says so"
            await self._journal.mended()
            return False
        return True
