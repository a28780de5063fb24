# SPDX-License-Identifier: Apache-2.0
"""Replies that peers have not taken yet: they are bounded in bytes, in all and for an account. Over that the account that has most loses the connection
that has waited longest: who reads what they ask for is not met by it."""
from __future__ import annotations

import contextlib
from collections import Counter
from collections.abc import Callable, Iterator
from dataclasses import dataclass

# Bytes of all replies that are being sent, of those of one account, and of one from which on it is counted.
MOST, OF_ACCOUNT, LEAST = 24_000_000, 8_000_000, 8192
# What stands for a smaller one.
UNCOUNTED = contextlib.nullcontext()


@dataclass(eq=False, slots=True)
class Reply:
    """A reply on its way to a peer, and how the peer's connection is ended."""

    account: str
    size: int
    cut: Callable[[], None]


class Unread:
    """All of them, the oldest first."""

    def __init__(self) -> None:
        self._replies: dict[Reply, None] = {}
        self._of_account: Counter[str] = Counter()

    @contextlib.contextmanager
    def sent(self, account: str, size: int, cut: Callable[[], None]) -> Iterator[None]:
        """While the block runs, a reply of this many bytes is being sent."""
        reply = Reply(account, size, cut)
        self._replies[reply] = None
        self._of_account[account] += size
        self._bound()
        try:
            yield
        finally:
            self._drop(reply)

    def _bound(self) -> None:
        while self._replies:
            account, size = self._of_account.most_common(1)[0]
            if size <= OF_ACCOUNT and self._of_account.total() <= MOST:
                return
            oldest = next(reply for reply in self._replies if reply.account == account)
            self._drop(oldest)
            oldest.cut()

    def _drop(self, reply: Reply) -> None:
        if reply in self._replies:
            del self._replies[reply]
            self._of_account[reply.account] -= reply.size
            if not self._of_account[reply.account]:
                del self._of_account[reply.account]
