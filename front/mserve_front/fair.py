# SPDX-License-Identifier: Apache-2.0
"""Who comes next, where many wait for one thing: keys take turns, so that who asks for much waits, and others do not."""
from __future__ import annotations

import asyncio
import time
from collections import OrderedDict, deque
from collections.abc import Callable
from typing import Generic, TypeVar

Item = TypeVar("Item")


class Fair(Generic[Item]):
    """Items that wait by two keys, as an address and a name: the first keys take turns, and within one of them the second."""

    def __init__(self, most_of_both: int, most_of_first: int, most: int) -> None:
        """How many may wait of both keys, of a first key, and in all."""
        self._most_of_both, self._most_of_first, self._most = most_of_both, most_of_first, most
        self._of: OrderedDict[str, OrderedDict[str, deque[Item]]] = OrderedDict()
        self._count = 0

    def __len__(self) -> int:
        return self._count

    def put(self, first: str, second: str, item: Item) -> Item | None:
        """Has an item wait. Gives the one that does not wait for it: this one if its keys have as many as they may, or, if there are too many in all, the
        newest of the first key that has most."""
        own = self._of.get(first, OrderedDict())
        if len(own.get(second, ())) >= self._most_of_both or sum(map(len, own.values())) >= self._most_of_first:
            return item
        self._of.setdefault(first, own).setdefault(second, deque()).append(item)
        self._count += 1
        return self._newest_of_most() if self._count > self._most else None

    def take(self, ready: Callable[[str], bool] = lambda _: True) -> Item | None:
        """The next item of a first key that is ready, or None."""
        first = next((key for key in self._of if ready(key)), None)
        if first is None:
            return None
        self._of.move_to_end(first)
        return self._popped(first, next(iter(self._of[first])), oldest=True)

    def _newest_of_most(self) -> Item:
        first = max(self._of, key=lambda key: sum(map(len, self._of[key].values())))
        return self._popped(first, next(reversed(self._of[first])), oldest=False)

    def _popped(self, first: str, second: str, oldest: bool) -> Item:
        items = self._of[first][second]
        item = items.popleft() if oldest else items.pop()
        self._count -= 1
        if items:
            self._of[first].move_to_end(second)
        else:
            del self._of[first][second]
        if not self._of[first]:
            del self._of[first]
        return item


class Pace:
    """This many units of work a second for all keys together, who take turns, and one act in each turn of the loop, so that other work comes in between.
    Up to a second's units that were not used may be used later."""

    def __init__(self, rate: float) -> None:
        self._rate = rate
        self._left = rate
        self._last = time.monotonic()
        self._waiting: Fair[tuple[float, Callable[[], None]]] = Fair(1 << 20, 1 << 20, 1 << 20)
        self._timer: asyncio.TimerHandle | None = None
        self._acted = False

    def enter(self, key: str, act: Callable[[], None], units: float = 1.0) -> None:
        """Does an act that takes this many units: at once, or when it is this key's turn."""
        self._fill()
        if not len(self._waiting) and self._left >= 0 and not self._acted:
            self._do(units, act)
            return
        self._waiting.put(key, "", (units, act))
        self._wake()

    async def turn(self, key: str, units: float = 1.0) -> None:
        """Waits for this key's turn, and gives others theirs in any case."""
        come = asyncio.get_running_loop().create_future()
        self.enter(key, lambda: None if come.done() else come.set_result(None), units)
        await come
        await asyncio.sleep(0)

    def _fill(self) -> None:
        now = time.monotonic()
        self._left = min(self._rate, self._left + (now - self._last) * self._rate)
        self._last = now

    def _do(self, units: float, act: Callable[[], None]) -> None:
        self._left -= units
        self._acted = True
        # Not in the next turn of the loop, which this one's callbacks have, but in the one after it.
        asyncio.get_running_loop().call_later(0, self._may_act)
        act()

    def _may_act(self) -> None:
        self._acted = False
        if len(self._waiting):
            self._wake()

    def _wake(self) -> None:
        if self._timer is None and not self._acted:
            self._timer = asyncio.get_running_loop().call_later(max(0.0, -self._left / self._rate), self._go_on)

    def _go_on(self) -> None:
        self._timer = None
        self._fill()
        if self._left < 0:
            self._wake()
        elif (found := self._waiting.take()) is not None:
            self._do(*found)
