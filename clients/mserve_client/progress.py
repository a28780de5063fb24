# SPDX-License-Identifier: Apache-2.0
"""How far a long work is: a bar by rich, or a line that is written over, on the standard error of a person."""
from __future__ import annotations

import sys
import time
from collections.abc import Callable
from contextlib import AbstractContextManager
from types import TracebackType

# Nodes and seconds from one showing to the next. The first thousand is shown at once, however fast it went.
STEP = 1000
PAUSE = 0.2
# Seconds from which a rate is worth telling.
LONG = 5


class Progress(AbstractContextManager["Progress"]):
    """Counts nodes, and shows the count, the rate and the time that is left, where a part of the whole is known."""

    def __init__(self, what: str, part: Callable[[], float] | None = None) -> None:
        """`part` says which part of the work is done, 0 to 1, if that is known."""
        self.count, self._what, self._part = 0, what, part
        self._began, self._next, self._told = time.monotonic(), STEP, -PAUSE
        self._is_shown = sys.stderr.isatty()

    def step(self, count: int = 1) -> None:
        """Counts nodes that are done."""
        self.count += count
        if not self._is_shown or self.count < self._next:
            return
        self._next = self.count + STEP
        if (taken := time.monotonic() - self._began) - self._told >= PAUSE:
            self._told = taken
            print(f"\r{self.text()}\033[K", end="", file=sys.stderr, flush=True)

    @property
    def rate(self) -> float:
        """Nodes a second."""
        return self.count / max(time.monotonic() - self._began, 1e-6)

    @property
    def shown_rate(self) -> str:
        """The rate after a comma, if the work took long enough for one."""
        return f", {self.rate:,.0f} a second" if time.monotonic() - self._began > LONG else ""

    def text(self) -> str:
        """The line that is shown."""
        text = f"{self._what}: {self.count:,} nodes, {self.rate:,.0f} a second"
        done = self._part() if self._part is not None else 0.0
        if done <= 0:
            return text
        left = (time.monotonic() - self._began) * (1 - done) / done
        filled = round(20 * done)
        return f"[{'#' * filled}{'.' * (20 - filled)}] {text}, {left:.0f} s left"

    def __exit__(self, kind: type[BaseException] | None, error: BaseException | None, trace: TracebackType | None) -> None:
        if self._is_shown:
            print("\r\033[K", end="", file=sys.stderr, flush=True)
