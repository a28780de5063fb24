# SPDX-License-Identifier: Apache-2.0
"""The one connection to the server: lines of many terminals go out in fair turns, and replies come back in the order of the lines.

Turns go by account, weighted by the server's time that each has used (`shares.py`). A terminal has at most one line on its way, and after its reply it
comes last again among those of its account. Many terminals have a line on its way at once; while one takes long, no further ones are sent after it."""
from __future__ import annotations

import asyncio
import time
from collections import deque
from collections.abc import Callable, Iterable
from dataclasses import dataclass, field
from functools import partial
from typing import TYPE_CHECKING

from .connection import Connection
from .faults import NoJournal
from .lines import HALT, Line
from .replies import Answer
from .shares import SLOW, WINDOW, Shares, may_take_long

if TYPE_CHECKING:
    from .journal import Journal


class Lost(Exception):
    """The line was sent, and its reply was lost: nobody knows whether it was run."""


class Unsent(Exception):
    """The line was not sent: the connection had ended, or the terminal was given up."""


@dataclass(eq=False, slots=True)
class Ask:
    """A line that waits for its reply: since when; whether its turn has come, which it has before it is in the journal; since when it is on its way;
    its user, and its number in the journal; whether it may take long, and what its account was charged for it."""

    terminal: int
    line: Line
    reply: asyncio.Future[Answer]
    user: str = ""
    since: float = field(default_factory=time.monotonic)
    chosen: bool = False
    sent: float = 0.0
    number: int = 0
    long: bool = False
    charged: float = 0.0

    def __post_init__(self) -> None:
        self.long = may_take_long(self.line.data)


Timed = Callable[[float, float], None]


class FairConnection(Connection):
    """A connection. `timed` gets of each reply how long the wait was, and how long the server took; `ended` that the connection is over."""

    def __init__(self, room: int, timed: Timed, shares: Shares[Ask] | None = None) -> None:
        """`room` is the most bytes of a reply that are kept; `shares` has what each account has used of the server before."""
        super().__init__(room)
        self._shares: Shares[Ask] = Shares({}) if shares is None else shares
        self._shares.clear()
        self._timed = timed
        self._journal: Journal | None = None
        # what each terminal has to say, and the lines that are on their way
        self._queues: dict[int, deque[Ask]] = {}
        self._flying: deque[Ask] = deque()
        self._replied = 0.0
        # While somebody wants it, no line is sent; it is done once none is on its way.
        self._quiet: asyncio.Future[None] | None = None
        self.ended: asyncio.Future[None] = asyncio.get_running_loop().create_future()

    @property
    def waiting(self) -> int:
        """How many lines have no reply yet."""
        return sum(map(len, self._queues.values()))

    def oldest(self) -> float:
        """How long the oldest line without a reply has waited, in seconds."""
        since = min((queue[0].since for queue in self._queues.values()), default=None)
        return 0.0 if since is None else time.monotonic() - since

    def ask(self, terminal: int, line: Line, user: str = "") -> asyncio.Future[Answer]:
        """The answer of a line, once it comes. It ends by `Lost` or `Unsent` if the connection does, and by `NoJournal` or `HeldBack` if the journal
        cannot be written. Lines of one terminal keep their order."""
        asked = Ask(terminal, line, asyncio.get_running_loop().create_future(), user)
        if self.ended.done():
            asked.reply.set_exception(Unsent())
            return asked.reply
        if self._journal is not None and self._journal.fault is not None:
            asked.reply.set_exception(NoJournal(self._journal.fault))
            return asked.reply
        queue = self._queues.setdefault(terminal, deque())
        queue.append(asked)
        if len(queue) == 1:
            self._shares.add(asked)
            self._send()
        return asked.reply

    def forget(self, terminal: int) -> None:
        """Takes back the lines of a terminal that are not sent; they end by `Unsent`."""
        queue = self._queues.get(terminal)
        if queue is None:
            return
        first = queue[0]
        kept = 1 if first.chosen else 0
        while len(queue) > kept:
            _fail(queue.pop(), Unsent())
        if not queue:
            del self._queues[terminal]
            self._shares.remove(first)

    def keep(self, journal: Journal) -> None:
        """From now on lines are in a journal before they are sent, and digests of replies before these are handed out. No line is on its way."""
        self._journal = journal
        self._reader.keep_digests()

    async def pause(self) -> None:
        """Sends no line any more, and waits until none is on its way, or the connection has ended."""
        self._quiet = asyncio.get_running_loop().create_future()
        self._still()
        await asyncio.wait([self._quiet, self.ended], return_when=asyncio.FIRST_COMPLETED)

    async def halt(self, terminals: Iterable[int]) -> None:
        """Between two lines: has sessions of terminals ended, which is not in the journal. Lines that wait end by `Unsent`."""
        for terminal in list(self._queues):
            self.forget(terminal)
        journal, self._journal, self._quiet = self._journal, None, None
        try:
            await asyncio.gather(*(self.ask(terminal, HALT) for terminal in terminals))
        finally:
            self._journal = journal
            await self.pause()

    def go(self) -> None:
        """Sends lines again."""
        self._quiet = None
        self._send()

    def _fed(self) -> None:
        self._send()

    def connection_lost(self, error: Exception | None) -> None:
        """Answers all that waits: what was sent is lost, and the rest unsent."""
        self.fault = self.fault or (str(error) if error else None)
        queues, self._queues = self._queues, {}
        self._shares.clear()
        self._flying.clear()
        if not self.ended.done():
            self.ended.set_result(None)
        for queue in queues.values():
            for asked in queue:
                _fail(asked, Lost() if asked.sent else Unsent())

    def _turn(self) -> int | None:
        return self._flying[0].terminal if self._flying and self._flying[0].sent else None

    def _send(self) -> None:
        """Chooses lines while there are turns, and no more than the window of them."""
        chosen = []
        while self._quiet is None and len(self._flying) < WINDOW and not self._held_up():
            asked = self._shares.next()
            if asked is None:
                break
            asked.chosen = True
            self._flying.append(asked)
            chosen.append(asked)
        if chosen and self._journal is not None:
            self._journal.lines(self, chosen)
        elif chosen:
            self.go_on(chosen)

    def _held_up(self) -> bool:
        """Whether the server is at a line that takes long: what is sent after it could not be overtaken any more."""
        return bool(self._flying) and self._flying[0].sent > 0 and time.monotonic() - max(self._flying[0].sent, self._replied) > SLOW

    def go_on(self, chosen: list[Ask]) -> bool:
        """Sends lines whose turn has come, unless the connection has ended."""
        if self._transport is None or self.ended.done():
            return False
        now = time.monotonic()
        for asked in chosen:
            asked.sent = now
        self._transport.write(b"".join(asked.line.sent_by(asked.terminal) for asked in chosen))
        return True

    def refuse(self, why: str) -> None:
        """Ends all lines that were not sent by `NoJournal`."""
        while self._flying and not self._flying[-1].sent:
            self._shares.answered(self._flying.pop(), 0.0)
        for terminal, queue in list(self._queues.items()):
            kept = 1 if queue[0].sent else 0
            if not queue[0].chosen:
                self._shares.remove(queue[0])
            while len(queue) > kept:
                _fail(queue.pop(), NoJournal(why))
            if not queue:
                del self._queues[terminal]
        self._still()

    def _still(self) -> None:
        if self._quiet is not None and not self._flying and not self._quiet.done():
            self._quiet.set_result(None)

    def _answered(self, answer: Answer) -> None:
        """Takes the answer of the first line on its way; the next line of its terminal comes last."""
        asked = self._flying.popleft()
        queue = self._queues[asked.terminal]
        queue.popleft()
        now = time.monotonic()
        taken = now - max(asked.sent, self._replied)
        self._replied = now
        self._shares.answered(asked, taken)
        if queue:
            self._shares.add(queue[0])
        else:
            del self._queues[asked.terminal]
        hand = partial(self._hand, asked, answer, taken)
        if self._journal is None or not asked.number:
            hand()
        else:
            self._journal.reply(asked, answer.digest, answer.reply.code, hand, partial(_fail, asked))
        self._still()

    def _hand(self, asked: Ask, answer: Answer, taken: float) -> None:
        """Hands a line its answer."""
        self._timed(time.monotonic() - asked.since, taken)
        if not asked.reply.done():
            asked.reply.set_result(answer)


def _fail(asked: Ask, error: Exception) -> None:
    if not asked.reply.done():
        asked.reply.set_exception(error)
