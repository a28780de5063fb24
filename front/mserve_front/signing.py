# SPDX-License-Identifier: Apache-2.0
"""Sign-on by a name and a password, or a name and a token: one answer for all that is wrong, and pauses after failures.

Passwords cost time, so they are computed in turn: addresses take turns, and within an address the names. A pause is for a name at an address, so
that wrong tries keep nobody out who signs on from elsewhere. A name that has signed on from an address before is known there: it waits in a line of
its own, and no failures of others count for it. Tokens cost nothing, and wait for nothing."""
from __future__ import annotations

import asyncio
import contextlib
import functools
import math
import time
from collections import OrderedDict
from concurrent.futures import ThreadPoolExecutor
from dataclasses import dataclass
from typing import NoReturn

from .audit import Audit, NoAudit
from .fair import Fair
from .metrics import Metrics
from .slowdown import MOST_KEYS, Slowdown, network_of
from .users import MOST_NAME, TOKEN, Register, User

# How many passwords are computed at once; how many may wait for a name at an address, for an address, and in all.
COMPUTING, OF_NAME, OF_ADDRESS, QUEUED = 2, 4, 60, 400
# Failures that cost nothing, and the longest wait in seconds: of a name at an address, and of a name at all addresses where it is not known.
PAIR_FREE, NAME_FREE, LONGEST = 3, 50, 60.0
# Failures of an address within a quarter of an hour after which it has one attempt a second, of names that are not known there.
ADDRESS_FREE, PACED = 20, 1.0
# Attempts of names that are known go first, but for one in this many.
KNOWN_FIRST = 3
# What users hear whose own front cannot be reached by their gate.
AWAY = "it cannot be reached now: try again"


class Wrong(Exception):
    """The name or the password is wrong."""

    def __str__(self) -> str:
        return "wrong name or password"


class Elsewhere(Wrong):
    """The name and the password are those of a user of another front, which a gate cannot reach: otherwise they would not have come here."""

    def __str__(self) -> str:
        return AWAY


class Slowed(Exception):
    """Too many attempts; `seconds` says when the next one is looked at."""

    def __init__(self, seconds: float, what: str = "too many attempts") -> None:
        self.seconds = max(1, math.ceil(seconds))
        super().__init__(f"{what}: wait {self.seconds} seconds")


class Full(Slowed):
    """Too many sign-ons are being looked at."""

    def __init__(self) -> None:
        super().__init__(1, "too many sign-ons at once")


@dataclass(eq=False, slots=True)
class Attempt:
    """An attempt that waits to be computed."""

    name: str
    password: str
    place: str
    done: asyncio.Future[User | None]


class Signing:
    """Finds the user of a name and a secret."""

    def __init__(self, register: Register, audit: Audit, metrics: Metrics) -> None:
        self._register = register
        self._audit = audit
        self._metrics = metrics
        self._pairs = Slowdown(PAIR_FREE, LONGEST)
        self._names = Slowdown(NAME_FREE, LONGEST)
        self._addresses = Slowdown(ADDRESS_FREE, PACED)
        self._known: OrderedDict[str, None] = OrderedDict()
        self._pool = ThreadPoolExecutor(COMPUTING, thread_name_prefix="password")
        self._lines: dict[bool, Fair[Attempt]] = {known: Fair(OF_NAME, OF_ADDRESS, QUEUED) for known in (True, False)}
        self._computing = 0
        self._turn = 0
        self._next_of_address: OrderedDict[str, float] = OrderedDict()
        self._timer: asyncio.TimerHandle | None = None

    async def by_password(self, name: str, password: str, address: str, tokens: bool = False) -> tuple[User, str]:
        """The user, and the hash that proves it. Raises `Wrong`, `Elsewhere` or `Slowed`. With `tokens` a token of the user may stand for the password."""
        place = network_of(address)
        if tokens and password.startswith(TOKEN):
            found = self._register.by_token(password)
            if found is None or found[0].name != name:
                if self._register.has_elsewhere(name, password):
                    self._away()
                self._failed(name, place, address)
            self._metrics.sign_ons["good"] += 1
            return found[0], found[0].tokens[found[1]].hash
        if len(name) > MOST_NAME:
            self._failed(name, place, address)
        self._slow(name, place)
        user = await self._computed(name, password, place)
        # Once more: attempts that were made at the same time may have failed meanwhile.
        self._slow(name, place)
        if user is None:
            self._pairs.failed(_pair(name, place))
            self._names.failed(name)
            self._failed(name, place, address)
        self._pairs.succeeded(_pair(name, place))
        if name not in self._register.users:
            self._away()
        self._note_known(_pair(name, place))
        self._metrics.sign_ons["good"] += 1
        return user, user.hash

    def by_token(self, secret: str, address: str) -> tuple[User, str]:
        """The user of a token alone, and the hash that proves it. Raises `Wrong`."""
        found = self._register.by_token(secret)
        if found is None:
            self._failed("", network_of(address), address)
        user, label = found
        return user, user.tokens[label].hash

    def user_of(self, secret: str) -> User | None:
        """The user of a token, without a note of it if there is none."""
        found = self._register.by_token(secret)
        return None if found is None else found[0]

    async def change(self, name: str, password: str, new: str, address: str) -> str:
        """Gives a user another password, who knows the one before, and gives its hash. The user's tokens are removed. Raises `Wrong`, `Slowed`, or `BadUsers`
        if it is not taken or cannot be kept."""
        await self.by_password(name, password, address)
        hashed = await asyncio.get_running_loop().run_in_executor(self._pool, self._register.change, name, new)
        with contextlib.suppress(NoAudit):
            self._audit.note("password", user=name, **{"from": address})
        return hashed

    def close(self) -> None:
        """Ends the threads."""
        self._pool.shutdown(wait=False, cancel_futures=True)

    def _slow(self, name: str, place: str) -> None:
        """Raises `Slowed` if the name has to wait at this address."""
        pair = _pair(name, place)
        if pause := max(self._pairs.wait(pair), 0.0 if pair in self._known else self._names.wait(name)):
            self._metrics.sign_ons["slowed"] += 1
            raise Slowed(pause)

    def _failed(self, name: str, place: str, address: str) -> NoReturn:
        """Notes a wrong secret, and raises `Wrong`. Of an address that fails again and again, records are spared."""
        self._addresses.failed(place)
        self._metrics.sign_ons["wrong"] += 1
        count = self._addresses.count(place)
        if count <= ADDRESS_FREE or count & (count - 1) == 0:
            with contextlib.suppress(NoAudit):
                # A name that nobody has may be a password, typed at the wrong place.
                known = name if name in self._register.users else None
                self._audit.note("refused", user=known, **{"from": address}, **({"failures": count} if count > ADDRESS_FREE else {}))
        raise Wrong

    def _away(self) -> NoReturn:
        """Raises `Elsewhere`."""
        self._metrics.sign_ons["away"] += 1
        raise Elsewhere

    def _note_known(self, pair: str) -> None:
        self._known[pair] = None
        self._known.move_to_end(pair)
        while len(self._known) > MOST_KEYS:
            self._known.popitem(last=False)

    # ---- turns

    async def _computed(self, name: str, password: str, place: str) -> User | None:
        """The user of a name and a password, once it is their turn. Raises `Full`."""
        attempt = Attempt(name, password, place, asyncio.get_running_loop().create_future())
        left_out = self._lines[_pair(name, place) in self._known].put(place, name, attempt)
        if left_out is not None and not left_out.done.done():
            left_out.done.set_exception(Full())
        self._begin()
        try:
            return await attempt.done
        except Full:
            self._metrics.sign_ons["slowed"] += 1
            raise

    def _begin(self) -> None:
        """Has attempts computed while there are threads for it."""
        while self._computing < COMPUTING and (attempt := self._next()) is not None:
            if attempt.done.done():
                # Who asked has gone.
                continue
            self._computing += 1
            work = asyncio.get_running_loop().run_in_executor(self._pool, self._register.by_password, attempt.name, attempt.password)
            work.add_done_callback(functools.partial(self._ended, attempt))
        if self._timer is None and len(self._lines[False]):
            # An address that is paced may have its turn by then.
            self._timer = asyncio.get_running_loop().call_later(PACED / 4, self._again)

    def _again(self) -> None:
        self._timer = None
        self._begin()

    def _next(self) -> Attempt | None:
        self._turn += 1
        order = (False, True) if self._turn % KNOWN_FIRST == 0 else (True, False)
        for known in order:
            found = self._lines[known].take() if known else self._lines[known].take(self._may_try)
            if found is not None:
                return found
        return None

    def _may_try(self, place: str) -> bool:
        """Whether an address has its turn: one that has failed often has one a second."""
        if self._addresses.count(place) < ADDRESS_FREE:
            return True
        now = time.monotonic()
        if now < self._next_of_address.get(place, 0.0):
            return False
        self._next_of_address[place] = now + PACED
        while len(self._next_of_address) > MOST_KEYS:
            self._next_of_address.popitem(last=False)
        return True

    def _ended(self, attempt: Attempt, work: asyncio.Future[User | None]) -> None:
        self._computing -= 1
        if not attempt.done.done():
            if work.cancelled():
                attempt.done.cancel()
            elif (error := work.exception()) is not None:
                attempt.done.set_exception(error)
            else:
                attempt.done.set_result(work.result())
        self._begin()


def _pair(name: str, place: str) -> str:
    return f"{place} {name}"
