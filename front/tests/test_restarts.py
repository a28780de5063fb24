# SPDX-License-Identifier: Apache-2.0
"""A leader whose server is killed, or that is started again, leaves its standby fit to take over: nothing that was answered is lost, and nothing runs twice."""
from __future__ import annotations

import asyncio
import contextlib
import os
import random
import signal
from collections.abc import Awaitable, Callable
from pathlib import Path
from typing import Protocol

import aiohttp
import pytest
from front import Front, Patience, Person, Record, in_loop, mjournal, stopped, until
from running import PROGRAM
from standing_by import takes_over, two_fronts
from test_replay import held

# Seconds for which users work between two troubles.
WORK = 0.4
# What a line writes beside its counter: many nodes, so that a kill finds it half done, or none.
BESIDE = ("", " F I=1:1:30 S ^W({user},I)=$G(^W({user},I))+1", " S (^P({user}),^Q({user}))=^N({user}) K ^P({user}),^Q({user})")


class Served(Protocol):
    """Where users are served."""

    def person(self, name: str) -> Person:
        """A user there."""


class Counting:
    """Users who each count at a node of their own, and hold each reply against what it can be: a line without a reply may have been run, once."""

    def __init__(self, names: tuple[str, ...] = ("ada", "ben", "cleo"), beside: str = "", rest: float = 0.0) -> None:
        """`beside` is what each line does besides, and `rest` the seconds before each."""
        self._names, self._beside, self.rest = names, beside, rest
        self._work: list[asyncio.Task[None]] = []
        self._ends = False
        # Of each user: the least and the most that the counter can be.
        self.least = dict.fromkeys(names, 0)
        self.most = dict.fromkeys(names, 0)
        self.answered = 0

    def begin(self, front: Served) -> None:
        """Has the users work at a front, and come back to it, until they are ended."""
        self._ends = False
        self._work = [asyncio.create_task(self._user(front, name)) for name in self._names]

    async def end(self) -> None:
        """Ends the work."""
        self._ends = True
        await asyncio.wait_for(asyncio.gather(*self._work), 2 * Patience.seconds)

    async def _user(self, front: Served, name: str) -> None:
        while not self._ends:
            person = front.person(name)
            try:
                if (await person.sign_on())[0] == 200:
                    await person.connect()
                    await self._counts(person, name)
            except (ConnectionError, aiohttp.ClientError):
                pass
            finally:
                await leaves(person)
            await asyncio.sleep(0.05)

    async def _counts(self, person: Person, name: str) -> None:
        line = f"S ^N({name!r})=$G(^N({name!r}))+1 W ^N({name!r})".replace("'", '"') + self._beside.format(user=f'"{name}"')
        while not self._ends:
            self.most[name] += 1
            record = await self.sends(person, line)
            if "output" in record:
                self.holds(name, int(record["rest"]), self.least[name] + 1)
            elif "refused" in record:
                self.most[name] -= 1
                await asyncio.sleep(0.05)

    async def sends(self, person: Person, line: str) -> Record:
        """The record of a line."""
        await asyncio.sleep(self.rest)
        return await person.line(line)

    def holds(self, name: str, found: int, least: int) -> None:
        """Holds a counter against what it can be."""
        if not least <= found <= self.most[name]:
            raise ValueError(f"{name}: the counter is {found}, and {least} to {self.most[name]} can be")
        self.least[name] = self.most[name] = found
        self.answered += 1

    async def seen_by(self, front: Served) -> None:
        """Holds what a front says of the counters against what they can be."""
        for name in self._names:
            person = front.person(name)
            await person.comes_in(f"{name} signed on")
            found = await person.told(f'W $G(^N("{name}"),0)')
            self.holds(name, int(str(found)), self.least[name])
            await leaves(person)


async def leaves(person: Person) -> None:
    """Signs a user off, if the front is there: else the terminal would be kept for a while."""
    with contextlib.suppress(aiohttp.ClientError, OSError):
        await person.sign_off()
    await person.http.close()


Trouble = Callable[[Front], Awaitable[None]]


async def server_killed(leader: Front) -> None:
    """The server alone."""
    with contextlib.suppress(IndexError, ProcessLookupError):
        leader.kill_child()


async def restarted(leader: Front) -> None:
    """The whole front, in order."""
    assert await asyncio.to_thread(leader.stop) == 0
    await asyncio.to_thread(leader.again)


async def front_killed(leader: Front) -> None:
    """The front, and its server with it."""
    os.kill(leader.process.pid, signal.SIGKILL)
    await asyncio.to_thread(leader.again)


@pytest.mark.parametrize("beside", [BESIDE[0], pytest.param(BESIDE[1], marks=pytest.mark.long), BESIDE[2]], ids=["one node", "many nodes", "two in one"])
@pytest.mark.parametrize("trouble", [server_killed, restarted, front_killed])
@in_loop(580)
async def test_a_standby_goes_on_after_trouble_at_its_leader(start, tmp_path: Path, trouble: Trouble, beside: str, count: int) -> None:
    """Again and again under load; then the leader's machine dies, and the standby takes over."""
    journal, counting, rng = tmp_path / "journal", Counting(beside=beside), random.Random(3)
    leader, second = two_fronts(start, journal, roll=65_536)
    counting.begin(leader)
    for _ in range(2 * count):
        await asyncio.sleep(WORK * rng.uniform(0.5, 2))
        await trouble(leader)
    answered = counting.answered
    await until(lambda: counting.answered > answered + 3, "users who work again")
    os.kill(leader.process.pid, signal.SIGKILL)
    await asyncio.to_thread(leader.process.wait)
    await counting.end()
    assert await asyncio.to_thread(takes_over, second) == ""
    await counting.seen_by(second)
    await stopped(second)
    status, _, told = mjournal(journal)("replay", "--program", PROGRAM, "--store", tmp_path / "all")
    assert status == 0, told
    assert held(tmp_path / "all") == held(second.folder / "store.db")
