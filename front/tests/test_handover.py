# SPDX-License-Identifier: Apache-2.0
"""Terminals that are handed from user to user: nobody meets variables, locks or replies of somebody before, however that one left. `--count 34` makes
ten thousand sign-ons."""
from __future__ import annotations

import asyncio
import contextlib
import functools
import json
import random
import subprocess
import time
from collections import Counter

from front import COMMAND, Front, Record, in_loop, until

SIGN_ONS, WORKERS = 300, 12
USERS = {"ada": "CLINIC", "ben": "CLINIC", "cleo": "LAB", "dan": "LAB", "dora": "SHORT", "eve": "SHORT"}


class Visitor:
    """A program that signs on, looks at its terminal, leaves something there, and goes."""

    def __init__(self, front: Front, user: str, token: str, rng: random.Random, seen: Counter[str]) -> None:
        self._front, self._user, self._token, self._rng, self._seen = front, user, token, rng, seen

    async def visit(self, number: int) -> None:
        """One sign-on, and its end."""
        reader, writer = await asyncio.open_connection("localhost", self._front.lines_port)
        try:
            writer.write(f"{self._user} {self._token}\n".encode())
            record = await self._next(reader)
            if "error" in record:
                self._seen["refused"] += 1
                return
            self._seen["signed on"] += 1
            self._seen[f"terminal {record['terminal']}"] += 1
            # What is there, and one's own mark; the lock is one that only this terminal has ever.
            writer.write(f'W $D(A),$D(B) S A={number},B(1)="x"\nL +^L({record["terminal"]}):0 W $T\nW A\n'.encode())
            replies = [await self._next(reader) for _ in range(3)]
            assert [reply["rest"] for reply in replies] == ["00", "1", str(number)], (self._user, record, replies)
            await self._leave(writer)
        finally:
            writer.transport.abort() if self._rng.random() < 0.5 else writer.close()

    async def _leave(self, writer: asyncio.StreamWriter) -> None:
        """Goes quietly, by HALT, or with lines on their way."""
        how = self._rng.randrange(3)
        if how == 1:
            writer.write(b"H\n")
        elif how == 2:
            writer.write(b'S A="foreign",^MARK=1 F I=1:1:9 S B(I)=A\n' * self._rng.randint(1, 5))
            with contextlib.suppress(ConnectionError):
                await writer.drain()

    @staticmethod
    async def _next(reader: asyncio.StreamReader) -> Record:
        """The next record that is no event."""
        while True:
            record = json.loads(await reader.readuntil(b"\n"))
            if "event" not in record:
                return record


async def knows(front: Front, user: str, token: str) -> bool:
    """Whether a front has read a user's token by now: it looks once a second."""
    reader, writer = await asyncio.open_connection("localhost", front.lines_port)
    writer.write(f"{user} {token}\n".encode())
    record = json.loads(await reader.readuntil(b"\n"))
    writer.close()
    return "error" not in record


@in_loop(1500)
async def test_terminals_are_handed_from_user_to_user(start, count: int) -> None:
    front: Front = start(tls=False, users=USERS, limits={"sessions_of_user": 100})
    tokens = {}
    for user in USERS:
        done = subprocess.run([*COMMAND, "token", "add", user, "--config", front.folder / "front.toml"], capture_output=True, text=True, check=True)
        tokens[user] = done.stdout.strip()
    await asyncio.gather(*(until(functools.partial(knows, front, user, token), f"the token of {user}", 1.0) for user, token in tokens.items()))
    rng, seen, wanted = random.Random(5), Counter(), SIGN_ONS * count
    end = time.monotonic() + 1400

    async def work(number: int) -> None:
        while seen["signed on"] < wanted and time.monotonic() < end:
            user = rng.choice(list(USERS))
            await Visitor(front, user, tokens[user], rng, seen).visit(number * 1_000_000 + sum(seen.values()))
    await asyncio.gather(*(work(number) for number in range(WORKERS)))
    assert seen["signed on"] >= wanted, seen
    assert len([name for name in seen if name.startswith("terminal")]) == 6, seen
