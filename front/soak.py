#!/usr/bin/python3
# SPDX-License-Identifier: Apache-2.0
"""Many users for a long time, while the server and the front are killed and stopped at random: each user counts at a node of their own, and holds each
reply against what it can be.

It starts a front of its own over TLS, with a store in a file and a journal, and the built program as its child. Status 1 if a line was lost, ran twice or
had a wrong reply, if one ran of which its user had heard neither a reply nor `unknown` before `signed-off`, or if the journal is not whole at the end."""
from __future__ import annotations

import argparse
import asyncio
import os
import random
import sys
import tempfile
import time
from collections import Counter
from pathlib import Path

sys.path[:0] = [str(Path(__file__).resolve().parent / folder) for folder in ("tests", ".", "../clients", "../tools")]

from front import Front, Patience, Person, Record, mjournal  # noqa: E402
from load import certificate, settings  # noqa: E402
from running import require_program  # noqa: E402
from test_restarts import Counting, front_killed, restarted, server_killed  # noqa: E402

# How many times the least seconds between two troubles are the most; and seconds after which something is missed: the machine may have other work.
MOST, PATIENT = 3, 240
TROUBLES = {"the server killed": server_killed, "the front killed": front_killed, "the front stopped in order": restarted}


class Paced(Counting):
    """Users who rest between two lines. `seen` counts what became of these."""

    def __init__(self, names: tuple[str, ...], rate: float) -> None:
        super().__init__(names)
        self._rate = rate
        self.seen: Counter[str] = Counter()

    async def sends(self, person: Person, line: str) -> Record:
        """The record of a line, which says whose it is."""
        await asyncio.sleep(random.expovariate(self._rate))
        try:
            record = await person.line(f'{line} W " {person.name}"')
        except ConnectionError:
            if any(event["event"] == "signed-off" for event in person.events):
                # It came after the front had told all that it runs no more: it was not run, or else the counter shows it.
                self.most[person.name] -= 1
                self.seen["came after signed-off"] += 1
            else:
                self.seen["broken off by a kill"] += 1
            raise
        if "output" not in record:
            self.seen["unknown" if "unknown" in record else f"refused: {record['refused']}"] += 1
            return record
        count, _, owner = str(record["rest"]).partition(" ")
        if owner != person.name:
            raise ValueError(f"{person.name} was answered {record}")
        return record | {"rest": count}


async def run(front: Front, users: Paced, seconds: float, between: float) -> None:
    """All users at once, and troubles; then what is stored is held against what it can be."""
    end = time.monotonic() + seconds
    users.begin(front)
    while time.monotonic() < end:
        await asyncio.sleep(random.uniform(between, MOST * between))
        what = random.choice(list(TROUBLES))
        users.seen[what] += 1
        await TROUBLES[what](front)
    await users.end()
    await users.seen_by(front)


def main() -> int:
    """The status of the command."""
    words = argparse.ArgumentParser(description="Has many users count, while the server and the front are killed and stopped at random.")
    words.add_argument("--users", type=int, default=100, help="how many users (default 100)")
    words.add_argument("--rate", type=float, default=5, help="lines of each user in a second, at most (default 5)")
    words.add_argument("--seconds", type=float, default=3600, help="for how long (default 3600)")
    words.add_argument("--between", type=float, default=10, help=f"seconds between two troubles at least; at most {MOST} times as many (default 10)")
    words.add_argument("--seed", type=int, default=72, help="what chance begins with (default 72)")
    options = words.parse_args()
    require_program()
    random.seed(options.seed)
    Patience.seconds = PATIENT
    with tempfile.TemporaryDirectory(prefix="mfront-soak") as name:
        folder = Path(name)
        path, names = settings(folder, options.users)
        users = Paced(tuple(names), options.rate)
        front = Front(folder, certificate(folder), users=names, settings=path, store="store", journal={"folder": "journal"})
        try:
            asyncio.run(run(front, users, options.seconds, options.between))
        except ValueError as error:
            print(f"soak: a line was lost, ran twice or had a wrong reply: {error}")
            return 1
        finally:
            front.stop()
        status, _, told = mjournal(folder / "journal")("verify")
    print(f"{options.users} users, {users.answered} lines answered: 0 lost, 0 twice, 0 wrong")
    for what, count in sorted(users.seen.items()):
        print(f"{count:9} {what}")
    print(f"mjournal verify: {'whole' if status == 0 else told}")
    print(f"load of the machine: {os.getloadavg()[0]:.1f} on {len(os.sched_getaffinity(0))} processors of {os.cpu_count()}")
    return 1 if status else 0


if __name__ == "__main__":
    sys.exit(main())
