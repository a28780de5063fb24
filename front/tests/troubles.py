# SPDX-License-Identifier: Apache-2.0
"""Troubles as a matrix: what befalls a leader, at which step of the journal's rule, and what is done then. Each time nothing that was answered is lost,
nothing runs twice, the standby or another machine takes over, and each store is that of a replay."""
from __future__ import annotations

import asyncio
import itertools
import json
import random
import subprocess
import sys
import time
from abc import ABC, abstractmethod
from collections import Counter
from collections.abc import Awaitable, Callable, Sequence
from pathlib import Path

from database import Cluster
from front import FRONT, Patience, Person, until
from killing import MACHINE, STEPS, WHATS
from running import PROGRAM
from test_replay import held
from test_restarts import BESIDE, Counting

PLACE = Path(__file__).resolve().parent / "steps"
# What is done then: the leader goes on or is started again; the standby is promoted, and the leader stands by; its machine is gone, and a new standby begins
# with the journal; it is stopped in order, and takes the journal back; its place moves to the standby, as a gate has an island move.
THENS = ("go on", "promote", "gone", "in order", "move")
# The database is one of the troubles of a journal that it has; a full disk is its own. Gates have no front promoted but by a move, and a machine that is
# alone has nothing to move to.
OF_DATABASE = ("database", *(what for what in WHATS if what != "disk full"))
COMBINATIONS = {"files": tuple(itertools.product(STEPS, WHATS, THENS)), "database": tuple(itertools.product(STEPS, OF_DATABASE, THENS)),
                "gates": tuple(itertools.product(STEPS, OF_DATABASE, [then for then in THENS if then != "promote"])),
                "alone": tuple(itertools.product(STEPS, WHATS, ("go on", "in order")))}
# Seconds between two kills of a server, of which one is to bring a step about.
BETWEEN = 5.0
# Troubles by which the process ends in which they come.
ENDING = ("front", "both", "machine")


def catching_up() -> float:
    """The time at which a standby has caught up, which may begin with the journal, and users are served again."""
    return time.monotonic() + 8 * Patience.seconds


class Troubled(ABC):
    """What meets troubles. `fired` counts by step how often one came there; `acts` has what is done then."""

    acts: dict[str, Callable[[], Awaitable[None]]]

    def __init__(self, folder: Path, cluster: Cluster | None) -> None:
        self.folder, self.cluster = folder, cluster
        self.fired: Counter[str] = Counter()

    def environment(self, machine: Path) -> dict[str, str]:
        """What the processes of a machine have in their environment, so that troubles come to them."""
        return {"PYTHONPATH": str(PLACE), "MFRONT_STEPS": str(self.folder / "step"), MACHINE: str(machine)}

    async def meets(self, step: str, what: str, count: int) -> None:
        """Has something happen at a step, while users work; one that does not come by itself is brought about."""
        place = self.folder / "step"
        made = place.with_suffix(".new")
        made.write_text(json.dumps({"step": step, "what": what, "count": count}))
        made.replace(place)
        end, due = time.monotonic() + Patience.seconds / 2, 0.0
        while place.exists() and (now := time.monotonic()) < end:
            if step in STEPS[-3:] and now > due:
                # Again and again: a start gives rows only if a line was on its way when the server ended.
                self.kill_server()
                due = now + BETWEEN
            await asyncio.sleep(0.02)
        fired = not place.exists()
        self.fired[step] += fired
        place.unlink(missing_ok=True)
        if fired and what in ENDING:
            await until(lambda: not self.runs(what), f"the end of {what}")
        if what == "database":
            await asyncio.to_thread(self.cluster.stop)
            await asyncio.sleep(0.5)
            await asyncio.to_thread(self.cluster.start)

    @abstractmethod
    def person(self, name: str) -> Person:
        """A user, who comes to where lines are served."""

    @abstractmethod
    def runs(self, what: str) -> bool:
        """Whether what was to end by a trouble runs yet."""

    @abstractmethod
    def kill_server(self) -> None:
        """Ends the server that serves at once, if it is there."""

    @abstractmethod
    async def serves(self) -> None:
        """Waits until users are served, and what stands by has run all."""

    @abstractmethod
    def told(self) -> str:
        """What its processes told."""

    @abstractmethod
    async def ends(self) -> list[Path]:
        """Ends all in order, and gives the stores that are to be those of a replay."""

    @abstractmethod
    def stop(self) -> None:
        """Ends all that still runs."""

    @property
    @abstractmethod
    def journal(self) -> Sequence[str]:
        """The words by which mjournal finds the journal."""


def drawn(kind: str, wanted: int, rng: random.Random) -> list[tuple[str, str, str]]:
    """This many combinations, without one coming again before all were there."""
    combinations = COMBINATIONS[kind]
    found = [combination for _ in range(1 + wanted // len(combinations)) for combination in rng.sample(combinations, len(combinations))]
    return found[:wanted]


async def tried(troubled: Troubled, chosen: list[tuple[str, str, str]], rng: random.Random, rest: float = 0.0) -> Counting:
    """Has one trouble after another befall; then holds the stores against a replay. Gives the users who worked, and rested so long before each line."""
    counting = Counting(beside=BESIDE[1], rest=rest)
    try:
        for number, (step, what, then) in enumerate(chosen):
            await _befalls_or_tells(troubled, counting, number, (step, what, then), rng.randrange(1, 12) if step not in STEPS[-3:] else 1)
        await as_replayed(troubled)
    finally:
        troubled.stop()
    missed = len(chosen) - sum(troubled.fired.values())
    print(f"{len(chosen)} troubles, {missed} of which never came to their step; {counting.answered} lines answered, none lost or twice: {dict(troubled.fired)}")
    return counting


async def _befalls_or_tells(troubled: Troubled, counting: Counting, number: int, combination: tuple[str, str, str], count: int) -> None:
    step, what, then = combination
    try:
        await befalls(troubled, counting, combination, count)
        print(f"trouble {number}: {what}, when {step}; then {then}: {counting.answered} lines answered", flush=True)
    except BaseException:
        print(f"trouble {number}: {what}, when {step}; then {then}: {troubled.told()}", flush=True)
        raise


async def as_replayed(troubled: Troubled, snapshot: Path | None = None) -> None:
    """Ends all, and holds the stores against one of the journal's lines, or of those after a snapshot."""
    stores = await troubled.ends()
    status, _, told = await asyncio.to_thread(replayed, troubled, () if snapshot is None else ("--from", snapshot))
    assert status == 0, told
    wanted = held(troubled.folder / "all")
    assert [held(place) == wanted for place in stores] == [True] * len(stores)


async def befalls(troubled: Troubled, counting: Counting, combination: tuple[str, str, str], count: int) -> None:
    """Has one trouble befall while users work; then holds all against what it is to be."""
    step, what, then = combination
    counting.begin(troubled)
    answered = counting.answered
    await until(lambda: counting.answered > answered + 5, "users who work")
    await troubled.meets(step, what, count)
    await troubled.acts[then]()
    await counting.end()
    await troubled.serves()
    await counting.seen_by(troubled)


def replayed(troubled: Troubled, more: Sequence[object] = ()) -> tuple[int, str, str]:
    """Replays the journal into a store, by further words."""
    words = [FRONT / "mjournal", *troubled.journal, "replay", "--program", PROGRAM, "--store", troubled.folder / "all", *more]
    done = subprocess.run([sys.executable, *map(str, words)], capture_output=True, text=True, timeout=3000)
    return done.returncode, done.stdout, done.stderr
