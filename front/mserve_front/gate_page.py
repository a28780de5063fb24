# SPDX-License-Identifier: Apache-2.0
"""The operator's page of a gate: its islands, and what the fronts of those that are served here tell at their own pages."""
from __future__ import annotations

import asyncio
import time
from collections.abc import Callable, Sequence
from pathlib import Path

import aiohttp

from .admin import POINTS, STEP, Page, Told, alarms_of, figures_of
from .certificates import of_certificate
from .control import reached
from .islands import Islands
from .libraries import of_libraries
from .placement import HERE, Island

# Seconds for a front to answer, and how many are asked at once.
ANSWER, AT_ONCE = 3.0, 20
UNANSWERED = "its front does not answer"
SILENT = "See the lines of its front: journalctl -u mgate. It is started again by itself."


class GatePage(Page):
    """The page. What it shows of a front that does not answer is that."""

    def __init__(self, path: Path | None, machine: str, islands: Islands, expires: Callable[[], float | None]) -> None:
        """`expires` gives when the first of the gate's certificates does."""
        super().__init__(path, self.told)
        self._machine = machine
        self._islands = islands
        self._expires = expires
        self._asking = asyncio.Semaphore(AT_ONCE)

    async def told(self) -> Told:
        """All that the page shows."""
        placed = list(self._islands.placed.values())
        found = dict(zip((island.name for island in placed), await asyncio.gather(*map(self._asked, placed)), strict=True))
        here = [island for island in placed if island.machine == self._machine]
        alarms: list[Told] = [{**alarm, "what": f"{name}: {alarm['what']}"} for name, one in found.items() if one is not None for alarm in one["alarms"]]
        alarms += [{"what": f"{island.name}: {UNANSWERED}.", "do": SILENT, "value": 0} for island in here
                   if found[island.name] is None and island.state == HERE]
        own = figures_of("\n".join([*of_libraries(), *of_certificate(self._expires())]))
        alarms += [{**alarm, "what": f"The gate: {alarm['what']}"} for alarm in alarms_of(own)]
        fronts = [one for one in found.values() if one is not None]
        return {"time": round(time.time()), "state": f"Machine {self._machine}: {len(here)} of {len(placed)} islands are here",
                "islands": [row(island, found[island.name]) for island in placed], "alarms": alarms,
                "users": [user for one in fronts for user in one.get("users", [])],
                "accounts": [account for one in fronts for account in one.get("accounts", [])],
                "figures": {"islands": len(placed), "islands here": len(here), "machines": len(self._islands.machines)},
                "points": together([one.get("points", []) for one in fronts]), "step": STEP}

    async def _asked(self, island: Island) -> Told | None:
        """What the front of an island tells; None if it is not here, or does not answer."""
        if self._machine not in (island.machine, island.target):
            return None
        try:
            async with self._asking, asyncio.timeout(ANSWER):
                with reached(self._islands.folder(island.name) / "admin.socket") as place:
                    return await asked(place)
        except (OSError, TimeoutError, ValueError, aiohttp.ClientError):
            return None


async def asked(place: str) -> Told:
    """What a front says at its socket. Raises OSError, ValueError or `aiohttp.ClientError`."""
    async with aiohttp.ClientSession(connector=aiohttp.UnixConnector(path=place)) as http, http.get("http://localhost/admin.json") as answer:
        return dict(await answer.json())


def row(island: Island, told: Told | None) -> Told:
    """An island: where it is, and what its front says of it."""
    accounts = [] if told is None else told.get("accounts", [])
    return {"island": island.name, "machine": island.machine, "state": island.state, "target": island.target or "", "accounts": list(island.accounts),
            "front": "" if told is None else told["state"], "signed_on": sum(one["signed_on"] for one in accounts),
            "lines": sum(one["lines"] for one in accounts), "seconds": round(sum(one["seconds"] for one in accounts), 3)}


def together(pictures: Sequence[Sequence[Sequence[float]]]) -> list[list[float]]:
    """The points of several fronts as those of one: lines and what waits are added up, of how busy servers are and of waits the most counts."""
    found: dict[int, list[float]] = {}
    for when, lines, busy, waiting, longest in (point for points in pictures for point in points):
        at = int(when // STEP)
        before = found.get(at, [at * STEP, 0.0, 0.0, 0, 0.0])
        found[at] = [before[0], round(before[1] + lines, 2), max(before[2], busy), before[3] + waiting, max(before[4], longest)]
    return [found[at] for at in sorted(found)][-POINTS:]
