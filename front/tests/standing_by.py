# SPDX-License-Identifier: Apache-2.0
"""A leader and its standby: how they are started and promoted, and users who count what was answered."""
from __future__ import annotations

import asyncio
import contextlib
import os
import re
import signal
import time
from pathlib import Path

import aiohttp
import pytest
from front import Front, Patience, Person, Ran, tool, until
from mserve_front.control import ControlError, asked
from mserve_front.faults import TAKEN
from mserve_front.places import end_of, last_line
from mserve_front.settings import JournalSettings

# Nodes that are asked for at once: the front cuts a reply of some 13,000 of them (limits.reply).
AT_ONCE = 5000
# What after a line makes it take some milliseconds.
SLOW = " F I=1:1:20000 S K=I"


# Where a journal is: in a folder, in a table of a database, or as the keys of a front's settings have it.
Where = Path | JournalSettings | dict[str, object]


def keys_of(journal: Where) -> dict[str, object]:
    """Where a journal is, as the keys of a front's settings."""
    if isinstance(journal, Path):
        return {"folder": str(journal)}
    if isinstance(journal, dict):
        return journal
    return {"database": journal.database, "name": journal.name}


def leading(start, journal: Where, **more: object) -> Front:
    """A front over a store of its own that keeps a journal there."""
    return start(store="store.db", journal=keys_of(journal) | more)


def standby(start, journal: Where, **more: object) -> Front:
    """A standby over a store of its own."""
    kept = keys_of(journal) | ({"backup": more.pop("backup")} if "backup" in more else {})
    return start(words=["--follow"], awaited="standing by", journal=kept, **{"store": "store.db"} | more)


def two_fronts(start, journal: Where, **more: object) -> tuple[Front, Front]:
    """A front that keeps a journal there, and its standby."""
    return leading(start, journal, **more), standby(start, journal)


def promoted(front: Front) -> Ran:
    """Has a standby promoted by the command; it serves then."""
    done = tool("mfront")("promote", "--config", front.folder / "front.toml")
    if done[0] == 0:
        front.hears("serving at")
    return done


def asks_promotion(control: Path) -> dict[str, object]:
    """Asks a standby for its promotion, again while it has not begun: its socket is there before that."""
    until = time.monotonic() + Patience.seconds
    while True:
        try:
            return asked(control, {"ask": "promote"}, 4 * Patience.seconds)
        except ControlError as error:
            if "it has not begun" not in str(error) or time.monotonic() > until:
                raise
            time.sleep(0.05)


def takes_over(front: Front) -> str:
    """Has a standby promoted, and gives why it is not; empty if it is, and serves."""
    try:
        asks_promotion(front.folder / "mfront.control")
    except ControlError as error:
        return str(error)
    front.hears("serving at")
    return ""


async def caught_up(front: Front, journal: Path | JournalSettings) -> int:
    """Waits until a standby has run all lines of a journal, in a folder or anywhere, and says so, and gives the last of them. Lines that come meanwhile are
    part of the wait; those that come after it are not: `at_rest` says that none does."""
    settings = JournalSettings(journal) if isinstance(journal, Path) else journal
    while True:
        # Apart: what leads to the journal may be this test's own.
        last = await asyncio.to_thread(last_line, settings)
        status = await asyncio.to_thread(asked, front.folder / "mfront.control", {"ask": "status"}, 2 * Patience.seconds)
        if status["line"] >= last and status["caught up"]:
            return last
        await asyncio.sleep(0.02)


def stands_by(front: Front) -> int:
    """Starts a front that has ended as a standby, over the store that it has, and gives the line after which that stands."""
    front.words(["--follow"], "standing by")
    front.again()
    return int(re.search(r"standing by, after line (\d+) of the journal", front.told())[1])


async def fenced_off(leader: Front, second: Front, journal: JournalSettings, told: str) -> None:
    """A leader hangs, and its standby is promoted by force. Once it goes on it acknowledges nothing, tells a text, and ends, while the other one serves."""
    ada = leader.person("ada")
    await ada.__aenter__()
    assert await ada.told("S ^X=1 W ^X") == "1"
    await caught_up(second, journal)
    leader.process.send_signal(signal.SIGSTOP)
    await ada.send("S ^X=7")
    status, _, refused = promoted(second)
    assert status == 3 and TAKEN in refused
    assert tool("mfront")("promote", "--force", "--config", second.folder / "front.toml")[0] == 0
    second.hears("serving at")
    async with second.person("ben") as ben:
        assert await ben.told("S ^X=^X+1 W ^X") == "2"
        leader.process.send_signal(signal.SIGCONT)
        assert await asyncio.to_thread(leader.process.wait, Patience.seconds) == 3
        assert told in leader.told()
        with contextlib.suppress(ConnectionError):
            assert "output" not in await ada.next()
        await ada.http.close()
        assert await ben.told("S ^X=^X+1 W ^X") == "3"
        with pytest.raises(RuntimeError, match=TAKEN):
            leader.again()


class Load:
    """Users who each count at nodes of their own until the leader is gone: which nodes they sent, and which were answered."""

    def __init__(self, more: str = "") -> None:
        """`more` comes after each line."""
        self.more = more
        self.sent: set[int] = set()
        self.answered: set[int] = set()

    async def user(self, person: Person) -> None:
        """One user, with five lines on their way."""
        places: dict[int, int] = {}
        try:
            while True:
                while len(places) < 5:
                    node = len(self.sent)
                    self.sent.add(node)
                    places[await person.send(f"S ^N({node})=$G(^N({node}))+1{self.more}")] = node
                record = await person.next()
                node = places.pop(record["id"])
                if "output" in record:
                    assert record["code"] is None, record
                    self.answered.add(node)
        except (ConnectionError, aiohttp.ClientError):
            pass

    async def until_killed(self, front: Front, seconds: float, journal: Path | None = None) -> float:
        """Has three users work until the front is killed, and gives when that was. With its journal, lines have no reply there then."""
        people = [front.person(name) for name in ("ada", "ben", "ada")]
        for person in people:
            await person.__aenter__()
        answered, work = len(self.answered), asyncio.gather(*map(self.user, people))
        # However busy the machine is, they have had some answers by then.
        await until(lambda: len(self.answered) > answered + 3, "users who work")
        await asyncio.sleep(seconds)
        if journal is not None:
            # All that was sent may be answered just now. A server that is held up answers no more of what the users send.
            os.kill(front.child, signal.SIGSTOP)
            await until(lambda: end_of(JournalSettings(journal)).answered < last_line(JournalSettings(journal)), "a line without a reply")
        os.kill(front.process.pid, signal.SIGKILL)
        killed = time.monotonic()
        await work
        # Its lock of the journal is free then at the latest.
        await asyncio.to_thread(front.process.wait)
        for person in people:
            await person.http.close()
        return killed

    async def counted(self, front: Front) -> dict[int, str]:
        """What is at the nodes."""
        found: dict[int, str] = {}
        async with front.person("ada") as ada:
            await ada.line('S K=""')
            while True:
                record = await ada.line(f'F I=1:1:{AT_ONCE} S K=$O(^N(K)) Q:K=""  W K,":",^N(K),!')
                # A part that is cut off, or not written, would look like nodes that are lost.
                assert record["code"] is None and "cut" not in record, (record["code"], record.get("cut"))
                found |= {int(line.split(":")[0]): line.split(":")[1] for line in record["output"]}
                if len(record["output"]) < AT_ONCE:
                    return found

    async def holds(self, front: Front, number: int) -> None:
        """Holds what is at the nodes against what was promised; `number` says after which kill. Each fault shows by its nodes."""
        found = await self.counted(front)
        lost, strange, again = self.answered - found.keys(), found.keys() - self.sent, {node: value for node, value in found.items() if value != "1"}
        assert not lost, f"kill {number}: answered, and not there: {sorted(lost)}"
        assert not strange, f"kill {number}: there, and never sent: {sorted(strange)}"
        assert not again, f"kill {number}: not run once: {again}"
