# SPDX-License-Identifier: Apache-2.0
"""A leader and its standby that meet troubles."""
from __future__ import annotations

import asyncio
import contextlib
import shutil
import signal
import time
from pathlib import Path

from database import Cluster
from front import Front, Patience, Person, tool
from mserve_front.control import ControlError, asked
from mserve_front.islands import NEAR, put_aside
from standing_by import takes_over
from test_replay import backup
from troubles import Troubled, catching_up


class Pair(Troubled):
    """A leader and its standby, over one journal, in files or in a table of a database; they change places."""

    def __init__(self, folder: Path, cluster: Cluster | None = None) -> None:
        super().__init__(folder, cluster)
        # Where a journal is long, a new standby begins with a snapshot.
        self.long = False
        self.leader = self._front("one")
        try:
            self.second = self._front("two", "--follow")
        except BaseException:
            self.leader.stop()
            raise
        self.acts = {"go on": self.goes_on, "promote": self.promotes, "gone": self.is_gone, "in order": self.in_order, "move": self.moves}

    @property
    def journal(self) -> list[str]:
        return ["--folder", str(self.folder / "journal")] if self.cluster is None else ["--database", self.cluster.place, "--name", "matrix"]

    def _front(self, name: str, *words: str) -> Front:
        (self.folder / name).mkdir()
        journal = {"folder": str(self.folder / "journal"), "roll": 65_536} if self.cluster is None else {"database": self.cluster.place, "name": "matrix"}
        before = ["env", *(f"{key}={text}" for key, text in self.environment(self.folder / name).items())]
        return Front(self.folder / name, None, store="store.db", journal=journal, words=list(words), before=before,
                     awaited="standing by" if words else "serving at")

    def person(self, name: str) -> Person:
        return self.leader.person(name)

    def told(self) -> str:
        return f"leader {self.leader.told()}; standby {self.second.told()}"

    async def serves(self) -> None:
        await self.caught_up()

    async def ends(self) -> list[Path]:
        await asyncio.to_thread(self.leader.stop)
        await self.caught_up()
        assert self.second.stop() == 0
        return [front.folder / "store.db" for front in (self.leader, self.second)]

    def stop(self) -> None:
        self.leader.stop()
        self.second.stop()

    def runs(self, what: str) -> bool:
        return self.leader.process.poll() is None

    def kill_server(self) -> None:
        with contextlib.suppress(IndexError, OSError):
            self.leader.kill_child()

    async def goes_on(self) -> None:
        """The leader is started again, unless it runs."""
        await asyncio.sleep(0.3)
        if self.leader.process.poll() is not None:
            await asyncio.to_thread(self.leader.again)

    async def promotes(self) -> None:
        """The leader ends, as it is; the standby serves, and the leader stands by: over its own store if that is as the journal's, else with a snapshot."""
        self.leader.process.kill()
        await asyncio.to_thread(self.leader.process.wait)
        await self._taken_over()
        self._change_places()
        try:
            await asyncio.to_thread(self.second.again)
        except RuntimeError as error:
            assert "had no reply then, and may have been run" in str(error), str(error)
            await asyncio.to_thread(self.begins_with_a_snapshot)

    def _change_places(self) -> None:
        """The standby leads, and the leader is to stand by at its next start."""
        self.leader, self.second = self.second, self.leader
        self.leader.words([])
        self.second.words(["--follow"], "standing by")

    async def moves(self) -> None:
        """The standby catches up while users work, the leader ends in order, and the standby is promoted. The leader stands by then; a store of which nobody
        knows where it stands is put aside."""
        await self.goes_on()
        await self.caught_up(NEAR)
        self.leader.process.send_signal(signal.SIGUSR1)
        assert await asyncio.to_thread(self.leader.process.wait, 2 * Patience.seconds) == 0
        await self._taken_over()
        self._change_places()
        store = self.second.folder / "store.db"
        put_aside(store)
        # The beginning of a long journal may be gone.
        await asyncio.to_thread(self.begins_with_a_snapshot if self.long and not store.exists() else self.second.again)

    async def _taken_over(self) -> None:
        """The standby is promoted. A database gives the lock back a moment after the leader's end."""
        while why := await asyncio.to_thread(takes_over, self.second):
            assert self.cluster is not None and ("another front writes" in why or "database: " in why), why
            await asyncio.sleep(0.2)

    def begins_with_a_snapshot(self) -> None:
        """The standby's store is put back."""
        snapshot = backup(self.leader, "--end-sessions")
        self._lose_store()
        assert tool("mbackup")("restore", snapshot, self.second.folder / "store.db")[0] == 0
        shutil.rmtree(snapshot)
        self.second.again()

    async def is_gone(self) -> None:
        """The leader's machine is gone; the standby serves, and another machine stands by from the journal's beginning, or from a snapshot."""
        self.leader.process.kill()
        await asyncio.to_thread(self.leader.process.wait)
        await self._taken_over()
        self._change_places()
        self._lose_store()
        await asyncio.to_thread(self.begins_with_a_snapshot if self.long else self.second.again)

    def _lose_store(self) -> None:
        for end in ("", "-wal", ".at", ".head"):
            (self.second.folder / f"store.db{end}").unlink(missing_ok=True)

    async def in_order(self) -> None:
        """The leader is stopped in order, if it runs, and started again."""
        await asyncio.sleep(0.3)
        if self.leader.process.poll() is None:
            assert await asyncio.to_thread(self.leader.stop) == 0
        await asyncio.to_thread(self.leader.again)

    async def caught_up(self, behind: int = 0) -> None:
        """Waits until the standby has run all but this many lines, and has its store as the leader's."""
        control = self.second.folder / "mfront.control"

        def near() -> bool:
            try:
                status = asked(control, {"ask": "status"}, 10)
            except ControlError:
                return False
            assert not status.get("differs"), status
            return int(str(status["behind"])) <= behind and (bool(status["caught up"]) or behind > 0 and status["fault"] == "")
        end = catching_up()
        while not await asyncio.to_thread(near):
            assert time.monotonic() < end, "a standby that has not caught up"
            await asyncio.sleep(0.1)
