# SPDX-License-Identifier: Apache-2.0
"""An island at gates that meets troubles: whole machines die, and the island moves. Or its machine is alone, with the journal in files."""
from __future__ import annotations

import asyncio
import contextlib
import os
import signal
import time
from pathlib import Path

from database import Cluster
from front import FRONT, SETTINGS, USERS, Person, write_users
from machines import HOSTS, Gate, certificates, ports
from measured import fronts_of, started_by
from mserve_front.placement import Placement
from running import PROGRAM
from troubles import Troubled, catching_up

ISLAND = "matrix"


class Gated(Troubled):
    """What all have: an island at one of its gates, `here`, and users who come by one of them, `users`. Each gate is started again once it died."""

    gates: dict[str, Gate]
    here, users = "one", "one"

    def __init__(self, folder: Path, cluster: Cluster | None) -> None:
        super().__init__(folder, cluster)
        folder.chmod(0o755)
        for name in ("authority", "islands"):
            (folder / name).mkdir()
        certificates(folder / "authority")
        write_users(folder / "islands" / "users.json", USERS)

    def person(self, name: str) -> Person:
        return Person(self.gates[self.users], name)

    def told(self) -> str:
        return "; ".join(f"{name}: {gate.told()}" for name, gate in self.gates.items())

    def runs(self, what: str) -> bool:
        # A front that ends alone is started again at once.
        return what == "machine" and self.gates[self.here].process.poll() is None

    def kill_server(self) -> None:
        with contextlib.suppress(OSError):
            for pid in started_by(fronts_of(self.gates[self.here].process.pid)):
                os.kill(pid, signal.SIGKILL)

    async def serves(self) -> None:
        end = catching_up()
        while not await self._served():
            assert time.monotonic() < end, "users who are not served again"
            await asyncio.sleep(0.2)

    async def _served(self) -> bool:
        person = self.person("dora")
        try:
            if not await person.signs_on():
                return False
            await person.sign_off()
            return True
        finally:
            await person.http.close()

    async def goes_on(self) -> None:
        """The machine is started again, if it died; what ended on it is started again by its gate."""
        await asyncio.sleep(0.3)
        if self.gates[self.here].process.poll() is not None:
            await asyncio.to_thread(self.gates[self.here].again)

    async def in_order(self) -> None:
        """The machine's gate is stopped in order, if it runs, and started again."""
        await asyncio.sleep(0.3)
        gate = self.gates[self.here]
        if gate.process.poll() is None:
            assert await asyncio.to_thread(gate.stop) == 0
        await asyncio.to_thread(gate.again)

    async def ends(self) -> list[Path]:
        for gate in self.gates.values():
            assert await asyncio.to_thread(gate.stop) == 0
        return [self.gates[self.here].folder / "islands" / ISLAND / "store"]

    def stop(self) -> None:
        for gate in self.gates.values():
            gate.stop()


class Alone(Gated):
    """A machine that is alone: its placement and the island's journal are in files."""

    def __init__(self, folder: Path) -> None:
        super().__init__(folder, None)
        self.gates = {"one": LoneGate(folder, self.environment(folder / "one"))}
        self.acts = {"go on": self.goes_on, "in order": self.in_order}
        ran = self.gates["one"].does("place", ISLAND, SETTINGS, "one")
        assert ran[0] == 0, ran[2]
        asyncio.run(self.serves())

    @property
    def journal(self) -> list[str]:
        return ["--folder", str(self.gates["one"].folder / "islands" / ISLAND / "journal")]


class LoneGate(Gate):
    """Its gate."""

    def __init__(self, folder: Path, environment: dict[str, str], front: Path = FRONT, program: str = PROGRAM) -> None:
        self.folder, self.name, self.host, self.ports, self.environment, self.front = folder / "one", "one", HOSTS["one"], ports(), environment, front
        self.authority, self.config = folder / "authority" / "authority.pem", self.folder / "machine.toml"
        self.folder.mkdir()
        self.tables = {
            "machine": {"name": "one", "folder": "islands", "users": "../islands/users.json", "program": program},
            "listen": {"host": self.host, "port": self.ports["http"], "lines_port": self.ports["lines"], "origins": [self.origin],
                       "certificate": str(folder / "authority" / "users.pem"), "key": str(folder / "authority" / "users.key")}}
        self.write()
        self.process = self._started()


class Gates(Gated):
    """Two machines over a database, and the gate of a third one by which users come."""

    def __init__(self, folder: Path, cluster: Cluster) -> None:
        super().__init__(folder, cluster)
        shared = ports()
        self.gates, self.there, self.users = {}, "two", "three"
        self.acts = {"go on": self.goes_on, "gone": self.is_gone, "in order": self.in_order, "move": self.moves}
        try:
            for name in HOSTS:
                self.gates[name] = Gate(folder, name, cluster.place, shared, folder / "authority", self.environment(folder / name))
            placement = Placement(cluster.place)
            placement.put(ISLAND, SETTINGS.read_text(), self.here)
            placement.close()
            asyncio.run(self.serves())
        except BaseException:
            # Nobody else knows of them yet.
            self.stop()
            raise

    @property
    def journal(self) -> list[str]:
        return ["--database", self.cluster.place, "--name", ISLAND]

    async def moves(self) -> None:
        """The island moves to the other machine, while its users work."""
        await self.goes_on()
        await self._to_the_other()

    async def is_gone(self) -> None:
        """The island's machine is gone; the other one takes it, and the machine comes back."""
        gone = self.gates[self.here]
        await asyncio.to_thread(gone.kill)
        await self._to_the_other("--gone")
        await asyncio.to_thread(gone.again)

    async def _to_the_other(self, *words: str) -> None:
        """Waits until the other machine has the island. The database may be away for a moment yet."""
        end = catching_up()
        while (ran := await asyncio.to_thread(self.gates[self.users].does, "move", ISLAND, self.there, *words))[0]:
            assert ran[0] == 3 and time.monotonic() < end, ran[2]
            await asyncio.sleep(0.2)
        wanted = [(self.there, "here")]
        while self.cluster.does(f"SELECT machine, state FROM mfront_island WHERE name = '{ISLAND}'") != wanted:
            assert time.monotonic() < end, "an island that has not arrived"
            await asyncio.sleep(0.1)
        self.here, self.there = self.there, self.here
