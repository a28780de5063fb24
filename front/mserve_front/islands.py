# SPDX-License-Identifier: Apache-2.0
"""The islands of a machine: a front with its server for each, in a process of its own, with a journal in the database under the island's name.

An island moves by its journal: the target stands by until it has caught up, the machine before ends its front in order, and the target is promoted."""
from __future__ import annotations

import asyncio
import contextlib
import json
import os
import signal
import socket
import time
from dataclasses import asdict, dataclass, field
from pathlib import Path

from .connection import HOST
from .control import ControlError, asked
from .doors import held
from .folders import write_whole
from .fork_server import ForkServer, Forked, Wanted
from .placement import FRONT, HERE, LEFT, MOVING, READY, TAKING, Island, Machine, Placed
from .places import first_of
from .preamble import new_secret
from .server import Condition, tell
from .settings import JournalSettings, Limits
from .standing import place_of, read_standing
from .users import BadUsers, Users, load, save

# Seconds between two looks at the placement, and before a front that ended is started again.
LOOK, PAUSE = 0.3, 1.0
# The longest pause, of a front that ends again and again.
LONGEST = 30.0
# Seconds for an answer of a front, and for its end; and after which it surely hears signals.
ANSWER, ENDING, SETTLED = 5.0, 20.0, 10.0
# Lines that a standby lags at most when the front of the machine before is ended.
NEAR = 200


@dataclass(frozen=True, slots=True)
class Home:
    """Where a machine keeps its islands, and what all their fronts have in common: characters, limits, and whether the audit log has texts. Without a
    database their journals are in folders beside their stores."""

    machine: Machine
    folder: Path
    users: Path
    database: str | None
    program: str
    origins: tuple[str, ...]
    text: str = "ascii"
    texts: bool = False
    limits: Limits = field(default_factory=Limits)


@dataclass(eq=False, slots=True)
class IslandFront:
    """The front of an island: its ports, its process, whether it stands by, and its server's settings. The gate holds the ports, so that no other user of the
    machine has one of them before the front listens, or after its end, and is handed users."""

    island: str
    places: dict[str, socket.socket]
    follows: bool
    settings: str
    pause: float = PAUSE
    process: Forked | None = None
    began: float = field(default_factory=time.monotonic)
    told: str = ""
    # Whether it is to open its audit log again, and waits for that.
    reopens: bool = False

    @property
    def runs(self) -> bool:
        """Whether its process is there."""
        return self.process is not None and not self.process.over

    def port(self, kind: str) -> int:
        """The port of a kind."""
        return int(self.places[kind].getsockname()[1])

    def close(self) -> None:
        """Holds its ports no more."""
        for place in self.places.values():
            place.close()


class Islands:
    """Keeps the fronts of this machine as the placement says. `placed` and `machines` are what it said last; `of_account` has the island of an account,
    and `of_token` the user of a token's hash."""

    def __init__(self, home: Home, placement: Placed, fork_server: ForkServer) -> None:
        self._home = home
        self._placement = placement
        self._fronts: dict[str, IslandFront] = {}
        self._users: Users = {}
        self._seen = 0
        self._fault = Condition("the islands stay as they are: {}", "the placement can be read again")
        self._of_users = Condition("the users stay as they were: {}", "the users can be read again")
        self._reopening: set[asyncio.Task[None]] = set()
        self._fork_server = fork_server
        # What this machine's gate and its fronts have in common, and nobody else.
        self.secret = new_secret()
        self.placed: dict[str, Island] = {}
        self.machines: dict[str, Machine] = {}
        self.of_account: dict[str, str] = {}
        self.of_token: dict[str, str] = {}

    @property
    def users(self) -> Users:
        """All users, of all islands."""
        return self._users

    def port(self, island: str, kind: str) -> int | None:
        """The port of an island's front here, or None if it does not serve here."""
        front = self._fronts.get(island)
        return front.port(kind) if front is not None and not front.follows else None

    async def begin(self) -> None:
        """Notes where this machine is, and reads the placement once. Raises `LogFault` or `BadUsers`."""
        await asyncio.to_thread(self._placement.make)
        await asyncio.to_thread(self._placement.enter, self._home.machine)
        await self._read_users()
        await self._look()

    async def run(self) -> None:
        """Does what the placement says, again and again."""
        while True:
            try:
                await self._look()
                ends = await asyncio.gather(*(self._turn(island) for island in self._concerned()), return_exceptions=True)
                for error in ends:
                    if isinstance(error, BaseException):
                        raise error
                self._fault.goes()
            except Exception as error:
                # Whatever it was: the islands that run go on, and it is tried again.
                self._fault.comes(error)
            await asyncio.sleep(LOOK)

    def reopen(self) -> None:
        """Has all fronts open their audit logs again, and take the limits. One that has just begun is left alone for a while: it does not hear of it yet, and
        would end."""
        for front in self._fronts.values():
            # One that waits yet takes what has changed meanwhile, too.
            if not front.reopens:
                front.reopens = True
                task = asyncio.create_task(self._reopens(front))
                self._reopening.add(task)
                task.add_done_callback(self._reopening.discard)

    async def _reopens(self, front: IslandFront) -> None:
        await asyncio.sleep(max(0.0, front.began + SETTLED - time.monotonic()))
        front.reopens = False
        if front.runs:
            with contextlib.suppress(OSError):
                # On a disk that is full the log is to be opened again all the same.
                await asyncio.to_thread(self._write_front, front)
        # Looked at again: it may have ended meanwhile.
        if front.process is not None and front.runs:
            front.process.send_signal(signal.SIGHUP)

    async def end(self) -> None:
        """Ends all fronts in order."""
        for task in self._reopening:
            task.cancel()
        await asyncio.gather(*(self._ended(name) for name in list(self._fronts)))
        self._placement.close()

    def _concerned(self) -> list[Island]:
        """The islands that are here, were here, or are to come."""
        me = self._home.machine.name
        return [island for island in self.placed.values() if me in (island.machine, island.target) or island.name in self._fronts]

    async def _look(self) -> None:
        # Neither holds the other up: users come and go while the placement cannot be read, and islands start, move and end whatever the users' file is.
        try:
            await self._read_users()
            self._of_users.goes()
        except (BadUsers, OSError) as error:
            self._of_users.comes(error)
        placed = await asyncio.to_thread(self._placement.islands)
        self.machines = await asyncio.to_thread(self._placement.machines)
        if placed is not self.placed:
            self.placed = placed
            self.of_account = {account: island.name for island in placed.values() for account in island.accounts}
        for name in [name for name in self._fronts if name not in self.placed]:
            await self._ended(name)

    async def _turn(self, island: Island) -> None:
        """Does what an island's state asks of this machine."""
        me = self._home.machine.name
        if island.target == me and island.state in (MOVING, READY, TAKING):
            await self._served(island, follows=True)
            if island.state != READY and await self._caught_up(island.name):
                await asyncio.to_thread(self._placement.turn, island.name, island.state, READY if island.state == MOVING else LEFT)
        elif island.target == me and island.state == LEFT:
            await self._promoted(island)
        if island.machine == me and island.state in (HERE, MOVING):
            await self._served(island, follows=False)
        elif island.machine == me and island.state == READY:
            tell(f"island {island.name} goes to {island.target}")
            await self._ended(island.name, signal.SIGUSR1)
            await asyncio.to_thread(self._placement.turn, island.name, READY, LEFT)
        elif island.target != me:
            await self._ended(island.name)

    async def _served(self, island: Island, follows: bool) -> None:
        """Starts the front of an island, if it does not run."""
        front = self._fronts.get(island.name)
        if front is not None and front.runs:
            if front.follows == follows and front.settings == island.settings:
                return
            if front.settings != island.settings:
                tell(f"island {island.name} is started again, with other settings")
            await self._ended(island.name)
        elif front is not None and time.monotonic() - front.began < front.pause:
            return
        if front is not None:
            front.close()
        pause = PAUSE if front is None or time.monotonic() - front.began > 2 * LONGEST else min(2 * front.pause, LONGEST)
        front = IslandFront(island.name, {kind: held(HOST, 0, shared=True) for kind in ("http", "lines")}, follows, island.settings, pause)
        self._fronts[island.name] = front
        if follows:
            await asyncio.to_thread(self._put_aside, island.name)
        # Apart: a disk takes its time, and users of other islands go on.
        path = await asyncio.to_thread(self._written, island, front)
        words = [*(["--follow"] if follows else []), "--config", str(path)]
        front.process = await self._fork_server.front(Wanted(f"mfront {island.name}", words, self._home.database is not None))

    def _put_aside(self, name: str) -> None:
        """Puts the store of an island aside that is to stand by, if it cannot begin with that. Raises `LogFault`."""
        store, home = self.folder(name) / "store", self._home
        standing = read_standing(store)
        kept = JournalSettings(database=home.database, name=name) if home.database is not None else JournalSettings(self.folder(name) / "journal")
        put_aside(store, 1 if standing is None or standing.number is None else first_of(kept))

    async def _ended(self, name: str, how: signal.Signals = signal.SIGTERM) -> None:
        """Ends the front of an island in order, if it runs here; by SIGUSR1 it tells its users that they have moved."""
        front = self._fronts.pop(name, None)
        if front is None:
            return
        if front.process is not None and front.runs:
            front.process.send_signal(how)
            try:
                await asyncio.wait_for(front.process.wait(), ENDING)
            except TimeoutError:
                front.process.send_signal(signal.SIGKILL)
                await front.process.wait()
        front.close()

    async def _caught_up(self, name: str) -> bool:
        try:
            found = await asyncio.to_thread(asked, self.folder(name) / "mfront.control", {"ask": "status"}, ANSWER)
        except ControlError:
            return False
        if found.get("differs") is True:
            # Its store is of no use, and nobody looks after it: it begins with the journal.
            tell(f"island {name}: the standby begins with the journal: {found['fault']}")
            await self._ended(name)
            return False
        if found["fault"]:
            self._tell_once(name, f"island {name} does not come yet: {found['fault']}")
        # Where users never rest there is always a line to come: the few that are left are run at the promotion.
        return found["state"] == "standby" and found["fault"] == "" and int(str(found["behind"])) <= NEAR

    async def _promoted(self, island: Island) -> None:
        """Promotes the front that stands by, and notes that the island is here."""
        front = self._fronts.get(island.name)
        if front is None or not front.runs:
            await self._served(island, follows=True)
            return
        try:
            if front.follows:
                await asyncio.to_thread(asked, self.folder(island.name) / "mfront.control", {"ask": "promote"}, None)
                front.follows = False
        except ControlError as error:
            self._tell_once(island.name, f"island {island.name}: {error}")
            return
        await asyncio.to_thread(self._placement.arrived, island.name, self._home.machine.name)
        tell(f"island {island.name} is here")

    def _tell_once(self, name: str, text: str) -> None:
        """Tells what the front of an island says: it is asked again and again."""
        front = self._fronts.get(name)
        if front is not None and front.told != text:
            front.told = text
            tell(text)

    def folder(self, name: str) -> Path:
        """The folder of an island on this machine."""
        return self._home.folder / name

    def _written(self, island: Island, front: IslandFront) -> Path:
        """Writes the settings of an island's front, and gives their path."""
        folder = self.folder(island.name)
        folder.mkdir(mode=0o700, parents=True, exist_ok=True)
        write_whole(folder / "settings.toml", island.settings.encode())
        write_secret(folder / "gate.secret", self.secret)
        if not (folder / "metrics.token").exists():
            write_secret(folder / "metrics.token", new_secret())
        self._write_users(island)
        return self._write_front(front)

    def _write_front(self, front: IslandFront) -> Path:
        """Writes what the front of an island reads at its start and at a reload, and gives the path."""
        folder, home = self.folder(front.island), self._home
        tables: dict[str, dict[str, object]] = {
                  "server": {"program": home.program, "settings": "settings.toml", "store": "store", "text": home.text},
                  "listen": {"port": front.port("http"), "lines_port": front.port("lines"), "origins": list(home.origins), "gate": "gate.secret"},
                  # One machine's file can be changed here; that of several is for who keeps it.
                  "users": {"file": "users.json", "gate": str(home.users)} | ({"machine": str(home.users)} if home.database is None else {}),
                  "audit": {"file": "audit.log", "texts": home.texts},
                  "journal": {"backup": "backup"} | ({"folder": "journal"} if home.database is None else {"database": home.database, "name": front.island}),
                  "metrics": {"token": "metrics.token"}, "admin": {"socket": "admin.socket"},
                  "limits": {name: int(value) for name, value in asdict(home.limits).items()}}
        text = "".join(f"[{name}]\n" + "".join(f"{key} = {json.dumps(value)}\n" for key, value in keys.items()) for name, keys in tables.items())
        write_whole(folder / FRONT, text.encode())
        return folder / FRONT

    async def _read_users(self) -> None:
        """Reads the users of all islands, if their file has changed, and gives each island its own."""
        changed = self._home.users.stat().st_mtime_ns
        if changed == self._seen:
            return
        self._users = await asyncio.to_thread(load, self._home.users)
        self.of_token = {token.hash: name for name, user in self._users.items() for token in user.tokens.values()}
        for island in [self.placed[name] for name in self._fronts if name in self.placed]:
            await asyncio.to_thread(self._write_users, island)
        # This comes last: what could not be written is written at the next look.
        self._seen = changed

    def _write_users(self, island: Island) -> None:
        with contextlib.suppress(FileNotFoundError):
            save(self.folder(island.name) / "users.json", {name: user for name, user in self._users.items() if user.account in island.accounts})


def write_secret(path: Path, secret: str) -> None:
    """Writes a secret that its owner alone may read."""
    with open(os.open(path, os.O_WRONLY | os.O_CREAT | os.O_TRUNC, 0o600), "w", encoding="ascii") as file:
        file.write(secret + "\n")


def put_aside(store: Path, first: int = 1) -> None:
    """Renames a store of which nobody knows which line it is at, or that comes before what the journal has, which begins with the line `first`: what
    stands by begins with the journal, or with a snapshot. It is served elsewhere, or was."""
    standing = read_standing(store)
    if store.exists() and (standing is None or standing.number is None or standing.number < first - 1):
        for path in (store, store.with_name(store.name + "-wal"), place_of(store)):
            if path.exists():
                path.rename(path.with_name(f"{path.name}.old"))
