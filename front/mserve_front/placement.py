# SPDX-License-Identifier: Apache-2.0
"""Which machine has which island: two tables of the database in which the journals are, or a file where there is one machine.

An island is a set of accounts that no grant ties to others, with settings of its own. Its states: `here`, its machine serves it; `moving`, its target
stands by and catches up; `ready`, it has; `left`, the machine before has ended; `taking`, as `moving`, and the machine before is gone."""
from __future__ import annotations

import contextlib
import fcntl
import json
import re
import threading
from collections.abc import Iterator
from dataclasses import dataclass, replace
from pathlib import Path
from typing import TYPE_CHECKING, Any, Protocol

from mserve_client import settings_file

from .folders import give_to_owner, write_whole
from .journal import LogFault

if TYPE_CHECKING:
    import psycopg

TABLES = ("""CREATE TABLE IF NOT EXISTS mfront_machine (name text PRIMARY KEY, host text NOT NULL, port integer NOT NULL)""",
          """CREATE TABLE IF NOT EXISTS mfront_island (
    name text PRIMARY KEY, machine text NOT NULL REFERENCES mfront_machine, target text REFERENCES mfront_machine, state text NOT NULL,
    accounts text[] NOT NULL, settings text NOT NULL)""")
# What differs once a row has come, gone or changed: each has the number of the transaction that wrote it. To read all rows takes far longer.
CHANGES = "SELECT count(*), md5(string_agg(name || ' ' || xmin::text, ',' ORDER BY name)) FROM mfront_island"
NAME = re.compile(r"[A-Za-z0-9][A-Za-z0-9_-]{0,31}", re.ASCII)
HERE, MOVING, READY, LEFT, TAKING = "here", "moving", "ready", "left", "taking"
# What the folder of an island that was served has: the settings of its front.
FRONT = "front.toml"


class BadPlacement(Exception):
    """An island or a machine is not as it is to be; the text says why."""


@dataclass(frozen=True, slots=True)
class Island:
    """An island: where it is, where it is to go, if it is, and what its server is to be."""

    name: str
    machine: str
    target: str | None
    state: str
    accounts: tuple[str, ...]
    settings: str


@dataclass(frozen=True, slots=True)
class Machine:
    """A machine, and where others reach it."""

    name: str
    host: str
    port: int


class Placed(Protocol):
    """Where each island is. Each call may wait for the database or the disk, and raises `LogFault` if that is away."""

    def make(self) -> None:
        """Makes what it is kept in, if that is not there."""

    def machines(self) -> dict[str, Machine]:
        """All machines."""

    def islands(self) -> dict[str, Island]:
        """All islands; the same dictionary as long as none has changed."""

    def enter(self, machine: Machine) -> None:
        """Notes where a machine is reached."""

    def put(self, name: str, settings: str, machine: str) -> None:
        """Puts a new island on a machine. Raises `BadPlacement`."""

    def change(self, name: str, settings: str) -> None:
        """Gives an island other settings. Raises `BadPlacement`."""

    def remove(self, name: str) -> None:
        """Takes an island away, which nobody serves then; its data stay. Raises `BadPlacement`."""

    def move(self, name: str, target: str, gone: bool) -> None:
        """Has an island move to a machine; `gone` says that its own has ended. Raises `BadPlacement`."""

    def turn(self, name: str, before: str, after: str) -> None:
        """Takes an island on from a state to the next, if it is still in that."""

    def arrived(self, name: str, machine: str) -> None:
        """Notes that an island is at its target."""

    def close(self) -> None:
        """Leaves it."""


class Placement:
    """The tables. Each call asks the database, and raises `LogFault` if that is away."""

    def __init__(self, place: str) -> None:
        self._place = place
        self._base: psycopg.Connection[Any] | None = None
        self._turn = threading.Lock()
        self._seen: list[tuple[Any, ...]] = []
        self._islands: dict[str, Island] = {}

    def make(self) -> None:
        """Makes the tables, if they are not there."""
        for table in TABLES:
            self._ask(table)

    def machines(self) -> dict[str, Machine]:
        """All machines."""
        return {row[0]: Machine(*row) for row in self._ask("SELECT name, host, port FROM mfront_machine")}

    def islands(self) -> dict[str, Island]:
        """All islands. They are read again if one has changed since the last time; if none has, it is the same dictionary."""
        seen = self._ask(CHANGES)
        if seen != self._seen:
            rows = self._ask("SELECT name, machine, target, state, accounts, settings FROM mfront_island ORDER BY name")
            self._islands = {row[0]: Island(row[0], row[1], row[2], row[3], tuple(row[4]), row[5]) for row in rows}
            self._seen = seen
        return self._islands

    def enter(self, machine: Machine) -> None:
        """Notes where a machine is reached."""
        self._ask("INSERT INTO mfront_machine VALUES (%s, %s, %s) ON CONFLICT (name) DO UPDATE SET host = excluded.host, port = excluded.port",
                  machine.name, machine.host, machine.port)

    def put(self, name: str, settings: str, machine: str) -> None:
        """Puts a new island on a machine. Raises `BadPlacement`."""
        accounts = accounts_of(name, settings)
        self._known(machine)
        refuse_common(name, accounts, self.islands())
        self._ask("INSERT INTO mfront_island VALUES (%s, %s, NULL, %s, %s, %s)", name, machine, HERE, list(accounts), settings)

    def change(self, name: str, settings: str) -> None:
        """Gives an island that is not on its way other settings. Raises `BadPlacement`."""
        accounts = refuse_change(name, settings, self.islands())
        self._here("UPDATE mfront_island SET settings = %s, accounts = %s", name, settings, list(accounts))

    def remove(self, name: str) -> None:
        """Takes an island away that is not on its way. Raises `BadPlacement`."""
        rests(name, self.islands(), "remove")
        self._here("DELETE FROM mfront_island", name)

    def move(self, name: str, target: str, gone: bool) -> None:
        """Has an island move to a machine; `gone` says that its own has ended. Raises `BadPlacement`."""
        self._known(target)
        island = self.islands().get(name)
        if island is None:
            raise BadPlacement(f"{name}: there is no such island")
        if island.machine == target:
            self._stays(island)
            return
        if island.state != HERE and not gone:
            raise BadPlacement(f"{name}: it is on its way to {island.target}")
        self._ask("UPDATE mfront_island SET target = %s, state = %s WHERE name = %s", target, TAKING if gone else MOVING, name)

    def _stays(self, island: Island) -> None:
        """Has an island stay that has not left yet. Raises `BadPlacement`."""
        if island.state not in (MOVING, TAKING):
            raise BadPlacement(f"{island.name}: it is at {island.machine}" + (f", and leaves it for {island.target}" if island.target else ""))
        if not self._ask("UPDATE mfront_island SET target = NULL, state = %s WHERE name = %s AND state = %s RETURNING name", HERE, island.name, island.state):
            raise BadPlacement(f"{island.name}: it has just left {island.machine}: look at it again (mgate list)")

    def turn(self, name: str, before: str, after: str) -> None:
        """Takes an island on from a state to the next, if it is still in that."""
        self._ask("UPDATE mfront_island SET state = %s WHERE name = %s AND state = %s", after, name, before)

    def arrived(self, name: str, machine: str) -> None:
        """Notes that an island is at its target."""
        self._ask("UPDATE mfront_island SET machine = %s, target = NULL, state = %s WHERE name = %s AND target = %s", machine, HERE, name, machine)

    def close(self) -> None:
        """Ends the connection."""
        if self._base is not None:
            self._base.close()
            self._base = None

    def _here(self, statement: str, name: str, *given: object) -> None:
        """Does something to an island, unless it has begun to move meanwhile. Raises `BadPlacement`."""
        if not self._ask(f"{statement} WHERE name = %s AND state = %s RETURNING name", *given, name, HERE):
            raise BadPlacement(f"{name}: it has just begun to move, or was removed: look at it again (mgate list)")

    def _known(self, machine: str) -> None:
        if machine not in self.machines():
            raise BadPlacement(f"{machine}: there is no such machine: start its mgate first")

    def _ask(self, statement: str, *given: object) -> list[tuple[Any, ...]]:
        with self._turn:
            # Not above: it needs a package that a machine alone does without.
            from .journal_table import connected, faults
            if self._base is None or self._base.closed:
                self._base = connected(self._place)
            try:
                with faults():
                    found = self._base.execute(statement, given)
                    return found.fetchall() if found.description else []
            except LogFault:
                self.close()
                raise


class LocalPlacement:
    """The islands of the one machine that there is: a file in its folder."""

    def __init__(self, folder: Path, machine: Machine) -> None:
        self._path = folder / "placement.json"
        self._machine = machine
        self._seen = 0
        self._islands: dict[str, Island] = {}

    def make(self) -> None:
        """Makes the folder, if it is not there."""
        if not self._path.parent.exists():
            self._path.parent.mkdir(mode=0o700, parents=True, exist_ok=True)
            give_to_owner(self._path.parent)

    def machines(self) -> dict[str, Machine]:
        """The machine."""
        return {self._machine.name: self._machine}

    def islands(self) -> dict[str, Island]:
        """All islands; the same dictionary as long as none has changed. Raises `LogFault` if the file cannot be read, or was there and is gone, by what is
        known or by what fronts have left in the folder: the islands have not left with it."""
        try:
            changed = self._path.stat().st_mtime_ns
            if changed != self._seen:
                found = json.loads(self._path.read_bytes())
                self._islands = {name: Island(name, self._machine.name, None, HERE, tuple(one["accounts"]), one["settings"]) for name, one in found.items()}
                self._seen = changed
        except FileNotFoundError as error:
            if self._seen or any(self._path.parent.glob(f"*/{FRONT}")):
                raise LogFault(f"{self._path}: it is gone: put it back") from error
        except (OSError, ValueError, KeyError, TypeError, AttributeError) as error:
            raise LogFault(f"{self._path}: cannot be read: {error}") from error
        return self._islands

    def enter(self, machine: Machine) -> None:
        """There is no other one that would want to know."""

    def put(self, name: str, settings: str, machine: str) -> None:
        """Puts a new island on the machine. Raises `BadPlacement`."""
        self.put_all({name: settings}, machine)

    def put_all(self, settings: dict[str, str], machine: str) -> None:
        """Puts new islands on the machine, all of them or none. Raises `BadPlacement`."""
        if machine != self._machine.name:
            raise BadPlacement(f"{machine}: there is no such machine: this is {self._machine.name}, and it is alone")
        with self._changed() as found:
            for name, text in settings.items():
                accounts = accounts_of(name, text)
                refuse_common(name, accounts, found)
                found[name] = Island(name, machine, None, HERE, accounts, text)

    def change(self, name: str, settings: str) -> None:
        """Gives an island other settings. Raises `BadPlacement`."""
        with self._changed() as found:
            accounts = refuse_change(name, settings, found)
            found[name] = replace(found[name], settings=settings, accounts=accounts)

    def remove(self, name: str) -> None:
        """Takes an island away. Raises `BadPlacement`."""
        with self._changed() as found:
            rests(name, found, "remove")
            del found[name]

    @contextlib.contextmanager
    def _changed(self) -> Iterator[dict[str, Island]]:
        """The islands, to be changed; they are written after the block."""
        self.make()
        held = self._path.with_name("placement.lock")
        with held.open("w") as lock:
            fcntl.flock(lock, fcntl.LOCK_EX)
            found = dict(self.islands())
            yield found
            made = {island.name: {"accounts": island.accounts, "settings": island.settings} for island in found.values()}
            write_whole(self._path, json.dumps(made, indent=1).encode() + b"\n")
            # Its gate reads it, and the next command may be that user's.
            for path in (held, self._path):
                give_to_owner(path)

    def move(self, name: str, target: str, gone: bool) -> None:
        """Raises `BadPlacement`: there is no other machine."""
        raise BadPlacement(f"{name}: this machine is alone (machine.database is not given), so it stays here")

    def turn(self, name: str, before: str, after: str) -> None:
        """No island is on its way."""

    def arrived(self, name: str, machine: str) -> None:
        """No island is on its way."""

    def close(self) -> None:
        """Nothing is open."""


def refuse_common(name: str, accounts: tuple[str, ...], islands: dict[str, Island]) -> None:
    """Raises `BadPlacement` if an island of that name is there, or one that has one of the accounts."""
    for other in islands.values():
        if other.name == name:
            raise BadPlacement(f"{name}: there is such an island already")
        if common := sorted(set(accounts) & set(other.accounts)):
            raise BadPlacement(f"{', '.join(common)}: the island {other.name} has it already")


def refuse_change(name: str, settings: str, islands: dict[str, Island]) -> tuple[str, ...]:
    """The accounts of an island by other settings. Raises `BadPlacement` if there is no such island, it is on its way, an account of it is missing, or
    another island has one of them."""
    accounts, island = accounts_of(name, settings), rests(name, islands, "change")
    if missing := sorted(set(island.accounts) - set(accounts)):
        raise BadPlacement(f"{name}: {', '.join(missing)}: these settings do not have it, and its globals would be nobody's")
    refuse_common("", accounts, {other: one for other, one in islands.items() if other != name})
    return accounts


def rests(name: str, islands: dict[str, Island], act: str) -> Island:
    """An island. Raises `BadPlacement` if there is none of that name, or if it is on its way."""
    island = islands.get(name)
    if island is None:
        raise BadPlacement(f"{name}: there is no such island")
    if island.state != HERE:
        raise BadPlacement(f"{name}: it is on its way to {island.target}: {act} it once it is there")
    return island


def accounts_of(name: str, settings: str) -> tuple[str, ...]:
    """The accounts of an island's settings. Raises `BadPlacement`."""
    if not NAME.fullmatch(name):
        raise BadPlacement(f"{name!r} is no name of an island: 1 to 32 letters, digits, _ and -, the first a letter or a digit")
    try:
        accounts = tuple(settings_file.parsed(f"{name}: these are no settings of a server", settings.encode()).names)
    except settings_file.BadSettings as error:
        raise BadPlacement(str(error)) from error
    if not accounts:
        raise BadPlacement(f"{name}: these settings have no account")
    return accounts
