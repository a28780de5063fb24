#!/usr/bin/python3
# SPDX-License-Identifier: Apache-2.0
"""Two versions over one journal: a leader of another revision, with the program that was released there, hands over to a standby of these sources while
users work, and the other way round. Each reply that the one gave has the same digest from the other, and replays have the same store; or a front that
does not know a record refuses it by name.

Then gates of both versions, on two machines with one database: an island moves from the one to the other and back, while its users come by both gates; and
the gate of a machine is stopped, and one of the other version started there. So is that of a machine that is alone, and the one of before again. What was
answered is there each time, nothing is lost or runs twice, and replays of each version have the same store; or the version that does not know a record says
so, and users work on where they are.

Status 1 if that does not hold."""
from __future__ import annotations

import argparse
import asyncio
import functools
import lzma
import subprocess
import sys
import tempfile
import time
from collections.abc import Awaitable, Callable, Sequence
from dataclasses import dataclass
from pathlib import Path

sys.path[:0] = [str(Path(__file__).resolve().parent / folder) for folder in ("tests", "tests/steps", ".", "../clients", "../tools")]

from database import IN_MEMORY, Cluster  # noqa: E402
from front import FRONT, SETTINGS, Front, Patience, Person, Ran, until, write_users  # noqa: E402
from front import USERS as ACCOUNTS  # noqa: E402
from machines import Gate, certificates, ports  # noqa: E402
from mserve_front.control import ControlError, asked  # noqa: E402
from running import PROGRAM, require_program  # noqa: E402
from test_replay import held, works  # noqa: E402
from test_restarts import Counting  # noqa: E402
from troubled_gates import LoneGate  # noqa: E402

USERS, LINES = ("ada", "ben", "cleo"), 60
SAME = "the same store"
ISLAND = "versions"
# Seconds after which something is missed, unless the words say otherwise.
PATIENT = 120
# What an older front says of a record that it does not know.
LATER = "a later version wrote this journal"


@dataclass(frozen=True, slots=True)
class Version:
    """A front, in its folder, and the program that it starts."""

    name: str
    folder: Path
    program: Path

    def runs(self, command: str, *words: object) -> Ran:
        """Runs a command of its front."""
        done = subprocess.run([sys.executable, self.folder / command, *map(str, words)], capture_output=True, text=True, timeout=300)
        return done.returncode, done.stdout, done.stderr


HERE = Version("these sources", FRONT, Path(PROGRAM))


def unpacked(revision: str, folder: Path) -> Version:
    """The front of a revision, and the program that was released there."""
    archive = subprocess.run(["git", "-C", FRONT.parent, "archive", revision, "front", "clients", "release"], check=True, capture_output=True).stdout
    subprocess.run(["tar", "-x", "-C", folder], input=archive, check=True)
    program = folder / "mserve"
    program.write_bytes(lzma.decompress((folder / "release" / "mserve.xz").read_bytes()))
    program.chmod(0o755)
    return Version(revision, folder / "front", program)


def started(version: Version, folder: Path, journal: Path, *words: str) -> Front:
    """A front of a version over a store of its own."""
    folder.mkdir()
    return Front(folder, None, store="store.db", journal={"folder": str(journal)}, server={"program": str(version.program)}, words=words,
                 command=[sys.executable, str(version.folder / "mfront")], awaited="standing by" if words else "serving at")


async def handed_over(before: Version, after: Version, folder: Path) -> str:
    """Has one version hand over to the other one, and gives what was found. Raises AssertionError or ValueError."""
    journal, fronts = folder / "journal", []
    try:
        for version, name, *words in ((before, "one"), (after, "two", "--follow")):
            fronts.append(started(version, folder / name, journal, *words))
        leader, second = fronts
        status = await followed(leader, second)
        if status is None:
            return f"{before.name} to {after.name}: the standby refuses by name what comes: {LATER}"
        seconds = await taken_over(leader, second, after)
        counting = Counting(USERS)
        counting.begin(second)
        await until(lambda: counting.answered > LINES, "users who work on")
        await counting.end()
        assert second.stop() == 0
    finally:
        for front in fronts:
            front.stop()
    wanted = held(second.folder / "store.db")
    found = {version.name: replayed(version, ("--folder", journal), folder / version.name, wanted) for version in (before, after)}
    assert found[after.name] == SAME
    return (f"{before.name} to {after.name}: {status['line']} lines with one digest, no line was answered for {seconds:.2f} s; "
            f"replays: {', '.join(f'{name}: {how}' for name, how in found.items())}")


def replayed(version: Version, journal: Sequence[object], store: Path, wanted: dict[str, object]) -> str:
    """What a version's replay of all comes to."""
    status, _, told = version.runs("mjournal", *journal, "replay", "--program", version.program, "--store", store)
    assert status == 0 or LATER in told, f"{version.name}: {told}"
    assert status or held(store) == wanted, f"{version.name}: another store"
    return LATER if status else SAME


class Timed(Counting):
    """Users who come by one gate, and when they were answered."""

    def __init__(self, gate: Gate, names: tuple[str, ...]) -> None:
        super().__init__(names)
        self.gate, self.times = gate, [time.monotonic()]

    def person(self, name: str) -> Person:
        """A user there."""
        return Person(self.gate, name)

    def holds(self, name: str, found: int, least: int) -> None:
        super().holds(name, found, least)
        self.times.append(time.monotonic())

    async def work_on(self) -> None:
        """Waits until they have some more answers."""
        wanted = self.answered + LINES // 10
        await until(lambda: self.answered > wanted, "users who work on")

    def longest(self) -> float:
        """The longest time without an answer, since it was asked last."""
        times, self.times = self.times, self.times[-1:]
        return max((after - before for before, after in zip(times, times[1:])), default=0.0)


class Machines:
    """A machine of each version, with one database; users of an island come by both gates."""

    def __init__(self, folder: Path, versions: dict[str, Version]) -> None:
        self.folder, self.versions, self.all, self.cluster = folder, versions, list(versions.values()), Cluster()
        folder.chmod(0o755)
        for name in ("authority", "islands"):
            (folder / name).mkdir()
        certificates(folder / "authority")
        write_users(folder / "islands" / "users.json", ACCOUNTS)
        shared = ports()
        self.gates = {name: Gate(folder, name, self.cluster.place, shared, folder / "authority", front=version.folder,
                                 machine={"program": str(version.program)}) for name, version in versions.items()}
        self.users = [Timed(self.gates["one"], USERS[:2]), Timed(self.gates["two"], USERS[2:])]

    def does(self, machine: str, *words: object) -> None:
        """Runs a command of a machine's gate, which is to end well."""
        status, _, told = self.gates[machine].does(*words)
        assert status == 0, f"{self.versions[machine].name}: mgate {words[0]}: {told}"

    def begin(self) -> None:
        """Places the island on the first machine, and has its users work."""
        self.does("one", "place", ISLAND, SETTINGS, "one")
        for users in self.users:
            users.begin(users)

    async def work_on(self) -> float:
        """Waits until all users have answers again, and gives the longest time that one of them had none."""
        for users in self.users:
            await users.work_on()
        return max(users.longest() for users in self.users)

    async def moves(self, there: str) -> str:
        """Has the island move, by a command of its target, and gives what was found. Where that does not know what the journal has, the island is called
        back."""
        [here] = [name for name in self.gates if name != there]
        await self.work_on()
        before = len(self.gates[there].told())
        await asyncio.to_thread(self.does, there, "move", ISLAND, there)
        await until(lambda: self.at(there) or LATER in self.gates[there].told()[before:], "an island that has arrived")
        how = f"{self.versions[here].name} to {self.versions[there].name}"
        if self.at(there):
            return f"{how}: the island moved, and no line was answered for {await self.work_on():.2f} s"
        await asyncio.to_thread(self.does, here, "move", ISLAND, here)
        return f"{how}: the gate refuses by name what comes: {LATER}; users work on, for {await self.work_on():.2f} s without an answer at most"

    def at(self, machine: str) -> bool:
        """Whether the island is at a machine."""
        return self.cluster.does(f"SELECT machine, state FROM mfront_island WHERE name = '{ISLAND}'") == [(machine, "here")]

    async def is_upgraded(self, machine: str, version: Version) -> str:
        """Stops a machine's gate in order, and starts the one of another version there, as an upgrade does."""
        await self.work_on()
        before, self.versions[machine] = self.versions[machine], version
        how = await becomes(self.gates[machine], version, self.users[list(self.gates).index(machine)])
        await self.work_on()
        return f"{before.name} to {version.name}: a gate that is upgraded: {how}"

    async def end(self, here: str) -> str:
        """Ends all in order, holds the counters against what was answered, and the store against replays of each version."""
        for users in self.users:
            await users.end()
            await users.seen_by(users)
        for gate in self.gates.values():
            assert await asyncio.to_thread(gate.stop) == 0
        wanted = held(self.folder / here / "islands" / ISLAND / "store")
        place = ("--database", self.cluster.place, "--name", ISLAND)
        found = {version.name: replayed(version, place, self.folder / f"replayed-{number}", wanted) for number, version in enumerate(self.all)}
        assert found[self.versions[here].name] == SAME
        return f"{sum(users.answered for users in self.users)} lines, none lost or twice; replays: {', '.join(f'{name}: {how}' for name, how in found.items())}"

    def stop(self) -> None:
        """Ends all that runs."""
        for gate in self.gates.values():
            gate.stop()
        self.cluster.remove()


async def upgraded_alone(before: Version, after: Version, folder: Path) -> list[str]:
    """Has the gate of a machine that is alone be of one version, then of another, and then of the one before, while users work; gives what was found. The
    version before may refuse by name what the other one has written: then that one serves on."""
    for name in ("authority", "islands"):
        (folder / name).mkdir()
    certificates(folder / "authority")
    write_users(folder / "islands" / "users.json", ACCOUNTS)
    gate = LoneGate(folder, {}, before.folder, str(before.program))
    users, found = Timed(gate, USERS), []
    try:
        status, _, told = gate.does("place", ISLAND, SETTINGS, "one")
        assert status == 0, told
        users.begin(users)
        await users.work_on()
        for now, then in ((before, after), (after, before)):
            found.append(f"{now.name} to {then.name}, alone: {await becomes(gate, then, users)}")
        if LATER in found[-1]:
            await becomes(gate, after, users)
        await users.end()
        await users.seen_by(users)
        assert await asyncio.to_thread(gate.stop) == 0
    finally:
        gate.stop()
    home = gate.folder / "islands" / ISLAND
    how = replayed(after, ("--folder", home / "journal"), folder / "all", held(home / "store"))
    assert how == SAME
    return [*found, f"{users.answered} lines, none lost or twice; replay: {how}"]


async def becomes(gate: Gate, version: Version, users: Timed) -> str:
    """Stops a gate in order, and starts the one of another version there; says how its users are served."""
    told, began = len(gate.told()), time.monotonic()
    assert await asyncio.to_thread(gate.stop) == 0
    gate.front = version.folder
    gate.tables["machine"]["program"] = str(version.program)
    gate.write()
    await asyncio.to_thread(gate.again)
    wanted = users.answered + LINES // 10
    await until(lambda: users.answered > wanted or LATER in gate.told()[told:], "users who work on")
    return f"refused by name: {LATER}" if users.answered <= wanted else f"served again after {time.monotonic() - began:.2f} s"


async def gates_of_two(before: Version, after: Version, folder: Path) -> list[str]:
    """Has an island move from a machine of one version to one of another, and back, and then the first machine be upgraded; gives what was found. If the
    version before does not let it come back, it comes once that machine is upgraded."""
    machines = await asyncio.to_thread(Machines, folder, {"one": before, "two": after})
    try:
        machines.begin()
        found = [await machines.moves("two"), await machines.moves("one"), await machines.is_upgraded("one", after)]
        if not machines.at("one"):
            found.append(await machines.moves("one"))
        return [*found, await machines.end("one")]
    finally:
        await asyncio.to_thread(machines.stop)


async def followed(leader: Front, second: Front) -> dict[str, object] | None:
    """Users work at the leader. What the standby says once it has run all; None if it refuses by name to run it."""
    for seed, name in enumerate(USERS):
        async with leader.person(name) as person:
            await works(person, seed, LINES)

    def status() -> dict[str, object]:
        try:
            return asked(second.folder / "mfront.control", {"ask": "status"}, 30)
        except ControlError:
            return {}
    await until(lambda: LATER in second.told() or status().get("caught up") is True, "a standby that has run all")
    if LATER in second.told():
        return None
    found = status()
    assert found["fault"] == "" and not found.get("differs"), found
    return found


async def taken_over(leader: Front, second: Front, after: Version) -> float:
    """The leader is stopped in order, and the standby promoted; the seconds until a line is answered there."""
    promoted = asyncio.create_task(asyncio.to_thread(after.runs, "mfront", "promote", "--wait", "60", "--config", second.folder / "front.toml"))
    await asyncio.sleep(1)
    began = time.monotonic()
    assert await asyncio.to_thread(leader.stop) == 0
    code, _, told = await promoted
    assert code == 0, told
    # It listens a moment after the command has its answer.
    await asyncio.to_thread(second.hears, "serving at")
    async with second.person("ada") as person:
        assert await person.told("W 1") == "1"
    return time.monotonic() - began


def main() -> int:
    """The status of the command."""
    words = argparse.ArgumentParser(description="Hands over from the front and the program of another revision to these, and back.")
    words.add_argument("revision", metavar="REVISION", help="a revision whose release is to be tried, as git names it")
    words.add_argument("--patience", type=float, default=PATIENT, metavar="S", help=f"seconds after which something is missed (default {PATIENT})")
    options = words.parse_args()
    require_program()
    Patience.seconds = options.patience
    with tempfile.TemporaryDirectory(dir=IN_MEMORY, prefix="versions-") as folder:
        passed = [holds(name, made) for name, made in tries(unpacked(options.revision, Path(folder)))]
    return 0 if all(passed) else 1


def holds(name: str, made: Callable[[Path], Awaitable[list[str]]]) -> bool:
    """Tries something in a folder of its own, says what it found, and gives whether all held."""
    with tempfile.TemporaryDirectory(dir=IN_MEMORY, prefix="versions-") as folder:
        try:
            print("\n".join(asyncio.run(made(Path(folder)))), flush=True)
        except (AssertionError, ValueError, RuntimeError) as error:
            print(f"{name}: {type(error).__name__}: {error}", flush=True)
            return False
    return True


def tries(other: Version) -> list[tuple[str, Callable[[Path], Awaitable[list[str]]]]]:
    """What is tried with another version, each in a folder of its own."""
    async def over(pair: tuple[Version, Version], folder: Path) -> list[str]:
        return [await handed_over(*pair, folder)]
    pairs = [(other, HERE), (HERE, other)]
    return [*((f"{pair[0].name} to {pair[1].name}", functools.partial(over, pair)) for pair in pairs), ("gates", functools.partial(gates_of_two, other, HERE)),
            ("a gate alone", functools.partial(upgraded_alone, other, HERE))]


if __name__ == "__main__":
    sys.exit(main())
