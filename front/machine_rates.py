#!/usr/bin/python3
# SPDX-License-Identifier: Apache-2.0
"""What many machines take: three gates at 127.0.0.2 to 127.0.0.4, PostgreSQL with a standby that has each row before it is acknowledged, and islands
whose users work at once, two thirds of them by a gate that is not theirs. And what that comes to for a host of many clinics, by these figures.

All is on one machine, which does the work of three and of two databases. Only figures of a quiet one are worth keeping. Status 1 if a reply was
wrong."""
from __future__ import annotations

import argparse
import asyncio
import contextlib
import os
import signal
import statistics
import sys
import tempfile
import time
from dataclasses import dataclass
from pathlib import Path

sys.path[:0] = [str(Path(__file__).resolve().parent / folder) for folder in ("tests", ".", "../clients", "../tools")]

from database import Cluster, required  # noqa: E402
from machines import HOSTS, Gate, Program, certificates, islands, ports  # noqa: E402
from mserve_front.islands import LOOK  # noqa: E402
from mserve_front.journal_table import connected  # noqa: E402
from mserve_front.placement import Machine, Placement  # noqa: E402
from measured import fronts_of, memory, processor_time, started_by  # noqa: E402
from running import require_program  # noqa: E402

# Seconds that a user rests between two lines while their island moves.
RESTS = 0.1
KINDS = ("gates", "fronts", "servers", "databases", "users")
# What a host is taken to be, for the estimate: a line of a user each ten seconds at the busiest time, and 500 of them a day.
CLINICS, USERS, BUSY, DAILY = 10_000, 30, 0.1, 500
# Clinics that share a front, its server and its journal, where not each has its own.
GROUP = 100


class User:
    """A user who counts, and compares each reply."""

    def __init__(self, gates: list[Gate], number: int, place: int) -> None:
        first = (number + 1 + place) % 3
        self.island = number
        self.program = Program(gates[first], f"user{number}.{place}", gates[first + 1:] + gates[:first])
        self.count = 0
        self.answers: list[float] = []

    async def sends(self) -> float:
        """Sends a line, and gives how long its reply took. Raises OSError if the session ends before, or is about to."""
        began = time.perf_counter()
        record = await self.program.line("S ^N=$G(^N)+1 W ^N")
        if "refused" in record or "unknown" in record:
            raise ConnectionResetError(record["why"])
        if int(record.get("rest") or 0) not in (self.count + 1, self.count + 2):
            sys.exit(f"machine_rates: {self.program.name}: after {self.count} came {record}")
        self.count = int(record["rest"])
        self.answers.append(time.monotonic())
        return time.perf_counter() - began

    async def works(self, until: float, began: float, pause: float) -> list[float]:
        """Sends until a time, as fast as replies come or with this many seconds between two lines, and gives how long each took."""
        waits = []
        while (due := began + len(waits) * pause) < until and time.monotonic() < until:
            await asyncio.sleep(max(0.0, due - time.monotonic()))
            waits.append(await self.sends())
        return waits

    async def keeps_on(self, stop: asyncio.Event) -> None:
        """Sends, and signs on again as often as the session ends."""
        while not stop.is_set():
            try:
                await self.sends()
                await asyncio.sleep(RESTS)
            except OSError:
                self.program.close()
                await self.program.signed_on()


class Trial:
    """The machines, their database, and their users."""

    def __init__(self, folder: Path, count: int, accounts: int, ends: contextlib.ExitStack) -> None:
        """This many islands of this many accounts. What it has is ended and removed at the end."""
        self.accounts = accounts
        os.chmod(folder, 0o755)
        self.databases: list[Cluster] = []
        for _ in range(2):
            # The second is the replica of the first.
            primary = self.databases[0] if self.databases else None
            self.databases.append(Cluster(primary, str(folder), f"-c fsync=on -c max_connections={4 * count + 100}"))
            ends.callback(self.databases[-1].remove)
        self.place = self.databases[0].waits_for(self.databases[1])
        self.made, _ = islands(folder / "islands", count, accounts)
        (folder / "authority").mkdir()
        certificates(folder / "authority")
        shared = ports()
        self.gates: list[Gate] = []
        for name in HOSTS:
            self.gates.append(Gate(folder, name, self.place, shared, folder / "authority"))
            ends.callback(self.gates[-1].stop)
        self.users: list[User] = []

    def placed(self) -> None:
        """Places the islands, one after another on the machines."""
        placement = Placement(self.place)
        for number, (name, settings) in enumerate(self.made.items()):
            placement.put(name, settings.read_text(), list(HOSTS)[number % 3])
        placement.close()

    def processes(self) -> dict[str, list[int]]:
        """All processes, by their kind."""
        gates = [gate.process.pid for gate in self.gates]
        fronts, heads = fronts_of(*gates), [database.head for database in self.databases]
        return {"gates": [*gates, *started_by(gates)], "fronts": fronts, "servers": started_by(fronts), "databases": heads + started_by(heads),
                "users": [os.getpid()]}

    async def served(self) -> None:
        """Waits until the front of each island serves."""
        while sum(gate.told().count("mfront: lines at port") for gate in self.gates) < len(self.made):
            await asyncio.sleep(0.05)

    async def signed_on(self, place: int) -> None:
        """Has a user of each island sign on, 20 at a time."""
        more = [User(self.gates, number, place) for number in range(len(self.made))]
        for start in range(0, len(more), 20):
            await asyncio.gather(*(user.program.signed_on() for user in more[start:start + 20]))
        self.users += more


@dataclass
class Load:
    """What a load came to: lines a second; microseconds of a line by kind of process; rows, syncs of the log, and bytes of a line in the table and
    in the log of one database."""

    rate: float
    spent: dict[str, float]
    rows: float
    syncs: float
    table: float
    log: float

    @property
    def served(self) -> float:
        """Microseconds of a line without those of its users."""
        return sum(one for kind, one in self.spent.items() if kind != "users")


def counters(trial: Trial) -> tuple[float, ...]:
    """Rows of the journals, and of one database the syncs of its log, bytes in the table, and bytes in the log."""
    asked = ("SELECT coalesce(sum(sequence), 0) FROM (SELECT max(sequence) AS sequence FROM mfront_journal GROUP BY name) AS ends",
             "SELECT wal_sync FROM pg_stat_wal", "SELECT pg_total_relation_size('mfront_journal')", "SELECT pg_current_wal_lsn() - '0/0'")
    return tuple(float(trial.databases[0].does(statement)[0][0]) for statement in asked)


async def under_load(trial: Trial, seconds: float, pause: float) -> Load:
    """Has all users send for so long, and prints and gives what was found."""
    kinds = trial.processes()
    before, count = {kind: processor_time(pids) for kind, pids in kinds.items()}, counters(trial)
    began = time.monotonic()
    found = await asyncio.gather(*(user.works(began + seconds, began + place * pause / len(trial.users), pause) for place, user in enumerate(trial.users)))
    taken, waits = time.monotonic() - began, sorted(wait for one in found for wait in one)
    # What the database counts it tells a second later.
    await asyncio.sleep(1.5)
    spent = {kind: (processor_time(pids) - before[kind]) / len(waits) * 1e6 for kind, pids in kinds.items()}
    more = [(after - start) / len(waits) for start, after in zip(count, counters(trial), strict=True)]
    load = Load(len(waits) / taken, spent, *more)
    how = f"a line each {pause:g} s" if pause else "as fast as replies come"
    print(f"{len(trial.users)} users, {how}: {load.rate:.0f} lines in a second; reply: median {statistics.median(waits) * 1000:.1f} ms, "
          f"99th percentile {waits[int(len(waits) * 0.99)] * 1000:.1f} ms, longest {waits[-1] * 1000:.0f} ms")
    print("    processor time of a line: " + ", ".join(f"{kind} {spent[kind]:.0f} us" for kind in KINDS))
    print(f"    of a line: {load.rows:.2f} rows, {load.syncs:.2f} syncs of the log, {load.table:.0f} bytes in the table, {load.log:.0f} in the log", flush=True)
    return load


def sizes(trial: Trial, when: str) -> dict[str, float]:
    """The memory of all, by kind."""
    found = {kind: memory(pids) for kind, pids in trial.processes().items() if kind != "users"}
    counts = {kind: len(pids) for kind, pids in trial.processes().items()}
    print(f"memory {when}: " + ", ".join(f"{counts[kind]} {kind} {size:.0f} MB" for kind, size in found.items()), flush=True)
    return found


async def at_rest(trial: Trial, seconds: float) -> dict[str, float]:
    """Prints and gives the microseconds of a processor that a process of each kind takes in a second while nobody works."""
    kinds = trial.processes()
    before = {kind: processor_time(pids) for kind, pids in kinds.items()}
    await asyncio.sleep(seconds)
    found = {kind: (processor_time(pids) - before[kind]) / seconds / len(pids) * 1e6 for kind, pids in kinds.items() if kind != "users"}
    print("processor time of a process that has nothing to do, in a second: " + ", ".join(f"{kind} {one:.0f} us" for kind, one in found.items()), flush=True)
    return found


async def moved(trial: Trial, count: int) -> None:
    """Moves islands of the first machine while their users work, and prints for how long these had no answer."""
    gaps, command = [], []
    for number in range(0, 3 * count, 3):
        # The target has to run lines faster than they come: so three users work on, and the others rest.
        users, stop = [user for user in trial.users if user.island == number][:3], asyncio.Event()
        work = [asyncio.create_task(user.keeps_on(stop)) for user in users]
        began = time.monotonic()
        status, _, told = await asyncio.to_thread(trial.gates[1].does, "move", f"island{number}", "two")
        if status:
            sys.exit(f"machine_rates: {told}")
        while trial.databases[0].does(f"SELECT state FROM mfront_island WHERE name = 'island{number}'") != [("here",)]:
            await asyncio.sleep(0.05)
        command.append(time.monotonic() - began)
        await asyncio.sleep(2)
        stop.set()
        await asyncio.gather(*work)
        gaps += [longest_gap(user.answers, began) for user in users]
    print(f"{count} islands moved: {statistics.median(command):.1f} s from the command to the arrival; users without an answer: median "
          f"{statistics.median(gaps):.1f} s, longest {max(gaps):.1f} s", flush=True)


def longest_gap(answers: list[float], since: float) -> float:
    """The longest time between two answers."""
    times = [at for at in answers if at >= since]
    return max(later - sooner for sooner, later in zip(times, times[1:], strict=False))


async def started_again(trial: Trial) -> None:
    """Kills all processes of the second machine, starts its gate, and prints when its islands answer."""
    placed = {row[0] for row in trial.databases[0].does("SELECT name FROM mfront_island WHERE machine = 'two'")}
    users = [user for user in trial.users if f"island{user.island}" in placed]
    await asyncio.to_thread(trial.gates[1].kill)
    began = time.monotonic()
    await asyncio.to_thread(trial.gates[1].again)

    async def answered(user: User) -> float:
        while True:
            user.program.close()
            await user.program.signed_on()
            with contextlib.suppress(OSError):
                await user.sends()
                return time.monotonic() - began
    times = await asyncio.gather(*(answered(user) for user in users))
    print(f"a machine with {len(placed)} islands killed and started: its users are answered after {statistics.median(times):.1f} s in the median, all "
          f"after {max(times):.1f} s", flush=True)


def looked(trial: Trial) -> None:
    """Prints how many seconds a look at the placement of many islands takes, in a database of its own."""
    first = trial.databases[0]
    first.does("CREATE DATABASE many")
    place = first.place.replace("dbname=postgres", "dbname=many")
    placement = Placement(place)
    placement.make()
    placement.enter(Machine("none", "127.0.0.1", 1))
    with connected(place) as base:
        base.execute("INSERT INTO mfront_island SELECT 'i' || n, 'none', NULL, 'here', ARRAY['A' || n], repeat('s', 200) "
                     f"FROM generate_series(1, {CLINICS}) AS n")
    times = []
    for _ in range(4):
        began = time.perf_counter()
        count = len(placement.islands())
        times.append(time.perf_counter() - began)
    placement.close()
    print(f"a look at the placement of {count} islands takes {times[0] * 1000:.0f} ms the first time and after a change, else {min(times[1:]) * 1000:.0f} ms; "
          f"each gate looks after a pause of {LOOK * 1000:.0f} ms", flush=True)


def estimated(trial: Trial, rest: dict[str, float], idle: dict[str, float], growth: dict[str, float], ease: Load, full: Load) -> None:
    """Prints what the figures come to for a host of many clinics: `rest` and `idle` are what is taken while nobody works, `growth` what a user takes."""
    count = len(trial.made)
    front, server = idle["fronts"] / count, idle["servers"] / count
    connection, session = growth["gates"], growth["fronts"]
    backend = idle["databases"] / len(trial.processes()["databases"])
    peak, daily = CLINICS * USERS * BUSY, CLINICS * USERS * DAILY
    print(f"{CLINICS} clinics of {USERS} users, {BUSY:g} lines of a user in a second at the busiest time, {DAILY} a day:")
    print(f"    at the busiest time {peak:.0f} lines in a second: {peak * ease.served / 1e6:.0f} processors by the load at ease, "
          f"{peak * full.served / 1e6:.0f} by the full one")
    print(f"    a day {daily * ease.table / 1e9:.0f} GB in the table and {daily * ease.log / 1e9:.0f} GB of log, on each database, by the load at ease")
    quiet = rest["fronts"] + rest["servers"]
    print(f"    connections of users in gates: {CLINICS * USERS * connection / 1e3:.0f} GB ({connection * 1e3:.0f} KB each), their sessions in fronts: "
          f"{CLINICS * USERS * session / 1e3:.0f} GB ({session * 1e3:.0f} KB each)")
    for name, fronts in (("a front for each clinic", CLINICS), (f"a front for {GROUP} clinics", CLINICS // GROUP)):
        print(f"    {name}: {fronts} fronts and servers, {fronts * (front + server) / 1e3:.1f} GB ({front:.1f} and {server:.1f} MB each), "
              f"{fronts} connections of a database ({fronts * backend / 1e3:.1f} GB), {peak / fronts:.0f} lines of each in a second, "
              f"{fronts * quiet / 1e6:.1f} processors with nothing to do")
    print(f"    rows: {peak * ease.rows:.0f} in a second if no two lines share one; measured {full.rate * full.rows:.0f} in a second, "
          f"with {full.rate * full.syncs:.0f} syncs of the log")


async def run(trial: Trial, options: argparse.Namespace) -> None:
    """All of the trial."""
    began = time.monotonic()
    trial.placed()
    await trial.served()
    print(f"{len(trial.made)} islands on three machines: all served {time.monotonic() - began:.1f} s after the first was placed", flush=True)
    rest, idle = await at_rest(trial, 5), sizes(trial, "with nobody signed on")
    await trial.signed_on(0)
    some = sizes(trial, f"with {len(trial.users)} users")
    began = time.monotonic()
    for place in range(1, trial.accounts):
        await trial.signed_on(place)
    print(f"{len(trial.made) * (trial.accounts - 1)} more signed on in {time.monotonic() - began:.1f} s", flush=True)
    busy = sizes(trial, f"with {len(trial.users)} users")
    # What a first user takes is not what each further one does.
    growth = {kind: max(0.0, busy[kind] - some[kind]) / len(trial.made) / (trial.accounts - 1) for kind in busy}
    ease = await under_load(trial, options.seconds, options.pause)
    full = await under_load(trial, options.seconds, 0.0)
    sizes(trial, "after the load")
    await moved(trial, options.moved)
    await started_again(trial)
    await asyncio.to_thread(looked, trial)
    estimated(trial, rest, idle, growth, ease, full)
    for user in trial.users:
        user.program.close()


def main() -> int:
    """The status of the command."""
    words = argparse.ArgumentParser(description="Measures many machines: rates, memory, moves and restarts of islands on three gates, and what 10,000 "
                                                "clinics come to by that.")
    words.add_argument("--islands", type=int, default=100, help="how many islands (default 100)")
    words.add_argument("--accounts", type=int, default=3, help="how many accounts each has, with a user each (default 3)")
    words.add_argument("--seconds", type=float, default=20, help="for how long each of the two loads (default 20)")
    words.add_argument("--pause", type=float, default=1, help="seconds between two lines of a user at ease (default 1)")
    words.add_argument("--moved", type=int, default=5, help="how many islands are moved (default 5)")
    words.add_argument("--folder", type=Path, help="where databases and stores are, on the disk that is measured (default: a temporary one)")
    options = words.parse_args()
    require_program()
    required()
    # What ends it ends its processes too.
    signal.signal(signal.SIGTERM, signal.default_int_handler)
    with tempfile.TemporaryDirectory(prefix="mgate-rates", dir=options.folder) as name, contextlib.ExitStack() as ends:
        asyncio.run(run(Trial(Path(name), options.islands, options.accounts, ends), options))
    print(f"load of the machine: {os.getloadavg()[0]:.1f} on {len(os.sched_getaffinity(0))} processors of {os.cpu_count()}")
    return 0


if __name__ == "__main__":
    sys.exit(main())
