#!/usr/bin/python3
# SPDX-License-Identifier: Apache-2.0
"""What a journal costs: lines in a second without one, with one in files, with one in PostgreSQL, and with one whose database has a standby that has
each row before it is acknowledged; what each line takes, how fast a replay is, and how long nobody is served when a leader is killed.

Each user has a connection of the line port, without TLS, and sends a line as soon as the reply of the one before has come. Only figures of a quiet
machine are worth keeping. Status 1 if a reply was wrong."""
from __future__ import annotations

import argparse
import asyncio
import contextlib
import json
import os
import signal
import statistics
import subprocess
import sys
import tempfile
import time
from pathlib import Path

sys.path[:0] = [str(Path(__file__).resolve().parent / folder) for folder in ("tests", ".", "../clients", "../tools")]

from database import Cluster, required  # noqa: E402
from front import PASSWORD, Front, tool  # noqa: E402
from load import PARTS, settings  # noqa: E402
from measured import memory, processor_time, started_by  # noqa: E402
from running import PROGRAM, require_program  # noqa: E402

KINDS = ("none", "file", "database", "replicated")
# Lines that are replayed over a store in a file, where each waits for the disk.
OVER_FILE = 1000


Streams = tuple[asyncio.StreamReader, asyncio.StreamWriter]


async def signed_on(front: Front, name: str) -> Streams:
    """The connection of a user who is signed on. Where many of one address sign on at once, they have to ask again."""
    while True:
        reader, writer = await asyncio.open_connection("127.0.0.1", front.lines_port)
        writer.write(f"{name} {PASSWORD}\n".encode())
        record = json.loads(await reader.readline())
        if "error" not in record:
            return reader, writer
        writer.close()
        if "too many sign-ons at once" not in record["error"]:
            sys.exit(f"journal_rates: {name}: {record['error']}")
        await asyncio.sleep(0.2)


async def user(name: str, streams: Streams, until: float, waits: list[float]) -> None:
    """A user who counts at a node of their own, and compares each reply."""
    reader, writer = streams
    number = 0
    while time.monotonic() < until:
        number += 1
        began = time.perf_counter()
        writer.write(f'S ^N("{name}")=$G(^N("{name}"))+1 W ^N("{name}")\n'.encode())
        record = json.loads(await reader.readline())
        waits.append(time.perf_counter() - began)
        if record.get("rest") != str(number):
            sys.exit(f"journal_rates: {name}: line {number} was answered {record}")
    writer.close()


async def figures(front: Front) -> dict[str, float]:
    """The figures of a front."""
    async with front.person().http as http, http.get("/metrics") as response:
        return {name: float(value) for name, value in (line.rsplit(" ", 1) for line in (await response.text()).splitlines() if not line.startswith("#"))}


async def rate(front: Front, names: list[str], seconds: float) -> tuple[list[float], list[float], dict[str, float]]:
    """Has all users send for so long: how long each reply took, the processor time of the front, the server and the users, and the front's figures."""
    waits: list[float] = []
    streams = await asyncio.gather(*(signed_on(front, name) for name in names))
    pids = [[front.process.pid], [front.child], [os.getpid()]]
    before = [processor_time(own) for own in pids]
    await asyncio.gather(*(user(name, own, time.monotonic() + seconds, waits) for name, own in zip(names, streams, strict=True)))
    spent = [processor_time(own) - start for own, start in zip(pids, before, strict=True)]
    return waits, spent, await figures(front)


def databases_of(kind: str, folder: Path, ends: contextlib.ExitStack) -> tuple[list[Cluster], dict[str, dict[str, object]]]:
    """The databases of a kind of journal, which are removed at the end, and its settings."""
    if kind in ("none", "file"):
        return [], {} if kind == "none" else {"journal": {"folder": "journal"}}
    required()
    os.chmod(folder, 0o755)
    first = Cluster(folder=str(folder), more="-c fsync=on")
    ends.callback(first.remove)
    if kind == "database":
        return [first], {"journal": {"database": first.place}}
    second = Cluster(first, folder=str(folder), more="-c fsync=on")
    ends.callback(second.remove)
    return [first, second], {"journal": {"database": first.waits_for(second)}}


def measured(folder: Path, kind: str, store: str, options: argparse.Namespace) -> None:
    """Measures one kind of journal over one kind of store, and prints what was found."""
    place = folder / f"{kind}-{store}"
    place.mkdir()
    path, names = settings(place, options.users)
    with contextlib.ExitStack() as ends:
        databases, journal = databases_of(kind, folder, ends)
        front = Front(place, None, users=names, settings=path, store="memory" if store == "memory" else "store.db", **journal)
        ends.callback(front.stop)
        before, start = processor_time(heads(databases)), written(databases)
        waits, spent, found = asyncio.run(rate(front, list(names), options.seconds))
        count = len(waits)
        shown = list(zip(PARTS, spent, strict=True))
        if databases:
            shown.append(("database", processor_time(heads(databases)) - before))
        print(f"{kind} journal, store in {store}: {count / options.seconds:.0f} lines in a second, {options.users} users; reply: median "
              f"{statistics.median(waits) * 1000:.1f} ms, 99th percentile {sorted(waits)[int(count * 0.99)] * 1000:.1f} ms; processor time of a line: "
              + ", ".join(f"{name} {one / count * 1e6:.0f} us" for name, one in shown), flush=True)
        print(f"    memory: front {memory([front.process.pid]):.0f} MB, server {memory([front.child]):.0f} MB", flush=True)
        if kind != "none":
            kept(front, databases, found, count, start)
        front.stop()
        if kind != "none" and options.replayed:
            replayed(front, min(options.replayed, int(found["mfront_journal_line"])))


def heads(databases: list[Cluster]) -> list[int]:
    """The processes of databases that there are now."""
    first = [one.head for one in databases]
    return first + started_by(first)


def written(databases: list[Cluster]) -> float:
    """The bytes that are written to a database's log by now."""
    return float(databases[0].does("SELECT pg_current_wal_lsn() - '0/0'")[0][0]) if databases else 0.0


def kept(front: Front, databases: list[Cluster], found: dict[str, float], count: int, start: float) -> None:
    """Prints what the journal cost: flushes, how long each took, and bytes; `start` is what was in the database's log before."""
    flushes = found["mfront_journal_flushes_total"]
    if databases:
        table = databases[0].does("SELECT pg_total_relation_size('mfront_journal')")[0][0]
        sizes = f"{table / count:.0f} bytes of a line in the table, and {(written(databases) - start) / count:.0f} in the database's log"
    else:
        sizes = f"{sum(path.stat().st_size for path in (front.folder / 'journal').iterdir()) / count:.0f} bytes of a line"
    print(f"    {flushes / count:.2f} flushes for a line, {found['mfront_journal_records_total'] / flushes:.1f} records in one, "
          f"{found['mfront_journal_flush_seconds_total'] / flushes * 1000:.2f} ms each; {sizes}", flush=True)


def replayed(front: Front, last: int) -> None:
    """Replays the front's journal over both kinds of store, up to a line, and prints how fast that is."""
    for store, most in (("memory", last), (str(front.folder / "replayed"), min(last, OVER_FILE))):
        words = ["--config", front.folder / "front.toml", "replay", "--program", PROGRAM, "--store", store, "--to", most]
        done = subprocess.run([sys.executable, Path(__file__).parent / "mjournal", *map(str, words)], capture_output=True, text=True)
        if done.returncode:
            sys.exit(f"journal_rates: {done.stderr}")
        print(f"    replay over a store in {'memory' if store == 'memory' else 'a file'}: {done.stdout.strip()}", flush=True)


def without_service(folder: Path, number: int) -> float:
    """Kills a leader under load, has its standby promoted, and gives the seconds until a line is answered there."""
    place = folder / f"fail-over-{number}"
    parts = [place / name for name in ("leader", "standby")]
    for part in parts:
        part.mkdir(parents=True)
    journal = {"folder": str(place / "journal")}
    leader = Front(parts[0], None, store="store.db", journal=journal)
    try:
        standby = Front(parts[1], None, store="store.db", journal=journal, words=["--follow"], awaited="standing by")
    except BaseException:
        leader.stop()
        raise
    waits: list[float] = []

    async def until_answered() -> float:
        work = asyncio.gather(*(user(leader, name, time.monotonic() + 60, waits) for name in ("ada", "ben", "cleo")), return_exceptions=True)
        await asyncio.sleep(0.5 + number / 19)
        began = time.monotonic()
        os.kill(leader.process.pid, signal.SIGKILL)
        status, _, told = await asyncio.to_thread(tool("mfront"), "promote", "--config", standby.folder / "front.toml")
        if status:
            sys.exit(f"journal_rates: {told}")
        await work
        while True:
            try:
                async with standby.person("ada") as ada:
                    await ada.told("W 1")
                    return time.monotonic() - began
            except (OSError, AssertionError):
                await asyncio.sleep(0.005)
    try:
        return asyncio.run(until_answered())
    finally:
        leader.stop()
        standby.stop()


def main() -> int:
    """The status of the command."""
    words = argparse.ArgumentParser(description="Measures what a journal costs: lines in a second, time of a line, replay, and fail-over.")
    words.add_argument("--users", type=int, default=64, help="how many users (default 64)")
    words.add_argument("--seconds", type=float, default=20, help="for how long each (default 20)")
    words.add_argument("--kinds", nargs="*", choices=KINDS, default=list(KINDS),
                       help="the kinds of journal (default all; none are named: only leaders are killed)")
    words.add_argument("--stores", nargs="+", choices=("memory", "file"), default=["memory", "file"], help="the kinds of store (default both)")
    words.add_argument("--replayed", type=int, default=20_000, help="how many lines of each journal are replayed at most (default 20000; 0 for none)")
    words.add_argument("--killed", type=int, default=10, help="how many leaders are killed (default 10)")
    words.add_argument("--folder", type=Path, help="where journals and stores are, on the disk that is measured (default: a temporary one)")
    options = words.parse_args()
    require_program()
    # What ends it ends its processes too.
    signal.signal(signal.SIGTERM, signal.default_int_handler)
    with tempfile.TemporaryDirectory(prefix="mfront-journal", dir=options.folder) as name:
        for store in options.stores:
            for kind in options.kinds:
                measured(Path(name), kind, store, options)
        times = [without_service(Path(name), number) for number in range(options.killed)]
        if times:
            print(f"without service after a kill: median {statistics.median(times) * 1000:.0f} ms, longest {max(times) * 1000:.0f} ms, of {len(times)}")
    print(f"load of the machine: {os.getloadavg()[0]:.1f} on {len(os.sched_getaffinity(0))} processors of {os.cpu_count()}")
    return 0


if __name__ == "__main__":
    sys.exit(main())
