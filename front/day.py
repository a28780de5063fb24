#!/usr/bin/python3
# SPDX-License-Identifier: Apache-2.0
"""A long run at a small part of a machine: users count at a leader with a standby, each reply is held against a model, troubles of the matrix come, and
snapshots are taken and verified by a replay from the one before; then what the journal has before them goes. At the end the stores are held against a
replay from the last one. A day by default; SIGTERM ends it in order, and it says what it found.

A day may come in parts: each run with the same record is one of them. The record gets a line for each snapshot that was verified, with what was measured
since the one before, and one at the end: of a part that was cut off all counts but what came after its last snapshot. What it prints has a line for each
minute. Status 1 if something was not as it is to be, which the record has too."""
from __future__ import annotations

import argparse
import asyncio
import json
import os
import random
import shutil
import signal
import statistics
import sys
import tempfile
import time
from datetime import UTC, datetime
from pathlib import Path

sys.path[:0] = [str(Path(__file__).resolve().parent / folder) for folder in ("tests", "tests/steps", ".", "../clients", "../tools")]

from database import IN_MEMORY, Cluster  # noqa: E402
from front import Patience, Person, Record, tool, until  # noqa: E402
from measured import memory, processor_time, revision, started_by  # noqa: E402
from running import require_program  # noqa: E402
from test_replay import backup  # noqa: E402
from test_restarts import Counting  # noqa: E402
from troubled_pair import Pair  # noqa: E402
from troubles import COMBINATIONS, STEPS, as_replayed, befalls  # noqa: E402

# Seconds of one stretch of work; how many of them there are between two troubles, and between two snapshots.
STRETCH, TROUBLE, SNAPSHOT = 60, 3, 10
# Seconds between two lines of a user: the first, the least and the most.
RESTS, LEAST, MOST = 0.1, 0.001, 2.0
# Seconds after which something is missed, unless the words say otherwise: the machine may have other work.
PATIENT = 240
HOUR, DAY = 3600, 86_400
# What the record has the median of, of the stretches since its last line.
MEASURED = ("median", "late", "megabytes", "files", "share", "load")


class Paced(Counting):
    """Users who rest before each line. `waits` has how long each reply took from when its line was due, since it was emptied."""

    def __init__(self) -> None:
        super().__init__(rest=RESTS)
        self.waits: list[float] = []

    async def sends(self, person: Person, line: str) -> Record:
        began = time.perf_counter() + self.rest
        record = await super().sends(person, line)
        self.waits.append(time.perf_counter() - began)
        return record


class Kept:
    """The record of all parts: a line for each snapshot that was verified, and for each end."""

    def __init__(self, place: Path) -> None:
        self._place = place
        self._noted = False
        self._read()

    def _read(self) -> None:
        """Reads the lines, and numbers the part that begins after them."""
        place = self._place
        self.rows: list[Record] = [json.loads(line) for line in place.read_text().splitlines(keepends=True) if line.endswith("\n")] if place.exists() else []
        self.part = 1 + max((row["part"] for row in self.rows), default=0)

    def add(self, **what: object) -> None:
        """Notes something of the part that runs, which keeps its number from then on: before, another one that runs beside it may have taken that."""
        if not self._noted:
            self._read()
            self._noted = True
        row = {"part": self.part, "time": f"{datetime.now(UTC):%Y-%m-%d %H:%M}", **what}
        self.rows.append(row)
        with self._place.open("a") as record:
            record.write(json.dumps(row) + "\n")

    def told(self) -> str:
        """What was found in all parts."""
        good = [row for row in self.rows if "failed" not in row]
        parts = [[row for row in good if row["part"] == number] for number in sorted({row["part"] for row in good})]
        seconds, lines, troubles = (sum(row[key] for row in good) for key in ("seconds", "lines", "troubles"))
        found = [f"{seconds / HOUR:.2f} hours of a day's {DAY // HOUR}, in {len(parts)} parts; {lines} lines answered, none lost or twice; {troubles} "
                 f"troubles, each taken over; {sum('snapshot' in row for row in good)} snapshots verified by a replay; "
                 f"{sum('end' in row for row in good)} times the stores of leader and standby were a replay's at the end",
                 *(f"part {row['part']} FAILED: {row['failed']}" for row in self.rows if "failed" in row)]
        measured = [row for row in good if "share" in row]
        if measured:
            found.append(f"medians: reply {middle(measured, 'median'):.1f} ms, 99th percentile {middle(measured, 'late'):.1f} ms, "
                         f"share of the machine {middle(measured, 'share') * 100:.2f} %, load {middle(measured, 'load'):.1f}")
        for part in parts:
            sizes = [(row["megabytes"], row["files"]) for row in part if "share" in row]
            if sizes:
                first, last = (f"{size:.0f} MB and {opened:.0f} open files" for size, opened in (sizes[0], sizes[-1]))
                found.append(f"part {part[0]['part']}, {part[0].get('kind', 'files')}, {sum(row['seconds'] for row in part) / HOUR:.1f} hours of "
                             f"{part[0]['revision']}: first {first}, last {last}")
        return "\n".join(found)


class Day:
    """One part: a pair, its users, and what was measured since the last snapshot that was verified."""

    def __init__(self, folder: Path, kept: Kept, cluster: Cluster | None, options: argparse.Namespace) -> None:
        self._kind, self.pair, self.users = options.kind, Pair(folder, cluster), Paced()
        self.pair.long = True
        self.stopping = asyncio.Event()
        self._kept, self._rng = kept, random.Random(f"part {kept.part}")
        # The part of the machine that all of it takes; how long a stretch of work is, and how many there are between two snapshots.
        self._share, self._stretch, self._snapshot = options.share / 100, options.stretch, options.snapshot
        self._revision = revision()
        self._verified: Path | None = None
        self._began = self._since = time.monotonic()
        # What was answered up to the last line of the record; how many troubles came since then, and what was measured in each stretch.
        self._answered, self._troubles = 0, 0
        self._stretches: list[Record] = []

    async def runs(self, seconds: float) -> None:
        """Works for so long, or until it is stopped; then holds the stores against a replay."""
        stretch = 0
        try:
            while time.monotonic() - self._began < seconds and not self.stopping.is_set():
                await self._works()
                stretch += 1
                if stretch % TROUBLE == 0:
                    await self._meets_trouble()
                if stretch % self._snapshot == 0:
                    self._keeps(snapshot=await self._is_backed_up())
            await as_replayed(self.pair, self._verified)
            self._keeps(end="as a replay's")
        except BaseException as error:
            self._kept.add(revision=self._revision, kind=self._kind, failed=f"{type(error).__name__}: {error}"[:1000])
            print(self.pair.told(), flush=True)
            raise
        finally:
            self.pair.stop()

    def _processes(self) -> list[int]:
        fronts = [self.pair.leader.process.pid, self.pair.second.process.pid]
        return [*fronts, *started_by(fronts)]

    async def _works(self) -> None:
        """A stretch of work, which is measured and told; the next one takes the share that it is to take."""
        # What a start leaves for a moment is gone by the end, and what it starts then is not counted.
        pids = [os.getpid(), *self._processes()]
        before, began = {pid: processor_time([pid]) for pid in living(pids)}, time.monotonic()
        self.users.waits.clear()
        self.users.begin(self.pair)
        try:
            await asyncio.wait_for(self.stopping.wait(), self._stretch)
        except TimeoutError:
            pass
        await self.users.end()
        pids = [pid for pid in living(pids) if pid in before]
        taken = sum(processor_time([pid]) - before[pid] for pid in pids) / (time.monotonic() - began) / (os.cpu_count() or 1)
        self.users.rest = min(max(self.users.rest * taken / self._share, LEAST), MOST)
        self._stretches.append({
            "lines": len(self.users.waits), "median": milliseconds(self.users.waits, 0.5), "late": milliseconds(self.users.waits, 0.99),
            "longest": milliseconds(self.users.waits, 1), "megabytes": round(memory(pids), 1), "files": files(pids), "share": round(taken, 4),
            "load": round(os.getloadavg()[0], 1)})
        tells(self._stretches[-1])

    async def _meets_trouble(self) -> None:
        """One trouble of the matrix."""
        step, what, then = self._rng.choice(COMBINATIONS[self._kind])
        tells({"trouble": what, "when": step, "then": then})
        began = time.monotonic()
        await befalls(self.pair, self.users, (step, what, then), self._rng.randrange(1, 12) if step not in STEPS[-3:] else 1)
        self._troubles += 1
        tells({"taken over": f"after {time.monotonic() - began:.1f} seconds"})

    async def _is_backed_up(self) -> str:
        """A snapshot while users work; it is verified by a replay from the one before, which goes then. Gives what that said."""
        folder, leader = self.pair.folder / "backup", self.pair.leader
        folder.mkdir(exist_ok=True)
        self.users.begin(self.pair)
        answered = self.users.answered
        await until(lambda: self.users.answered > answered, "users who work")
        made = await asyncio.to_thread(backup, leader, "--end-sessions")
        await self.users.end()
        made.rename(folder / made.name)
        status, output, told = await asyncio.to_thread(tool("mbackup"), "verify", folder, "--config", leader.folder / "front.toml")
        if status:
            raise ValueError(f"a snapshot that is not the journal's: {told}")
        for old in sorted((path for path in folder.iterdir() if path.name.isdigit()), key=lambda path: int(path.name))[:-1]:
            shutil.rmtree(old)
        self._verified = folder / made.name
        # The journal of a day would be a thousand files and more, of which who follows looks at each all the time.
        await self.pair.caught_up()
        status, _, told = await asyncio.to_thread(tool("mjournal"), *self.pair.journal, "expire", self._verified)
        if status:
            raise ValueError(f"a journal that does not expire: {told}")
        return output.strip().rpartition("\n")[2].partition(": good: ")[2]

    def _keeps(self, **how: object) -> None:
        """Notes what came since the last line of the record: it is verified."""
        now, stretches = time.monotonic(), self._stretches
        figures = {key: middle(stretches, key) for key in MEASURED} | {"longest": max(one["longest"] for one in stretches)} if stretches else {}
        self._kept.add(revision=self._revision, kind=self._kind, seconds=round(now - self._since), lines=self.users.answered - self._answered,
                       troubles=self._troubles, **figures, **how)
        self._since, self._answered, self._stretches, self._troubles = now, self.users.answered, [], 0


def tells(what: Record) -> None:
    """Prints what was measured, or what comes."""
    print(json.dumps({"time": f"{datetime.now(UTC):%Y-%m-%d %H:%M:%S}", **what}), flush=True)


def middle(rows: list[Record], key: str) -> float:
    """The median of a figure."""
    return round(statistics.median(row[key] for row in rows), 4)


def milliseconds(waits: list[float], part: float) -> float:
    """The wait that so large a part of them is not above."""
    return round(sorted(waits)[max(0, int(len(waits) * part + 0.5) - 1)] * 1000, 2) if waits else 0.0


def living(pids: list[int]) -> list[int]:
    """Those of the processes that are there."""
    return [pid for pid in pids if Path(f"/proc/{pid}").exists()]


def files(pids: list[int]) -> int:
    """How many files these processes have open."""
    return sum(len(list(Path(f"/proc/{pid}/fd").iterdir())) for pid in pids)


async def run(options: argparse.Namespace, kept: Kept) -> None:
    """Runs a part, in a folder of its own."""
    cluster = None if options.kind == "files" else await asyncio.to_thread(Cluster)
    try:
        with tempfile.TemporaryDirectory(dir=options.folder, prefix="day-") as folder:
            day = await asyncio.to_thread(Day, Path(folder), kept, cluster, options)
            for number in (signal.SIGTERM, signal.SIGINT):
                asyncio.get_running_loop().add_signal_handler(number, day.stopping.set)
            await day.runs(options.seconds)
    finally:
        if cluster is not None:
            cluster.remove()


def main() -> int:
    """The status of the command."""
    words = argparse.ArgumentParser(description="Has users work at a leader with a standby for long, with troubles and snapshots; a day may come in parts.")
    words.add_argument("record", type=Path, metavar="RECORD", help="the file that has what was found; a further run with it is a further part")
    words.add_argument("--seconds", type=float, default=DAY, metavar="S", help="for so long (default a day)")
    words.add_argument("--share", type=float, default=5, metavar="N", help="percent of the machine that all of it takes (default 5)")
    words.add_argument("--kind", choices=("files", "database"), default="files", help="where the journal is (default files)")
    words.add_argument("--folder", type=Path, default=Path(IN_MEMORY), metavar="FOLDER", help=f"where stores and journal are (default {IN_MEMORY})")
    words.add_argument("--stretch", type=float, default=STRETCH, metavar="S", help=f"seconds of a stretch of work; after {TROUBLE} of them comes a trouble "
                       f"(default {STRETCH})")
    words.add_argument("--snapshot", type=int, default=SNAPSHOT, metavar="N", help=f"stretches between two snapshots (default {SNAPSHOT})")
    words.add_argument("--patience", type=float, default=PATIENT, metavar="S", help=f"seconds after which something is missed (default {PATIENT})")
    options = words.parse_args()
    require_program()
    Patience.seconds = options.patience
    kept, status = Kept(options.record), 0
    try:
        asyncio.run(run(options, kept))
    except Exception as error:
        print(f"day: {type(error).__name__}: {error}", file=sys.stderr)
        status = 1
    # Another part may have run beside this one.
    print(Kept(options.record).told())
    return status


if __name__ == "__main__":
    sys.exit(main())
