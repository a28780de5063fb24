#!/usr/bin/python3
# SPDX-License-Identifier: Apache-2.0
"""All figures of the journal and of many machines, one measurement after another, unattended and within fifteen minutes. Each has a limit of its own;
what it printed up to there is kept. On a quiet machine these are the figures of docs/PERFORMANCE.md.

With `--to FILE` the times of take-overs, moves, a lost database and replies are a table there too. `--failures` makes these alone, the shortest first, and
within thirteen minutes; with `--write` their table is that of docs/PERFORMANCE.md from then on, if all came to their end.

Status 1 if a measurement failed or was cut off; the last line says how many did."""
from __future__ import annotations

import argparse
import os
import platform
import re
import shutil
import signal
import subprocess
import sys
import threading
import time
from dataclasses import dataclass
from datetime import UTC, datetime
from pathlib import Path
from typing import IO

HERE = Path(__file__).resolve().parent
sys.path.insert(0, str(HERE.parent / "tools"))

from running import PROGRAM, require_program  # noqa: E402

PYTHON = "/usr/bin/python3"
APART = Path(f"/dev/shm/mfront-figures-{os.getpid()}")
TEST = [PYTHON, "-m", "pytest", "-q", "-s", "-c", str(HERE / "pytest.ini"), "--rootdir", str(HERE.parent), "-p", "no:cacheprovider"]
# Lines that are for the table, after the name of their measurement: how they read, with how `long` something took, and what that is of.
ROWS = tuple((re.compile(pattern), what) for pattern, what in (
    (r"without service after a kill: (?P<long>.*)", "a leader is killed, its standby promoted, until a line is answered"),
    (r"(\d+) leaders killed, .*: (?P<long>median .*)", r"\1 leaders are killed at any moment, the standby of each promoted, until a line is answered"),
    (r"nobody served for (?P<long>.*)", "a leader is stopped, its standby promoted by `--wait`, until a line is answered"),
    (r"(\d+) islands of one gate: all answered again (?P<long>[\d.]+ s)", r"a gate of \1 islands is restarted, until all are answered"),
    (r"served again (?P<long>[\d.]+ s) after the database was there", "PostgreSQL is there again, until a line is answered"),
    (r"served again (?P<long>[\d.]+ s) after the database, by attempt", "the same, after seven attempts in vain"),
    (r"served again (?P<long>[\d.]+ s) after the cut", "its connection is cut, and its lock kept by a dead one, until a line is answered"),
    (r"\d+ lines of a million steps beside \d+ lines: (?P<long>.*)", "an island runs lines of a million steps; another's reply"),
    (r"(\w+ machines[^:]*): \d+ islands moved: (?P<long>.*)", r"\1: an island is moved"),
    (r"(\w+ machines[^:]*): a machine with (\d+) islands killed and started: its users are answered (?P<long>.*)",
     r"\1: a machine is killed and started again, its users are answered"),
    (r"(\w+ journal, store in \w+): (?P<long>.*); processor time", r"\1"),
))
PAGE, BEGIN, END = HERE.parent / "docs" / "PERFORMANCE.md", "<!-- figures.py -->\n", "<!-- end -->\n"
# Seconds for all, and for those of failures alone.
ALL, ALL_FAILURES = 900, 780
# What is without service, and for how long, in this order.
FAILURES = ("time without service", "a gate that is restarted", "a leader that is stopped", "a database that is lost", "leaders killed",
            "a heavy account beside another", "few machines with many users")


@dataclass(frozen=True, slots=True)
class Measurement:
    """A measurement: its name, its words, and the seconds that it may take."""

    name: str
    words: tuple[str, ...]
    limit: int


def measurements(short: bool) -> list[Measurement]:
    """All of them; short ones try that each works."""
    rates, machines = str(HERE / "journal_rates.py"), str(HERE / "machine_rates.py")
    # Of leaders ten times as many are killed as `count` says.
    many, one, count, killed = ("2", "1", "1", "2") if short else ("8", "4", "4", "20")
    islands, seconds, moved, trial = ("6", "3", "1", "1") if short else ("100", "20", "5", "25")
    # Six times as many islands are at a gate that is restarted.
    replayed, grouped, restarted = ("500", "5", "1") if short else ("10000", "100", "6")
    # Tests that kill processes, and no machine: their files need no disk.
    apart = ("--basetemp", str(APART))
    return [
        Measurement("journals, 64 users",
                    (PYTHON, rates, "--users", "64", "--seconds", many, "--replayed", replayed, "--killed", "0", "--stores", "memory"), 130),
        Measurement("many machines", (PYTHON, machines, "--islands", islands, "--seconds", seconds, "--moved", moved), 240),
        Measurement("few machines with many users",
                    (PYTHON, machines, "--islands", "3", "--accounts", grouped, "--seconds", seconds, "--moved", "1"), 120),
        Measurement("time without service", (PYTHON, rates, "--kinds", "--killed", killed), 120),
        Measurement("a leader that is stopped", (*TEST, *apart, str(HERE / "tests" / "test_standby.py"), "-k", "hand_over_is_short"), 60),
        Measurement("a gate that is restarted", (*TEST, *apart, str(HERE / "tests" / "test_fork_server.py"), "-k", "little", "--count", restarted), 60),
        Measurement("leaders killed", (*TEST, *apart, str(HERE / "tests" / "test_standby.py"), "-k", "leaders_that_are_killed", "--count", count), 300),
        Measurement("a database that is lost",
                    (*TEST, *apart, str(HERE / "tests" / "test_table.py"), "-k", "goes_on_soon or that_are_cut or that_is_away and not minute"), 120),
        Measurement("a heavy account beside another", (*TEST, str(HERE / "tests" / "test_alone.py"), "-k", "heavy"), 90),
        Measurement("journals, one user", (PYTHON, rates, "--users", "1", "--seconds", one, "--replayed", "0", "--killed", "0", "--stores", "memory"), 60),
        Measurement("journals over a store in a file, 64 users",
                    (PYTHON, rates, "--users", "64", "--seconds", many, "--replayed", "1000", "--killed", "0", "--stores", "file"), 100),
        Measurement("machines stopped under load",
                    (*TEST, *apart, str(HERE / "tests" / "test_machines.py"), "-k", "three_machines", "--count", trial), 240),
    ]


def shown(stream: IO[str], kept: list[str]) -> None:
    """Prints what a measurement prints, and keeps it."""
    for line in stream:
        print(line, end="", flush=True)
        kept.append(line.strip())


def run(one: Measurement, left: float, kept: list[str]) -> bool:
    """Makes a measurement within its limit and what is left of all, keeps what it printed, and says whether it came to its end."""
    limit = min(one.limit, left)
    print(f"==== {one.name}\n{' '.join(one.words)}", flush=True)
    began = time.monotonic()
    process = subprocess.Popen(one.words, stdin=subprocess.DEVNULL, stdout=subprocess.PIPE, stderr=subprocess.STDOUT, text=True, start_new_session=True)
    reading = threading.Thread(target=shown, args=(process.stdout, kept), daemon=True)
    reading.start()
    try:
        status: int | None = process.wait(limit)
    except subprocess.TimeoutExpired:
        status = None
        # It ends what it has started; what it does not is killed.
        os.killpg(process.pid, signal.SIGINT)
        try:
            process.wait(20)
        except subprocess.TimeoutExpired:
            os.killpg(process.pid, signal.SIGKILL)
            process.wait()
    reading.join(10)
    how = "done" if status == 0 else f"cut off after {limit:.0f} s" if status is None else f"FAILED with status {status}"
    print(f"---- {one.name}: {how}, {time.monotonic() - began:.0f} s, load {os.getloadavg()[0]:.1f}", flush=True)
    return status == 0


def table(made: list[tuple[Measurement, list[str], float]]) -> str:
    """The rows of the figures that are for a table, each with the load at the end of its measurement. What was measured several times has one."""
    rows: dict[str, tuple[list[str], float]] = {}
    for one, kept, load in made:
        for what, long in (figure for line in kept for figure in figures_of(f"{one.name}: {line}")):
            rows[what] = [*rows.get(what, ([],))[0], long], load
    head = [f"| What | How long ({datetime.now(UTC):%Y-%m-%d %H:%M} UTC, `{revision()}`) | Load |", "|---|---|---|"]
    return "\n".join([*head, *(f"| {what} | {'; '.join(long)} | {load:.1f} |" for what, (long, load) in rows.items()), ""])


def figures_of(line: str) -> list[tuple[str, str]]:
    """What a line that was printed says: what took how long, if it says that."""
    return [(found.expand(what), found["long"].strip()) for pattern, what in ROWS for found in [pattern.search(line)] if found]


def write_page(text: str) -> None:
    """Puts a table between its marks."""
    before, begin, rest = PAGE.read_text(encoding="utf-8").partition(BEGIN)
    _, end, after = rest.partition(END)
    if not end:
        sys.exit("figures: docs/PERFORMANCE.md has no place for the table")
    PAGE.write_text(f"{before}{begin}{text}{end}{after}", encoding="utf-8")


def machine() -> str:
    """What the figures are of."""
    model = next((line.partition(":")[2].strip() for line in Path("/proc/cpuinfo").read_text().splitlines() if line.startswith("model name")), "unknown")
    return (f"{datetime.now(UTC):%Y-%m-%d %H:%M} UTC, revision {revision()}, {PROGRAM}; {model}, {os.cpu_count()} processors, Linux {platform.release()}, "
            f"Python {platform.python_version()}, load {os.getloadavg()[0]:.1f}")


def revision() -> str:
    """The revision of these sources."""
    return subprocess.run(["git", "-C", str(HERE.parent), "rev-parse", "--short", "HEAD"], capture_output=True, text=True).stdout.strip()


def asked_for() -> argparse.Namespace:
    """The words of the command."""
    words = argparse.ArgumentParser(description="Makes all measurements of the journal and of many machines, within fifteen minutes.")
    words.add_argument("--short", action="store_true", help="small ones, which try that each works: no figures")
    words.add_argument("--to", type=Path, metavar="FILE", help="where the table is written")
    words.add_argument("--write", action="store_true", help="put the table of --failures into docs/PERFORMANCE.md, if all came to their end")
    words.add_argument("--only", metavar="WORD", help="only those whose name has this word")
    words.add_argument("--failures", action="store_true", help="only what is without service, and for how long: promotion, take-over, a database that is lost")
    options = words.parse_args()
    if options.write and (not options.failures or options.short or options.only):
        words.error("--write is for all that --failures makes")
    return options


def main() -> int:
    """The status of the command."""
    options = asked_for()
    require_program()
    print(machine(), flush=True)
    end, failed = time.monotonic() + (ALL_FAILURES if options.failures else ALL), 0
    made: list[tuple[Measurement, list[str], float]] = []
    chosen = [one for one in measurements(options.short) if options.only is None or options.only in one.name]
    if options.failures:
        chosen = sorted((one for one in chosen if one.name in FAILURES), key=lambda one: FAILURES.index(one.name))
    for one in chosen:
        left = end - time.monotonic()
        if left < 20:
            print(f"==== {one.name}: left out: no time is left", flush=True)
            failed += 1
            continue
        kept: list[str] = []
        failed += not run(one, left, kept)
        made.append((one, kept, os.getloadavg()[0]))
        shutil.rmtree(APART, ignore_errors=True)
    if options.to is not None:
        options.to.write_text(f"{machine()}\n\n{table(made)}", encoding="utf-8")
    if options.write and not failed:
        write_page(table(made))
    print(f"{len(chosen) - failed} of {len(chosen)} measurements came to their end")
    return 1 if failed else 0


if __name__ == "__main__":
    sys.exit(main())
