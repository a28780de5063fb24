#!/usr/bin/env python3
# SPDX-License-Identifier: Apache-2.0
"""Times SETs over a file, one after another, beside what a user would pick in the place of this program: GT.M with and without a transaction for each
SET, SQLite's shell, and PostgreSQL with one client and with 64. A table says how many each does in a second, of new nodes and of nodes that are there,
and what each has after a loss of power. What is not installed is left out, and named.

    tools/durable.py                run as root or as a user who may start PostgreSQL
        --passes 9                  how often each is timed, all in turn; the median counts, the best is beside it
        --count 5000                SETs a pass; what waits for no disk gets twenty times as many
        --folder /var/tmp           where the files are: a disk that has nothing else to do
        --write                     puts the table into docs/PERFORMANCE.md

A node's key has 30 bytes, and its text 11."""
from __future__ import annotations

import argparse
import os
import re
import shutil
import statistics
import subprocess
import sys
import tempfile
import time
from collections.abc import Callable, Iterator
from contextlib import contextmanager
from dataclasses import dataclass, field
from glob import glob

from bench import DONE, GTM_LOOP, READY, gtm_folder, timed, write_page
from running import require_program, run_words

BEGIN = "<!-- durable.py -->\n"
# Of a new node, and of the same node again: a system may see that nothing changes.
TEXTS = ("hello world", "hello there")
# This many SETs are in one line of M, and an account has steps for them.
A_LINE, STEPS = 1000, 1_000_000
# By what a pass is longer where nothing waits for the disk.
FAST = 20
CLIENTS = 64
KEPT, LOST = "each SET", "not the last ones"
SETTINGS = f'[[account]]\nname = "A1"\nterminals = [1]\nsteps = {STEPS}\n'
UPSERT = "INSERT INTO node VALUES ({key}, '{text}') ON CONFLICT (k) DO UPDATE SET v = excluded.v;"
SQLITE_TABLE = "node (k TEXT PRIMARY KEY, v TEXT NOT NULL) WITHOUT ROWID"
POSTGRESQL_TABLE = "CREATE TABLE node (k text PRIMARY KEY, v text NOT NULL)"
# Each client counts by itself.
PGBENCH = "\\set i :i + 1\n" + UPSERT.format(key="'PATIENT/2026/' || :client_id || '/' || :i || '/name'", text="TEXT") + "\n"


# Times this many SETs of new nodes, and of the same nodes again, in a folder: both in seconds.
Run = Callable[[str, int], tuple[float, float]]


@dataclass
class System:
    """What is timed: its name, what it has after a loss of power, how it is run, by what a pass of it is longer, and the rates that were found."""
    name: str
    kept: str
    run: Run
    longer: int = 1
    new: list[float] = field(default_factory=list)
    again: list[float] = field(default_factory=list)

    def take(self, folder: str, count: int) -> None:
        """Times a pass in a folder of its own."""
        count *= self.longer
        with tempfile.TemporaryDirectory(dir=folder) as own:
            os.chmod(own, 0o755)
            new, again = self.run(own, count)
        self.new.append(count / new)
        self.again.append(count / again)

    def row(self) -> str:
        """Its row of the table."""
        told = [f"{statistics.median(rates):,.0f} ({max(rates):,.0f})" for rates in (self.new, self.again)]
        return f"| {self.name} | {self.kept} | {' | '.join(told)} |"


def lines_of(count: int, each: str) -> bytes:
    """Lines of M that make this many SETs, the same number in each, and say that they are done."""
    lines = [f"1 F I={first}:1:{min(first + A_LINE - 1, count)} {each}\n" for first in range(1, count + 1, A_LINE)]
    return "".join([*lines, f'1 W "{DONE}"\n']).encode()


def by_lines(words: list[str], each: str, count: int, **more: object) -> tuple[float, float]:
    """What a program that reads lines of M takes, for new nodes and for the same again: by two runs, as a run's first answer begins its time."""
    ready = f'1 W "{READY}"\n'.encode()
    return tuple(timed(words, ready, lines_of(count, each.replace("TEXT", text)), **more).passes[0] for text in TEXTS)


NODE = 'S ^PATIENT("2026-11-29",I,"name")="TEXT"'


def mserve(folder: str, count: int) -> tuple[float, float]:
    """This program over a file."""
    settings = os.path.join(folder, "settings.toml")
    with open(settings, "w", encoding="ascii") as file:
        file.write(SETTINGS)
    return by_lines(run_words(settings, os.path.join(folder, "store.db")), NODE, count)


def gtm(journal: str, each: str) -> Run:
    """GT.M with a journal of this kind, or none, and these commands for a SET."""
    def run(folder: str, count: int) -> tuple[float, float]:
        dist = str(gtm_folder())
        with open(os.path.join(folder, "bench.m"), "w", encoding="ascii") as file:
            file.write(GTM_LOOP)
        env = {**os.environ, "gtm_dist": dist, "gtmgbldir": f"{folder}/bench.gld", "gtmroutines": f"{folder} {dist}/libgtmutil.so", "gtm_chset": "M",
               "gtm_tmp": folder, "HOME": folder}
        quiet = {"env": env, "cwd": folder, "capture_output": True, "check": True}
        made = f"change -segment DEFAULT -allocation=20000 -file={folder}/bench.dat\nexit\n".encode()
        subprocess.run([f"{dist}/mumps", "-run", "GDE"], input=made, **quiet)
        subprocess.run([f"{dist}/mupip", "create"], **quiet)
        if journal:
            subprocess.run([f"{dist}/mupip", "set", f"-journal={journal}", "-region", "DEFAULT"], **quiet)
        return by_lines([f"{dist}/mumps", "-run", "bench"], each, count, cwd=folder, env=env)
    return run


def sqlite(synchronous: str) -> Run:
    """SQLite's shell with a log of writes, which it syncs as this says."""
    def run(folder: str, count: int) -> tuple[float, float]:
        words = ["stdbuf", "-oL", "sqlite3", "-batch", os.path.join(folder, "bench.db")]
        begun = f"PRAGMA journal_mode=WAL;\nPRAGMA synchronous={synchronous};\nCREATE TABLE IF NOT EXISTS {SQLITE_TABLE};\nSELECT '{READY}';\n".encode()

        def taken(text: str) -> float:
            upserts = [UPSERT.format(key=f"'PATIENT/2026-11-29/{n:07}/name'", text=text) for n in range(1, count + 1)]
            return timed(words, begun, "\n".join([*upserts, f"SELECT '{DONE}';\n"]).encode()).passes[0]
        return taken(TEXTS[0]), taken(TEXTS[1])
    return run


def postgresql_programs() -> str | None:
    """The folder of its programs, of the newest version."""
    found = sorted(glob("/usr/lib/postgresql/*/bin"), key=lambda path: int(path.split("/")[-2]))
    return found[-1] if found else None


@contextmanager
def cluster(folder: str, commits: str) -> Iterator[list[str]]:
    """A server of PostgreSQL in a folder, and the words that connect to it. It does not run as root."""
    programs = postgresql_programs()
    user = ["setpriv", "--reuid", "postgres", "--regid", "postgres", "--clear-groups"] if os.geteuid() == 0 else []
    if user:
        shutil.chown(folder, "postgres", "postgres")

    def does(name: str, *words: str) -> None:
        subprocess.run([*user, f"{programs}/{name}", *words], cwd=folder, check=True, capture_output=True, stdin=subprocess.DEVNULL)
    data = os.path.join(folder, "data")
    does("initdb", "-D", data, "-A", "trust", "-U", "postgres", "--no-locale", "-E", "UTF8")
    options = f"-c listen_addresses= -c unix_socket_directories={folder} -c synchronous_commit={commits} -c max_connections={CLIENTS + 10}"
    does("pg_ctl", "start", "-w", "-D", data, "-l", os.path.join(folder, "log"), "-o", options)
    try:
        yield ["-h", folder, "-U", "postgres"]
    finally:
        does("pg_ctl", "stop", "-D", data, "-m", "immediate")


def postgresql(clients: int, commits: str) -> Run:
    """PostgreSQL with this many clients, each of which sends prepared statements one after another."""
    def run(folder: str, count: int) -> tuple[float, float]:
        with cluster(folder, commits) as place:
            subprocess.run([f"{postgresql_programs()}/psql", *place, "-qc", POSTGRESQL_TABLE, "postgres"], check=True)
            words = [f"{postgresql_programs()}/pgbench", *place, "-n", "-M", "prepared", "-D", "i=0", "-f", "/dev/stdin", "-c", str(clients), "-j",
                     str(min(clients, 4)), "-t", str(max(1, count // clients)), "postgres"]
            told = [subprocess.run(words, check=True, capture_output=True, text=True, input=PGBENCH.replace("TEXT", text)).stdout for text in TEXTS]
        rates = [float(re.search(r"^tps = ([\d.]+)", text, re.MULTILINE)[1]) for text in told]
        return count / rates[0], count / rates[1]
    return run


def systems() -> list[System]:
    """Those that are installed."""
    found = [System("**mserve**, a store in a file", KEPT, mserve)]
    if gtm_folder():
        committed = NODE.replace("S ", "TS  S ", 1) + " TC"
        found += [System("GT.M, a journal, a transaction for each SET", KEPT, gtm("enable,on,before", committed)),
                  System("GT.M, a journal, its sync for each SET", KEPT, gtm("enable,on,before", f'{NODE} V "JNLFLUSH"')),
                  System("GT.M, a journal", LOST, gtm("enable,on,before", NODE), FAST),
                  System("GT.M, no journal", LOST, gtm("", NODE), FAST)]
    if shutil.which("sqlite3"):
        found += [System("SQLite's shell, WAL, FULL", KEPT, sqlite("FULL")), System("SQLite's shell, WAL, NORMAL", LOST, sqlite("NORMAL"))]
    if postgresql_programs():
        found += [System("PostgreSQL, one client", KEPT, postgresql(1, "on")), System(f"PostgreSQL, {CLIENTS} clients", KEPT, postgresql(CLIENTS, "on"), FAST),
                  System("PostgreSQL, one client, commits not waited for", LOST, postgresql(1, "off"))]
    told = " ".join(one.name for one in found)
    for name in ("GT.M", "SQLite", "PostgreSQL"):
        if name not in told:
            print(f"durable: {name} is not installed, and left out", file=sys.stderr)
    return found


def sync_of(folder: str) -> float:
    """The median time of a write of 4 KB with its sync, in seconds."""
    taken = []
    with tempfile.TemporaryFile(dir=folder) as file:
        for _ in range(200):
            start = time.perf_counter()
            os.pwrite(file.fileno(), bytes(4096), 0)
            os.fdatasync(file.fileno())
            taken.append(time.perf_counter() - start)
    return statistics.median(taken)


def asked_for() -> argparse.Namespace:
    """The words of the command line."""
    read = argparse.ArgumentParser(description=__doc__.split("\n\n", maxsplit=1)[0])
    read.add_argument("--passes", type=int, default=9)
    read.add_argument("--count", type=int, default=5000)
    read.add_argument("--folder", default="/var/tmp")
    read.add_argument("--write", action="store_true")
    return read.parse_args()


def main() -> int:
    """Times all in turn, and prints the table."""
    asked = asked_for()
    require_program()
    found, sync = systems(), sync_of(asked.folder)
    for number in range(asked.passes):
        for one in found:
            one.take(asked.folder, asked.count)
            print(f"{number + 1} of {asked.passes}: {one.name}: {one.new[-1]:,.0f} and {one.again[-1]:,.0f}", file=sys.stderr, flush=True)
    table = ["| System | After a loss of power it has | New nodes, SETs a second | Nodes again |", "|---|---|---|---|", *(one.row() for one in found), "",
             f"{time.strftime('%Y-%m-%d')}, {os.cpu_count()} processors, median (and best) of {asked.passes} passes. A sync of 4 KB took {sync * 1e6:,.0f} µs."]
    text = "\n".join(table) + "\n"
    print(text, end="")
    if asked.write:
        write_page(BEGIN, text)
    return 0


if __name__ == "__main__":
    sys.exit(main())
