#!/usr/bin/python3
# SPDX-License-Identifier: Apache-2.0
"""How many nodes a second `mglobal import` sets through a terminal over a store in a file, beside what that store commits by itself: the program runs
a file of the same lines, each with as many SETs, and waits for nobody. Both take turns, each over a new store; or they run at once by `--together`, so
that whatever else the disk has to do delays both alike: then the ratio holds on a busy machine too, and the rates do not. By `--memory` the stores
are in memory and not in files.

    clients/import_rate.py [--nodes N] [--passes N] [--together] [--memory | --folder FOLDER]

Status 1 if a node was not set."""
from __future__ import annotations

import argparse
import os
import statistics
import subprocess
import sys
import tempfile
import time
from concurrent.futures import ThreadPoolExecutor
from pathlib import Path

CLIENTS = Path(__file__).resolve().parent
sys.path[:0] = [str(CLIENTS), str(CLIENTS.parent / "tools")]

import running  # noqa: E402
from mserve_client import extracts  # noqa: E402
from mserve_client.extracts import Entry, Form  # noqa: E402
from mserve_client.terminal_way import MOST, grouped  # noqa: E402

TERMINAL = 1


def nodes(count: int) -> list[Entry]:
    """The nodes: two subscripts, and a short text."""
    return [Entry(number, "PATIENT", (str(number), "name"), f"the name of {number}") for number in range(count)]


def lines(entries: list[Entry]) -> list[str]:
    """The lines by which an import sets them."""
    return [line for texts, _ in grouped(iter(entries), MOST, "%m") for line in texts]


def written(path: Path, entries: list[Entry]) -> Path:
    """An extract that has them."""
    form = Form("zwr", "", False)
    path.write_text(extracts.header(form) + "".join(extracts.written(form, entry.name, entry.subscripts, entry.text) for entry in entries), encoding="ascii")
    return path


def by_itself(store: str, job: Path, count: int) -> float:
    """The seconds in which the program runs the lines of a file."""
    began = time.monotonic()
    with job.open("rb") as stream:
        done = subprocess.run(running.run_words(store=store), stdin=stream, stdout=subprocess.PIPE, check=True)
    seconds = time.monotonic() - began
    if done.stdout != b"%d.\n" % TERMINAL * count:
        sys.exit("import_rate: a line of the job was not run")
    return seconds


def by_import(store: str, extract: Path, count: int) -> float:
    """The seconds in which an import sets the nodes of an extract, from the start of the command to its end."""
    port = running.free_port()
    with subprocess.Popen(running.serve_words(port, 2, store), stdin=subprocess.DEVNULL) as server:
        running.connected(port).close()
        began = time.monotonic()
        done = subprocess.run([sys.executable, CLIENTS / "mglobal", str(port), str(TERMINAL), "import", extract], stdout=subprocess.PIPE, text=True)
        seconds = time.monotonic() - began
        server.terminate()
    if done.returncode or not done.stdout.startswith(f"{count:,} nodes imported"):
        sys.exit(f"import_rate: the import ended with status {done.returncode}: {done.stdout}")
    return seconds


def measured(folder: Path, count: int, passes: int, at_once: int, in_memory: bool) -> list[tuple[float, float]]:
    """The nodes a second of both ways, pass by pass."""
    def store(name: str) -> str:
        return "memory" if in_memory else str(folder / name)
    entries = nodes(count)
    texts = lines(entries)
    extract, job, rates = written(folder / "nodes.zwr", entries), folder / "job", []
    job.write_text("".join(f"{TERMINAL} {text}\n" for text in texts), encoding="ascii")
    print(f"{count:,} nodes in {len(texts):,} lines, {count / len(texts):.1f} SETs a line")
    for number in range(1, passes + 1):
        with ThreadPoolExecutor(at_once) as ways:
            begun = ways.submit(by_itself, store(f"alone{number}"), job, len(texts)), ways.submit(by_import, store(f"taken{number}"), extract, count)
        alone, taken = (count / way.result() for way in begun)
        print(f"pass {number}: the store by itself {alone:,.0f} nodes a second, the import {taken:,.0f}: {taken / alone:.2f}", flush=True)
        rates.append((alone, taken))
    return rates


def main() -> int:
    """The status of the script."""
    words = argparse.ArgumentParser(description="Measures an import through a terminal, beside what the store takes by itself.")
    words.add_argument("--nodes", type=int, default=20_000, metavar="N", help="how many nodes (default 20000)")
    words.add_argument("--passes", type=int, default=5, metavar="N", help="how often (default 5)")
    words.add_argument("--together", action="store_true", help="run both ways at once, and not in turns")
    words.add_argument("--memory", action="store_true", help="stores in memory, and not in files")
    words.add_argument("--folder", type=Path, help="where the stores are, on the disk that is measured (default: a temporary one)")
    options = words.parse_args()
    running.require_program()
    with tempfile.TemporaryDirectory(prefix="mserve-import", dir=options.folder) as name:
        rates = measured(Path(name), options.nodes, options.passes, 2 if options.together else 1, options.memory)
    alone, taken = (statistics.median(rate) for rate in zip(*rates))
    ratio = statistics.median(taken / alone for alone, taken in rates)
    print(f"median: the store by itself {alone:,.0f} nodes a second, the import {taken:,.0f}; of the ratios {ratio:.2f}")
    print(f"load of the machine: {os.getloadavg()[0]:.1f} on {len(os.sched_getaffinity(0))} processors of {os.cpu_count()}")
    return 0


if __name__ == "__main__":
    sys.exit(main())
