#!/usr/bin/python3
# SPDX-License-Identifier: Apache-2.0
"""The whole matrix of troubles, in parts. A record has what was tried: a run that was cut off goes on where it was, and a part that failed is tried again.

Status 1 if a part failed, or if some are left."""
from __future__ import annotations

import argparse
import asyncio
import functools
import json
import os
import random
import signal
import sys
import tempfile
import time
import traceback
from collections.abc import Callable, Iterator
from dataclasses import dataclass
from datetime import UTC, datetime
from pathlib import Path
from typing import TypeVar

sys.path[:0] = [str(Path(__file__).resolve().parent / folder) for folder in ("tests", "tests/steps", ".", "../clients", "../tools")]

from database import IN_MEMORY, Cluster  # noqa: E402
from front import Patience  # noqa: E402
from measured import revision  # noqa: E402
from running import require_program  # noqa: E402
from troubled_gates import Alone, Gates  # noqa: E402
from troubled_pair import Pair  # noqa: E402
from troubles import COMBINATIONS, drawn, tried  # noqa: E402

# Seconds after which something is missed in a part, unless the words say otherwise: the machine may have other work; and how often a part has that at most.
PATIENT, LONGEST = 240, 15
# What is troubled, by its kind, and which kinds have a database.
MADE = {"files": Pair, "database": Pair, "gates": Gates, "alone": Alone}
OVER_DATABASE = ("database", "gates")
# Combinations of all kinds.
ALL = sum(map(len, COMBINATIONS.values()))
# Seconds for which users rest before each line: a standby that begins with the journal runs all that they sent.
REST = 0.05

Made = TypeVar("Made")


@dataclass(frozen=True, slots=True)
class Part:
    """Combinations that one pair meets, one after another."""

    name: str
    kind: str
    chosen: list[tuple[str, str, str]]


def parts(wanted: int, size: int) -> Iterator[Part]:
    """All parts, of the kinds in turn, as many of each as it has of all combinations; they are the same ones at each run."""
    each = {kind: drawn(kind, -(-wanted * len(combinations) // ALL), random.Random(kind)) for kind, combinations in COMBINATIONS.items()}
    for start in range(0, max(map(len, each.values())), size):
        for kind, chosen in each.items():
            if start < len(chosen):
                yield Part(f"{kind} {start}", kind, chosen[start:start + size])


async def begun(make: Callable[[], Made], end: Callable[[Made], object]) -> Made:
    """What is made in a thread. If the part is ended meanwhile, so is that: what runs would stay."""
    making = asyncio.ensure_future(asyncio.to_thread(make))
    try:
        return await asyncio.shield(making)
    except asyncio.CancelledError:
        end(await making)
        raise


async def ran(part: Part) -> dict[str, object]:
    """Runs a part, and gives what it came to."""
    cluster = await begun(Cluster, Cluster.remove) if part.kind in OVER_DATABASE else None
    try:
        with tempfile.TemporaryDirectory(dir=IN_MEMORY, prefix="matrix-") as folder:
            async with asyncio.timeout(LONGEST * Patience.seconds):
                make = functools.partial(MADE[part.kind], Path(folder), *([] if cluster is None else [cluster]))
                troubled = await begun(make, MADE[part.kind].stop)
                counting = await tried(troubled, part.chosen, random.Random(part.name), REST)
        return {"tried": len(part.chosen), "fired": sum(troubled.fired.values()), "answered": counting.answered}
    finally:
        if cluster is not None:
            cluster.remove()


def noted(part: Part) -> dict[str, object]:
    """What a part came to, or how it failed."""
    began, sources = time.monotonic(), revision()
    try:
        found = asyncio.run(ran(part))
    except Exception as error:
        traceback.print_exc()
        found = {"failed": f"{type(error).__name__}: {error}"[:2000]}
    return {"part": part.name, "time": f"{datetime.now(UTC):%Y-%m-%d %H:%M}", "revision": sources, **found, "seconds": round(time.monotonic() - began),
            "load": round(os.getloadavg()[0], 1)}


def read(record: Path) -> list[dict[str, object]]:
    """What a record has. A line that was cut off is left out."""
    lines = record.read_text().splitlines(keepends=True) if record.exists() else []
    return [json.loads(line) for line in lines if line.endswith("\n")]


def told(found: list[dict[str, object]]) -> str:
    """What all parts came to."""
    good = [one for one in found if "failed" not in one]
    tried_, fired, answered = (sum(int(str(one[key])) for one in good) for key in ("tried", "fired", "answered"))
    return (f"{tried_} combinations in {len(good)} parts, {tried_ - fired} of which never came to their step; {answered} lines answered, none lost or twice; "
            f"{len(found) - len(good)} times a part failed")


def main() -> int:
    """The status of the command."""
    words = argparse.ArgumentParser(description="Tries troubles of a leader with a standby, part by part, and goes on where it was cut off.")
    words.add_argument("record", type=Path, metavar="RECORD", help="the file that has what was tried")
    words.add_argument("--wanted", type=int, default=ALL, metavar="N", help=f"combinations in all (default {ALL}: each one once)")
    words.add_argument("--part", type=int, default=20, metavar="N", help="combinations of a part (default 20)")
    words.add_argument("--seconds", type=float, default=float("inf"), metavar="S", help="begin no part after so long")
    words.add_argument("--patience", type=float, default=PATIENT, metavar="S", help=f"seconds after which something is missed (default {PATIENT})")
    words.add_argument("--only", choices=COMBINATIONS, metavar="KIND", help=f"one kind: {', '.join(COMBINATIONS)}")
    words.add_argument("--named", action="append", metavar="PART", help="this part alone, as the record names it; may be given again")
    options = words.parse_args()
    require_program()
    Patience.seconds = options.patience
    # A run in the background ends in order too: what it has started ends with it.
    for number in (signal.SIGTERM, signal.SIGINT):
        signal.signal(number, signal.default_int_handler)
    end, status = time.monotonic() + options.seconds, 0
    done = {str(one["part"]) for one in read(options.record) if "failed" not in one}
    for part in parts(options.wanted, options.part):
        if part.name in done or options.only not in (None, part.kind) or options.named and part.name not in options.named:
            continue
        if time.monotonic() > end:
            status = 1
            break
        found = noted(part)
        status |= "failed" in found
        with options.record.open("a") as record:
            record.write(json.dumps(found) + "\n")
    print(told(read(options.record)))
    return status


if __name__ == "__main__":
    sys.exit(main())
