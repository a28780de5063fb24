# SPDX-License-Identifier: Apache-2.0
"""Troubles as a matrix: what befalls a leader, at which step of the journal's rule, and what is done then. `front/matrix.py` tries all of them."""
from __future__ import annotations

import asyncio
import json
import random
import tempfile
import threading
from collections import Counter
from collections.abc import Callable, Iterator
from pathlib import Path

import pytest
from database import IN_MEMORY, Cluster
from front import in_loop
from matrix import ALL, begun, parts, read, told
from troubled_gates import Alone, Gates
from troubled_pair import Pair
from troubles import COMBINATIONS, Troubled, drawn, tried

# Combinations that are tried, unless more are asked for (--count).
TRIED = {"files": 40, "database": 10, "gates": 6, "alone": 6}


@pytest.fixture
def folder() -> Iterator[Path]:
    """A folder where nothing waits for the disk: processes are killed here, and the machine is not."""
    with tempfile.TemporaryDirectory(dir=IN_MEMORY, prefix="matrix-") as made:
        yield Path(made)


@pytest.mark.parametrize("size", [5, 20])
def test_each_combination_is_in_one_part(size: int) -> None:
    """Of each run, so that a record of parts says what is left."""
    found = Counter((part.kind, combination) for part in parts(ALL, size) for combination in part.chosen)
    assert found == Counter((kind, combination) for kind, combinations in COMBINATIONS.items() for combination in combinations) and len(found) == ALL
    assert [part.name for part in parts(ALL, size)] == list(dict.fromkeys(part.name for part in parts(ALL, size)))


def test_what_a_record_comes_to(tmp_path: Path) -> None:
    """A part that failed is counted apart, and what was cut off is left out."""
    rows = [{"part": "files 0", "tried": 5, "fired": 4, "answered": 20}, {"part": "gates 0", "failed": "a counter is 7"},
            {"part": "gates 0", "revision": "abc", "tried": 5, "fired": 5, "answered": 7}]
    record = tmp_path / "record"
    record.write_text("".join(json.dumps(row) + "\n" for row in rows) + '{"part": "files 5", "tri')
    assert read(record) == rows
    assert told(read(record)) == ("10 combinations in 2 parts, 1 of which never came to their step; 27 lines answered, none lost or twice; "
                                  "1 times a part failed")


@in_loop()
async def test_what_a_part_has_begun_ends_with_it() -> None:
    """Also if the part is ended while that is made: gates and databases had stayed."""
    made, ended = threading.Event(), []

    def make() -> str:
        made.wait()
        return "gates"
    making = asyncio.create_task(begun(make, ended.append))
    await asyncio.sleep(0)
    making.cancel()
    await asyncio.sleep(0)
    made.set()
    with pytest.raises(asyncio.CancelledError):
        await making
    assert ended == ["gates"] and await begun(make, ended.append) == "gates" and ended == ["gates"]


@pytest.mark.long
@pytest.mark.parametrize(("kind", "made"), [("files", Pair), ("alone", Alone)])
@in_loop(36_000)
async def test_the_matrix_of_troubles(folder: Path, kind: str, made: Callable[[Path], Troubled], count: int) -> None:
    await enough_of(await asyncio.to_thread(made, folder), kind, count)


@pytest.mark.long
@pytest.mark.parametrize(("kind", "made"), [("database", Pair), ("gates", Gates)])
@in_loop(36_000)
async def test_the_matrix_of_troubles_over_a_database(folder: Path, kind: str, made: Callable[[Path, Cluster], Troubled], count: int) -> None:
    cluster = await asyncio.to_thread(Cluster)
    try:
        await enough_of(await asyncio.to_thread(made, folder, cluster), kind, count)
    finally:
        cluster.remove()


async def enough_of(troubled: Troubled, kind: str, count: int) -> None:
    """Tries combinations of a kind, of which most come to their step: a start gives rows only if a line was on its way."""
    wanted, rng = TRIED[kind] * count, random.Random(6 + count)
    await tried(troubled, drawn(kind, wanted, rng), rng)
    assert sum(troubled.fired.values()) >= wanted // 2
