# SPDX-License-Identifier: Apache-2.0
"""A routine of 100,000 lines: its lines are assigned one by one, and then it is done from its first line, from labels far down, and after lines
were changed, put between others and killed. The replies are worked out by the rules of steps and of routines.

The store is a file: a table in memory looks at each of its rows for each that goes, so that there a KILL of this many lines takes many minutes."""
from __future__ import annotations

import os
import tempfile
from collections.abc import Iterator

import pytest
from running import IN_MEMORY, STEPS
from support import replies_of_lines

pytestmark = pytest.mark.together
LINES = 100_000
MIDDLE = 50_000
FIRST = "L S N=0"
# The other lines count. Each costs 4 steps: the line, SET, and the two operands.
COUNTING = " S N=N+1"
COSTS = 4


def text_of(number: int) -> str:
    """The text of a line."""
    if number == 1:
        return FIRST
    if number == MIDDLE:
        return "MIDDLE W N G LAST"
    if number == LINES:
        return "LAST W N,$T Q"
    return COUNTING


def assignment(number: int | str, text: str) -> str:
    """The line that assigns a line of the routine."""
    return 'S ^ROUTINE("L",%s)="%s"' % (number, text.replace('"', '""'))


def counted() -> int:
    """How far the lines count until the steps are used up: DO is one step, and the first line 3."""
    return (STEPS - 1 - 3) // COSTS


def cases() -> Iterator[tuple[str, list[str]]]:
    """Lines after those that assign the routine, with their replies."""
    n = str(counted())
    yield "D ^L", ["1!ZSTEPS"]
    yield "W N", ["1-" + n, "1."]
    yield 'D LAST^L W ".",N', [f"1-{n}0.{n}", "1."]
    yield "D MIDDLE^L", [f"1-{n}{n}0", "1."]
    yield "G LAST^L", [f"1-{n}0", "1."]
    yield "D NO^L", ["1!M13"]
    yield "S N=7 F I=1:1:20 D LAST^L", ["1-" + 20 * "70", "1."]
    # a line put before the first one leads to the last
    yield assignment(0, "S G LAST"), ["1."]
    yield "D ^L", ["1-70", "1."]
    yield assignment(LINES, 'LAST W "new"'), ["1."]
    yield "D ^L", ["1-new", "1."]
    yield assignment("99999.5", 'LAST W "between" Q'), ["1."]
    yield "D ^L", ["1-between", "1."]
    yield 'K ^ROUTINE("L",99999.5),^(100000) D ^L', ["1!M13"]
    # what runs goes on as it was read, while its lines are killed
    yield assignment(LINES, 'LAST K ^ROUTINE("L") W "kept" G MIDDLE'), ["1."]
    yield assignment(MIDDLE, "MIDDLE W N Q"), ["1."]
    yield "D ^L", ["1-kept7", "1."]
    yield "D ^L", ["1!M13"]


@pytest.fixture(scope="module")
def found() -> list[list[str]]:
    """The replies to the lines that assign the routine, and to those of the cases."""
    built = [assignment(number, text_of(number)) for number in range(1, LINES + 1)]
    with tempfile.TemporaryDirectory(dir=IN_MEMORY) as folder:
        return replies_of_lines([*built, *(line for line, _ in cases())], os.path.join(folder, "store"))


def test_lines_are_assigned(found: list[list[str]]) -> None:
    assert [number for number, reply in enumerate(found[:LINES], 1) if reply != ["1."]] == []


@pytest.mark.parametrize(("place", "reply"), enumerate(reply for _, reply in cases()), ids=[line for line, _ in cases()])
def test_line(found: list[list[str]], place: int, reply: list[str]) -> None:
    assert found[LINES + place] == reply
