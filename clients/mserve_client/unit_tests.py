# SPDX-License-Identifier: Apache-2.0
"""Unit tests in M: the labels `T..` of routines `T..`, each run in a new session, with a report in TAP.

A test says what holds by the helpers of the routine %TEST, which is loaded for the run:

    S %OK=X>1,%NAME="above one" D OK^%TEST
    S %GOT=SUM,%WANT=3,%NAME="1 and 2" D EQ^%TEST

The routines of before are put back after the run. What tests write to other globals stays."""
from __future__ import annotations

from collections.abc import Iterator
from contextlib import contextmanager
from dataclasses import dataclass

from . import routines
from .codes import in_words
from .mtext import reference
from .routine_files import Source
from .walk import ROUTINE, Node, asked
from .wire import Connected, Reply

HELPER = "%TEST"
HELPERS = [
    "%TEST ; helpers of mroutine test: each writes a line of TAP",
    " Q",
    "OK ; in: %OK, a condition; %NAME",
    ' W:%OK "ok - ",$G(%NAME),!',
    ' W:\'%OK "not ok - ",$G(%NAME),!',
    " K %OK,%NAME Q",
    "EQ ; in: %GOT, %WANT; %NAME",
    ' W:%GOT=%WANT "ok - ",$G(%NAME),!',
    ' W:%GOT\'=%WANT "not ok - ",$G(%NAME),!,"# got:  ",%GOT,!,"# want: ",%WANT,!',
    " K %GOT,%WANT,%NAME Q",
]


@dataclass(slots=True)
class Report:
    """How many points were reported, and how many of them failed."""

    points: int = 0
    failed: int = 0

    def point(self, name: str, text: str) -> str:
        """The line of TAP of a check that a test wrote as `ok - ..` or `not ok - ..`."""
        self.points += 1
        is_good = text.startswith("ok")
        self.failed += not is_good
        about = text.partition(" - ")[2]
        return f"{'ok' if is_good else 'not ok'} {self.points} - {name}{': ' + about if about else ''}"


def tests_of(source: Source) -> list[str]:
    """The tests of a routine whose name begins with T: its labels that do, but for its own name. Other routines are what is tested."""
    is_test = source.name.lstrip("%").startswith("T")
    return [line.label for line in source.lines if is_test and line.label.startswith("T") and line.label != source.name]


@contextmanager
def loaded(connection: Connected, sources: list[Source]) -> Iterator[None]:
    """Loads routines and the helpers for the block, and puts back what was there before."""
    texts = {source.name: source.texts() for source in sources} | {HELPER: HELPERS}
    before = {name: routines.nodes_of(connection, name) for name in texts}
    try:
        for name, lines in texts.items():
            routines.load(connection, name, lines)
        yield
    finally:
        with routines.interrupts_later():
            for name, nodes in before.items():
                put_back(connection, name, nodes)


def put_back(connection: Connected, name: str, nodes: list[Node]) -> None:
    """Gives a routine the nodes of before."""
    if nodes:
        routines.replace(connection, name, nodes)
    else:
        asked(connection, f"K {reference(ROUTINE, (name,))}")


def run(connection: Connected, sources: list[Source], report: Report) -> Iterator[str]:
    """The lines of TAP: those of each test as it has ended, and the plan."""
    yield "TAP version 13"
    for source in sources:
        for label in tests_of(source):
            fresh(connection)
            yield from shown(f"{label}^{source.name}", connection.send(f"D {label}^{source.name}"), report)
    fresh(connection)
    yield f"1..{report.points}"


def fresh(connection: Connected) -> None:
    """Begins a new session, which holds the lock of those who change routines."""
    connection.send("HALT")
    connection.send(f"L +{ROUTINE}")


def shown(name: str, reply: Reply, report: Report) -> Iterator[str]:
    """The lines of TAP that a test's reply comes to."""
    before = report.points
    for line in reply.output:
        yield report.point(name, line) if line.startswith(("ok - ", "not ok - ")) else f"# {line.removeprefix('# ')}"
    if reply.code is not None:
        yield report.point(name, f"not ok - {in_words(reply.code)}")
    elif report.points == before:
        yield report.point(name, "not ok - it made no check: D OK^%TEST or EQ^%TEST")
