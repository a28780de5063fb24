# SPDX-License-Identifier: Apache-2.0
"""For pytest (`-p tools.started`): what it writes down of a case says by which words the case is run, and whether a process was started for it, by itself
or by one of its fixtures. What no process has a part in gives the same each time; where there is one, a machine that has other work may be too late."""
from __future__ import annotations

from collections.abc import Iterator
from functools import wraps
from subprocess import Popen

import pytest

# The names of these properties of a case, as tools/behaviour.py reads them: it does without pytest's package.
NODE, PROCESS = "node", "process"


class Started:
    """How many processes this one has started, and the names of fixtures that started some."""

    count = 0
    fixtures: set[str] = set()


def counted(begin):
    """Counts what is begun by a call."""
    @wraps(begin)
    def begun(*given, **named):
        Started.count += 1
        return begin(*given, **named)
    return begun


Popen.__init__ = counted(Popen.__init__)


@pytest.hookimpl(hookwrapper=True)
def pytest_fixture_setup(fixturedef: object) -> Iterator[None]:
    """Notes a fixture that starts processes: later cases have them too."""
    before = Started.count
    yield
    if Started.count > before:
        Started.fixtures.add(fixturedef.argname)


@pytest.hookimpl(tryfirst=True)
def pytest_runtest_setup(item: pytest.Item) -> None:
    """Notes how many there are before a case."""
    item.started_before = Started.count


@pytest.hookimpl(tryfirst=True)
def pytest_runtest_teardown(item: pytest.Item) -> None:
    """Writes it down: this comes before what pytest makes of the case."""
    has_process = Started.count > item.started_before or not Started.fixtures.isdisjoint(item.fixturenames)
    item.user_properties += [(NODE, item.nodeid), *([(PROCESS, "1")] if has_process else [])]
