# SPDX-License-Identifier: Apache-2.0
"""How these tests run: each against the built program, over a store in memory and over one in a file.

The programs are those that tools/running.py names."""
from __future__ import annotations

import contextlib
import os
import re
import subprocess
import sys
import tempfile
import time
from collections.abc import Callable, Iterator
from dataclasses import dataclass
from pathlib import Path

import hypothesis
import pytest
import running
from mserve_client import Connection

CLIENTS = Path(__file__).resolve().parent.parent
# The same cases in each run, and no deadline: the machine may be busy.
hypothesis.settings.register_profile("house", deadline=None, max_examples=40, derandomize=True, database=None)
hypothesis.settings.load_profile("house")
SETTINGS = str(CLIENTS / "tests" / "settings.toml")
ALICE, ALICE_TOO, BOB, SHORT = 1, 2, 3, 4
# A terminal of an account with language 1; the others have the profile.
CAROL = 5
CONNECTIONS = 1_000_000
# The kinds of store; the variable STORES names fewer.
STORES = os.environ.get("STORES", "memory file").split()
# The globals that tests make, which are killed before the next test.
NAMES = ("ROUTINE", "X", "Y", "Z", "DATA", "INR", "HERE", "%P", "UNSEEN", "PATIENT", "VISIT", "NONE")


def pytest_addoption(parser: pytest.Parser) -> None:
    """`--count N`: tests that draw their cases draw N times as many. Those of tests/ have the same option, and may run in the same process."""
    with contextlib.suppress(ValueError):
        parser.addoption("--count", type=int, default=1, metavar="N", help="draw N times as many cases")


@pytest.fixture(scope="session")
def times(request: pytest.FixtureRequest) -> int:
    """How many times as many cases are to be drawn."""
    return request.config.getoption("--count")


def pytest_configure() -> None:
    """Ends the run if there is no program to test, and has the clients take the one for islands from where it is."""
    if not os.path.exists(running.PROGRAM) or not os.path.exists(running.ISLANDS):
        pytest.exit("clients/tests: a program is missing: run ./mserve --help, or name the programs by the variables MSERVE and MISLANDS", returncode=3)
    os.environ["MISLANDS"] = running.ISLANDS


@dataclass
class Server:
    """A server that runs: its process, its port, and where its store is."""

    process: subprocess.Popen[bytes]
    port: int
    store: str

    def connection(self, terminal: int = ALICE, **more: float) -> Connection:
        """A connection of a terminal, ALICE's first one if no other is named."""
        return Connection(self.port, terminal, **more)

    def stop(self) -> None:
        """Ends the server as an operator does."""
        self.process.terminate()
        self.process.wait(60)


def start(store: str) -> Server:
    """A server over a store, which takes connections once this returns."""
    port = running.free_port()
    return Server(start_at(store, port), port, store)


def start_at(store: str, port: int) -> subprocess.Popen[bytes]:
    """The process of a server over a store, at a port, which takes connections once this returns."""
    process = subprocess.Popen(running.serve_words(port, CONNECTIONS, store, SETTINGS), stdin=subprocess.DEVNULL, stdout=subprocess.DEVNULL)
    running.connected(port).close()
    return process


def served(kind: str) -> Iterator[Server]:
    """A server over a new store of a kind, `memory` or `file`; the file waits for no disk."""
    with tempfile.TemporaryDirectory(dir=running.IN_MEMORY) as folder:
        started = start("memory" if kind == "memory" else os.path.join(folder, "store.db"))
        try:
            yield started
        finally:
            started.stop()


@pytest.fixture(scope="session", params=STORES)
def lasting_server(request: pytest.FixtureRequest) -> Iterator[Server]:
    """A server of each kind of store, for all tests."""
    yield from served(request.param)


@pytest.fixture
def server(lasting_server: Server) -> Server:
    """A server over a store of each kind, with nothing in it, and new sessions."""
    for terminal in (ALICE, ALICE_TOO, BOB, SHORT, CAROL):
        with lasting_server.connection(terminal) as connection:
            replies = list(connection.pipeline(["HALT", *(f"K ^{name}" for name in NAMES)]))
            assert all(reply.ok for reply in replies)
    return lasting_server


@pytest.fixture(params=STORES)
def own_server(request: pytest.FixtureRequest) -> Iterator[Server]:
    """A server over a store of each kind that a test may end."""
    yield from served(request.param)


@pytest.fixture
def file_server() -> Iterator[Server]:
    """A server over a new store in a file."""
    yield from served("file")


# What a command adds to its count if it took more than some seconds, as on a busy machine.
RATE = re.compile(r", [\d,]+ a second$", re.MULTILINE)


@dataclass(frozen=True)
class Ran:
    """What a command wrote, without its rate, and its status."""

    status: int
    output: str
    told: str


Command = Callable[..., Ran]


@pytest.fixture
def command(tmp_path: Path) -> Command:
    """Runs a command of clients/ in a folder of its own."""
    def ran(name: str, *words: object, stdin: str | bytes = b"", cwd: Path = tmp_path, **more: str) -> Ran:
        data = stdin.encode() if isinstance(stdin, str) else stdin
        done = subprocess.run([sys.executable, CLIENTS / name, *map(str, words)], input=data, capture_output=True, timeout=60, cwd=cwd,
                              env={**os.environ, "HOME": str(tmp_path), **more})
        return Ran(done.returncode, RATE.sub("", done.stdout.decode("latin1")), RATE.sub("", done.stderr.decode("latin1")))
    return ran


@contextlib.contextmanager
def within(seconds: float) -> Iterator[None]:
    """Fails if the block takes longer."""
    began = time.monotonic()
    yield
    assert time.monotonic() - began < seconds
