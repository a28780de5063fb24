# SPDX-License-Identifier: Apache-2.0
"""The server: it is started as a child, or joined at its port, and connected to; if it ends, it is started again."""
from __future__ import annotations

import asyncio
import contextlib
import errno
import os
import shutil
import socket
import sys
from collections.abc import AsyncIterator, Awaitable, Callable, Iterator, Mapping, Sequence
from dataclasses import dataclass
from pathlib import Path
from typing import TYPE_CHECKING

from .connection import HOST, NoStart, joined
from .enclosure import APART, PORT, can_enclose, started
from .faults import Causes, NoJournal
from .lines import HALT, Line
from .metrics import Metrics
from .replies import Answer
from .settings import Settings
from .shares import Shares
from .slices import OWN, take_slices
from .turns import Ask, FairConnection, Lost, Unsent

if TYPE_CHECKING:
    from .journal import Journal

CONNECTIONS = 1_000_000
# Seconds between two attempts to start the server: the first and the longest.
FIRST_PAUSE, LONGEST_PAUSE = 0.1, 5.0
# Seconds after which a child that answers no line is ended: another process has got its connection.
PATIENCE = 60.0
# Seconds that a child has to end, before it is killed.
ENDING = 5.0


def tell(text: str) -> None:
    """Writes a line to the standard error."""
    print(f"mfront: {text}", file=sys.stderr, flush=True)


class Condition:
    """A fault that may last: it is reported when it comes, when it has another cause, and when it is gone, and not each time that it is met. `text` says what
    it is; empty if there is none."""

    def __init__(self, came: str, gone: str) -> None:
        """What is said of it then; `{}` stands for what it is."""
        self._came, self._gone, self.text = came, gone, ""
        self._causes = Causes()

    def comes(self, error: Exception) -> None:
        """It is met."""
        if not self._causes.has(error):
            tell(self._came.format(error))
        self.text = str(error)

    def comes_again(self, error: Exception) -> None:
        """It is met, and reported whatever it was before."""
        self._causes.clear()
        self.comes(error)

    def goes(self) -> None:
        """It is not there, or no more."""
        if self.text:
            tell(self._gone)
        self._causes.clear()
        self.text = ""


@dataclass(frozen=True, slots=True)
class Child:
    """A server that runs as a child of this process, and its port; `fresh` says that its store was made with it. `ways` are sockets in the network of its
    own; None if it has none. `ahead` is a connection that is its next one, if one was made ahead."""

    process: asyncio.subprocess.Process
    port: int
    fresh: bool = False
    ways: list[socket.socket] | None = None
    ahead: socket.socket | None = None


class _Ended(Exception):
    """The child was ended between two lines."""


class Server:
    """The server and the one connection to it. `generation` counts how often all terminals' sessions were begun again; `state` is `starting`, `up`
    or `down`; `shares` has what each account has used of it."""

    def __init__(self, settings: Settings, metrics: Metrics, journal: Journal | None = None) -> None:
        """`restarted` is called each time that the server is up again after it was down; who has the sessions sets it."""
        self._settings = settings
        self._metrics = metrics
        self.restarted: Callable[[], Awaitable[None]] | None = None
        self._journal = journal
        self._began: Callable[[bool, bytes], Awaitable[None]] | None = None
        self._one = asyncio.Lock()
        self._fresh = False
        self._text = b""
        self.shares: Shares[Ask] = Shares({})
        self.know(settings.terminals)
        self._process: asyncio.subprocess.Process | None = None
        self._port = settings.join or 0
        self._ways: list[socket.socket] | None = None
        self._ahead: socket.socket | None = None
        self._turns: FairConnection | None = None
        self.state = "starting"
        self.generation = 1

    @property
    def pid(self) -> int | None:
        """The number of the child's process."""
        return None if self._process is None else self._process.pid

    @property
    def waiting(self) -> int:
        """How many lines have no reply yet."""
        return self._turns.waiting if self._turns else 0

    def oldest(self) -> float:
        """How long the oldest line without a reply has waited."""
        return self._turns.oldest() if self._turns else 0.0

    async def ask(self, terminal: int, line: Line, user: str = "") -> Answer:
        """The answer of a line. Raises `Unsent` if the server is not up, `Lost` if it ends after the line was sent, and `NoJournal` or `HeldBack` if
        the journal cannot be written."""
        if self.state != "up" or self._turns is None:
            raise Unsent
        return await self._turns.ask(terminal, line, user)

    def know(self, terminals: Mapping[str, Sequence[int]]) -> None:
        """Which terminals each account has, from now on."""
        account_of = {terminal: account for account, own in terminals.items() for terminal in own}
        self._terminals = list(account_of)
        self.shares.know(account_of)

    @contextlib.asynccontextmanager
    async def quiet(self) -> AsyncIterator[None]:
        """Between two lines: while the block runs no line is on its way, and all that was answered is in the journal. Raises `Unsent` if the server is
        not up, or ends meanwhile, and `NoJournal`."""
        async with self._one:
            turns = self._turns
            if self.state != "up" or turns is None:
                raise Unsent
            try:
                await turns.pause()
                if turns.ended.done():
                    raise Unsent
                if self._journal is not None:
                    await self._journal.settled()
                yield
            finally:
                turns.go()
            if turns.ended.done():
                raise Unsent

    async def renew(self, rows: Iterator[bytes] | None = None) -> None:
        """Between two lines (`quiet`): ends all terminals' sessions, notes that in the journal, with all rows of the store if these are given, and tells all
        users, as after a restart. Raises `Lost`, `Unsent` or `NoJournal`."""
        assert self._turns is not None and self._journal is not None
        await self._journal.renew(self._text, rows)
        # From here on it is in the journal. If the server ends now, its start does the same.
        self.generation += 1
        await self._turns.halt(self._terminals)
        await self._begin_again()

    async def start_again(self, known: Callable[[], None]) -> None:
        """Between two lines (`quiet`): ends the child, which is started again by the settings that are in their file; `known` is called before. Users are
        told, as after any restart. Raises `Unsent` or `NoJournal` if it cannot be now."""
        with contextlib.suppress(_Ended):
            async with self.quiet():
                turns = self._turns
                known()
                assert self._process is not None and turns is not None, "it is up"
                self._process.terminate()
                with contextlib.suppress(TimeoutError):
                    await asyncio.wait_for(self._process.wait(), ENDING)
                await self._give_up()
                await asyncio.shield(turns.ended)
                self.state = "down"
                raise _Ended

    def forget(self, terminal: int) -> None:
        """Takes back the lines of a terminal that are not sent."""
        if self._turns is not None:
            self._turns.forget(terminal)

    def begins(self, began: Callable[[bool, bytes], Awaitable[None]]) -> None:
        """Has a call note each start in the journal, once the store is there and no session is open: it gets whether the store was made again, and the
        server's settings. It raises `NoJournal` or `NoStart`."""
        self._began = began

    async def begin(self, child: Child | None = None) -> None:
        """Starts the server for the first time, or takes the child that runs. Raises `NoStart` if it ends at once, as for settings or a store that it
        refuses."""
        if child is not None:
            self._process, self._port, self._ways, self._ahead = child.process, child.port, child.ways, child.ahead
        elif self._settings.join is None:
            await self._launch()
        self._text = self._text or self._settings_text()
        await self._connect()

    async def run(self) -> None:
        """Keeps the server up, once it has begun."""
        pause = FIRST_PAUSE
        while True:
            if self._turns is not None:
                # Others await it too: a task that is cancelled here, as at a stop, does not cancel it for them.
                await asyncio.shield(self._turns.ended)
                self._fell(self._turns.fault)
            await asyncio.sleep(pause)
            try:
                await self._again()
                pause = FIRST_PAUSE
            except (NoStart, OSError) as error:
                pause = min(2 * pause, LONGEST_PAUSE)
                tell(f"the server could not be started again: {error}")

    def cut(self) -> None:
        """Ends the connection at once: lines on their way are lost."""
        if self._turns is not None:
            self._turns.abort()

    @property
    def whole(self) -> bool:
        """Whether the server is up, and its connection has not ended."""
        return self.state == "up" and self._turns is not None and not self._turns.ended.done()

    async def end(self) -> None:
        """Ends the connection, and the child with it. What was answered is in the store."""
        self.cut()
        if self._process is not None and self._process.returncode is None:
            self._process.terminate()
            with contextlib.suppress(TimeoutError):
                await asyncio.wait_for(self._process.wait(), ENDING)
            await self._give_up()

    def _fell(self, fault: str | None) -> None:
        """Notes that the connection is over."""
        self.state = "down"
        self.generation += 1
        self._turns = None
        self._metrics.restarts += 1
        tell(f"the connection to the server ended{': ' + fault if fault else ''}")

    async def _begin_again(self) -> None:
        """Says that all sessions begin again."""
        if self.restarted is not None:
            await self.restarted()

    async def _again(self) -> None:
        """Starts a child that has ended, and connects. One that only broke the connection goes on, with what it has in memory."""
        if self._process is not None:
            with contextlib.suppress(TimeoutError):
                await asyncio.wait_for(self._process.wait(), 0.5)
        if self._settings.join is None and (self._process is None or self._process.returncode is not None):
            await self._launch()
        await self._connect()
        await self._begin_again()

    async def _launch(self) -> None:
        """Starts the child."""
        self._text = self._settings_text()
        child = await launched(self._settings.program, self._settings.server_settings, str(self._settings.store))
        self._process, self._port, self._fresh, self._ways = child.process, child.port, child.fresh, child.ways

    async def _connect(self) -> None:
        """Connects, and has all terminals' sessions ended; then the server is up."""
        turns = await self._connected()
        try:
            # In its own network nobody else can have got its connection: it may be at a long line of before.
            async with asyncio.timeout(None if self._ways is not None else PATIENCE):
                await asyncio.gather(*(turns.ask(terminal, HALT) for terminal in self._terminals))
            await self._noted(turns)
        except (TimeoutError, Lost, Unsent, NoJournal) as error:
            turns.abort()
            if not isinstance(error, NoJournal):
                await self._give_up()
            raise NoStart(self._why(turns, error)) from error
        except NoStart:
            turns.abort()
            raise
        self._fresh = False
        self._turns = turns
        self.state = "up"

    async def _noted(self, turns: FairConnection) -> None:
        """Notes in the journal, if there is one, that all sessions begin again; from now on the connection's lines are in it. Raises `NoJournal`."""
        if self._journal is not None and self._began is not None:
            await self._began(self._fresh, self._text)
            turns.keep(self._journal)

    def _settings_text(self) -> bytes:
        """The server's settings, as the journal keeps them."""
        try:
            return self._settings.server_settings.read_bytes()
        except OSError as error:
            raise NoStart(f"{self._settings.server_settings}: {error.strerror}") from error

    def _why(self, turns: FairConnection, error: Exception) -> str:
        if isinstance(error, NoJournal):
            return f"the journal cannot be written: {error}"
        return f"no reply at port {self._port}: " + ("another client is connected to it" if isinstance(error, TimeoutError) else
                                                     turns.fault or "the connection ended")

    async def _give_up(self) -> None:
        """Ends a child that is of no use."""
        if self._process is not None and self._process.returncode is None:
            self._process.kill()
            await self._process.wait()

    async def _connected(self) -> FairConnection:
        """A connection to the server. One that was there before this process began has to be listening."""
        patient = self._process is not None or self.state != "starting"
        ahead, self._ahead = self._ahead, None
        return await joined(self._port, lambda: FairConnection(self._settings.limits.reply, self._metrics.timed, self.shares), self._process, patient,
                            self._ways, ahead)


async def launched(program: Path, settings: Path, store: str, connections: int = CONNECTIONS) -> Child:
    """A child at a port that is free. It ends with this process. Raises `NoStart` if there is no such program."""
    enclosed = await asyncio.to_thread(can_enclose)
    port, fresh = PORT if enclosed else free_port(), store == "memory" or not os.path.exists(store)
    words = [str(program), "serve", "--settings", str(settings), "--store", store, "--port", str(port), "--connections", str(connections)]
    if not os.access(program, os.X_OK):
        raise NoStart(f"{program}: {os.strerror(errno.EACCES if os.path.exists(program) else errno.ENOENT)}")
    if not enclosed:
        tell("no network of its own can be had for the server (user namespaces): other users of this machine can connect to its port")
    try:
        process, ways = await started(words) if enclosed else (await asyncio.create_subprocess_exec(*tied(shutil.which("setpriv")), *words, **APART), None)
    except OSError as error:
        raise NoStart(f"{program}: {error.strerror}") from error
    # A line may compute for long.
    take_slices(OWN, process.pid)
    return Child(process, port, fresh, ways)


def tied(setpriv: str | None) -> Sequence[str]:
    """The words before a command by which it ends when this process does, however that ends."""
    return [setpriv, "--pdeathsig", "KILL"] if setpriv else []


def free_port() -> int:
    """A port of the loopback that nobody listens at."""
    with socket.socket() as place:
        place.setsockopt(socket.SOL_SOCKET, socket.SO_REUSEADDR, 1)
        place.bind((HOST, 0))
        return int(place.getsockname()[1])
