# SPDX-License-Identifier: Apache-2.0
"""The fronts of a gate's islands, each a fork of one process, the fork server, which has loaded all that a front needs. By itself each of them would take a
third of a second of a processor for that, and after a restart of a gate with many islands most of their users would wait.

The fork server is a fork of the gate, made before that has read anything: it has no secret of a user, of a machine or of an island, and is handed nothing
but the words of a front's command. It ends with the gate, however that ends, and the fronts with it."""
from __future__ import annotations

import asyncio
import contextlib
import ctypes
import errno
import functools
import gc
import json
import os
import signal
import socket
import sys
import threading
import time
import traceback
from collections.abc import Callable
from pathlib import Path
from typing import NamedTuple, NoReturn

from . import enclosed
from .server import tell

# Bytes of a message, and seconds for what other threads of a process do at its end.
LONGEST, SETTLING = 16_384, 5.0


class Wanted(NamedTuple):
    """A front that is wanted: what the system is to show of it, its words, and whether its journal is in a database."""

    shown: str
    words: list[str]
    database: bool


class Forked:
    """A process that was forked, as its gate sees it: by a descriptor that stands for it alone, whatever gets its number later."""

    def __init__(self, pid: int, descriptor: int) -> None:
        self.pid, self._descriptor = pid, descriptor
        self._over = asyncio.Event()
        asyncio.get_running_loop().add_reader(descriptor, self._has_ended)

    @property
    def over(self) -> bool:
        """Whether it has ended."""
        return self._over.is_set()

    def _has_ended(self) -> None:
        asyncio.get_running_loop().remove_reader(self._descriptor)
        os.close(self._descriptor)
        self._over.set()

    def send_signal(self, number: signal.Signals) -> None:
        """Sends it a signal, unless it has ended."""
        if not self.over:
            with contextlib.suppress(ProcessLookupError):
                signal.pidfd_send_signal(self._descriptor, number)

    async def wait(self) -> None:
        """Waits for its end."""
        await self._over.wait()


class ForkServer:
    """The fork server, as its gate sees it."""

    def __init__(self, pid: int, there: socket.socket) -> None:
        self._pid, self._there = pid, there
        self._turn = asyncio.Lock()
        self._process: Forked | None = None

    async def front(self, wanted: Wanted) -> Forked:
        """A front that is started. Raises OSError if that cannot be done now."""
        async with self._turn:
            asked = asyncio.ensure_future(asyncio.to_thread(self._asked, wanted))
            try:
                return Forked(*await asyncio.shield(asked))
            except asyncio.CancelledError:
                # Nobody would know of it, and end it in order.
                Forked(*await asked).send_signal(signal.SIGKILL)
                raise

    def _asked(self, wanted: Wanted) -> tuple[int, int]:
        self._there.send(json.dumps(wanted).encode())
        answer, descriptors, _, _ = socket.recv_fds(self._there, LONGEST, 1)
        if not descriptors:
            raise OSError(errno.ECHILD, answer.decode() or "the process that starts fronts has ended")
        return int(answer), descriptors[0]

    async def over(self) -> None:
        """Waits until it has ended: no front is there then, and none can be started."""
        if self._process is None:
            self._process = Forked(self._pid, os.pidfd_open(self._pid))
        await self._process.wait()

    async def end(self) -> None:
        """Ends it. What it has started is to have ended before: the rest is killed."""
        with contextlib.suppress(OSError):
            # A thread that waits for an answer has none by that.
            self._there.shutdown(socket.SHUT_RDWR)
        await self.over()
        os.waitpid(self._pid, 0)
        self._there.close()


def begin() -> ForkServer:
    """Forks the fork server, which loads what it needs while the gate goes on. This process has one thread yet."""
    here, there = socket.socketpair(socket.AF_UNIX, socket.SOCK_SEQPACKET)
    own = os.getpid()

    def serves() -> int:
        here.close()
        serve(there)
        return 0
    child = os.fork()
    if child == 0:
        become(own, serves)
    there.close()
    return ForkServer(child, here)


def serve(gate: socket.socket) -> None:
    """Is the fork server: it starts a front for each message, until the gate has gone."""
    try:
        load()
    except ModuleNotFoundError as error:
        tell(f"the module {error.name} is missing, which fronts need")
        return
    # The system takes the fronts that have ended away. What is in memory now is shared with all of them, for as long as neither side writes there.
    signal.signal(signal.SIGCHLD, signal.SIG_IGN)
    gc.collect()
    gc.freeze()
    own = os.getpid()
    while message := gate.recv(LONGEST):
        wanted = Wanted(*json.loads(message))
        try:
            load(wanted.database)
            if (child := os.fork()) == 0:
                become(own, functools.partial(front, gate, wanted))
            answer(gate, child)
        except OSError as error:
            with contextlib.suppress(OSError):
                gate.send(str(error.strerror).encode())


def load(database: bool = False) -> None:
    """Loads what a front needs: what it finds later could be that of another version already."""
    from . import service, standby
    assert service and standby
    if database:
        from . import journal_table
        assert journal_table


def answer(gate: socket.socket, child: int) -> None:
    """Tells the gate which process it is. One that has ended by now is started again like any other. Raises OSError."""
    descriptor = os.pidfd_open(child)
    try:
        socket.send_fds(gate, [str(child).encode()], [descriptor])
    finally:
        os.close(descriptor)


def front(gate: socket.socket, wanted: Wanted) -> int:
    """Is a front; gives its status."""
    gate.close()
    rename(wanted.shown)
    from .command import main
    return main(wanted.words)


def become(parent: int, act: Callable[[], int]) -> NoReturn:
    """Has this process, which was just forked, do an act, and ends it: nothing of the parent's is left to be tidied up."""
    status = 1
    try:
        signal.signal(signal.SIGCHLD, signal.SIG_DFL)
        os.setsid()
        nothing = os.open(os.devnull, os.O_RDONLY)
        os.dup2(nothing, 0)
        os.close(nothing)
        enclosed.end_with(parent)
        status = act()
        settle()
    except SystemExit as end:
        status = end.code if isinstance(end.code, int) else 1
    except BaseException:
        traceback.print_exc()
    finally:
        for stream in (sys.stdout, sys.stderr):
            with contextlib.suppress(OSError, ValueError):
                stream.flush()
        os._exit(status)


def settle() -> None:
    """Waits for what other threads still do, as Python does at its end; for a moment, since one may wait for what never comes."""
    end = time.monotonic() + SETTLING
    for thread in threading.enumerate():
        if thread is not threading.current_thread() and not thread.daemon:
            thread.join(max(0.0, end - time.monotonic()))


def rename(text: str) -> None:
    """Has the system show this as the words of this process: operators tell fronts by them. They are written over those with which the gate was started, as
    far as these reach."""
    fields = Path("/proc/self/stat").read_text().rpartition(")")[2].split()
    first, end = int(fields[45]), int(fields[46])
    if 0 < first < end:
        ctypes.memmove(first, os.fsencode(text)[:end - first - 1].ljust(end - first, b"\0"), end - first)
