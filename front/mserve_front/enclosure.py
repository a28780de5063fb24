# SPDX-License-Identifier: Apache-2.0
"""The server in a network of its own: its port is at a loopback that no other user of the machine can reach, so nobody can connect to it before the
front does, read accounts there, or take the port in its place."""
from __future__ import annotations

import asyncio
import contextlib
import errno
import functools
import os
import signal
import socket
import subprocess
import sys
import time
from collections.abc import Sequence
from pathlib import Path
from typing import Any, NoReturn

from . import enclosed

HELPER = [sys.executable, "-I", "-S", str(Path(__file__).with_name("enclosed.py"))]
# The port of a server in its own network, where all are free, and how many connections to it are made by sockets that it has left.
LOOPBACK, PORT, WAYS = "127.0.0.1", 9000, 4
# How a server is started. It has the signals that Python ignores ignored too: a file that is as long as it may be, or a peer that is gone, is an answer of
# the system to it, and not its end.
APART: dict[str, Any] = {"stdin": asyncio.subprocess.DEVNULL, "stdout": asyncio.subprocess.DEVNULL, "start_new_session": True, "restore_signals": False}
# Seconds between two attempts to connect: the first and the longest; and what says that nobody listens yet: a socket that was refused is aborted again.
FIRST_PAUSE, LONGEST_PAUSE = 0.002, 0.1
NOT_YET = (ConnectionRefusedError, ConnectionAbortedError)
# Seconds for a child to say whether there can be such a network, and between two looks at it.
TRYING, PAUSE = 30.0, 0.001


@functools.cache
def can_enclose() -> bool:
    """Whether the system lets this user have a network of its own (user namespaces). A child of this process tries it: that takes a millisecond or two, and
    a program that does would take as long as the server's whole start."""
    child = os.fork()
    if child == 0:
        tried()
    end = time.monotonic() + TRYING
    while time.monotonic() < end:
        ended, status = os.waitpid(child, os.WNOHANG)
        if ended:
            return os.waitstatus_to_exitcode(status) == 0
        time.sleep(PAUSE)
    os.kill(child, signal.SIGKILL)
    os.waitpid(child, 0)
    return False


def tried() -> NoReturn:
    """Ends this process, a child, by whether it could have a network of its own. Nothing else of the parent's is touched."""
    status = 1
    try:
        enclosed.enclose()
        status = 0
    finally:
        os._exit(status)


async def started(words: Sequence[str]) -> tuple[asyncio.subprocess.Process, list[socket.socket]]:
    """A program that is started in a network of its own, and ends with this process; and sockets that are in that network, by which this process connects
    to it: none if it was killed before it had sent them. Raises OSError."""
    here, there = socket.socketpair()
    with here, there:
        try:
            # The child is there by a fork, and does it before it becomes the program: a program between them would take as long as the server's whole start.
            process = await asyncio.create_subprocess_exec(*words, **APART, preexec_fn=functools.partial(enclosed.begin, os.getpid(), there, WAYS))
        except subprocess.SubprocessError as error:
            raise OSError(errno.EPERM, "it could not have a network of its own") from error
        # It has sent them by now, or was killed. Then that is the end of what comes, since nobody has the other side any more.
        there.close()
        ways = [socket.socket(fileno=number) for number in socket.recv_fds(here, 1, WAYS)[1]]
    for way in ways:
        way.setblocking(False)
    return process, ways


async def connected(process: asyncio.subprocess.Process, port: int, ways: list[socket.socket]) -> socket.socket | None:
    """A connection to a port in the network of a process, once it listens there; None if it ends before. `ways` are sockets in that network, which are used
    up; without one a helper goes there."""
    if not ways:
        return await helped(process.pid, port)
    way, pause = ways.pop(), FIRST_PAUSE
    try:
        while True:
            with contextlib.suppress(*NOT_YET):
                await asyncio.get_running_loop().sock_connect(way, (LOOPBACK, port))
                return way
            if process.returncode is not None:
                way.close()
                return None
            await asyncio.sleep(pause)
            pause = min(2 * pause, LONGEST_PAUSE)
    except BaseException:
        way.close()
        raise


async def helped(process: int, port: int) -> socket.socket | None:
    """The same, by a helper."""
    here, there = socket.socketpair()
    with here, there:
        helper = await asyncio.create_subprocess_exec(*HELPER, str(process), str(port), stdin=there.fileno(), stdout=asyncio.subprocess.DEVNULL,
                                                      start_new_session=True)
        try:
            if await helper.wait() != 0:
                return None
            _, found, _, _ = socket.recv_fds(here, 1, 1)
            made = socket.socket(fileno=found[0])
            made.setblocking(False)
            return made
        finally:
            if helper.returncode is None:
                with contextlib.suppress(ProcessLookupError):
                    helper.kill()
