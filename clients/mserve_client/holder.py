# SPDX-License-Identifier: Apache-2.0
"""Who has a server of this machine: the process whose connection it serves, as far as the system lets one see that."""
from __future__ import annotations

import os
from collections.abc import Iterator
from contextlib import suppress
from dataclasses import dataclass

TABLE = "/proc/net/tcp"
ESTABLISHED, LISTENING = "01", "0A"


@dataclass(frozen=True, slots=True)
class Row:
    """A socket of the system: its port, its peer's port, its state, and its number. A connection that nobody has accepted yet has the number 0."""

    port: int
    peer: int
    state: str
    number: int


def rows() -> Iterator[Row]:
    """The sockets of TCP; none if the system does not tell."""
    try:
        with open(TABLE, encoding="ascii") as file:
            lines = file.read().splitlines()[1:]
    except OSError:
        return
    for line in lines:
        words = line.split()
        yield Row(int(words[1].partition(":")[2], 16), int(words[2].partition(":")[2], 16), words[3], int(words[9]))


def listener(port: int) -> int | None:
    """The number of the socket that listens at a port: another one, if the server was started again. None if it cannot be seen."""
    return next((row.number for row in rows() if row.port == port and row.state == LISTENING), None)


def holder(port: int) -> str:
    """The process that is served at a port, as `mshell (process 4242)`; empty if none is, or if it cannot be seen."""
    found = list(rows())
    peers = {row.peer for row in found if row.port == port and row.state == ESTABLISHED and row.number}
    numbers = {row.number for row in found if row.peer == port and row.port in peers and row.state == ESTABLISHED}
    return next((f"{command_of(process)} (process {process})" for process in processes() if process != os.getpid() and numbers & set(sockets(process))), "")


def opener(path: str) -> str:
    """Another process that has a file open, as `mserve (process 4242)`; empty if none can be seen."""
    target = os.path.realpath(path)
    return next((f"{command_of(process)} (process {process})" for process in processes() if process != os.getpid() and target in opened(process)), "")


def processes() -> list[int]:
    """The processes that can be seen."""
    try:
        return [int(name) for name in os.listdir("/proc") if name.isdigit()]
    except OSError:
        return []


def opened(process: int) -> Iterator[str]:
    """What a process has open; nothing if that cannot be seen."""
    folder = f"/proc/{process}/fd"
    try:
        names = os.listdir(folder)
    except OSError:
        return
    for name in names:
        with suppress(OSError):
            yield os.readlink(f"{folder}/{name}")


def sockets(process: int) -> Iterator[int]:
    """The numbers of a process's sockets."""
    return (int(target[8:-1]) for target in opened(process) if target.startswith("socket:["))


def command_of(process: int) -> str:
    """The name of a process's command: of a script the script's."""
    try:
        with open(f"/proc/{process}/cmdline", "rb") as file:
            words = [os.path.basename(word.decode("utf-8", "replace")) for word in file.read().split(b"\0") if word]
    except OSError:
        words = []
    named = [word for word in words if word and not word.startswith(("-", "python"))]
    return (named or words or ["a process"])[0][:60]
