# SPDX-License-Identifier: Apache-2.0
"""Other settings of the server, while users stay signed on: more accounts and terminals, other steps and grants. The server is started again between two
lines, so that variables and locks are gone, which an event says to users; who is signed on stays so, at the same terminal."""
from __future__ import annotations

import asyncio
import time
from collections.abc import Mapping, Sequence
from pathlib import Path
from typing import Protocol

from .control import Answered, ControlError
from .faults import NoJournal
from .server import Server
from .settings import BadSettings, Settings, read_terminals
from .turns import Unsent

# Seconds for the server to be there again.
STARTING = 60.0
Terminals = Mapping[str, Sequence[int]]


class Knowing(Protocol):
    """What has to know which terminals there are."""

    def know(self, terminals: Terminals) -> None:
        """These there are from now on."""


class Changes:
    """Takes the settings of the server as they are in their file by now."""

    def __init__(self, settings: Settings, server: Server, knowing: Sequence[Knowing]) -> None:
        self._settings = settings
        self._server = server
        self._knowing = knowing

    async def take(self, _: dict[str, object]) -> Answered:
        """Takes them, if the server would, and if all terminals are there that were. Raises `ControlError`: the server goes on with those that it has."""
        path = self._settings.server_settings
        if self._settings.join is not None:
            raise ControlError("the front has joined a server (server.join), which has its settings from elsewhere")
        try:
            terminals = read_terminals(path)
        except BadSettings as error:
            raise ControlError(str(error)) from error
        refuse_missing(path, self._settings.terminals, terminals)
        await self._refuse_bad(path)
        began, new = time.monotonic(), sorted(terminals.keys() - self._settings.terminals.keys())
        try:
            await self._server.start_again(lambda: self._known(terminals))
        except (Unsent, NoJournal) as error:
            raise ControlError(f"the server has the settings of before: it is being started, or the journal cannot be written: {error}") from error
        await self._up()
        return {"accounts": len(terminals), "new": new, "seconds": round(time.monotonic() - began, 3)}

    def _known(self, terminals: Terminals) -> None:
        self._settings.terminals.update({account: tuple(own) for account, own in terminals.items()})
        for one in self._knowing:
            one.know(terminals)

    async def _refuse_bad(self, path: Path) -> None:
        """Raises `ControlError` with what the program itself says of settings that it does not take."""
        words = [str(self._settings.program), "run", "--settings", str(path), "--store", "memory"]
        process = await asyncio.create_subprocess_exec(*words, stdin=asyncio.subprocess.DEVNULL, stdout=asyncio.subprocess.DEVNULL,
                                                       stderr=asyncio.subprocess.PIPE, start_new_session=True)
        _, told = await process.communicate()
        if process.returncode:
            raise ControlError(f"{path}: {told.decode('utf-8', 'replace').strip()} (mserve-settings {path} says where). The server goes on with "
                               "the settings that it has; its next start reads this file")

    async def _up(self) -> None:
        """Waits until the server is up again."""
        end = time.monotonic() + STARTING
        while self._server.state != "up":
            if time.monotonic() > end:
                raise ControlError("the server has not come up by the new settings: its log says why")
            await asyncio.sleep(0.01)


def refuse_missing(path: Path, before: Terminals, after: Terminals) -> None:
    """Raises `ControlError` if a terminal is not there any more, or is another account's: somebody may be signed on at it."""
    for account, terminals in before.items():
        if missing := sorted(set(terminals) - set(after.get(account, ()))):
            raise ControlError(f"{path}: {account}: terminal {missing[0]} is there no more, which takes a restart of the front (systemctl restart mfront)")
