# SPDX-License-Identifier: Apache-2.0
"""The service: all parts, started and stopped together."""
from __future__ import annotations

import asyncio
import contextlib
import resource
import signal
import ssl
import time
from collections.abc import Awaitable
from dataclasses import fields
from pathlib import Path
from typing import TYPE_CHECKING

from aiohttp import web

from . import ending
from .admin import Admin
from .audit import Audit
from .certificates import expires, of_certificate
from .changes import Changes
from .connection import NoStart
from .doors import Doors, Made, quiet, spare_memory, strict
from .figures import of_disks
from .libraries import of_libraries
from .line_port import LinePort
from .metrics import Metrics
from .server import Server, tell
from .sessions import Sessions
from .settings import AT_A_START, BadSettings, Limits, Settings, changed_keys, read_settings, read_toml
from .signing import Signing
from .users import BadUsers, Register
from .web import Web

if TYPE_CHECKING:
    from .keeper import Keeper, Promoted

# Seconds that a connection of HTTP may be kept without a request.
KEPT = 30.0
# Seconds that requests have to end at the stop.
CLOSING = 1.0
TAKEN_BY_A_RELOAD = {f"limits.{one.name}" for one in fields(Limits)} - {f"limits.{name}" for name in AT_A_START}
# What ends the service, and what it says to users.
ENDS = {signal.SIGTERM: "stopping", signal.SIGINT: "stopping", signal.SIGUSR1: "moved"}


class Service:
    """The parts, and what they share."""

    def __init__(self, settings: Settings, promoted: Promoted | None = None) -> None:
        """Raises `BadSettings` or `BadUsers` for what does not fit together. A standby that was promoted hands on what it has."""
        self.settings = settings
        self._tables = read_toml(settings.path)
        self.metrics = Metrics()
        self._context = tls_context(settings)
        self._expires = self._end()
        store = None if settings.volatile or settings.store is None else Path(settings.store)
        self.metrics.more += [of_libraries, lambda: of_certificate(self._expires), lambda: of_disks(store, settings.audit)]
        self._audit = audit_log(settings, self.metrics)
        self._keeper = keeper_of(settings, self.metrics, self._audit, promoted)
        self._register = Register(settings.users, settings.users_of_machine, settings.users_of_gate)
        for user in self._register.users.values():
            if not settings.terminals.get(user.account):
                raise BadUsers(f"{settings.users}: user {user.name}: {user.account} is no account with terminals in {settings.server_settings}")
        self._doors = Doors(settings.limits, self._context, promoted.places if promoted else {}, settings.listen.gate)
        self._signing = Signing(self._register, self._audit, self.metrics)
        journal = self._keeper.journal if self._keeper else None
        self._server = Server(settings, self.metrics, journal)
        self._sessions = Sessions(settings, self._server, self.metrics, self._audit, self._register, journal)
        if self._keeper is not None:
            self._shares_room(self._keeper, settings)
            self._keeper.answer("change", Changes(settings, self._server, (self._sessions, self._keeper.accounts)).take)
        self._admin = Admin(settings, self._server, self._sessions, self.metrics, self._keeper.behind if self._keeper else list)
        self._stopping = promoted.stopping if promoted else asyncio.Event()
        self._why = "stopping"

    def _shares_room(self, keeper: Keeper, settings: Settings) -> None:
        """Has accounts share the room that is kept for the journal, so that none has all of it: together they have half of it before each is slowed."""
        quotas = self._sessions.quotas
        quotas.share = settings.journal.spare // (2 * max(1, len(settings.terminals)))
        quotas.in_spare = lambda: keeper.journal.in_spare
        keeper.accounts.took = quotas.took

    async def run(self) -> None:
        """Serves until SIGTERM, SIGINT or SIGUSR1. Raises `NoStart` if the server does not start, and OSError if a port is taken."""
        _, most = resource.getrlimit(resource.RLIMIT_NOFILE)
        with contextlib.suppress(OSError, ValueError):
            # A sandbox may forbid it; then the limit stays, and connections are refused at it.
            resource.setrlimit(resource.RLIMIT_NOFILE, (most, most))
        for number, why in ENDS.items():
            ending.hear(number, self._stop, why)
        ending.hear(signal.SIGHUP, self._reload)
        pages = Web(self.settings, self._server, self._sessions, self._signing, self.metrics, self._doors)
        runner = web.AppRunner(pages.application(), handle_signals=False, access_log=None, keepalive_timeout=KEPT, auto_decompress=False,
                               logger=quiet("aiohttp.server"))
        quiet("asyncio")
        await runner.setup()
        try:
            await self._until_stopped(self._begin())
            if not self._stopping.is_set():
                self._listen(pages.doors(runner))
                await self._admin.begin()
                await self._serve()
        finally:
            self._doors.close()
            await self._admin.end()
            await self._sessions.stop(self._why)
            whole = self._server.whole
            await self._server.end()
            if self._keeper is not None:
                await self._keeper.end(whole)
            if runner.server is not None:
                await runner.server.shutdown(CLOSING)
            await runner.cleanup()
            self._signing.close()
            self._audit.close()

    def _stop(self, why: str) -> None:
        self._why = why
        self._stopping.set()

    async def _begin(self) -> None:
        """Starts the server, and the journal before it."""
        child = None if self._keeper is None else await self._keeper.begin(self._server)
        await self._server.begin(child)
        if self._keeper is not None:
            await self._keeper.began()

    async def _until_stopped(self, work: Awaitable[None]) -> None:
        """Waits for a work, or for the stop."""
        task, stop = asyncio.ensure_future(work), asyncio.ensure_future(self._stopping.wait())
        await asyncio.wait([task, stop], return_when=asyncio.FIRST_COMPLETED)
        stop.cancel()
        if task.done():
            task.result()
        else:
            task.cancel()
            with contextlib.suppress(asyncio.CancelledError, NoStart):
                await task

    def _listen(self, made: Made) -> None:
        settings = self.settings
        self._doors.listen(settings.listen.host, settings.listen.port, made)
        if settings.listen.lines_port is not None:
            port = LinePort(self._sessions, self._signing, settings.limits, self._doors)
            self._doors.listen(settings.listen.host, settings.listen.lines_port, port.door)
        # Both are there by now: who waits for the first of these may come at once.
        kind = "https" if settings.tls else "http"
        tell(f"serving at {kind}://{f'[{settings.listen.host}]' if ':' in settings.listen.host else settings.listen.host}:{settings.listen.port}/")
        if settings.listen.lines_port is not None:
            tell(f"lines at port {settings.listen.lines_port}")
        if not settings.tls:
            tell("no certificate (listen.certificate, listen.key): listening at the loopback alone, without TLS")
        if settings.volatile:
            tell("the store is volatile: all data are gone once the server ends")

    async def _serve(self) -> None:
        tasks = [asyncio.create_task(self._server.run()), asyncio.create_task(self._sweep()), asyncio.create_task(self._sessions.count()),
                 asyncio.create_task(self._admin.run()), asyncio.create_task(self._stopping.wait())]
        if self._keeper is not None:
            tasks += [asyncio.create_task(self._keeper.lost()), asyncio.create_task(self._keeper.looks())]
        done, left = await asyncio.wait(tasks, return_when=asyncio.FIRST_COMPLETED)
        for task in left:
            task.cancel()
        for task in done:
            task.result()

    async def _sweep(self) -> None:
        """Once a second: what is idle, and users who are there no more."""
        told = 0.0
        while True:
            await asyncio.sleep(1)
            self._doors.sweep()
            self._audit.mend()
            try:
                self._register.refresh()
            except BadUsers as error:
                if time.monotonic() - told > 60:
                    told = time.monotonic()
                    tell(f"the users stay as they were: {error}")
            self._sessions.sweep()
            self._sessions.look()

    def _reload(self) -> None:
        """Opens the audit log again, and takes a new certificate and new limits: each of them, whatever is wrong with the others. A service that stops
        takes nothing, so that signals do not hold it up."""
        if self._stopping.is_set():
            return
        for what, act in (("the audit log", self._audit.reopen), ("the certificate", self._new_certificate), ("limits", self._new_limits)):
            try:
                act()
                tell(f"reloaded: {what}")
            except (BadSettings, OSError) as error:
                tell(f"not reloaded: {what}: {error}")

    def _new_certificate(self) -> None:
        """Takes the certificate as it stands. Raises `BadSettings`; then that of before stays."""
        if self._context is not None:
            load_certificate(self._context, self.settings)
            self._expires = self._end()

    def _end(self) -> float | None:
        """When the certificate that was just read expires."""
        path = self.settings.listen.certificate
        return None if path is None else expires(path)

    def _new_limits(self) -> None:
        """Takes the limits as they stand in the settings, and tells what else has changed there. Raises `BadSettings`; then those of before stay."""
        path = self.settings.path
        self._sessions.limit(read_settings(path, self.settings.volatile).limits)
        if later := changed_keys(self._tables, read_toml(path), TAKEN_BY_A_RELOAD):
            tell(f"{path}: {', '.join(later)}: this counts from the next start of the front")


def keeper_of(settings: Settings, metrics: Metrics, audit: Audit, promoted: Promoted | None) -> Keeper | None:
    """What keeps the journal, if there is to be one."""
    if not settings.journal.kept:
        return None
    # Not above: it needs a package that a front without a journal does without.
    from .keeper import Keeper
    return Keeper(settings, metrics, audit, promoted)


def tls_context(settings: Settings) -> ssl.SSLContext | None:
    """The context of TLS 1.2 and later, or None without a certificate."""
    if not settings.tls:
        return None
    spare_memory()
    context = ssl.SSLContext(ssl.PROTOCOL_TLS_SERVER)
    strict(context)
    load_certificate(context, settings)
    return context


def load_certificate(context: ssl.SSLContext, settings: Settings) -> None:
    """Reads the certificate and its key. Raises `BadSettings` if they cannot be read or do not fit."""
    certificate, key = settings.listen.certificate, settings.listen.key
    assert certificate is not None and key is not None, "the front speaks TLS"
    for name, path in (("certificate", certificate), ("key", key)):
        try:
            with open(path, "rb"):
                pass
        except OSError as error:
            raise BadSettings(f"{settings.path}: listen.{name}: {path}: {error.strerror}") from error
    try:
        context.load_cert_chain(certificate, key, lambda: "")
    except (ssl.SSLError, ValueError) as error:
        why = getattr(error, "reason", None) or str(error)
        raise BadSettings(f"{settings.path}: listen.certificate: {certificate} and {key} cannot be used: {why}") from error


def audit_log(settings: Settings, metrics: Metrics) -> Audit:
    """The audit log. Raises `BadSettings` if it cannot be written."""
    try:
        return Audit(settings.audit, metrics, settings.audit_spare)
    except OSError as error:
        raise BadSettings(f"{settings.path}: audit.file: {settings.audit}: {error.strerror}") from error
