# SPDX-License-Identifier: Apache-2.0
"""How these tests run the front: as a process of its own, over TLS and real sockets, with the built program as its child."""
from __future__ import annotations

import asyncio
import contextlib
import functools
import inspect
import json
import os
import signal
import ssl
import subprocess
import sys
import time
from collections.abc import AsyncIterator, Awaitable, Callable, Sequence
from pathlib import Path
from typing import Any, Protocol

import aiohttp
import argon2
import pytest
import running
from mserve_front.control import asked

FRONT = Path(__file__).resolve().parent.parent
COMMAND = [sys.executable, str(FRONT / "mfront")]
SETTINGS = FRONT / "tests" / "settings.toml"
# The same, but that LAB has language 1.
MIXED = SETTINGS.read_text().replace("[1001, 1002]\n", "[1001, 1002]\nlanguage = 1\n")
PASSWORD = "correct horse battery"
# Users of the tests: two of the clinic's, one of the laboratory's, and one whose lines may use 40 steps.
USERS = {"ada": "CLINIC", "ben": "CLINIC", "cleo": "LAB", "dora": "SHORT"}
# Hashes of little cost, so that tests do not wait for them.
CHEAP = argon2.PasswordHasher(time_cost=1, memory_cost=64, parallelism=1)
Record = dict[str, Any]


PATIENT = 60.0


class Patience:
    """Seconds after which a wait has failed. Long runs on a machine that has other work have more."""

    seconds = PATIENT


def in_loop(seconds: float = 400) -> Callable[[Callable[..., Awaitable[None]]], Callable[..., None]]:
    """Runs a test that awaits, for so long at most, or longer if more patience is given: what hangs is to end, and what a busy machine delays is not."""
    def made(test: Callable[..., Awaitable[None]]) -> Callable[..., None]:
        @functools.wraps(test)
        def run(*given: object, **named: object) -> None:
            async def bounded() -> None:
                async with asyncio.timeout(seconds * Patience.seconds / PATIENT):
                    await test(*given, **named)
            asyncio.run(bounded())
        return run
    return made


async def until(holds: Callable[[], object], what: str, pause: float = 0.02) -> None:
    """Waits until something holds, however busy the machine is: what a call gives, or what that gives once it is awaited."""
    end = time.monotonic() + Patience.seconds
    while True:
        found = holds()
        if inspect.isawaitable(found):
            found = await found
        if found:
            return
        assert time.monotonic() < end, f"missed: {what}"
        await asyncio.sleep(pause)


def write_users(path: Path, users: dict[str, str], password: str = PASSWORD) -> None:
    """A users' file in which all have one password."""
    hashed = CHEAP.hash(password)
    path.write_text(json.dumps({"users": {name: {"account": account, "hash": hashed, "tokens": {}} for name, account in users.items()}}))
    path.chmod(0o600)


def toml(tables: dict[str, dict[str, object]]) -> str:
    """Tables as TOML; the texts, numbers and lists of JSON are TOML's too."""
    return "\n".join(f"[{name}]\n" + "".join(f"{key} = {json.dumps(value)}\n" for key, value in keys.items()) for name, keys in tables.items())


Ran = tuple[int, str, str]


def tool(name: str, *before: str, front: Path = FRONT) -> Callable[..., Ran]:
    """Runs a command of a front, of front/ mostly: its status, what it writes, and what it tells."""
    def run(*words: object) -> Ran:
        done = subprocess.run([sys.executable, front / name, *before, *map(str, words)], capture_output=True, text=True, timeout=2 * Patience.seconds)
        return done.returncode, done.stdout, done.stderr
    return run


def mjournal(folder: Path | None = None) -> Callable[..., Ran]:
    """Runs mjournal, over a journal in a folder."""
    return tool("mjournal", *(() if folder is None else ("--folder", str(folder))))


def missed(what: str) -> None:
    """Skips a test for something that is not there, or fails it where continuous integration has to have that."""
    if os.environ.get("CI") == "true":
        pytest.fail(what)
    pytest.skip(what)


def small_disk(folder: Path, size: str) -> list[str]:
    """Words before a command: it sees a disk of its own at a folder, of a size."""
    if subprocess.run(["unshare", "--mount", "--map-root-user", "true"], capture_output=True).returncode:
        missed("a disk of its own cannot be made here: unshare --mount is refused")
    return ["unshare", "--mount", "--map-root-user", "bash", "-c", f'mount -t tmpfs -o size={size} tmpfs {folder} && exec "$@"', "-"]


class Front:
    """A front that runs, in a folder of its own."""

    def __init__(self, folder: Path, certificate: tuple[Path, Path] | None, users: dict[str, str] | None = None, settings: Path = SETTINGS,
                 store: str = "memory", before: Sequence[str] = (), words: Sequence[str] = (), awaited: str = "serving at",
                 command: Sequence[str] = COMMAND, **more: dict[str, object]) -> None:
        """Starts it, with further keys for the tables that are named, words before and after the command; returns once it tells what is awaited."""
        self.folder, self.certificate, self.store = folder, certificate, store
        self._before, self._command, self._words, self._awaited = list(before), command, list(words), awaited
        self.port, self.lines_port = running.free_port(), running.free_port()
        write_users(folder / "users.json", USERS if users is None else users)
        tables: dict[str, dict[str, object]] = {
            "server": {"program": running.PROGRAM, "settings": str(settings), "store": store},
            "listen": {"port": self.port, "lines_port": self.lines_port}, "users": {"file": "users.json"}, "audit": {"file": "audit.log"}}
        if certificate:
            tables["listen"] |= {"certificate": str(certificate[0]), "key": str(certificate[1])}
        for name, keys in more.items():
            tables[name] = {key: value for key, value in (tables.get(name, {}) | keys).items() if value is not None}
        self.tables = tables
        self._config, self._told = "front.toml", "told"
        (folder / self._config).write_text(toml(tables))
        self.process = self._started()

    def _started(self) -> subprocess.Popen[str]:
        words = [*self._before, *self._command, "--config", str(self.folder / self._config), *self._words] + (["--volatile"] if self.store == "memory" else [])
        with (self.folder / self._told).open("w") as told:
            process = subprocess.Popen(words, stdin=subprocess.DEVNULL, stderr=told, text=True, start_new_session=True)
        self.process = process
        try:
            self.hears(self._awaited)
        except BaseException:
            process.kill()
            raise
        return process

    def hears(self, text: str) -> None:
        """Waits until it tells a text."""
        end = time.monotonic() + Patience.seconds
        while True:
            # This comes first: what it told before it ended counts.
            over = self.process.poll() is not None or time.monotonic() > end
            if text in self.told():
                return
            if over:
                raise RuntimeError(f"the front does not tell {text!r}: {self.told()}")
            time.sleep(0.02)

    def words(self, words: Sequence[str], awaited: str = "serving at") -> None:
        """Gives it other words after the command, for its next start, and what it tells then."""
        self._words, self._awaited = list(words), awaited

    def again(self) -> None:
        """Starts it again, after it has ended."""
        self.process.wait(2 * Patience.seconds)
        self._started()

    def told(self) -> str:
        """What it wrote to the standard error."""
        return (self.folder / self._told).read_text()

    def audit(self) -> list[Record]:
        """The records of its audit log."""
        return [json.loads(line) for line in (self.folder / "audit.log").read_text().splitlines()]

    @property
    def child(self) -> int:
        """The process of the server."""
        return int(Path(f"/proc/{self.process.pid}/task/{self.process.pid}/children").read_text().split()[0])

    def kill_child(self) -> None:
        """Ends the server at once."""
        os.kill(self.child, signal.SIGKILL)

    def stop(self) -> int:
        """Ends the front as an operator does, and gives its status."""
        if self.process.poll() is None:
            self.process.terminate()
        return self.process.wait(2 * Patience.seconds)

    @property
    def context(self) -> ssl.SSLContext | None:
        """What a client trusts: the certificate of the tests alone."""
        return ssl.create_default_context(cafile=str(self.certificate[0])) if self.certificate else None

    @property
    def origin(self) -> str:
        """The front's own origin."""
        return f"{'https' if self.certificate else 'http'}://localhost:{self.port}"

    def person(self, name: str = "ada") -> Person:
        """A user with a browser's part of the protocol."""
        return Person(self, name)


class Reached(Protocol):
    """What users sign on at: a front, or a gate."""

    @property
    def context(self) -> ssl.SSLContext | None:
        """What a client trusts."""

    @property
    def origin(self) -> str:
        """Its own origin."""


class Person:
    """A user: signs on, and sends lines over a WebSocket. As a context manager it signs on, and signs off after the block."""

    def __init__(self, front: Reached, name: str) -> None:
        self.front, self.name = front, name
        context = front.context
        # Some are reached by an address.
        self.http = aiohttp.ClientSession(front.origin, connector=aiohttp.TCPConnector(ssl=context) if context else None,
                                          cookie_jar=aiohttp.CookieJar(unsafe=True))
        self.record: Record = {}
        self.events: list[Record] = []
        self.socket: aiohttp.ClientWebSocketResponse | None = None
        self._count = 0

    async def __aenter__(self) -> Person:
        try:
            status, self.record = await self.sign_on()
            if status != 200:
                raise AssertionError(self.record)
            await self.connect()
        except BaseException:
            await self.http.close()
            raise
        return self

    async def __aexit__(self, *error: object) -> None:
        with contextlib.suppress(aiohttp.ClientError):
            await self.sign_off()
        await self.http.close()

    async def sign_on(self, password: str = PASSWORD) -> tuple[int, Record]:
        """The status and the record of a sign-on."""
        async with self.http.post("/signon", json={"user": self.name, "password": password}) as response:
            return response.status, await response.json()

    async def signs_on(self) -> bool:
        """Whether it can sign on by now: the connections or the terminal of somebody before may not be given back yet."""
        try:
            status, self.record = await self.sign_on()
        except aiohttp.ClientError:
            return False
        return status == 200

    async def comes_in(self, what: str) -> None:
        """Signs on as soon as what it waits for is given back, and opens the WebSocket."""
        await until(self.signs_on, what)
        await until(self._connects, what)

    async def _connects(self) -> bool:
        """Whether the WebSocket opens by now: a gate that does not reach the island within seconds has its users try again."""
        try:
            await self.connect()
        except aiohttp.WSServerHandshakeError as error:
            if error.status != 503:
                raise
            return False
        return True

    async def sign_off(self) -> int:
        """The status of a sign-off."""
        async with self.http.post("/signoff") as response:
            return response.status

    async def connect(self) -> None:
        """Opens the WebSocket."""
        self.socket = await self.http.ws_connect("/ws", origin=self.front.origin, max_msg_size=0)

    async def send(self, line: str, **more: object) -> int:
        """Sends a line, and gives its number."""
        self._count += 1
        await self.socket.send_str(json.dumps({"id": self._count, "line": line, **more}))
        return self._count

    async def next(self) -> Record:
        """The next record; events are kept, and passed over."""
        while True:
            record = await self.event()
            if "event" not in record:
                return record

    async def event(self) -> Record:
        """The next record or event. Raises ConnectionError if the WebSocket ends."""
        message = await self.socket.receive()
        if message.type is not aiohttp.WSMsgType.TEXT:
            raise ConnectionError(f"{message.type.name} {self.socket.close_code}")
        record = json.loads(message.data)
        if "event" in record:
            self.events.append(record)
        return record

    async def line(self, line: str) -> Record:
        """The record of a line, without its number."""
        place = await self.send(line)
        record = await self.next()
        assert record.pop("id") == place
        return record

    async def told(self, line: str) -> object:
        """The rest of a line's output, or its code."""
        record = await self.line(line)
        return record["code"] or record["rest"]


@contextlib.asynccontextmanager
async def busy(front: Front, seconds: float = 0) -> AsyncIterator[None]:
    """While the block runs, the server is at a line of somebody else, and for so long at least."""
    os.kill(front.child, signal.SIGSTOP)
    try:
        yield
        await asyncio.sleep(seconds)
    finally:
        os.kill(front.child, signal.SIGCONT)


async def lines_wait(person: Person, count: int) -> None:
    """Waits until the front has this many lines without a reply."""
    async def wait() -> bool:
        async with person.http.get("/metrics") as response:
            return f"\nmfront_lines_waiting {count}\n" in await response.text()
    await until(wait, f"{count} lines that wait for the server")


async def at_rest(folder: Path) -> None:
    """Waits until nothing comes any more by itself into the journal of the front that leads in a folder: each line has a reply there, and the session of each
    terminal has ended. That comes after the answer to a sign-off. Those who were signed on have sent a line each."""
    def rests() -> bool:
        status = asked(folder / "mfront.control", {"ask": "status"}, 2 * Patience.seconds)
        return status["state"] == "leader" and not status["open"] and status["answered"] == status["line"]
    # Apart: what leads to the journal may be this test's own.
    await until(lambda: asyncio.to_thread(rests), "the ends of all sessions in the journal")


async def stopped(front: Front) -> None:
    """Ends a front in order once its journal is at rest: a stop waits two seconds for the ends of sessions, and on a busy machine leaves them open."""
    await at_rest(front.folder)
    assert await asyncio.to_thread(front.stop) == 0


async def given_back(person: Person) -> None:
    """Waits until the lock of somebody who was cut off is given back, and takes it."""
    async def taken() -> bool:
        return await person.told("L +^X:0 W $T") == "1"
    await until(taken, "the lock of somebody who was cut off")
