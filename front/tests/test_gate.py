# SPDX-License-Identifier: Apache-2.0
"""What a gate carries, and what a front takes of one: known paths alone, raw bytes only after a true handshake, and the user's own address."""
from __future__ import annotations

import asyncio
import contextlib
import json
import os
import ssl
import threading
import time
from pathlib import Path
from types import SimpleNamespace

import pytest
from front import PASSWORD, Front, Patience, in_loop, until, write_users
from mserve_front import islands as islands_module
from mserve_front.certificates import expires
from mserve_front.doors import Doors
from mserve_front.gate import Gate
from mserve_front.gate_command import Doorway, Peers, contexts
from mserve_front.gate_page import GatePage
from mserve_front.islands import Home, IslandFront, Islands
from mserve_front.placement import HERE, Island, LocalPlacement, Machine
from mserve_front.preamble import new_secret, preamble, told_by
from mserve_front.settings import Limits
from mserve_front.signing import AWAY
from mserve_front.users import token_hash
from running import free_port

SECRET = "s" * 43
# Seconds for which a front that refuses waits for what a gate carries on; and between the parts of what a user sends.
CARRIED_SOON, BETWEEN = 1.0, 0.2
HANDSHAKE = (b"GET /ws HTTP/1.1\r\nHost: x\r\nConnection: keep-alive, Upgrade\r\nUpgrade: websocket\r\nSec-WebSocket-Version: 13\r\n"
             b"Sec-WebSocket-Key: dGhlIHNhbXBsZSBub25jZQ==\r\nX-Mgate-From: 9.9.9.9\r\nX-MGATE-Secret: x\r\nX-Forwarded-For: 9.9.9.9\r\n\r\n")


class Inner:
    """An island's front that keeps what it is sent, and answers each connection the same."""

    def __init__(self, answer: bytes) -> None:
        self.answer, self.end, self.connections = answer, b"\r\n\r\n", []

    async def serve(self, reader: asyncio.StreamReader, writer: asyncio.StreamWriter) -> None:
        """Answers once a head has come, and keeps all that comes."""
        got = bytearray()
        self.connections.append(got)
        while data := await reader.read(1000):
            before = self.end in got
            got += data
            if not before and self.end in got:
                writer.write(self.answer)
                if b" 101 " not in self.answer:
                    await self._carried(reader, got)
                    break
        writer.close()

    async def _carried(self, reader: asyncio.StreamReader, got: bytearray) -> None:
        """Keeps what is carried on although the answer was a refusal: it comes soon."""
        with contextlib.suppress(TimeoutError):
            async with asyncio.timeout(CARRIED_SOON):
                while data := await reader.read(1000):
                    got += data


class Running:
    """A gate before an island's front."""

    def __init__(self, answer: bytes, limits: Limits = Limits()) -> None:
        self.inner, self._limits = Inner(answer), limits

    async def __aenter__(self) -> Running:
        self._server = await asyncio.start_server(self.inner.serve, "127.0.0.1", 0)
        port = self._server.sockets[0].getsockname()[1]
        island = SimpleNamespace(name="island0", machine="one")
        self.islands = SimpleNamespace(users={}, of_account={}, of_token={}, placed={"island0": island}, machines={}, secret=SECRET,
                                       port=lambda name, kind: port if name == "island0" else None)
        gate, self._doors = Gate("one", self.islands, ssl.create_default_context()), Doors(self._limits, None, {})
        self.port, self.lines_port = free_port(), free_port()
        self._doors.listen("127.0.0.1", self.port, gate.door(gate.serve_http, False))
        self._doors.listen("127.0.0.1", self.lines_port, gate.door(gate.serve_lines, False))
        return self

    async def __aexit__(self, *error: object) -> None:
        self._doors.close()
        self._server.close()

    async def asks(self, *parts: bytes, address: str = "127.0.0.1", lines: bool = False) -> bytes:
        """What comes back for bytes that are sent with a moment between them, at the port of HTTP or at that of lines."""
        reader, writer = await asyncio.open_connection("127.0.0.1", self.lines_port if lines else self.port, local_addr=(address, 0))
        try:
            for part in parts:
                writer.write(part)
                await asyncio.sleep(BETWEEN)
            async with asyncio.timeout(Patience.seconds):
                return await reader.read(2000)
        finally:
            writer.close()


OK = b"HTTP/1.1 200 OK\r\nContent-Length: 2\r\nConnection: close\r\n\r\nok"


@in_loop()
async def test_connections_that_are_refused_are_told_once(capfd: pytest.CaptureFixture[str]) -> None:
    """None is ended for another one once all are of users who are signed on. An operator hears which limit that is."""
    async with Running(OK, Limits(connections=1)) as gate:
        _, writer = await asyncio.open_connection("127.0.0.1", gate.port)
        await until(lambda: gate._doors._unknown, "a connection")
        gate._doors.is_known(next(iter(gate._doors._unknown)))
        for _ in range(3):
            with contextlib.suppress(ConnectionError):
                assert await gate.asks() == b""
        writer.close()
    assert capfd.readouterr().err.count("a connection is refused: all that limits.connections allows are of users who are signed on") == 1


@in_loop()
async def test_an_upgrade_that_is_none_carries_one_request_and_nothing_after_it() -> None:
    async with Running(OK) as gate:
        answer = await gate.asks(b"GET /health HTTP/1.1\r\nHost: x\r\nUpgrade: x\r\nConnection: Upgrade\r\nX-Mgate-From: 9.9.9.9\r\n\r\n",
                                 b"POST /signon HTTP/1.1\r\nHost: x\r\nX-Mgate-From: 8.8.8.8\r\n\r\n")
        assert answer.startswith(b"HTTP/1.1 200") and len(gate.inner.connections) == 1
        [got] = gate.inner.connections
        assert got.startswith(preamble(SECRET, "127.0.0.1")) and got.count(b"HTTP/1.1") == 1 and b"signon" not in got
        assert b"connection: close" in got.lower() and b"upgrade:" not in got.lower() and b"9.9.9.9" not in got


@pytest.mark.parametrize(("answer", "carried"), [
    (b"HTTP/1.1 101 Switching Protocols\r\nUpgrade: websocket\r\nConnection: Upgrade\r\n\r\n", True), (b"HTTP/1.1 403 No\r\nContent-Length: 0\r\n\r\n", False)])
@in_loop()
async def test_bytes_are_carried_on_after_a_true_handshake_alone(answer: bytes, carried: bool) -> None:
    async with Running(answer) as gate:
        await gate.asks(HANDSHAKE, b"raw bytes")
        [got] = gate.inner.connections
        if carried:
            await until(lambda: b"raw bytes" in got, "the bytes after the handshake")
        assert (b"raw bytes" in got) == carried
        assert b"x-mgate" not in got.lower() and b"x-forwarded" not in got.lower() and b"Upgrade: websocket" in got


@pytest.mark.parametrize(("target", "status"), [("/metrics", 404), ("/control", 404), ("/admin.json", 404), ("//metrics", 404), ("/page/../metrics", 200)])
@in_loop()
async def test_known_paths_alone_are_carried(target: str, status: int) -> None:
    async with Running(OK) as gate:
        answer = await gate.asks(f"GET {target} HTTP/1.1\r\nHost: x\r\nCookie: __Host-mfront=island0.x\r\n\r\n".encode())
        assert answer.startswith(f"HTTP/1.1 {status}".encode()) and b"island0" not in answer
        # A path of the page stays one: the front has files of one folder alone.
        assert all(b"GET /metrics" not in got for got in gate.inner.connections)


@pytest.mark.parametrize(("machine", "state"), [("one", "it has no port yet"), ("two", "its machine is not there"), ("three", "nobody knows its machine")])
@in_loop()
async def test_a_refusal_does_not_say_which_island_is_away(machine: str, state: str) -> None:
    """Whose customer a user is would be told to everybody who knows a name, whatever keeps the island away."""
    async with Running(OK) as gate:
        has_one_away(gate, machine)
        for request in (b"POST /line HTTP/1.1\r\nHost: x\r\nAuthorization: Bearer mft_x\r\nContent-Length: 2\r\n\r\n{}",
                        b"GET /session HTTP/1.1\r\nHost: x\r\nCookie: __Host-mfront=secret1.x\r\n\r\n"):
            answer = await gate.asks(request)
            assert answer.startswith(b"HTTP/1.1 503") and answer.endswith(json.dumps({"error": AWAY}).encode()) and b"secret" not in answer.lower(), state
        assert not gate.inner.connections


def has_one_away(gate: Running, machine: str) -> None:
    """Before the island of a gate there is another one, of a user of the name ada, which is away."""
    gate.islands.placed = {"secret1": SimpleNamespace(name="secret1", machine=machine), **gate.islands.placed}
    gate.islands.machines["two"] = Machine("two", "127.0.0.1", free_port())
    gate.islands.users["ada"] = SimpleNamespace(account="SECRET")
    gate.islands.of_account["SECRET"] = "secret1"
    gate.islands.of_token[token_hash("mft_x")] = "ada"


def sign_on_of(name: str) -> bytes:
    """A request to sign on."""
    body = json.dumps({"user": name, "password": "x"}).encode()
    return b"POST /signon HTTP/1.1\r\nHost: x\r\nContent-Length: %d\r\n\r\n%b" % (len(body), body)


@pytest.mark.parametrize("machine", ["one", "two", "three"])
@in_loop()
async def test_a_sign_on_is_for_another_front_while_its_own_is_away(machine: str) -> None:
    """As one of a name that nobody has: both have the same answer. Who has no island yet finds the page there."""
    async with Running(OK) as gate:
        has_one_away(gate, machine)
        for request in (sign_on_of("ada"), sign_on_of("nobody"), b"GET / HTTP/1.1\r\nHost: x\r\n\r\n"):
            assert (await gate.asks(request)).startswith(b"HTTP/1.1 200")
        assert [got.count(b"/signon") for got in gate.inner.connections] == [1, 1, 0] and b'"ada"' in gate.inner.connections[0]
        gate.inner.end, gate.inner.answer = b" x\n", b'{"error": "wrong"}\n'
        for name in (b"ada", b"nobody"):
            assert await gate.asks(name + b" x\n", lines=True) == gate.inner.answer and gate.inner.connections[-1].endswith(name + b" x\n")
    async with Running(OK) as gate:
        has_one_away(gate, machine)
        del gate.islands.placed["island0"]
        # None is there: then nobody learns more.
        for name in ("ada", "nobody"):
            assert (await gate.asks(sign_on_of(name))).startswith(b"HTTP/1.1 503")
            assert await gate.asks(f"{name} x\n".encode(), lines=True) == json.dumps({"error": AWAY}).encode() + b"\n"


@in_loop()
async def test_figures_of_an_island_go_to_its_front_with_the_token() -> None:
    async with Running(OK) as gate:
        await gate.asks(b"GET /metrics/island0 HTTP/1.1\r\nHost: x\r\nAuthorization: Bearer abc\r\n\r\n")
        [got] = gate.inner.connections
        assert b"GET /metrics HTTP/1.1" in got and b"Authorization: Bearer abc" in got


@in_loop()
async def test_idle_connections_of_an_address_keep_nobody_else_out() -> None:
    """Neither who comes later, nor who came first and has sent nothing yet: its own bound makes room for that address, and not what all may have."""
    request = b"GET / HTTP/1.1\r\nHost: x\r\n\r\n"
    async with Running(OK, Limits(connections=40, unsigned_of_address=20)) as gate:
        reader, writer = await asyncio.open_connection("127.0.0.1", gate.port, local_addr=("127.0.0.3", 0))
        idle = [await asyncio.open_connection("127.0.0.1", gate.port) for _ in range(60)]
        assert (await gate.asks(request, address="127.0.0.2")).startswith(b"HTTP/1.1 200")
        writer.write(request)
        assert (await reader.read(1000)).startswith(b"HTTP/1.1 200")
        writer.close()
        for _, writer in idle:
            writer.close()


@pytest.mark.parametrize("line", [b"", b"mgate", b"mgate  127.0.0.1", b"GET / HTTP/1.1", b"mgate %b 127.0.0.1" % (b"t" * 43), b"mgate %b x" % SECRET.encode()])
def test_a_preamble_without_the_secret_or_an_address_is_none(line: bytes) -> None:
    assert told_by(line, SECRET) is None
    assert told_by(preamble(SECRET, "2001:db8::1").rstrip(), SECRET) == "2001:db8::1"


@in_loop()
async def test_a_front_takes_connections_of_its_gate_alone(start, tmp_path) -> None:
    """And the address that the gate says; figures need the token there, also from the loopback."""
    secret, token = new_secret(), new_secret()
    for name, text in (("gate.secret", secret), ("metrics.token", token)):
        (tmp_path / name).write_text(text)
        (tmp_path / name).chmod(0o600)
    front: Front = start(tls=False, listen={"gate": str(tmp_path / "gate.secret")}, metrics={"token": str(tmp_path / "metrics.token")})

    async def asks(port: int, data: bytes) -> bytes:
        reader, writer = await asyncio.open_connection("127.0.0.1", port)
        try:
            writer.write(data)
            return await reader.read(3000)
        except ConnectionError:
            return b""
        finally:
            writer.close()
    health = b"GET /health HTTP/1.1\r\nHost: x\r\nConnection: close\r\n\r\n"
    assert await asks(front.port, health) == b"" == await asks(front.port, preamble("t" * 43, "192.0.2.7") + health)
    assert (await asks(front.port, preamble(secret, "192.0.2.7") + health)).startswith(b"HTTP/1.1 200")
    figures = b"GET /metrics HTTP/1.1\r\nHost: x\r\nConnection: close\r\n"
    assert (await asks(front.port, preamble(secret, "127.0.0.1") + figures + b"\r\n")).startswith(b"HTTP/1.1 403")
    assert (await asks(front.port, preamble(secret, "192.0.2.7") + figures + f"Authorization: Bearer {token}\r\n\r\n".encode())).startswith(b"HTTP/1.1 200")
    assert json.loads(await asks(front.lines_port, preamble(secret, "192.0.2.8") + f"cleo {PASSWORD}\n".encode()))["user"] == "cleo"
    assert [record["from"] for record in front.audit() if record["event"] == "sign-on"] == ["192.0.2.8"]


@in_loop()
async def test_users_who_change_hold_no_connection_up(tmp_path: Path, monkeypatch: pytest.MonkeyPatch) -> None:
    """The users' file of each island is written and synced, and no bytes would be carried meanwhile in the gate's own thread. What cannot be written is
    written later."""
    machine, folder, threads, sync, save = Machine("one", "localhost", 1), tmp_path / "islands", set(), os.fsync, islands_module.save

    def synced(descriptor: int) -> None:
        threads.add(threading.get_ident())
        sync(descriptor)

    def full(path: Path, users: object) -> None:
        monkeypatch.setattr(islands_module, "save", save)
        raise OSError(28, "No space left on device")
    monkeypatch.setattr(os, "fsync", synced)
    monkeypatch.setattr(islands_module, "save", full)
    write_users(tmp_path / "users.json", {"ada": "A", "ben": "B"})
    islands = Islands(Home(machine, folder, tmp_path / "users.json", None, "mserve", ()), LocalPlacement(folder, machine), None)
    for name in "AB":
        (folder / name).mkdir(parents=True)
        islands.placed[name] = Island(name, "one", None, HERE, (name,), "")
        islands._fronts[name] = IslandFront(name, {}, False, "")
    with pytest.raises(OSError, match="No space left"):
        await islands._read_users()
    await islands._read_users()
    assert threads and threading.get_ident() not in threads
    assert [list(json.loads((folder / name / "users.json").read_text())["users"]) for name in "AB"] == [["ada"], ["ben"]]


def test_what_a_gate_shows_has_suites_that_are_good_today(certificate: tuple[Path, Path]) -> None:
    """As a front: of TLS 1.2 forward secrecy and authenticated encryption alone, for users and for other machines."""
    shown = contexts(Doorway("127.0.0.1", 1, 2, *certificate, Peers(*certificate, certificate[0])))
    for context in (shown.users, shown.inward, shown.outward):
        names = [suite["name"] for suite in context.get_ciphers()]
        assert all(name.startswith(("TLS_", "ECDHE-")) and ("GCM" in name or "CHACHA20" in name) for name in names), names
        assert context.options & ssl.OP_NO_RENEGOTIATION and context.minimum_version is ssl.TLSVersion.TLSv1_2
    assert shown.inward.verify_mode is shown.outward.verify_mode is ssl.CERT_REQUIRED


@in_loop()
async def test_a_certificate_of_a_gate_that_expires_soon_is_an_alarm(certificate: tuple[Path, Path], tmp_path: Path) -> None:
    """Of those that users and other machines are shown the first one counts."""
    shown = contexts(Doorway("127.0.0.1", 1, 2, *certificate, Peers(*certificate, certificate[0])))
    assert 86_400 < shown.expires - time.time() < 2 * 86_400

    async def alarms() -> list[str]:
        page = GatePage(None, "one", SimpleNamespace(placed={}, machines={}), lambda: shown.expires)
        return [alarm["what"] for alarm in (await page.told())["alarms"]]
    assert await alarms() == ["The gate: A certificate expires in less than 14 days."]
    shown.expires += 14 * 86_400
    assert await alarms() == []
    chain = tmp_path / "chain.pem"
    chain.write_text("-----BEGIN CERTIFICATE-----\nAAAA\n-----END CERTIFICATE-----\n")
    assert expires(chain) is None and expires(tmp_path / "none.pem") is None
