# SPDX-License-Identifier: Apache-2.0
"""Hostile clients: they are cut off, and a neighbour is served all the while."""
from __future__ import annotations

import asyncio
import contextlib
import json
import ssl
import statistics
import time
from collections.abc import AsyncIterator
from pathlib import Path
from types import SimpleNamespace

import aiohttp
import pytest
from front import PASSWORD, Front, Patience, Person, given_back, in_loop, until
from mserve_front.line_port import LinePeer
from mserve_front.settings import Limits
from mserve_front.unread import Unread

# A line whose reply has some 100,000 bytes.
LARGE = 'F I=1:1:25 W $J("",4000)'
# Seconds within which half of a neighbour's lines are answered.
SOON = 2.0
MARKUP = '<script>alert(1)</script><img src=x onerror=alert(1)>"\'&'


@contextlib.asynccontextmanager
async def served(front: Front) -> AsyncIterator[Person]:
    """A neighbour who sends lines during the block, and is answered each time: half of them soon, and none so late that only the machine's other work could
    not explain it."""
    async with front.person("cleo") as cleo:
        waits: list[float] = []

        async def work() -> None:
            while True:
                began = time.monotonic()
                assert await cleo.told(f"W {len(waits)}") == str(len(waits))
                waits.append(time.monotonic() - began)
                await asyncio.sleep(0.02)
        task = asyncio.create_task(work())
        yield cleo
        while len(waits) < 4 and not task.done():
            await asyncio.sleep(0.05)
        assert not task.done(), task.exception()
        task.cancel()
        assert statistics.median(waits) < SOON and max(waits) < Patience.seconds, waits


async def closed(reader: asyncio.StreamReader, began: float) -> float:
    """How many seconds after a moment the peer ends the connection. If it may not end it too soon, that is a moment before the connection."""
    with contextlib.suppress(ConnectionError):
        while await reader.read(1 << 16):
            pass
    return time.monotonic() - began


@pytest.mark.parametrize("data", [b"", b"GET / HTTP/1.1\r\n", b"GET / HTTP/1.1\r\nHost: localhost\r\nX: " + b"x" * 100,
                                  pytest.param(b"POST /signon HTTP/1.1\r\nHost: localhost\r\nContent-Type: application/json\r\nContent-Length: 100\r\n\r\n{",
                                               marks=pytest.mark.long)],
                         ids=["nothing", "half a head", "half a field", "half a body"])
@in_loop()
async def test_connections_of_which_nothing_comes_are_ended(start, data: bytes) -> None:
    front = start(limits={"sign_on": 2})
    async with served(front):
        peers = [(time.monotonic(), *await asyncio.open_connection("localhost", front.port, ssl=front.context)) for _ in range(20)]
        for _, _, writer in peers:
            writer.write(data)
        # The answer to a body that does not come is an error; the connection ends in any case.
        times = await asyncio.gather(*(closed(reader, began) for began, reader, _ in peers))
        assert 0.5 < max(times) < 40
        for _, _, writer in peers:
            writer.close()


@in_loop()
async def test_connections_without_a_handshake_are_ended(start) -> None:
    front = start(limits={"sign_on": 2})
    async with served(front):
        peers = [(time.monotonic(), *await asyncio.open_connection("localhost", port)) for port in (front.port, front.lines_port) for _ in range(10)]
        # After ten seconds; asyncio by itself would wait for a minute.
        assert max(await asyncio.gather(*(closed(reader, began) for began, reader, _ in peers))) < 30


@pytest.mark.parametrize("first", [b"", b"ada ", b"ada " + b"x" * 1000])
@in_loop()
async def test_programs_that_do_not_sign_on_are_ended(start, first: bytes) -> None:
    front = start(limits={"sign_on": 2})
    began = time.monotonic()
    reader, writer = await asyncio.open_connection("localhost", front.lines_port, ssl=front.context)
    writer.write(first)
    # Without the limit it would be 20 seconds.
    assert 1 < await closed(reader, began) < 18


@pytest.mark.parametrize("limits", [{"connections_of_address": 5}, {"unsigned_of_address": 3}, {"connections": 5}])
@in_loop()
async def test_connections_that_are_not_signed_on_end_first_and_the_oldest_of_them(start, limits: dict[str, int]) -> None:
    front = start(limits=limits)
    async with front.person("ada") as ada:
        peers = [await asyncio.open_connection("localhost", front.port, ssl=front.context) for _ in range(8)]
        await closed(peers[0][0], time.monotonic())
        assert not peers[-1][0].at_eof()
        assert await ada.told("W 1") == "1"
        for _, writer in peers:
            writer.close()


@in_loop()
async def test_connections_of_those_who_are_signed_on_are_counted(start) -> None:
    front = start(limits={"connections_of_address": 2})
    async with front.person("ada"), front.person("cleo") as cleo:
        with pytest.raises((ConnectionError, OSError)):
            reader, writer = await asyncio.open_connection("localhost", front.port, ssl=front.context)
            writer.write(b"GET /health HTTP/1.1\r\nHost: x\r\n\r\n")
            assert await reader.read(100) != b""
            raise AssertionError("a third connection is served")
        assert await cleo.told("W 1") == "1"


@in_loop()
async def test_slow_reader_of_the_web_socket_is_cut_off(start) -> None:
    front = start(limits={"slow": 2})
    async with served(front), front.person("ben") as ben, front.person("ada") as ada:
        assert await ada.told("L +^X:0 W $T") == "1"
        for _ in range(300):
            await ada.send(LARGE)
        # Nothing is read; after the time for slow readers the lock is given back.
        await given_back(ben)


@in_loop()
async def test_slow_reader_of_the_line_port_is_cut_off(start) -> None:
    front = start(limits={"slow": 2})
    async with served(front), front.person("ben") as ben:
        reader, writer = await asyncio.open_connection("localhost", front.lines_port, ssl=front.context, limit=1000)
        writer.write(f"ada {PASSWORD}\nL +^X\n".encode() + f"{LARGE}\n".encode() * 300)

        async def held() -> bool:
            # What the line takes it gives back, so that ada finds the lock free.
            return await ben.told("L +^X:0 W $T L") == "0"
        await until(held, "the lock that ada takes")
        await given_back(ben)


@in_loop()
async def test_peer_that_answers_no_ping_is_ended(start) -> None:
    """A half-open connection looks like this: the peer says nothing any more."""
    front = start(limits={"heartbeat": 2})
    async with served(front) as cleo, front.person("ben") as ben, front.person("ada") as ada:
        mute = await ada.http.ws_connect("/ws", origin=front.origin, autoping=False)
        await mute.send_str(json.dumps({"id": 1, "line": "L +^X:0 W $T"}))
        # It has the lock. A machine that is busy may take so long for this test's next line that it is given back before.
        assert json.loads((await mute.receive()).data)["rest"] == "1"
        await given_back(ben)
        assert cleo.events == []


@pytest.mark.long
@in_loop()
async def test_quiet_peer_that_answers_pings_stays(start) -> None:
    front = start(limits={"heartbeat": 3})
    async with front.person("ada") as ada:
        await ada.line("S A=1")
        waiting = asyncio.create_task(ada.event())
        await asyncio.sleep(9)
        assert not waiting.done()
        await ada.send("W A")
        assert (await waiting)["rest"] == "1"


@pytest.mark.parametrize(("message", "code"), [("x" * 70_000, aiohttp.WSCloseCode.MESSAGE_TOO_BIG), (b"W 1", aiohttp.WSCloseCode.UNSUPPORTED_DATA),
                                               (b"x" * 70_000, aiohttp.WSCloseCode.MESSAGE_TOO_BIG)],
                         ids=["text", "bytes", "many bytes"])
@in_loop()
async def test_frames_that_are_too_large_or_none(lasting: Front, message: str | bytes, code: int) -> None:
    async with served(lasting), lasting.person("ada") as ada:
        await (ada.socket.send_str(message) if isinstance(message, str) else ada.socket.send_bytes(message))
        with pytest.raises(ConnectionError):
            await ada.event()
        # The client makes an abnormal end of it if the connection is over before it has answered.
        assert ada.socket.close_code in (code, aiohttp.WSCloseCode.ABNORMAL_CLOSURE)


@in_loop()
async def test_fragments_without_an_end(lasting: Front) -> None:
    """Frames that are never finished take bounded memory."""
    async with served(lasting), lasting.person("ada") as ada:
        transport = ada.socket._writer.transport
        frame = bytes([0x01, 0x80 | 126]) + (1000).to_bytes(2, "big") + bytes(4) + b"x" * 1000
        following = bytes([0x00]) + frame[1:]
        transport.write(frame)
        for _ in range(100):
            transport.write(following)
        with pytest.raises(ConnectionError):
            await ada.event()
        # What comes after the end is refused by the system, which may overtake the reason.
        assert ada.socket.close_code in (aiohttp.WSCloseCode.MESSAGE_TOO_BIG, aiohttp.WSCloseCode.ABNORMAL_CLOSURE, None)


@pytest.mark.parametrize("data", [
    b"x" * 100_000, b"GET / HTTP/1.1\r\nHost: x\r\nX: " + b"x" * 20_000 + b"\r\n\r\n", b"GET /" + b"x" * 20_000 + b" HTTP/1.1\r\n\r\n",
    b"POST /signon HTTP/1.1\r\nHost: localhost\r\nContent-Type: application/json\r\nContent-Length: 100000000\r\n\r\n" + b"x" * 200_000,
    b"POST /signon HTTP/1.1\r\nHost: localhost\r\nContent-Length: 1\r\nTransfer-Encoding: chunked\r\n\r\n0\r\n\r\n",
    pytest.param(b"\0\xff" * 1000, marks=pytest.mark.long),
    b"GET /health HTTP/1.1\r\nHost: localhost\r\n\r\n" * 200_000,
], ids=["no head", "long field", "long path", "long body", "two lengths", "bytes", "many at once"])
@in_loop()
async def test_requests_that_are_none_or_too_large(lasting: Front, data: bytes) -> None:
    async with served(lasting):
        reader, writer = await asyncio.open_connection("localhost", lasting.port, ssl=lasting.context)

        async def send() -> None:
            with contextlib.suppress(ConnectionError):
                for start in range(0, len(data), 65_536):
                    writer.write(data[start:start + 65_536])
                    await writer.drain()
        sending = asyncio.create_task(send())
        assert await closed(reader, time.monotonic()) < 50
        await sending
        writer.close()


@in_loop()
async def test_what_peers_send_is_in_no_log(start) -> None:
    """Keys and tokens of heads that are too long or none, or of which the libraries know more than the front; and neither a flood of such heads, nor of
    connections that break off, writes a log of its own, as the libraries would."""
    front: Front = start()
    secret = "mft_" + "s" * 40
    heads = [f"{secret} \0\r\n", f"GET /session HTTP/1.1\r\nHost: localhost\r\nCookie: __Host-mfront={secret}; {'x' * 9000}\r\n",
             f"SECRET /{secret} HTTP/1.1\r\nHost: localhost\r\n", f"GET / HTTP/1.1\r\nHost: localhost\r\nSec-WebSocket-Key1: {secret}\r\n"]
    for number in range(300):
        reader, writer = await asyncio.open_connection("localhost", front.port, ssl=front.context)
        writer.write(f"{heads[number % len(heads)]}Authorization: Bearer {secret}\r\n\r\n".encode())
        await closed(reader, 0.0)
        writer.close()
    async with front.person("cleo") as cleo:
        for _ in range(30):
            for _ in range(50):
                await cleo.send("W 1")
            # No close, neither of the WebSocket nor of TLS.
            cleo.socket._response.connection.transport.abort()
            await cleo.connect()
    assert secret not in front.told() + (front.folder / "audit.log").read_text() and len(front.told().splitlines()) < 10
    assert "eof_received" not in front.told()


@in_loop()
async def test_an_event_for_a_program_that_has_gone(certificate: tuple[Path, Path]) -> None:
    """It is lost, whatever is left of the connection."""
    shown, trusted = ssl.create_default_context(ssl.Purpose.CLIENT_AUTH), ssl.create_default_context(cafile=certificate[0])
    shown.load_cert_chain(*certificate)
    come: asyncio.Queue[LinePeer] = asyncio.Queue()

    async def serve(reader: asyncio.StreamReader, writer: asyncio.StreamWriter) -> None:
        come.put_nowait(LinePeer(reader, writer, Limits(), SimpleNamespace(address="127.0.0.1", more=lambda: None), Unread()))
    server = await asyncio.start_server(serve, "127.0.0.1", 0, ssl=shown)
    _, writer = await asyncio.open_connection("127.0.0.1", server.sockets[0].getsockname()[1], ssl=trusted, server_hostname="localhost")
    peer = await come.get()
    writer.transport.abort()
    with contextlib.suppress(ConnectionError):
        await peer.line()
    peer.cut()
    peer._writer.close()
    await peer.end({"event": "signed-off"})
    server.close()


@in_loop()
async def test_line_without_an_end_at_the_line_port(lasting: Front) -> None:
    async with served(lasting):
        for first in (b"", f"ada {PASSWORD}\n".encode()):
            reader, writer = await asyncio.open_connection("localhost", lasting.lines_port, ssl=lasting.context)
            with contextlib.suppress(ConnectionError):
                writer.write(first + b"x" * 200_000)
                await writer.drain()
            # At once, and not after the 20 seconds that a sign-on may take.
            assert await closed(reader, time.monotonic()) < 18


@in_loop()
async def test_flood_of_sign_ons(start) -> None:
    """Passwords are computed beside the lines, two at once. Of a name at an address some wait, and not all."""
    front = start()
    async with served(front):
        people = [front.person(f"user{number % 3}") for number in range(60)]
        ends = [status for status, _ in await asyncio.gather(*(person.sign_on("wrong") for person in people))]
        assert set(ends) == {401, 429}
        for person in people:
            await person.http.close()


@in_loop()
async def test_flood_of_lines(lasting: Front) -> None:
    """A user who sends thousands of lines at once is answered each, in order."""
    async with served(lasting), lasting.person("ada") as ada:
        sending = asyncio.create_task(flood(ada, 3000))
        for number in range(3000):
            assert (await ada.next())["rest"] == str(number)
        await sending


async def flood(person: Person, count: int) -> None:
    for number in range(count):
        await person.send(f"W {number}")


@in_loop()
async def test_markup_is_text(start) -> None:
    """Names, passwords, lines and notes with markup come back as JSON, and as nothing else."""
    front = start(audit={"texts": True})
    async with front.person("ada") as ada:
        for body in ({"user": MARKUP, "password": MARKUP}, {"user": MARKUP}, MARKUP, {MARKUP: MARKUP}):
            async with ada.http.post("/signon", json=body) as response:
                assert response.content_type == "application/json" and response.headers["X-Content-Type-Options"] == "nosniff"
                assert "<" not in await response.text()
        for path in (f"/{MARKUP}", f"/page/{MARKUP}.js", f"/session?{MARKUP}"):
            async with ada.http.get(path) as response:
                assert response.content_type == "application/json" and "<" not in await response.text()
        text = MARKUP.replace('"', '""')
        assert await ada.told(f'S ^X("{text}")="{text}" W ^X("{text}")') == MARKUP
        assert (await ada.line(MARKUP))["code"] == "ZSYNTAX"
    assert [record["text"] for record in front.audit() if record.get("code") == "ZSYNTAX"] == [MARKUP]
