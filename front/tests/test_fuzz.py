# SPDX-License-Identifier: Apache-2.0
"""Drawn bytes at the ways in: heads of requests, the doors' pieces, the line port and frames of a WebSocket. Whatever comes, each line has its reply, in
order; nothing runs at another terminal; and the front goes on."""
from __future__ import annotations

import asyncio
import contextlib
import json
import subprocess

import aiohttp
import pytest
from front import COMMAND, Front, in_loop, until
from hypothesis import HealthCheck, given, settings
from hypothesis import strategies as st
from mserve_front.doors import Doors, HttpDoor
from mserve_front.http_head import END, BadRequest, read_head
from mserve_front.lines import LONGEST
from mserve_front.settings import Limits
from test_lines import NEVER

NAMES = st.sampled_from(["Host", "host", "Content-Length", "Cookie", "Upgrade", "Connection", "X-A", "Transfer-Encoding", " X", "X ", "A:b", ""])
VALUES = st.one_of(st.sampled_from(["x", "0", "5", "-1", "+5", "5, 5", "0x5", "websocket", "chunked", "a\tb", "a\nb", "a\rb", "\0"]), st.text(max_size=20))
FIRST = st.sampled_from(["GET / HTTP/1.1", "POST /line HTTP/1.1", "GET / HTTP/1.0", "GET  / HTTP/1.1", " GET / HTTP/1.1", "GET /\t HTTP/1.1", "get / HTTP/1.1"])
HEADS = st.builds(lambda first, fields, between: between.join([first, *(f"{name}: {value}" for name, value in fields)]).encode("utf-8", "surrogatepass") + END,
                  FIRST, st.lists(st.tuples(NAMES, VALUES), max_size=6), st.sampled_from(["\r\n", "\r\n", "\n"]))
QUIET = settings(max_examples=100, deadline=None, suppress_health_check=list(HealthCheck))
FEW = settings(max_examples=25, deadline=None, suppress_health_check=list(HealthCheck))


@QUIET
@given(st.one_of(HEADS, st.binary(max_size=200).map(lambda data: data + END)))
def test_a_head_is_refused_or_means_one_thing(data: bytes) -> None:
    """One that is taken has one host and one length, no bytes that another reader could take for an end of a line, and is read the same once written."""
    try:
        head = read_head(data, 8192)
    except BadRequest as error:
        assert error.status in (400, 413)
        return
    names = [name.lower() for name, _ in head.fields]
    assert names.count("host") == 1 and names.count("content-length") <= 1 and "transfer-encoding" not in names and 0 <= head.length <= 8192
    assert not any(set(name + value) & {"\r", "\n", "\0"} for name, value in head.fields)
    written = "\r\n".join([f"{head.method} {head.target} HTTP/1.1", *(f"{name}: {value}" for name, value in head.fields)]).encode("latin1") + END
    assert read_head(written, 8192) == head


# Heads of which two readers could make two requests: after a first line and a host that are good, and others.
AFTER_A_GOOD_ONE = (
    "Host: y", "host: x", "Content-Length: 5\r\nContent-Length: 5", "Content-Length: 5\r\ncontent-length: 6", "Transfer-Encoding: chunked",
    "Content-Length: 5\r\nTransfer-Encoding: chunked", "Content-Length: +5", "Content-Length: -1", "Content-Length: 5, 5", "Content-Length: 0x5",
    "Content-Length: \u00b2", "Content-Length:", " X: 1", "X : 1", "X\t: 1", ": 1", "X", "X: 1\r\n folded", "X: 1\nY: 2", "X: 1\rY: 2", "X: \0",
    "Cookie: a=1\r\nCookie: a=2", "Origin: https://a\r\nOrigin: https://b", "Upgrade: websocket\r\nUpgrade: x")
ODD = (
    "GET / HTTP/1.1\r\nX: 1", "GET / HTTP/1.0\r\nHost: x", "GET  / HTTP/1.1\r\nHost: x", " GET / HTTP/1.1\r\nHost: x", "GET /\t HTTP/1.1\r\nHost: x",
    "get / HTTP/1.1\r\nHost: x", "GET http://x/ HTTP/1.1\r\nHost: x", "GET / HTTP/1.1 \r\nHost: x", "\r\nGET / HTTP/1.1\r\nHost: x",
    "GET / HTTP/1.1\nHost: x", *(f"GET / HTTP/1.1\r\nHost: x\r\n{fields}" for fields in AFTER_A_GOOD_ONE))


@pytest.mark.parametrize("head", ODD)
def test_heads_of_odd_forms_are_refused(head: str) -> None:
    with pytest.raises(BadRequest) as refused:
        read_head(head.encode("latin1") + END, 8192)
    assert refused.value.status == 400


def test_a_head_as_browsers_send_it_is_taken() -> None:
    head = read_head(b"POST /line HTTP/1.1\r\nHost: x:1\r\nContent-Length: 8192\r\nX-A: 1\r\nX-A: \t2 \r\ncookie: a=1; b=2" + END, 8192)
    assert (head.method, head.target, head.length, head.cookies()) == ("POST", "/line", 8192, {"a": "1", "b": "2"})
    assert [value for name, value in head.fields if name == "X-A"] == ["1", "2"]


class Kept(asyncio.Protocol):
    """A protocol that keeps what it is given, and answers when a test says so."""

    def __init__(self) -> None:
        self.given: list[bytes] = []

    def data_received(self, data: bytes) -> None:
        self.given.append(data)

    def eof_received(self) -> bool:
        return False


class Wire(asyncio.Transport):
    """The other end of a door."""

    def __init__(self) -> None:
        super().__init__()
        self.closed, self.written, self.paused = False, b"", False

    def is_closing(self) -> bool:
        return self.closed

    def pause_reading(self) -> None:
        self.paused = True

    def resume_reading(self) -> None:
        self.paused = False

    def write(self, data: bytes) -> None:
        self.written += data

    def close(self) -> None:
        self.closed = True

    abort = close


@QUIET
@given(st.lists(st.integers(0, 9000), max_size=6), st.lists(st.integers(1, 700), min_size=1, max_size=40))
def test_requests_are_handed_on_one_by_one_however_their_bytes_come(bodies: list[int], pieces: list[int]) -> None:
    requests = [f"POST /{number} HTTP/1.1\r\nHost: x\r\nContent-Length: {size}\r\n\r\n".encode() + b"b" * size for number, size in enumerate(bodies)]
    fits = next((number for number, size in enumerate(bodies) if size > 8192), len(bodies))

    async def run() -> None:
        inner, wire = Kept(), Wire()
        door = HttpDoor(inner, None, "127.0.0.1", lambda _: None, Doors(Limits(), None, {}), lambda head, place: (place, True))
        door.transport = wire
        data, place = b"".join(requests), 0
        while data:
            size = pieces[place % len(pieces)]
            door.data_received(data[:size])
            data, place = data[size:], place + 1
            await asyncio.sleep(0)
        for number, request in enumerate(requests[:fits]):
            for _ in range(2000):
                if len(b"".join(inner.given)) >= len(request):
                    break
                await asyncio.sleep(0.0005)
            assert b"".join(inner.given) == request, number
            inner.given.clear()
            await asyncio.sleep(0)
            assert not inner.given, "the next one comes after the answer"
            door.answered()
        if fits < len(bodies):
            for _ in range(2000):
                if wire.closed:
                    break
                await asyncio.sleep(0.0005)
            assert wire.closed and b" 413 " in wire.written
    asyncio.run(run())


@in_loop()
async def test_a_door_reads_no_more_while_much_waits() -> None:
    """What is sent ahead stays with the system, so that a connection has few bytes here, whatever its peer sends; it is read on once that is handed on."""
    inner, wire, request = Kept(), Wire(), b"POST / HTTP/1.1\r\nHost: x\r\nContent-Length: 4000\r\n\r\n" + b"b" * 4000
    door = HttpDoor(inner, None, "127.0.0.1", lambda _: None, Doors(Limits(), None, {}), lambda head, place: (place, True))
    door.transport, count = wire, 0
    while not wire.paused:
        door.data_received(request)
        count += 1
        assert count < 8
    for _ in range(count):
        await until(lambda: len(b"".join(inner.given)) >= len(request), "a request that is handed on")
        assert b"".join(inner.given) == request
        inner.given.clear()
        door.answered()
    assert not wire.paused


@pytest.fixture(scope="module")
def fuzzed(tmp_path_factory: pytest.TempPathFactory) -> tuple[Front, str]:
    """A front without TLS, and a token of ada."""
    front = Front(tmp_path_factory.mktemp("fuzz"), None)
    done = subprocess.run([*COMMAND, "token", "add", "ada", "--config", front.folder / "front.toml"], capture_output=True, text=True, check=True)
    yield front, done.stdout.strip()
    assert front.process.poll() is None and "Traceback" not in front.told()
    front.stop()


CHOSEN = st.sampled_from([b"W 1", b"", b"1001 S ^Z=1", b"\xc3\xa9", b"S ^Z=1", b"W $D(^Z)", b"H", b"x" * 256, b"\0", b"\r"])
LINES = st.lists(st.one_of(st.binary(max_size=300), CHOSEN), max_size=20)


@FEW
@given(LINES, st.lists(st.integers(1, 200), min_size=1, max_size=10))
def test_each_line_at_the_line_port_has_one_reply(fuzzed: tuple[Front, str], lines: list[bytes], pieces: list[int]) -> None:
    front, token = fuzzed
    told = [piece for line in lines for piece in line.split(b"\n")]

    async def run() -> None:
        reader, writer = await asyncio.open_connection("127.0.0.1", front.lines_port)
        while "error" in json.loads(await first(reader, writer, f"ada {token}")):
            # The token is read within a second, and a terminal may not be given back yet.
            await asyncio.sleep(0.3)
            reader, writer = await asyncio.open_connection("127.0.0.1", front.lines_port)
        data, place = b"".join(piece + b"\n" for piece in told), 0
        while data:
            size = pieces[place % len(pieces)]
            writer.write(data[:size])
            data, place = data[size:], place + 1
            await asyncio.sleep(0)
        for piece in told:
            record = json.loads(await reader.readuntil(b"\n"))
            wrong = "ZLINE" if len(piece) > LONGEST else "ZCHAR" if NEVER & set(piece) else None
            assert record.get("refused") == wrong, (piece, record)
        writer.close()
    asyncio.run(asyncio.wait_for(run(), 60))


async def first(reader: asyncio.StreamReader, writer: asyncio.StreamWriter, line: str) -> bytes:
    """The answer of a first line."""
    writer.write(line.encode() + b"\n")
    return await reader.readuntil(b"\n")


def frame(end: bool, kind: int, masked: bool, text: bytes, reserved: int) -> bytes:
    """The bytes of a frame."""
    size = bytes([len(text) | 0x80 * masked]) if len(text) < 126 else bytes([126 | 0x80 * masked]) + len(text).to_bytes(2, "big")
    return bytes([0x80 * end | reserved << 4 | kind]) + size + (bytes(4) if masked else b"") + text


MESSAGES = st.one_of(st.builds(lambda number, line: json.dumps({"id": number, "line": line}).encode(), st.integers(0, 99), st.text(max_size=30)),
                     st.binary(max_size=200))
MASKED, RESERVED = st.sampled_from([True, True, True, False]), st.sampled_from([0, 0, 0, 0, 1, 4])
FRAMES = st.lists(st.builds(frame, st.booleans(), st.integers(0, 15), MASKED, MESSAGES, RESERVED), max_size=12)


@FEW
@given(FRAMES, st.integers(1, 100))
def test_drawn_frames_end_the_connection_or_are_answered(fuzzed: tuple[Front, str], frames: list[bytes], piece: int) -> None:
    """Each record that comes is a reply to a number that was sent, or an event; and the next connection is served."""
    front, _ = fuzzed

    @in_loop()
    async def run() -> None:
        async with front.person("cleo") as cleo:
            transport = cleo.socket._response.connection.transport
            data = b"".join(frames)
            for place in range(0, len(data), piece):
                if transport.is_closing():
                    break
                transport.write(data[place:place + piece])
                await asyncio.sleep(0)
            with contextlib.suppress(TimeoutError, ConnectionError, aiohttp.ClientError):
                async with asyncio.timeout(0.3):
                    while True:
                        record = await cleo.event()
                        assert "event" in record or 0 <= record["id"] <= 99 and {"output", "refused", "unknown"} & record.keys()
            await cleo.socket.close()
            await cleo.connect()
            assert await cleo.told("W 7") == "7"
    run()
