# SPDX-License-Identifier: Apache-2.0
"""A line is one line: its records, and what is refused before it is sent.

Isolation rests on the refusals: the server tells users apart by the terminal that a line begins with. What the server answers to a line is taken
from `mserve run`, which knows nothing of the front."""
from __future__ import annotations

import asyncio
import json

import aiohttp
import pytest
from front import PASSWORD, SETTINGS, Front, Person, in_loop
from mserve_client.wire import ReplyReader
from mserve_front.lines import LONGEST, Line, LineRefused
from running import run

# Bytes that no line has: they end a line, or are no ASCII.
NEVER = {0, 10, 13, *range(128, 256)}
# What aiohttp's client makes of a reason for closing if the connection is over before it has answered.
OVERTAKEN = aiohttp.WSCloseCode.ABNORMAL_CLOSURE


def answered(lines: list[bytes]) -> list[dict[str, object]]:
    """What the program answers to lines of terminal 1, as records."""
    status, output, fault = run(b"".join(b"1 %s\n" % line for line in lines), str(SETTINGS))
    assert (status, fault) == (0, b"")
    replies = ReplyReader(1).feed(output)
    return [{"output": list(reply.lines), "rest": reply.rest, "code": reply.code} for reply in replies]


@pytest.mark.parametrize(("line", "record"), [
    ("W 1+2*3", {"output": [], "rest": "9", "code": None}),
    ('S A="x" W A_1,!,A-1*2', {"output": ["x1"], "rest": "-2", "code": None}),
    ("W 5,!,B", {"output": ["5"], "rest": "", "code": "M6"}),
    ("", {"output": [], "rest": "", "code": None}),
    ("W $C(27,0,127,92)", {"output": [], "rest": "\x1b\0\x7f\\", "code": None}),
    ("W " + "1" * 253, {"output": [], "rest": "", "code": "ZOVER"}),
])
@in_loop()
async def test_record_of_a_line(lasting: Front, line: str, record: dict[str, object]) -> None:
    async with lasting.person() as ada:
        assert await ada.line(line) == record
        assert await ada.sign_off() == 204


@pytest.mark.parametrize("length", [1, 2, 17, LONGEST])
def test_every_byte_at_every_place_of_a_line(length: int) -> None:
    """What may be sent is one line of the wire, whatever stands where."""
    for place in range(length):
        for byte in range(256):
            data = b"x" * place + bytes([byte]) + b"x" * (length - place - 1)
            if byte in NEVER:
                with pytest.raises(LineRefused) as refused:
                    Line(data)
                assert refused.value.code == "ZCHAR"
            else:
                sent = Line(data).sent_by(9999)
                assert sent.count(b"\n") == 1 and sent.endswith(b"\n") and b"\r" not in sent and len(sent) <= 261


@pytest.mark.parametrize("place", [0, 1, 100, 254])
def test_every_code_point_above_is_refused(place: int) -> None:
    for code in [*range(128, 0x3000), *range(0xD7F0, 0xE010), *range(0xFF00, 0x10100), 0x1F600, 0x10FFFF]:
        with pytest.raises(LineRefused) as refused:
            Line.of("x" * place + chr(code))
        assert refused.value.code in ("ZCHAR", "ZLINE")


def test_longer_lines_are_refused() -> None:
    assert Line(b"x" * LONGEST).data == b"x" * LONGEST
    for length in (LONGEST + 1, 261, 10_000):
        with pytest.raises(LineRefused) as refused:
            Line(b"\n" * length)
        assert refused.value.code == "ZLINE"


@in_loop()
async def test_every_byte_at_every_place_over_the_web_socket(lasting: Front) -> None:
    """Each byte at each place of a line is answered as the program answers that line alone, or refused; and the neighbour sees nothing."""
    line = b'W "2 S ^Y=1"'
    cases = [line[:place] + bytes([byte]) + line[place:] for place in range(len(line) + 1) for byte in range(256)]
    expected = iter(answered([case for case in cases if not NEVER & set(case)]))
    async with lasting.person("ada") as ada, lasting.person("cleo") as cleo:
        await cleo.line("S A=1")
        sender = asyncio.create_task(send_all(ada, [case.decode("latin1") for case in cases]))
        for case in cases:
            record = await ada.next()
            del record["id"]
            if NEVER & set(case):
                assert record["refused"] == "ZCHAR" and "output" not in record, case
            else:
                assert record == next(expected), case
        await sender
        assert await ada.told("W $D(^Y)") == "0"
        assert await cleo.told("W A,$D(^Y)") == "10"


async def send_all(person: Person, lines: list[str]) -> None:
    for line in lines:
        await person.send(line)


@in_loop()
async def test_every_byte_at_every_place_over_the_line_port(lasting: Front) -> None:
    """On this port a line feed ends a line, so it makes two of one, both at the user's own terminal."""
    line = b'W "1001 S ^Z=1"'
    cases = [line[:place] + bytes([byte]) + line[place:] for place in range(len(line) + 1) for byte in range(256)]
    pieces = [piece for case in cases for piece in case.split(b"\n")]
    expected = iter(answered([piece for piece in pieces if not NEVER & set(piece)]))
    reader, writer = await asyncio.open_connection("localhost", lasting.lines_port, ssl=lasting.context)
    writer.write(f"ada {PASSWORD}\n".encode())
    assert json.loads(await reader.readline())["user"] == "ada"
    sender = asyncio.create_task(drained(writer, b"".join(case + b"\n" for case in cases)))
    for piece in pieces:
        record = json.loads(await reader.readline())
        if NEVER & set(piece):
            assert record["refused"] == "ZCHAR", piece
        else:
            assert record == next(expected), piece
    await sender
    writer.close()
    async with lasting.person("cleo") as cleo:
        assert await cleo.told("W $D(^Z)") == "0"


async def drained(writer: asyncio.StreamWriter, data: bytes) -> None:
    writer.write(data)
    await writer.drain()


@pytest.mark.parametrize("text", [
    "W 1\n2 S ^HACK=1", "W 1\r\n2 S ^HACK=1", "W 1\r2 S ^HACK=1", "\n2 S ^HACK=1", "W 1\0", "W 1\u20282 S ^HACK=1", "W 1\x852 S ^HACK=1", "W \"é\"",
    "W \"\ud800\"",
    "W \"😀\"", "x" * 256, "é" * 200, "\n" * 300,
])
@in_loop()
async def test_no_text_reaches_another_terminal(lasting: Front, text: str) -> None:
    async with lasting.person("ada") as ada, lasting.person("ben") as ben:
        assert ben.record["terminal"] != ada.record["terminal"]
        record = await ada.line(text)
        assert record["refused"] == ("ZLINE" if len(text.encode("utf-8", "surrogatepass")) > LONGEST else "ZCHAR")
        assert record["why"]
        assert await ben.told("W $D(^HACK)") == "0"
        assert await ada.told('W "still here"') == "still here"


@pytest.mark.parametrize("message", [
    "W 1", "[]", "1", "null", "{}", '{"id": 1}', '{"line": "W 1"}', '{"id": "1", "line": "W 1"}', '{"id": -1, "line": "W 1"}', '{"id": 1.5, "line": "W 1"}',
    '{"id": true, "line": "W 1"}', '{"id": 1, "line": 5}', '{"id": 1, "line": ["W 1"]}', '{"id": 1, "line": "W 1", "session": "x"}',
    '{"id": 1, "line": "W 1", "generation": "x"}', '{"id": 1, "line": "W 1"',
    '{"id": 123456789012345678901234567890, "line": "W 1"}', "[" * 7_000,
])
@in_loop()
async def test_messages_that_are_none_end_the_connection(lasting: Front, message: str) -> None:
    async with lasting.person() as ada:
        await ada.socket.send_str(message)
        with pytest.raises(ConnectionError):
            await ada.event()
        assert ada.socket.close_code in (aiohttp.WSCloseCode.POLICY_VIOLATION, OVERTAKEN)
        await ada.connect()
        assert await ada.told("W 7") == "7"


@in_loop()
async def test_texts_that_are_no_utf8_end_the_connection(lasting: Front) -> None:
    async with lasting.person() as ada:
        await ada.socket._writer._send_frame(b'{"id": 1, "line": "W \xff"}', aiohttp.WSMsgType.TEXT)
        with pytest.raises(ConnectionError):
            await ada.event()
        assert ada.socket.close_code in (aiohttp.WSCloseCode.INVALID_TEXT, OVERTAKEN)


@pytest.mark.parametrize("name", ["generation", "session"])
@in_loop()
async def test_line_for_another_epoch_of_the_server_is_not_sent(lasting: Front, name: str) -> None:
    """By its name, and by the one that it had before."""
    async with lasting.person() as ada:
        now = ada.record[name]
        await ada.send("S ^W=1", **{name: now + 1})
        assert (await ada.next())["refused"] == "restarted"
        await ada.send("W $D(^W)", **{name: now})
        assert (await ada.next())["rest"] == "0"


@in_loop()
async def test_steps_are_the_accounts(lasting: Front) -> None:
    async with lasting.person("dora") as dora:
        assert dora.record["account"] == "SHORT" and dora.record["terminal"] == 9999
        assert await dora.told("F I=1:1:100 S X=I") == "ZSTEPS"


@in_loop()
async def test_long_reply_is_cut_and_says_so(start) -> None:
    front = start(limits={"reply": 10_000})
    async with front.person("ada") as ada, front.person("ben") as ben:
        record = await ada.line('F I=1:1:3000 W $J("",100),!')
        assert record["code"] is None
        assert 0 < len(record["output"]) < 100 and set(record["output"]) == {" " * 100}
        assert 280_000 < record["cut"] < 310_000
        record = await ada.line('F I=1:1:3000 W $J("",100) W:I=2000 1/0')
        assert (record["output"], record["rest"], record["code"]) == ([], "", "M9") and record["cut"] > 190_000
        assert await ada.line("W 1") == {"output": [], "rest": "1", "code": None}
        assert await ben.told('W $J("",20)') == " " * 20
