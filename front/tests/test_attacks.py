# SPDX-License-Identifier: Apache-2.0
"""Attacks on other accounts' service, by somebody without a sign-on and by a user who is signed on: a neighbour at another address, who sends twenty
lines a second, is answered each, and none is refused. `STRICT=1` with `--count 30` attacks for half a minute each, and bounds the waits by a quarter of
a second: it needs a machine that has no other work."""
from __future__ import annotations

import asyncio
import contextlib
import json
import os
import sys
import time
from collections import Counter
from collections.abc import Awaitable, Callable
from dataclasses import dataclass, field
from pathlib import Path

import aiohttp
import pytest
from front import PASSWORD, Front, Person, in_loop, until
from test_programs import Program

# Seconds of an attack for each count, and lines a second of the neighbour.
SECONDS, RATE = 4, 20
# The bound in seconds of the 99th percentile of the waits, where the variable STRICT is set; on a machine that has other work, of the middle one: who is
# not served as long as the attack lasts waits for half of that.
STRICT, LOOSE = 0.25, 1.5
# Millions of bytes that the front has at most meanwhile.
MEMORY = 300
# Of the audit log: bytes that a record has at most, and records that are of no line that was served, whatever is sent.
RECORD, OTHERS = 300, 200


# What an attacker says when its attack begins.
BEGUN = b"begun\n"


@dataclass
class Watched:
    """What a neighbour met."""

    waits: list[float] = field(default_factory=list)
    refused: int = 0

    def place(self, part: float) -> float:
        """The wait that this part of all does not exceed."""
        return sorted(self.waits)[int(part * (len(self.waits) - 1))]


async def neighbour(person: Person, seconds: float) -> Watched:
    """Sends lines when they are due, whether or not replies came, and takes the replies."""
    watched, began, count = Watched(), time.monotonic(), int(seconds * RATE)

    async def sends() -> None:
        for number in range(count):
            await asyncio.sleep(max(0.0, began + number / RATE - time.monotonic()))
            await person.send(f"W {number}")
    sending = asyncio.create_task(sends())
    for number in range(count):
        record = await person.next()
        watched.waits.append(time.monotonic() - began - number / RATE)
        watched.refused += record.get("rest") != str(number)
    await sending
    return watched


def memory(front: Front) -> float:
    """Millions of bytes that the front has had at most."""
    found = Path(f"/proc/{front.process.pid}/status").read_text()
    return int(found.partition("VmHWM:")[2].split()[0]) / 1000


def noted(front: Front, since: int) -> tuple[Counter[str], int]:
    """How many records of each event the audit log has from a place on, and the bytes of the longest."""
    lines = (front.folder / "audit.log").read_bytes()[since:].splitlines()
    return Counter(json.loads(line)["event"] for line in lines), max(map(len, lines), default=0)


# It says how many of its lines were served.
Attack = Callable[[Front, float], Awaitable[int]]


async def connections(front: Front, count: int, work: Callable[[asyncio.StreamReader, asyncio.StreamWriter], Awaitable[None]], seconds: float,
                      port: int | None = None) -> None:
    """Has this many connections of other addresses do a work for so long; one that ends begins again."""
    end = time.monotonic() + seconds

    async def one(number: int) -> None:
        while time.monotonic() < end:
            writer = None
            with contextlib.suppress(ConnectionError, OSError, asyncio.IncompleteReadError, TimeoutError):
                reader, writer = await asyncio.open_connection("127.0.0.1", port or front.port, ssl=front.context, server_hostname="localhost",
                                                               local_addr=(f"127.0.1.{number % 4 + 1}", 0))
                async with asyncio.timeout(max(0.1, end - time.monotonic())):
                    await work(reader, writer)
            if writer is not None:
                writer.transport.abort()
            await asyncio.sleep(0.01)
    await asyncio.gather(*(one(number) for number in range(count)))


async def pipelines(front: Front, seconds: float) -> int:
    """Requests sent ahead over many connections, and nothing read."""
    async def work(_: asyncio.StreamReader, writer: asyncio.StreamWriter) -> None:
        while True:
            writer.write(b"GET /health HTTP/1.1\r\nHost: localhost\r\n\r\n" * 300)
            await writer.drain()
            await asyncio.sleep(0)
    await connections(front, 60, work, seconds)
    return 0


async def half_open(front: Front, seconds: float) -> int:
    """Connections of which nothing comes."""
    async def work(reader: asyncio.StreamReader, _: asyncio.StreamWriter) -> None:
        await reader.read()
    await connections(front, 150, work, seconds)
    return 0


async def malformed(front: Front, seconds: float) -> int:
    """What is no request, again and again."""
    async def work(reader: asyncio.StreamReader, writer: asyncio.StreamWriter) -> None:
        writer.write(b"\0\xff" * 2000 + b"\r\n\r\n")
        await reader.read()
    await connections(front, 20, work, seconds)
    return 0


async def wrong_sign_ons(front: Front, seconds: float) -> int:
    """Wrong passwords of many names from many addresses, and of the neighbour's own name."""
    async def work(reader: asyncio.StreamReader, writer: asyncio.StreamWriter) -> None:
        for number in range(10_000):
            body = json.dumps({"user": "cleo" if number % 2 else f"user{number}", "password": "wrong"})
            writer.write(f"POST /signon HTTP/1.1\r\nHost: localhost\r\nContent-Type: application/json\r\nContent-Length: {len(body)}\r\n\r\n{body}".encode())
            head = await reader.readuntil(b"\r\n\r\n")
            await reader.readexactly(int(head.lower().partition(b"content-length:")[2].split()[0]))
    await connections(front, 40, work, seconds)
    return 0


async def pings(front: Front, seconds: float) -> int:
    """A user's pings, as fast as they are taken."""
    async with front.person("ada") as ada:
        end = time.monotonic() + seconds
        transport = ada.socket._writer.transport
        while time.monotonic() < end and not transport.is_closing():
            transport.write(bytes([0x89, 0x80]) + bytes(4) + (bytes([0x89, 0x80]) + bytes(4)) * 500)
            await asyncio.sleep(0.002)
            while transport.get_write_buffer_size() > 1 << 16 and time.monotonic() < end:
                await asyncio.sleep(0.01)
        transport.abort()
    return 0


async def refused_lines(front: Front, seconds: float) -> int:
    """A program's lines that are refused, as fast as they are taken."""
    async with Program(front, f"ada {PASSWORD}") as program:
        end = time.monotonic() + seconds
        with contextlib.suppress(TimeoutError, ConnectionError):
            async with asyncio.timeout(seconds):
                while time.monotonic() < end:
                    program.writer.write(b"\0\n" * 1000)
                    await program.writer.drain()
                    await asyncio.sleep(0)
        program.writer.transport.abort()
    return 0


async def quick_lines(front: Front, seconds: float) -> int:
    """All terminals of an account send lines as fast as their replies come."""
    async def one() -> int:
        served = 0
        async with Program(front, f"ada {PASSWORD}") as program:
            end = time.monotonic() + seconds
            while time.monotonic() < end:
                program.writer.write(b"S A=1\n" * 20)
                for _ in range(20):
                    served += (await program.next())["code"] is None
        return served
    return sum(await asyncio.gather(*(one() for _ in range(3))))


async def attacked(front: Front, attack: Attack, seconds: float) -> asyncio.subprocess.Process:
    """Has a process of its own attack a front for so long: what it computes takes none of the neighbour's time. It has begun when this returns."""
    words = [attack.__name__, str(seconds), str(front.port), str(front.lines_port), *map(str, front.certificate)]
    # it finds the modules of the tests where this process does
    environment = {**os.environ, "PYTHONPATH": os.pathsep.join(sys.path)}
    process = await asyncio.create_subprocess_exec("nice", "-n", "10", sys.executable, __file__, *words, stdout=asyncio.subprocess.PIPE, env=environment)
    assert await process.stdout.readline() == BEGUN
    return process


def target(port: str, lines_port: str, certificate: str, key: str) -> Front:
    """A front that another process has started."""
    front = Front.__new__(Front)
    front.port, front.lines_port, front.certificate = int(port), int(lines_port), (Path(certificate), Path(key))
    return front


# Who waits until an attacker has begun reads nothing meanwhile, and answers no ping.
PATIENT = {"heartbeat": 600}
ATTACKS = [pipelines, half_open, malformed, wrong_sign_ons, pings, *(pytest.param(attack, marks=pytest.mark.long) for attack in (refused_lines, quick_lines))]


@pytest.mark.alone
@pytest.mark.parametrize("attack", ATTACKS, ids=lambda attack: attack.__name__)
@in_loop()
async def test_a_neighbour_is_served_during_an_attack(start, attack: Attack, count: int) -> None:
    front: Front = start(limits=PATIENT)
    seconds = SECONDS * (count if count == 1 else count / 4)
    async with front.person("cleo") as cleo:
        before = (front.folder / "audit.log").stat().st_size
        attacker = await attacked(front, attack, seconds)
        watched = await neighbour(cleo, seconds)
        served = int((await attacker.communicate())[0])
        events, longest = noted(front, before)
        told = f"99 % within {watched.place(0.99) * 1000:.0f} ms, longest {max(watched.waits) * 1000:.0f} ms, {memory(front):.0f} MB, {dict(events)}"
        print(f"{attack.__name__}: {told}")
        assert watched.refused == 0 and (watched.place(0.99) < STRICT if os.environ.get("STRICT") else watched.place(0.5) < LOOSE), told
        assert memory(front) < MEMORY, told
        # Lines that were served are noted, each by a short record; nothing else grows by what is sent, however fast the machine is.
        assert events.pop("line") == served + len(watched.waits) and events.total() < OTHERS and longest < RECORD, (told, served)
        assert not cleo.events and len(front.told()) < 5000


@pytest.mark.long
@in_loop()
async def test_wrong_tries_keep_nobody_out(start) -> None:
    """Of one's own name from elsewhere, and of other names."""
    front: Front = start(limits=PATIENT)
    async with front.person("cleo") as cleo:
        attack = await attacked(front, wrong_sign_ons, 6)
        await until(lambda: any(record["event"] == "refused" for record in front.audit()), "a wrong try")
        began = time.monotonic()
        for _ in range(3):
            async with front.person("cleo") as again:
                assert await again.told("W 1") == "1"
        assert time.monotonic() - began < 60 and await cleo.told("W 2") == "2"
        assert await attack.wait() == 0


@in_loop()
async def test_a_flood_of_right_passwords_takes_no_more_than_its_turns(start) -> None:
    front: Front = start(limits=PATIENT)
    people = [front.person("ada") for _ in range(60)]
    tries = [asyncio.create_task(person.sign_on()) for person in people]
    await asyncio.sleep(0.05)
    async with front.person("cleo") as cleo:
        assert await cleo.told("W 1") == "1"
    ends = [end for end in await asyncio.gather(*tries, return_exceptions=True) if not isinstance(end, aiohttp.ClientError)]
    assert {status for status, _ in ends} <= {200, 429, 503}
    for person in people:
        await person.http.close()


if __name__ == "__main__":
    sys.stdout.buffer.write(BEGUN)
    sys.stdout.flush()
    print(asyncio.run(globals()[sys.argv[1]](target(*sys.argv[3:]), float(sys.argv[2]))))
