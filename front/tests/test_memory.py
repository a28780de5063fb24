# SPDX-License-Identifier: Apache-2.0
"""What waits is bounded in bytes: of those who are not signed on, of those who are, and of replies that nobody takes."""
from __future__ import annotations

import asyncio
import contextlib
import resource
from pathlib import Path

from front import PASSWORD, Front, in_loop
from mserve_front.settings import Limits
from mserve_front.unread import MOST, OF_ACCOUNT, Unread

# Connections of the test for each count; and millions of bytes that a front has at most with all that may be there.
CONNECTIONS, MEMORY = 300, 300
LARGE = 'F I=1:1:200 W $J("",4000)'


def memory(front: Front) -> float:
    """Millions of bytes that the front has."""
    return int(Path(f"/proc/{front.process.pid}/status").read_text().partition("VmRSS:")[2].split()[0]) / 1000


@in_loop()
async def test_connections_that_send_all_that_is_taken_have_bounded_memory(start, count: int) -> None:
    """Each has sent all of a request but its last byte. By what one takes, all that may be there stay in bounds."""
    resource.setrlimit(resource.RLIMIT_NOFILE, (resource.getrlimit(resource.RLIMIT_NOFILE)[1],) * 2)
    front: Front = start(limits={"sign_on": 600})
    async with front.person("cleo") as cleo:
        before, peers = memory(front), []
        for number in range(min(CONNECTIONS * count, Limits().connections - 10)):
            with contextlib.suppress(ConnectionError):
                _, writer = await asyncio.open_connection("127.0.0.1", front.port, ssl=front.context, server_hostname="localhost",
                                                          local_addr=(f"127.0.2.{number // 150 + 1}", 0))
                writer.write(b"POST /signon HTTP/1.1\r\nHost: x\r\nContent-Type: application/json\r\nContent-Length: 8000\r\n\r\n" + b"x" * 7999)
                peers.append(writer)
        await asyncio.sleep(2)
        each = (memory(front) - before) / len(peers)
        print(f"{len(peers)} connections: {before:.0f} MB before, {memory(front):.0f} MB with them, {each * 1000:.0f} KB each")
        # Two passwords are computed at once, of 64 MiB each.
        assert before + Limits().connections * each + 2 * 64 * 1.05 + MOST / 1e6 < MEMORY, (before, each)
        assert await cleo.told("W 1") == "1"
        for writer in peers:
            writer.transport.abort()


@in_loop()
async def test_replies_that_nobody_takes_are_bounded(start) -> None:
    front: Front = start(users={"ada": "CLINIC", "cleo": "LAB"})
    async with front.person("cleo") as cleo:
        before, writers = memory(front), []
        for _ in range(3):
            reader, writer = await asyncio.open_connection("localhost", front.lines_port, ssl=front.context, limit=1000)
            writer.write(f"ada {PASSWORD}\n".encode() + f"{LARGE}\n".encode() * 20)
            writers.append(writer)
        for _ in range(20):
            assert await cleo.told("W 1") == "1"
            await asyncio.sleep(0.1)
        assert memory(front) - before < 60
        for writer in writers:
            writer.transport.abort()


def test_the_account_with_most_loses_the_connection_that_waited_longest() -> None:
    unread, cut = Unread(), []
    with contextlib.ExitStack() as sending:
        for number in range(9):
            sending.enter_context(unread.sent("A", 1_000_000, lambda number=number: cut.append(f"A{number}")))
        sending.enter_context(unread.sent("B", 7_000_000, lambda: cut.append("B")))
        assert cut == ["A0"] and OF_ACCOUNT == 8_000_000
        sending.enter_context(unread.sent("C", 8_000_000, lambda: cut.append("C")))
        sending.enter_context(unread.sent("D", 5_000_000, lambda: cut.append("D")))
        # All have more than may be there: the one that has most loses, and no others.
        assert cut[1:] and set(cut[1:]) <= {"C", *(f"A{n}" for n in range(1, 9))} and "B" not in cut and "D" not in cut
    with unread.sent("B", MOST, lambda: cut.append("late")):
        assert cut[-1] == "late"
