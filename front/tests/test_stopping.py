# SPDX-License-Identifier: Apache-2.0
"""A stop in order loses nothing: lines on their way get their replies, or are unknown, before users hear of it; and it is known where the store stands."""
from __future__ import annotations

import asyncio
import contextlib
import json
import signal
import time
from types import SimpleNamespace

import pytest
from front import Front, busy, in_loop, lines_wait, mjournal, until
from mserve_front.keeper import Keeper
from mserve_front.server import Server
from mserve_front.sessions import STOPPING
from test_programs import Program
from test_turns import turns


async def cancelled(task: asyncio.Task[None]) -> None:
    """Cancels a task once it waits."""
    await asyncio.sleep(0)
    task.cancel()
    with pytest.raises(asyncio.CancelledError):
        await task


@in_loop()
async def test_a_task_that_is_cancelled_leaves_what_others_wait_for() -> None:
    """A stop cancels what keeps the server up, and what waits for the loss of the journal: the connection has not ended by that, nor is the journal lost."""
    made, taken = turns(), asyncio.get_running_loop().create_future()
    await cancelled(asyncio.create_task(Server.run(SimpleNamespace(_turns=made))))
    assert not made.ended.done()
    await cancelled(asyncio.create_task(Keeper.lost(SimpleNamespace(journal=SimpleNamespace(taken=taken)))))
    assert not taken.done()


async def is_closed(front: Front) -> bool:
    """Whether a front takes no connection any more."""
    try:
        _, writer = await asyncio.open_connection("127.0.0.1", front.port)
    except OSError:
        return True
    writer.close()
    return False


@pytest.mark.parametrize(("number", "why"), [(signal.SIGTERM, "stopping"), (signal.SIGUSR1, "moved")])
@in_loop()
async def test_a_line_on_its_way_has_its_reply_before_the_user_hears_of_a_stop(start, number: signal.Signals, why: str) -> None:
    """By the page and at the line port. A line that comes meanwhile is refused. The journal has all replies, and the store is known to come after them.
    A stop waits for a reply for some seconds alone, so it is tried again where this test itself was held up for as long."""
    while not await is_answered_at_a_stop(start(store="store", journal={"folder": "journal"}), number, why):
        pass


async def is_answered_at_a_stop(front: Front, number: signal.Signals, why: str) -> bool:
    """Whether lines on their way were there for less time than a stop waits; then they have their replies."""
    async with front.person() as ada, Program(front, "cleo correct horse battery") as cleo:
        assert await ada.told("S ^X=1") == ""
        async with busy(front):
            await ada.send('W "reply"')
            cleo.writer.write(b'W "other"\n')
            await lines_wait(ada, 2)
            began = time.monotonic()
            front.process.send_signal(number)
            await until(lambda: is_closed(front), "a front that is being stopped")
            await ada.send("S ^X=2")
        if time.monotonic() - began > STOPPING - 1:
            return False
        assert front.process.poll() is None
        assert (await ada.next())["rest"] == "reply" and not ada.events
        assert (await cleo.next())["rest"] == "other"
        assert (await ada.next())["refused"] == "stopping" and not ada.events
        assert await ada.event() == await cleo.next() == {"event": "signed-off", "why": why}
        assert await asyncio.to_thread(front.process.wait, 60) == 0
    status, text, told = mjournal(front.folder / "journal")("verify")
    standing = json.loads((front.folder / "store.at").read_text())
    assert status == 0 and "no reply" not in text + told
    # Three lines, and the HALT that ended the session of each of their terminals.
    assert standing["number"] is not None and standing["number"] >= 5
    return True


@pytest.mark.long
@in_loop()
async def test_a_line_that_the_server_does_not_answer_is_unknown_before_the_user_hears_of_a_stop(start) -> None:
    front: Front = start()
    async with front.person() as ada:
        # A server that is gone by the end cannot go on.
        with contextlib.suppress(ProcessLookupError, IndexError):
            async with busy(front):
                await ada.send("S ^X=1")
                await lines_wait(ada, 1)
                began = time.monotonic()
                front.process.terminate()
                assert (await ada.next()).get("unknown") and not ada.events
                assert await ada.event() == {"event": "signed-off", "why": "stopping"}
                assert STOPPING - 0.5 < time.monotonic() - began < STOPPING + 20
        assert await asyncio.to_thread(front.process.wait, 60) == 0
