# SPDX-License-Identifier: Apache-2.0
"""Fair turns, one line on its way for each terminal, and a server that ends in the middle."""
from __future__ import annotations

import asyncio
import contextlib
import os
import random
import signal
import subprocess
import time
from itertools import pairwise
from types import SimpleNamespace

import pytest
from front import SETTINGS, Front, busy, in_loop, until
from mserve_client import BadReply, Reply
from mserve_front import turns as turns_module
from mserve_front.lines import Line
from mserve_front.replies import Answer, ReplyReader
from mserve_front.turns import WINDOW, FairConnection, Lost, Unsent
from running import connected, free_port, serve_words

# A line that takes the server some time: all of 1,000,000 steps.
LONG = "F  S Z=1"


class Peer(asyncio.Transport):
    """The other end of a connection: it keeps what is written, and replies when a test says so."""

    def __init__(self, turns: FairConnection) -> None:
        super().__init__()
        self.turns = turns
        self.lines: list[bytes] = []
        self.open = True
        turns.connection_made(self)

    def write(self, data: bytes) -> None:
        self.lines += data.splitlines()

    def abort(self) -> None:
        self.open = False
        self.turns.connection_lost(None)

    def reply(self, text: bytes = b"") -> bytes:
        """Answers the first line, and gives it."""
        line = self.lines.pop(0)
        terminal = line.split(b" ")[0]
        self.turns.data_received(b"%s-%s\n%s.\n" % (terminal, text, terminal) if text else terminal + b".\n")
        return line


def turns() -> FairConnection:
    return FairConnection(1_000_000, lambda waited, taken: None)


@in_loop()
async def test_a_terminal_has_one_line_on_its_way_and_comes_last_again() -> None:
    made = turns()
    peer = Peer(made)
    for number in range(5):
        made.ask(1, Line(b"%d" % number))
    for terminal in (2, 3):
        for number in range(2):
            made.ask(terminal, Line(b"%d" % number))
    assert peer.lines == [b"1 0", b"2 0", b"3 0"]
    sent = [peer.reply() for _ in range(9)]
    assert sent == [b"1 0", b"2 0", b"3 0", b"1 1", b"2 1", b"3 1", b"1 2", b"1 3", b"1 4"]
    assert not peer.lines and made.waiting == 0


@in_loop()
async def test_drawn_orders_are_fair() -> None:
    """Whichever asks, between two lines of a terminal that waits there is at most one of each other, and each gets its own replies in order."""
    rng = random.Random(7)
    for _ in range(50):
        made = turns()
        peer, asked, sent = Peer(made), {}, []
        for number in range(300):
            terminal = rng.choice([1, 1, 1, 1, 2, 3, rng.randint(4, 200)])
            asked.setdefault(terminal, []).append(made.ask(terminal, Line(b"%d" % number)))
            assert len({line.split()[0] for line in peer.lines}) == len(peer.lines) <= WINDOW
            if rng.random() < 0.3 and peer.lines:
                sent.append(peer.reply(peer.lines[0].split()[1]))
        while peer.lines:
            sent.append(peer.reply(peer.lines[0].split()[1]))
        for terminal, replies in asked.items():
            own = [line.split()[1] for line in sent if line.split()[0] == b"%d" % terminal]
            assert [reply.result().reply.rest.encode() for reply in replies] == own == sorted(own, key=int)


@in_loop()
async def test_lines_on_their_way_are_lost_and_others_unsent(monkeypatch: pytest.MonkeyPatch) -> None:
    # Nothing is sent after a line that takes long. On a busy machine this test itself may take as long, so no time passes in it.
    monkeypatch.setattr(turns_module, "time", SimpleNamespace(monotonic=lambda: 1000.0))
    made = turns()
    peer = Peer(made)
    lines = [made.ask(terminal, Line(b"x")) for terminal in range(1, WINDOW + 11)] + [made.ask(1, Line(b"y"))]
    assert len(peer.lines) == WINDOW
    peer.reply()
    made.abort()
    ends = [await ended(line) for line in lines]
    assert ends == [Answer] + [Lost] * WINDOW + [Unsent] * 10
    assert (await ended(made.ask(5, Line(b"z")))) is Unsent


async def ended(line: asyncio.Future[Answer]) -> type:
    try:
        return type(await line)
    except (Lost, Unsent) as error:
        return type(error)


@in_loop()
async def test_lines_are_taken_back_unless_they_are_on_their_way() -> None:
    made = turns()
    peer = Peer(made)
    first, second, third = (made.ask(1, Line(b"%d" % number)) for number in range(3))
    made.forget(1)
    last = made.ask(1, Line(b"H"))
    assert [peer.reply(), peer.reply()] == [b"1 0", b"1 H"]
    assert [await ended(line) for line in (first, second, third, last)] == [Answer, Unsent, Unsent, Answer]
    made.forget(1)
    made.forget(7)


@pytest.mark.parametrize("data", [b"2.\n", b"?!ZWIRE\n", b"1?\n", b"\n", b"1-x\n2-y\n", b"SSH-2.0\n", b"1.\n1.\n", b"01.\n"])
@in_loop()
async def test_what_is_no_reply_of_whose_turn_it_is_ends_the_connection(data: bytes) -> None:
    made = turns()
    peer = Peer(made)
    asked = made.ask(1, Line(b"x"))
    made.data_received(data)
    assert not peer.open and made.fault and made.ended.done()
    assert await ended(asked) in (Lost, Answer)


def test_replies_however_their_bytes_are_cut() -> None:
    data = b"7:a\\0Ab\n7-c\\5C\n7.\n12!M6\n9999:" + b"x" * 50 + b"\n9999!ZSTEPS\n3.\n"
    wanted = [Reply(("a\nb",), "c\\"), Reply(code="M6"), Reply(("x" * 50,), "", "ZSTEPS"), Reply()]
    for size in range(1, len(data)):
        due, found = [7, 12, 9999, 3], []
        reader = ReplyReader(lambda: due[0] if due else None, 10_000)

        def take(answer: Answer) -> None:
            due.pop(0)
            found.append(answer.reply)
        for start in range(0, len(data), size):
            reader.feed(data[start:start + size], take)
        assert found == wanted and not due
        with pytest.raises(BadReply):
            reader.feed(b"3.\n", take)


@in_loop()
async def test_a_flood_of_one_user_delays_another_by_a_line_at_most(start) -> None:
    """One user sends long lines without a pause; another waits for one of these each time, or for two if the replies to both come at once. They are counted,
    since a busy machine may keep anybody waiting."""
    front = start()
    async with front.person("cleo") as cleo, front.person("ada") as ada:
        assert await cleo.told(f"S ^RESULT=0 {LONG}") == "ZSTEPS"
        # All that both send is on its way before the first line is run.
        async with busy(front):
            for _ in range(1000):
                await cleo.send(f"S ^RESULT=^RESULT+1 {LONG}")
            for _ in range(10):
                await ada.send('W ^|"LAB"|RESULT')
        counts = [int((await ada.next())["rest"]) for _ in range(10)]
        assert max(later - earlier for earlier, later in pairwise([0, *counts])) <= 2 and counts[-1] > 0, counts
        front.kill_child()


@in_loop()
async def test_child_that_is_killed_in_the_middle(start, tmp_path) -> None:
    """What was sent and not answered is unknown; nothing is sent twice; what was answered stays; all hear so."""
    front = start(store=str(tmp_path / "store.db"))
    async with front.person("ada") as ada, front.person("cleo") as cleo:
        assert await ada.told("S ^COUNT=0,A=1") == ""
        child = front.child
        for _ in range(50):
            await ada.send(f"S ^COUNT=^COUNT+1 {LONG}")
        while (await cleo.told("W 1")) != "1" or not (await ada.next()).get("code"):
            pass
        os.kill(child, signal.SIGKILL)
        records = [await ada.next() for _ in range(49)]
        answered = 1 + sum("output" in record for record in records)
        unknown = [record for record in records if record.get("unknown")]
        assert len(unknown) == 1 and unknown[0]["why"]
        # What was refused was not sent; what the user sent after the restart is run.
        refused = [record for record in records if "refused" in record]
        assert {record["refused"] for record in refused} <= {"restarted"} and refused
        while not ada.events:
            await ada.event()
        assert ada.events == [{"event": "restarted", "volatile": False, "generation": 2, "session": 2}]
        assert front.child != child
        assert await ada.told("W A") == "M6"
        assert int(await ada.told("W ^COUNT")) in (answered, answered + 1)
        assert await cleo.told("W 2") == "2" and cleo.events == ada.events
        assert (await metrics(front))["mfront_child_restarts_total"] == "1"


async def metrics(front: Front) -> dict[str, str]:
    """The figures of a front."""
    async with front.person().http as http, http.get("/metrics") as response:
        return dict(line.rsplit(" ", 1) for line in (await response.text()).splitlines() if not line.startswith("#"))


@in_loop()
async def test_child_that_is_killed_again_and_again(start, tmp_path) -> None:
    """Each line that was answered ran once, each unknown one at most once, and each refused one never."""
    front = start(store=str(tmp_path / "store.db"))
    async with front.person("ada") as ada:
        least = most = sent = 0
        for _ in range(5):
            for _ in range(40):
                await ada.send(f"S ^N({sent})=$G(^N({sent}))+1")
                sent += 1
            front.kill_child()
            for _ in range(40):
                record = await ada.next()
                least += "output" in record
                most += "output" in record or "unknown" in record
            while "restarted" not in [event["event"] for event in ada.events]:
                await ada.event()
            ada.events.clear()
        assert await ada.told('S S="" F  S S=$O(^N(S)) Q:S=""  W:^N(S)\'=1 S') == ""
        assert await ada.told('S S="",N=0 F  S S=$O(^N(S)) Q:S=""  S N=N+1') == ""
        assert least <= int(await ada.told("W N")) <= most < sent


@in_loop()
async def test_a_server_that_is_joined(start) -> None:
    """The front joins a server, ends what others left there, and joins it again if the connection ends."""
    port = free_port()
    server = subprocess.Popen(serve_words(port, 1000, settings=str(SETTINGS)), stdin=subprocess.DEVNULL)
    try:
        with connected(port) as before:
            before.sendall(b"1 S A=1 L +^X\n")
            assert before.recv(100) == b"1.\n"
        front = start(server={"join": port, "store": None, "program": None})
        async with front.person("ada") as ada:
            assert await ada.told("W $D(A)") == "0"
            assert await ada.told("L +^X:0 W $T") == "1"
        assert front.stop() == 0
        assert server.poll() is None
        with connected(port) as later:
            later.sendall(b"1 W $D(A)\n")
            assert later.recv(100) == b"1-0\n1.\n"
    finally:
        server.kill()
        server.wait()


class Between:
    """A peer between the front and a server, which can break the connection."""

    def __init__(self, port: int) -> None:
        self._port = port
        self._writers: list[asyncio.StreamWriter] = []

    async def listen(self) -> int:
        """Its port."""
        self._listener = await asyncio.start_server(self._joined, "127.0.0.1", 0)
        return self._listener.sockets[0].getsockname()[1]

    async def _joined(self, reader: asyncio.StreamReader, writer: asyncio.StreamWriter) -> None:
        there, back = await asyncio.open_connection("127.0.0.1", self._port)
        self._writers = [writer, back]
        await asyncio.gather(self._carry(reader, back), self._carry(there, writer))

    async def _carry(self, reader: asyncio.StreamReader, writer: asyncio.StreamWriter) -> None:
        with contextlib.suppress(ConnectionError):
            while data := await reader.read(1 << 16):
                writer.write(data)
        writer.close()

    def cut(self) -> None:
        """Breaks the connection; the server stays."""
        for writer in self._writers:
            writer.transport.abort()


@in_loop()
async def test_a_connection_that_breaks_while_the_server_stays(start) -> None:
    """What the server has in memory stays; variables and locks are gone, and all hear so."""
    port = free_port()
    server = subprocess.Popen(serve_words(port, 1000, settings=str(SETTINGS)), stdin=subprocess.DEVNULL)
    try:
        connected(port).close()
        between = Between(port)
        joined = await between.listen()
        front = await asyncio.to_thread(start, server={"join": joined, "store": None, "program": None})
        async with front.person("ada") as ada:
            assert await ada.told("S ^KEPT=1,A=1 L +^X") == ""
            between.cut()
            assert (await ada.event())["event"] == "restarted"
            assert await ada.told("W ^KEPT,$D(A)") == "10"
        front.stop()
    finally:
        server.kill()
        server.wait()


@in_loop()
async def test_the_end_of_the_front_ends_the_child(start) -> None:
    front = start()
    child = front.child
    front.process.kill()
    front.process.wait()
    await until(lambda: not os.path.exists(f"/proc/{child}"), "the end of the server")


@in_loop()
async def test_stop_tells_all_users(start, tmp_path) -> None:
    front = start(store=str(tmp_path / "store.db"))
    async with front.person("ada") as ada, front.person("cleo") as cleo:
        assert await ada.told("S ^X=1") == ""
        began = time.monotonic()
        front.process.terminate()
        for person in (ada, cleo):
            assert await person.event() == {"event": "signed-off", "why": "stopping"}
        assert front.stop() == 0 and time.monotonic() - began < 30
    again = start(store=str(tmp_path / "store.db"))
    async with again.person("ben") as ben:
        assert await ben.told("W ^X") == "1"


@pytest.mark.parametrize("number", [signal.SIGTERM, signal.SIGINT, signal.SIGHUP])
def test_signals_up_to_the_end_leave_the_status(start, number) -> None:
    front = start()
    front.process.terminate()
    began = time.monotonic()
    while front.process.poll() is None and time.monotonic() - began < 60:
        front.process.send_signal(number)
        time.sleep(0.0005)
    assert front.process.poll() == 0
