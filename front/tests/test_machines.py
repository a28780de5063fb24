# SPDX-License-Identifier: Apache-2.0
"""Many machines: islands on three of them, users who are handed on, an island that moves under load, and a machine that is gone and comes back."""
from __future__ import annotations

import argparse
import asyncio
import json
import os
import re
import shutil
import signal
import ssl
from collections.abc import Callable, Iterable, Iterator
from pathlib import Path
from typing import Any

import aiohttp
import pytest
from database import Cluster
from front import FRONT, PASSWORD, Record, at_rest, in_loop, toml, tool, until
from machines import HOSTS, Gate, Program, certificates, islands, ports
from mserve_front.gate_command import settings_of
from mserve_front.placement import BadPlacement, Island, Placement
from mserve_front.settings import BadSettings
from measured import fronts_of, started_by
from running import PROGRAM

# Islands, unless more are asked for (--count), and accounts of each: `--count 25` makes 300 accounts in 100 islands.
ISLANDS, ACCOUNTS = 4, 3


class Pair(Cluster):
    """A database for the machines, with a standby that has each row before it is acknowledged. `place` names both."""

    def __init__(self) -> None:
        more = "-c max_connections=400"
        super().__init__(more=more)
        self.replica = Cluster(self, more=more)
        self.both = self.waits_for(self.replica)

    def remove(self) -> None:
        self.replica.remove()
        super().remove()


@pytest.fixture(scope="module")
def cluster() -> Iterator[Pair]:
    """The database of this file's tests."""
    made = Pair()
    yield made
    made.remove()


@pytest.fixture(scope="module")
def authority(tmp_path_factory: pytest.TempPathFactory) -> Path:
    """The certificates of all machines."""
    folder = tmp_path_factory.mktemp("authority")
    certificates(folder)
    return folder


@pytest.fixture
def host(cluster: Pair, authority: Path, tmp_path: Path) -> Iterator[Callable[..., Gate]]:
    """Starts gates, which share ports and users, and ends them after the test."""
    for table in ("mfront_island", "mfront_machine", "mfront_journal"):
        cluster.does(f"DROP TABLE IF EXISTS {table}")
    shared, gates = ports(), []

    def started(name: str, **more: dict[str, object]) -> Gate:
        gates.append(Gate(tmp_path, name, cluster.both, shared, authority, **more))
        return gates[-1]
    yield started
    for gate in gates:
        gate.stop()


async def settled(cluster: Pair, island: str, machine: str) -> None:
    """Waits until an island is at a machine."""
    while cluster.does(f"SELECT machine, state FROM mfront_island WHERE name = '{island}'") != [(machine, "here")]:
        await asyncio.sleep(0.1)


class Workers:
    """Users of all accounts, each by a gate that is not theirs as long as it is there. `answered` has what each counted up to, and `ended` why sessions
    ended."""

    def __init__(self, gates: list[Gate], count: int) -> None:
        self.answered: dict[str, int] = {}
        self.ended: dict[str, list[str]] = {}
        self._gates = gates
        self._stop = asyncio.Event()
        self._tasks = [asyncio.create_task(self._works(number, place)) for number in range(count) for place in range(ACCOUNTS)]

    async def _works(self, number: int, place: int) -> None:
        user, first = f"user{number}.{place}", (number + 1 + place) % 3
        program = Program(self._gates[first], user, self._gates[first + 1:] + self._gates[:first])
        await program.signed_on()
        assert program.record["account"] == f"C{number}A{place}"
        self.answered[user], self.ended[user] = 0, []
        while not self._stop.is_set():
            try:
                self._counts(user, await program.line("S ^N=$G(^N)+1 W ^N"))
            except OSError as error:
                self.ended[user].append(str(error))
                program.close()
                await program.signed_on()
            await asyncio.sleep(0.02)
        program.close()

    def _counts(self, user: str, record: Record) -> None:
        """What is answered counts on from the last answer, or from one more line, whose answer was lost on the way."""
        if "rest" in record:
            assert int(record["rest"]) in (self.answered[user] + 1, self.answered[user] + 2), (user, record, self.answered[user])
            self.answered[user] = int(record["rest"])

    async def worked(self, users: Iterable[str] = ()) -> None:
        """Waits until these users, or all, have three more answers."""
        while len(self.answered) < len(self._tasks):
            await self._goes_on()
        before = {user: self.answered[user] for user in users or self.answered}
        while any(self.answered[user] < count + 3 for user, count in before.items()):
            await self._goes_on()

    async def _goes_on(self) -> None:
        await asyncio.sleep(0.05)
        for task in self._tasks:
            if task.done():
                task.result()

    async def end(self) -> None:
        """Has all of them end."""
        self._stop.set()
        await asyncio.gather(*self._tasks)


@pytest.mark.long
@in_loop(900)
async def test_islands_on_three_machines(host: Callable[..., Gate], cluster: Pair, tmp_path: Path, count: int) -> None:
    """Users of all accounts work at once. An island moves meanwhile, and one machine's processes are killed and started again, then stopped in order and
    started again: no line is lost or runs twice, users of the other machines work on, and the database's standby has all."""
    made, _ = islands(tmp_path / "islands", ISLANDS * count, ACCOUNTS)
    gates, placement = [host(name) for name in HOSTS], Placement(cluster.both)
    for number, (name, settings) in enumerate(made.items()):
        placement.put(name, settings.read_text(), list(HOSTS)[number % 3])
    placement.close()
    workers = Workers(gates, len(made))
    await workers.worked()
    assert (await asyncio.to_thread(gates[2].does, "move", "island0", "three"))[0] == 0
    await settled(cluster, "island0", "three")
    await workers.worked()
    moved = [f"user0.{place}" for place in range(ACCOUNTS)]
    assert [workers.ended[user] for user in moved] == [["moved"]] * ACCOUNTS
    elsewhere = [user for user in workers.answered if int(user[4:].partition(".")[0]) % 3 != 1]
    for ending in (gates[1].kill, gates[1].stop):
        await asyncio.to_thread(ending)
        await workers.worked(elsewhere)
        await asyncio.to_thread(gates[1].again)
        await workers.worked()
    await workers.end()
    for user, wanted in workers.answered.items():
        program = Program(gates[0], user)
        await program.signed_on()
        assert await program.told("W ^N") in (str(wanted), str(wanted + 1)), user
        program.close()
    shown = gates[1].does("list")[1].splitlines()
    assert "machine one 127.0.0.2:" in shown[0] and "island island0 three here C0A0 C0A1 C0A2" in shown
    assert "island island0 goes to three" in gates[0].told() and "island island0 is here" in gates[2].told()
    for name in ("island0", "island2"):
        await at_rest(gates[2].folder / "islands" / name)
    while cluster.does(ENDS) != cluster.replica.does(ENDS):
        await asyncio.sleep(0.05)
    for name in ("island0", "island2"):
        run = tool("mjournal", "--database", cluster.replica.place, "--name", name)
        status, _, told = await asyncio.to_thread(run, "replay", "--program", PROGRAM, "--store", "memory")
        assert (status, told) == (0, "")


@pytest.mark.long
@pytest.mark.parametrize("what", ["front", "server"])
@in_loop(600)
async def test_an_island_that_had_trouble_is_taken_over(host: Callable[..., Gate], cluster: Pair, tmp_path: Path, what: str, count: int) -> None:
    """Its front is stopped in order, or its server killed, while its users work; then its machine is gone, and another one takes it, each time."""
    made, _ = islands(tmp_path / "islands", 1, ACCOUNTS)
    gates, placement = {name: host(name) for name in HOSTS}, Placement(cluster.both)
    placement.put("island0", made["island0"].read_text(), "one")
    placement.close()
    workers = Workers(list(gates.values()), 1)
    await workers.worked()
    for number in range(2 * count):
        here, there = ("one", "two") if number % 2 == 0 else ("two", "one")
        [front] = fronts_of(gates[here].process.pid)
        if what == "front":
            os.kill(front, signal.SIGTERM)
        else:
            os.kill(started_by([front])[0], signal.SIGKILL)
        await workers.worked()
        await asyncio.to_thread(gates[here].kill)
        assert (await asyncio.to_thread(gates["three"].does, "move", "island0", there, "--gone"))[0] == 0
        await settled(cluster, "island0", there)
        await workers.worked()
        await asyncio.to_thread(gates[here].again)
    await workers.end()
    run = tool("mjournal", "--database", cluster.both, "--name", "island0")
    status, _, told = await asyncio.to_thread(run, "replay", "--program", PROGRAM, "--store", "memory")
    assert status == 0, told


@pytest.mark.long
@pytest.mark.parametrize("what", ["snapshot", "rows"])
@in_loop()
async def test_an_island_whose_journal_was_expired_moves(host: Callable[..., Gate], cluster: Pair, tmp_path: Path, what: str) -> None:
    """To a machine that has a store of which nobody knows where it stands: it says what it needs while users work on, and goes on by itself once a snapshot is
    there, or the leader has written all that its store holds."""
    islands(tmp_path / "islands", 1)
    first, second = host("one"), host("two")
    assert first.does("place", "island0", tmp_path / "islands" / "island0.toml", "two")[0] == 0
    user = Program(first, "user0.0")
    await user.signed_on()
    assert await user.told("S ^N=1 W ^N") == "1"
    await asyncio.to_thread(second.kill)
    assert first.does("move", "island0", "one", "--gone")[0] == 0
    await settled(cluster, "island0", "one")
    await user.signed_on()
    assert await user.told("S ^N=^N+1 W ^N") == "2"
    home = first.folder / "islands" / "island0"
    snapshot = await asyncio.to_thread(expired, home)
    assert await user.told("S ^N=^N+1 W ^N") == "3"
    second.again()
    assert first.does("move", "island0", "two")[0] == 0
    await until(lambda: f"island island0 does not come yet: the journal begins with line {int(snapshot.name) + 1}" in second.told(), "what it needs")
    assert (second.folder / "islands" / "island0" / "store.old").exists()
    assert await user.told("S ^N=^N+1 W ^N") == "4" and "island island0 one moving two" in first.does("list")[1]
    if what == "snapshot":
        await asyncio.to_thread(shutil.copytree, snapshot.parent, second.folder / "islands" / "island0" / "backup")
    else:
        status, _, told = await asyncio.to_thread(tool("mbackup"), "take", snapshot.parent, "--end-sessions", "--all", "--config", home / "front.toml")
        assert status == 0, told
    await settled(cluster, "island0", "two")
    await user.signed_on()
    assert await user.told("S ^N=^N+1 W ^N") == "5"
    user.close()
    run = tool("mjournal", "--database", cluster.both, "--name", "island0")
    status, _, told = await asyncio.to_thread(run, "replay", "--program", PROGRAM, "--store", "memory", "--from", snapshot)
    assert status == 0, told


def expired(home: Path) -> Path:
    """Takes an exact snapshot of an island, and removes what its journal has before that."""
    config, folder = ("--config", home / "front.toml"), home / "backup"
    folder.mkdir()
    status, output, told = tool("mbackup")("take", folder, "--end-sessions", *config)
    assert status == 0, told
    snapshot = Path(output.strip())
    status, _, told = tool("mjournal", *map(str, config))("expire", snapshot)
    assert status == 0, told
    return snapshot


# Where each journal ends.
ENDS = "SELECT name, max(sequence) FROM mfront_journal GROUP BY name ORDER BY name"


@in_loop()
async def test_a_database_that_is_away(host: Callable[..., Gate], cluster: Pair, tmp_path: Path) -> None:
    """The gate and the fronts stay, lines are refused, and a machine that is started meanwhile says so and waits; once it is there all goes on."""
    islands(tmp_path / "islands", 1)
    gate = host("one")
    assert gate.does("place", "island0", tmp_path / "islands" / "island0.toml", "one")[0] == 0
    user = Program(gate, "user0.0")
    await user.signed_on()
    assert await user.told("S ^N=1 W ^N") == "1"
    await asyncio.to_thread(cluster.stop)
    try:
        assert (await user.line("S ^N=2"))["refused"] == "journal"
        while "the islands stay as they are: database: " not in gate.told():
            await asyncio.sleep(0.1)
        status, _, told = await asyncio.to_thread(gate.does, "list")
        assert status == 3 and told.startswith("mgate: database: ") and len(told.splitlines()) == 1
        second = asyncio.create_task(asyncio.to_thread(host, "two"))
        log = gate.folder.parent / "two" / "told"
        await until(lambda: log.exists() and "it does not serve yet: database: " in log.read_text(), "a machine that waits for the database")
    finally:
        await asyncio.to_thread(cluster.start)
    assert (await second).stop() == 0
    while "refused" in (record := await user.line("S ^N=$G(^N)+1 W ^N")):
        await asyncio.sleep(0.1)
    assert record["rest"] == "2"
    while "the placement can be read again" not in gate.told():
        await asyncio.sleep(0.1)
    user.close()


@in_loop()
async def test_what_a_gate_carries(host: Callable[..., Gate], tmp_path: Path) -> None:
    """The page's own protocol by a gate that is not the island's, wrong passwords, and peers without a certificate."""
    made, _ = islands(tmp_path / "islands", 1)
    first, second = host("one"), host("two")
    assert first.does("place", "island0", made["island0"], "one")[0] == 0
    user = Program(second, "user0.0")
    await user.signed_on()
    await uses_the_page(second)
    assert "wrong" in (await Program(second, "nobody").sign_on())["error"]
    # The front knows where users come from: 127.0.0.1 is this test, and no gate.
    log = [json.loads(line) for line in (first.folder / "islands" / "island0" / "audit.log").read_text().splitlines()]
    assert {record["from"] for record in log if "from" in record} == {"127.0.0.1"}
    status, token, _ = tool("mfront")("token", "add", "user0.0", "--config", token_config(tmp_path))
    assert status == 0
    await sends_by_token(second, token.strip())
    user.close()
    await refuses(second)
    with pytest.raises((ssl.SSLError, ConnectionError)):
        reader, writer = await asyncio.open_connection(first.host, first.ports["peers"], ssl=first.context, server_hostname="one")
        writer.write(b'{"island": "island0", "kind": "lines"}\n')
        if not await reader.readline():
            raise ConnectionError


def client(gate: Gate, **more: Any) -> aiohttp.ClientSession:
    """One who speaks HTTP to a gate."""
    base = f"https://{gate.host}:{gate.ports['http']}"
    return aiohttp.ClientSession(base, connector=aiohttp.TCPConnector(ssl=gate.context), **more)


async def uses_the_page(gate: Gate) -> None:
    """Signs on as the page does, by a wrong password and a right one, sends lines, and signs off."""
    async with client(gate, cookie_jar=aiohttp.CookieJar(unsafe=True)) as http:
        async with http.get("/") as response:
            assert response.status == 200 and "<!doctype html>" in (await response.text()).lower()
        async with http.get("/session") as response:
            assert response.status == 401
        async with http.post("/signon", json={"user": "user0.1", "password": "wrong password"}) as response:
            assert response.status == 401 and await response.json() == {"error": "wrong name or password"}
        async with http.post("/signon", json={"user": "user0.1", "password": PASSWORD}) as response:
            assert response.status == 200 and (await response.json())["account"] == "C0A1"
        [cookie] = http.cookie_jar
        assert cookie.key == "__Host-mfront" and cookie.value.startswith("island0.") and cookie["secure"] and cookie["httponly"]
        async with http.ws_connect("/ws", origin=f"https://{gate.host}:{gate.ports['http']}") as socket:
            for number in range(5):
                await socket.send_str(json.dumps({"id": number, "line": f"S ^Y({number})=1 W {number}"}))
                assert (await socket.receive_json())["rest"] == str(number)
        async with http.get("/session") as response:
            assert response.status == 200
        async with http.post("/signoff") as response:
            assert response.status == 204
        async with http.get("/session") as response:
            assert response.status == 401


async def sends_by_token(gate: Gate, token: str) -> None:
    """Sends a line by a token until the front knows it."""
    async with client(gate, headers={"Authorization": f"Bearer {token}"}) as http:
        while True:
            async with http.post("/line", json={"line": "W 1+2"}) as response:
                if response.status == 200:
                    assert (await response.json())["rest"] == "3"
                    return
            await asyncio.sleep(0.2)


async def refuses(gate: Gate) -> None:
    """What is no request that a gate carries is answered by a status."""
    for data, answer in ((b"GET / HTTP/1.0\r\n\r\n", b"400"), (b"PUT / HTTP/1.1\r\nHost: x\r\n\r\n", b"405"), (b"GET /" + b"x" * 20_000, b"431"),
                         (b"GET /metrics HTTP/1.1\r\nHost: x\r\n\r\n", b"404"), (b"GET /control HTTP/1.1\r\nHost: x\r\n\r\n", b"404"),
                         (b"POST /line HTTP/1.1\r\nHost: x\r\nContent-Length: 99999999\r\n\r\n", b"413"),
                         (b"POST /line HTTP/1.1\r\nHost: x\r\nTransfer-Encoding: chunked\r\n\r\n", b"400"),
                         (b"GET / HTTP/1.1\r\nHost: x\r\nA: b\r\n c: d\r\n\r\n", b"400")):
        reader, writer = await asyncio.open_connection(gate.host, gate.ports["http"], ssl=gate.context)
        writer.write(data)
        assert answer in (await reader.readline()), data
        writer.close()


def token_config(folder: Path) -> Path:
    """Settings by which mfront keeps the users of all islands."""
    path = folder / "islands" / "users.toml"
    path.write_text('[users]\nfile = "users.json"\n[server]\nsettings = "island0.toml"\n')
    return path


@pytest.mark.long
@in_loop()
async def test_commands_of_the_page(host: Callable[..., Gate], cluster: Pair, tmp_path: Path) -> None:
    """Those of docs/OPERATING.md that move a customer, and that take one whose machine is gone; and that machine comes back."""
    islands(tmp_path / "islands", 1)
    first, second = host("one"), host("two")
    # that of a user asks for a password: the tests of mfront's commands have it
    commands, user = [command for command in commands_of("Many machines") if not command.startswith("mfront user ")], Program(first, "user0.0")
    assert 4 <= len(commands) <= 10
    for command in commands:
        if "--gone" in command:
            # The gate and all that it has started end with it.
            second.kill()
            with pytest.raises(ConnectionError):
                await user.line("W ^N")
            assert "cannot be reached now: try again" in (await user.sign_on())["error"]
        name, *words = command.replace("/etc/mserve", str(tmp_path / "islands")).replace("ISLAND", "island0").split()
        assert name == "mgate" and (await asyncio.to_thread(first.does, *words))[0] == 0
        if words[0] != "list":
            await settled(cluster, "island0", "two" if words[:3] == ["move", "island0", "two"] else "one")
            await user.signed_on()
            assert await user.told("S ^N=$G(^N)+1 W ^N") in ("1", "2", "3")
    second.again()
    again = Program(second, "user0.0")
    await again.signed_on()
    assert await again.told("W ^N") == "3"
    # And there again: the store of before has no note of a line, so that is put aside, and the journal is run from its beginning.
    assert (await asyncio.to_thread(second.does, "move", "island0", "two"))[0] == 0
    await settled(cluster, "island0", "two")
    await again.signed_on()
    assert await again.told("W ^N") == "3" and (second.folder / "islands" / "island0" / "store.old").exists()
    user.close()
    again.close()


def commands_of(heading: str) -> list[str]:
    """The commands below a heading of docs/OPERATING.md."""
    text = (FRONT.parent / "docs" / "OPERATING.md").read_text(encoding="utf-8")
    text = re.search(rf"^### {heading}.*?(?=^##)", text, re.MULTILINE | re.DOTALL)[0]
    text = re.sub(r"^```toml\n.*?^```$", "", text, flags=re.MULTILINE | re.DOTALL)
    return [line for block in re.findall(r"^```\n(.*?)^```$", text, re.MULTILINE | re.DOTALL) for line in block.splitlines()]


# A grant out of the island.
GRANT = '[[grant]]\nfrom = "C1A0"\nto = "NOBODY"\nglobal = "X"\nmode = "read"\n'


def test_words_of_mgate(host: Callable[..., Gate], cluster: Pair, tmp_path: Path, monkeypatch: pytest.MonkeyPatch) -> None:
    made, _ = islands(tmp_path / "islands", 2)
    gate, placement = host("one"), Placement(cluster.both)
    assert placement.islands() == {}
    assert gate.does("place", "island0", made["island0"], "one")[0] == 0
    # What is read once is kept until another changes it.
    before = placement.islands()
    assert before["island0"].state == "here" and placement.islands() is before
    cluster.does("UPDATE mfront_island SET state = 'moving', target = 'one'")
    assert placement.islands()["island0"].state == "moving"
    cluster.does("UPDATE mfront_island SET state = 'here', target = NULL")
    status, _, found = gate.does("place", "island0", made["island1"], "one")
    assert (status, found) == (2, "mgate: island0: there is such an island already\n")
    other = made["island1"].read_text()
    for act, told in ((lambda: placement.put("other", made["island0"].read_text(), "one"), "the island island0 has it already"),
                      (lambda: placement.put("a b", other, "one"), "is no name of an island"), (lambda: placement.put("x", other, "two"), "no such machine"),
                      (lambda: placement.put("x", "account = 1", "one"), "no settings of a server: Shape"),
                      (lambda: placement.put("x", other + GRANT, "one"), "x: these are no settings of a server: Grant: .*NOBODY"),
                      (lambda: placement.put("x", "", "one"), "have no account"),
                      (lambda: placement.move("island0", "one", False), "it is at one$"), (lambda: placement.move("island9", "one", False), "no such island")):
        with pytest.raises(BadPlacement, match=told):
            act()
    # One that does not arrive is called back, until its machine has given it up.
    for state in ("moving", "taking"):
        cluster.does(f"UPDATE mfront_island SET state = '{state}', target = 'one'")
        placement.move("island0", "one", False)
        assert cluster.does("SELECT state, target FROM mfront_island") == [("here", None)]
    cluster.does("UPDATE mfront_island SET state = 'ready', target = 'one'")
    with pytest.raises(BadPlacement, match="it is at one, and leaves it for one"):
        placement.move("island0", "one", False)
    cluster.does("UPDATE mfront_island SET state = 'here', target = NULL")
    stays(cluster, placement, before, monkeypatch)
    assert gate.does("remove", "island0")[0] == 0 and placement.islands() == {}
    placement.close()
    settings_are_refused(gate, tmp_path / "bad.toml")
    with pytest.raises(RuntimeError, match="cannot be used"):
        host("two", peers={"authority": "none"})


def stays(cluster: Pair, placement: Placement, before: dict[str, Island], monkeypatch: pytest.MonkeyPatch) -> None:
    """An island that is on its way is not removed. One that has begun to move since it was looked at stays as it is, and that is said."""
    cluster.does("UPDATE mfront_island SET state = 'moving', target = 'one'")
    with pytest.raises(BadPlacement, match="island0: it is on its way to one: remove it once it is there"):
        placement.remove("island0")
    with monkeypatch.context() as patched:
        patched.setattr(placement, "islands", lambda: before)
        for act in (lambda: placement.change("island0", before["island0"].settings), lambda: placement.remove("island0")):
            with pytest.raises(BadPlacement, match="island0: it has just begun to move"):
                act()
    cluster.does("UPDATE mfront_island SET state = 'here', target = NULL")


def settings_are_refused(gate: Gate, config: Path) -> None:
    """Settings of a machine that are wrong in one place: the fault names it."""
    for table, keys, told in (("machine", {"name": "a b"}, "machine.name: is to be"), ("machine", {"database": None}, "machine.database: is missing"),
                              ("listen", {"host": "0.0.0.0"}, "listen.host: is to be the address at which"),
                              ("listen", {"host": None}, "listen.host: is to be the address at which"),
                              ("listen", {"port": 0}, "listen.port: is to be a whole number"), ("peers", {"key": None}, "peers.key: is missing")):
        tables = gate.tables | {table: {key: value for key, value in (gate.tables[table] | keys).items() if value is not None}}
        config.write_text(toml(tables))
        with pytest.raises(BadSettings, match=told):
            settings_of(argparse.Namespace(config=config))
