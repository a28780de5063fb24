# SPDX-License-Identifier: Apache-2.0
"""The gate of a machine that is alone, with one island: what signals, an operator's slips and a front that ends do to it."""
from __future__ import annotations

import argparse
import asyncio
import os
import signal
import subprocess
import time
from collections.abc import Iterator
from pathlib import Path
from types import SimpleNamespace

import pytest
from front import COMMAND, PASSWORD, SETTINGS, Patience, Person, in_loop, toml, until, write_users
from machines import Gate, Program
from measured import fronts_of
from mserve_front import fork_server
from mserve_front.gate_command import _serve, settings_of
from mserve_front.islands import Home, IslandFront, Islands
from mserve_front.journal import LogFault
from mserve_front.placement import BadPlacement, LocalPlacement, Machine
from mserve_front.signing import AWAY
from mserve_front.standing import read_standing
from mserve_front.users import load
from running import PROGRAM, free_port
from test_alone import Alone

ISLAND = "A"
MACHINE = Machine("one", "localhost", 1)
NEW = '[[account]]\nname = "NEW"\nterminals = [1]\nsteps = 1000\n'


@pytest.fixture
def gate(certificate: tuple[Path, Path], tmp_path: Path) -> Iterator[Gate]:
    """A gate whose island's front serves."""
    write_users(tmp_path / "users.json", {"ada": "CLINIC"})
    (tmp_path / "machine.toml").write_text(toml(tables_of(certificate)))
    made = Alone(tmp_path, tmp_path / "machine.toml", certificate[0])
    try:
        assert made.does("place", ISLAND, SETTINGS, "one")[0] == 0
        asyncio.run(until(lambda: serving(made) == 1, "a front that serves"))
        yield made
    finally:
        made.process.kill()
        made.process.wait()


def tables_of(certificate: tuple[Path, Path]) -> dict[str, dict[str, object]]:
    """The settings of a machine."""
    return {"machine": {"name": "one", "folder": "islands", "users": "users.json", "program": PROGRAM},
            "listen": {"port": free_port(), "lines_port": free_port(), "certificate": str(certificate[0]), "key": str(certificate[1])}}


def serving(gate: Gate) -> int:
    """How often a front of an island has begun to serve."""
    return gate.told().count("serving at http:")


@pytest.mark.parametrize("number", [signal.SIGTERM, signal.SIGINT, signal.SIGHUP])
@in_loop()
async def test_signals_up_to_the_end_leave_the_status(gate: Gate, number: signal.Signals) -> None:
    """They hold the end up for no longer than they come, and the island's front has ended in order by then: it is known where its store stands."""
    gate.process.terminate()
    began = time.monotonic()
    while gate.process.poll() is None and time.monotonic() - began < Patience.seconds:
        gate.process.send_signal(number)
        await asyncio.sleep(0.002)
    assert gate.process.poll() == 0
    standing = read_standing(gate.folder / "islands" / ISLAND / "store")
    assert standing is not None and standing.number is not None, gate.told()


@in_loop()
async def test_what_an_operator_breaks_holds_no_island_up(gate: Gate) -> None:
    """A placement that is gone ends nobody, and users come and go meanwhile. While the users' file cannot be read a front that ends is started again, with
    the users of before."""
    [front] = fronts_of(gate.process.pid)
    users, placement = gate.folder / "users.json", gate.folder / "islands" / "placement.json"
    placement.rename(placement.with_suffix(".away"))
    await until(lambda: "placement.json: it is gone" in gate.told(), "a placement that is missed")
    write_users(users, {"ben": "CLINIC"})
    await until(lambda: list(load(gate.folder / "islands" / ISLAND / "users.json")) == ["ben"], "the users of now")
    users.write_text("broken")
    await until(lambda: "the users stay as they were: " in gate.told(), "users who are missed")
    assert fronts_of(gate.process.pid) == [front]
    placement.with_suffix(".away").rename(placement)
    await until(lambda: "the placement can be read again" in gate.told(), "a placement that is back")
    os.kill(front, signal.SIGKILL)
    await until(lambda: serving(gate) == 2, "a front that is started again")
    write_users(users, {"ben": "CLINIC"})
    await until(lambda: "the users can be read again" in gate.told(), "users who are back")


@in_loop()
async def test_a_new_customer_comes_with_a_user(gate: Gate) -> None:
    """The island is placed, and its user added, by the settings of the machine; then they sign on."""
    (gate.folder / "new.toml").write_text(NEW)
    assert gate.does("place", "NEW", gate.folder / "new.toml", "one")[0] == 0
    words = [*COMMAND, "user", "add", "tim", "NEW", "--config", gate.config]
    done = await asyncio.to_thread(subprocess.run, words, input=PASSWORD, capture_output=True, text=True, timeout=2 * Patience.seconds)
    assert done.returncode == 0, done.stderr
    tim = Program(gate, "tim")
    await tim.signed_on()
    assert await tim.told("W 6*7") == "42"
    tim.close()


@in_loop()
async def test_nobody_learns_of_a_name_while_its_island_is_away(gate: Gate) -> None:
    """Who has the right password hears that the island cannot be reached; with another one it is as if nobody had the name. Other customers have the page,
    and sign on."""
    (gate.folder / "new.toml").write_text(NEW)
    write_users(gate.folder / "users.json", {"ada": "CLINIC", "tim": "NEW"})
    [front] = fronts_of(gate.process.pid)
    assert gate.does("place", "NEW", gate.folder / "new.toml", "one")[0] == 0
    await until(lambda: serving(gate) == 2, "the other front")
    # With such a journal it does not start again.
    for path in (gate.folder / "islands" / ISLAND / "journal").iterdir():
        if path.is_file():
            path.write_bytes(b"broken\n" * 1000)
    os.kill(front, signal.SIGKILL)
    ada, nobody, tim = (Person(gate, name) for name in ("ada", "nobody", "tim"))
    try:
        async def is_away() -> bool:
            return await ada.sign_on() == (503, {"error": AWAY})
        await until(is_away, "an island that is away", 0.2)
        assert await ada.sign_on("x") == await nobody.sign_on("x") == (401, {"error": "wrong name or password"})
        assert (await Program(gate, "ada").sign_on(), await Program(gate, "nobody").sign_on()) == ({"error": AWAY}, {"error": "wrong name or password"})
        assert (await tim.sign_on())[0] == 200 and serving(gate) == 2
        async with nobody.http.get("/") as response:
            assert response.status == 200
    finally:
        for person in (ada, nobody, tim):
            await person.http.close()


@in_loop()
async def test_peers_of_a_gate_write_no_log(gate: Gate) -> None:
    """Who sends more than is read, and leaves, would have a line of asyncio's for each connection."""
    before = gate.told()
    for number in range(30):
        reader, writer = await asyncio.open_connection(gate.host, gate.ports["http" if number % 2 else "lines"], ssl=gate.context)
        writer.write(b"x" * 20_000 if number % 2 else b"nobody x\n" * 2_000)
        await asyncio.sleep(0.05)
        writer.transport.abort()
    # The gate has seen to all of them by the time that it answers this one.
    reader, writer = await asyncio.open_connection(gate.host, gate.ports["http"], ssl=gate.context)
    writer.write(b"GET /health HTTP/1.1\r\nHost: localhost\r\n\r\n")
    assert (await reader.read()).startswith(b"HTTP/1.1 200") and gate.told() == before
    writer.close()


@in_loop()
async def test_a_customer_who_leaves_and_comes_back(gate: Gate) -> None:
    """The island's front ends in order, and its user is served no more. Placed again, it has what it had."""
    ada = Program(gate, "ada")
    await ada.signed_on()
    assert await ada.told("S ^X=42") == ""
    assert gate.does("remove", ISLAND)[0] == 0
    await until(lambda: not fronts_of(gate.process.pid), "the end of the island's front")
    standing = read_standing(gate.folder / "islands" / ISLAND / "store")
    assert standing is not None and standing.number is not None, gate.told()
    assert "error" in await ada.sign_on() and ISLAND not in gate.does("list")[1]
    assert gate.does("place", ISLAND, SETTINGS, "one")[0] == 0
    await ada.signed_on()
    assert await ada.told("W ^X") == "42"
    ada.close()


@in_loop()
async def test_an_island_that_is_removed_ends_alone(tmp_path: Path) -> None:
    """Its front is ended, and no other one; a second time there is none to be removed."""
    write_users(tmp_path / "users.json", {})
    islands, sent = islands_of(tmp_path), []

    async def ended() -> int:
        return 0
    for name, settings in ((ISLAND, SETTINGS.read_text()), ("NEW", NEW)):
        islands._placement.put(name, settings, "one")
        process = SimpleNamespace(over=False, send_signal=lambda number, name=name: sent.append((name, number)), wait=ended)
        islands._fronts[name] = IslandFront(name, {}, False, settings, process=process)
    await islands._look()
    assert sent == []
    islands._placement.remove(ISLAND)
    await islands._look()
    assert sent == [(ISLAND, signal.SIGTERM)] and list(islands._fronts) == list(islands.placed) == ["NEW"]
    with pytest.raises(BadPlacement, match="A: there is no such island"):
        islands._placement.remove(ISLAND)


def test_a_placement_that_is_gone_is_missed_at_a_start_too(tmp_path: Path) -> None:
    """The islands whose fronts were here have not left with it: a gate does not start without them, and a new customer does not take their places. One that
    is made empty counts."""
    placement = LocalPlacement(tmp_path, MACHINE)
    (tmp_path / ISLAND).mkdir()
    assert placement.islands() == {}
    (tmp_path / ISLAND / "front.toml").touch()
    for act in (placement.islands, lambda: placement.put("NEW", NEW, "one")):
        with pytest.raises(LogFault, match="placement.json: it is gone: put it back"):
            act()
    (tmp_path / "placement.json").write_text("{}")
    placement.put(ISLAND, SETTINGS.read_text(), "one")
    assert list(placement.islands()) == [ISLAND]


@in_loop()
async def test_a_gate_has_the_limits_of_its_settings(certificate: tuple[Path, Path], tmp_path: Path, capfd: pytest.CaptureFixture[str]) -> None:
    """Customers who come by one proxy have more connections of an address, at the gate too; a reload is enough. The oldest that is not signed on ends."""
    write_users(tmp_path / "users.json", {})
    config, tables, told = tmp_path / "machine.toml", tables_of(certificate), []
    config.write_text(toml(tables | {"limits": {"unsigned_of_address": 2, "sign_on": 600}}))
    before = {number: signal.getsignal(number) for number in (signal.SIGTERM, signal.SIGINT, signal.SIGHUP)}
    served = asyncio.create_task(_serve(lambda: settings_of(argparse.Namespace(config=config)), fork_server.begin()))

    async def tells(text: str) -> None:
        def heard() -> bool:
            told.append(capfd.readouterr().err)
            return text in "".join(told)
        await until(heard, text)

    async def comes() -> asyncio.StreamReader:
        return (await asyncio.open_connection("localhost", tables["listen"]["port"]))[0]
    try:
        await tells("one: serving at https")
        first, *others = [await comes() for _ in range(3)]
        assert await first.read() == b"" and not any(one.at_eof() for one in others)
        config.write_text(toml(tables | {"limits": {"unsigned_of_address": 4, "sign_on": 600}}))
        os.kill(os.getpid(), signal.SIGHUP)
        await tells("reloaded: limits of the islands")
        others += [await comes() for _ in range(3)]
        assert await others[0].read() == b"" and not any(one.at_eof() for one in others[1:])
    finally:
        os.kill(os.getpid(), signal.SIGTERM)
        await served
        for number, handler in before.items():
            signal.signal(number, handler)


def islands_of(folder: Path) -> Islands:
    """The islands of a machine that is alone, in a folder."""
    return Islands(Home(MACHINE, folder, folder / "users.json", None, "mserve", ()), LocalPlacement(folder, MACHINE), None)


@in_loop()
async def test_a_front_that_ends_during_a_reload_is_no_fault(tmp_path: Path, monkeypatch: pytest.MonkeyPatch) -> None:
    """A reload writes the settings of each front before it has it read them. A fault there would have kept the gate from ending the other fronts at its
    stop: they were killed, in place of being ended in order. Several reloads of a front that has just begun are one."""
    def gone(number: int) -> None:
        raise ProcessLookupError
    islands = islands_of(tmp_path)
    process, written = SimpleNamespace(over=False, send_signal=gone), []

    def ends(front: IslandFront) -> None:
        written.append(front)
        process.over = True
    monkeypatch.setattr(islands, "_write_front", ends)
    islands._fronts[ISLAND] = IslandFront(ISLAND, {}, False, "", process=process, began=time.monotonic() - 9.8)
    for _ in range(3):
        islands.reopen()
    await until(lambda: not islands._reopening, "a reload that has ended")
    assert len(written) == 1
