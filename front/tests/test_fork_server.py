# SPDX-License-Identifier: Apache-2.0
"""The process that starts the fronts of a gate: what a front takes of a processor by it, how the system shows it, and what ends with whom."""
from __future__ import annotations

import asyncio
import os
import signal
import threading
import time
from collections.abc import Iterator
from pathlib import Path

import pytest
from front import Front, Patience, in_loop, tool, until, write_users
from machines import Gate, Program
from measured import fronts_of, started_by
from mserve_front import fork_server
from mserve_front.fork_server import Wanted
from mserve_front.placement import LocalPlacement
from test_alone import Alone
from test_lone_gate import MACHINE, serving, tables_of, toml

# Islands of a machine, unless more are asked for; and the seconds in which all are to be answered again on a machine that has no other work (STRICT).
ISLANDS, SOON = 6, 2.0
TICKS = os.sysconf("SC_CLK_TCK")


def taken(pid: int) -> float:
    """Seconds of a processor that a process has taken itself."""
    return sum(int(ticks) for ticks in Path(f"/proc/{pid}/stat").read_text().rpartition(")")[2].split()[11:13]) / TICKS


@pytest.fixture
def gate(certificate: tuple[Path, Path], tmp_path: Path, count: int) -> Iterator[Gate]:
    """A gate with islands, all of which serve."""
    names = [f"I{number}" for number in range(ISLANDS * count)]
    write_users(tmp_path / "users.json", {f"user-{name}": name for name in names})
    (tmp_path / "machine.toml").write_text(toml(tables_of(certificate)))
    placement = LocalPlacement(tmp_path / "islands", MACHINE)
    placement.make()
    for name in names:
        placement.put(name, f'[[account]]\nname = "{name}"\nterminals = [1, 2]\nsteps = 1000\n', "one")
    placement.close()
    made = Alone(tmp_path, tmp_path / "machine.toml", certificate[0])
    try:
        asyncio.run(until(lambda: serving(made) == len(names), "fronts that serve"))
        yield made
    finally:
        made.process.kill()
        made.process.wait()


async def answered(gate: Gate) -> None:
    """Waits until a user of each island has counted."""
    async def counts(name: str) -> None:
        program = Program(gate, f"user-{name}")
        while True:
            try:
                if "error" not in await program.sign_on():
                    assert int(str(await program.told("S ^COUNT=$G(^COUNT)+1 W ^COUNT"))) >= 1
                    return
            except OSError:
                await asyncio.sleep(0.01)
            finally:
                program.close()
    await asyncio.gather(*(counts(path.name) for path in (gate.folder / "islands").iterdir() if path.is_dir()))


@in_loop()
async def test_a_front_takes_little_to_begin(gate: Gate, tmp_path: Path) -> None:
    """A gate that is restarted has all its islands soon: each takes a small part of what a front takes that is started by itself."""
    (tmp_path / "alone").mkdir()
    alone = Front(tmp_path / "alone", None, store="store.db", journal={"folder": str(tmp_path / "alone" / "journal")})
    whole = taken(alone.process.pid)
    alone.stop()
    await answered(gate)
    before, began = serving(gate), time.monotonic()
    assert await asyncio.to_thread(gate.stop) == 0
    await asyncio.to_thread(gate.again)
    await until(lambda: serving(gate) == 2 * before, "fronts that serve again")
    fronts = fronts_of(gate.process.pid)
    each = sum(map(taken, fronts)) / len(fronts)
    await answered(gate)
    seconds = time.monotonic() - began
    print(f"{len(fronts)} islands of one gate: all answered again {seconds:.2f} s after its stop; a front took {each * 1000:.0f} ms of a processor, "
          f"{whole * 1000:.0f} by itself")
    assert len(fronts) == before and each < whole / 3
    assert seconds < SOON or not os.environ.get("STRICT")


@in_loop()
async def test_a_front_is_shown_by_its_island(gate: Gate) -> None:
    """An operator ends one that hangs, and finds it by that; its gate starts it again."""
    shown = {Path(f"/proc/{pid}/cmdline").read_bytes().rstrip(b"\0").decode(): pid for pid in fronts_of(gate.process.pid)}
    assert sorted(shown) == [f"mfront I{number}" for number in range(len(shown))]
    before = serving(gate)
    os.kill(shown["mfront I0"], signal.SIGKILL)
    await until(lambda: serving(gate) == before + 1, "a front that is started again")
    assert len({*fronts_of(gate.process.pid)} - {*shown.values()}) == 1


@in_loop()
async def test_a_gate_ends_with_what_starts_its_fronts(gate: Gate) -> None:
    """So that systemd starts it again. What was answered is there then."""
    await answered(gate)
    [server], fronts = started_by([gate.process.pid]), fronts_of(gate.process.pid)
    left = [server, *fronts, *started_by(fronts)]
    os.kill(server, signal.SIGKILL)
    assert await asyncio.to_thread(gate.process.wait, 2 * Patience.seconds) == 3
    assert "mgate: the process that starts the fronts has ended" in gate.told()
    await until(lambda: not any(Path(f"/proc/{pid}").exists() for pid in left), "the end of all that it had started")
    before = serving(gate)
    gate.again()
    await until(lambda: serving(gate) == before + len(fronts), "fronts that serve again")
    program = Program(gate, "user-I0")
    await program.signed_on()
    assert await program.told("W ^COUNT") == "1"
    program.close()


@in_loop()
async def test_a_gate_that_is_killed_leaves_nothing(gate: Gate) -> None:
    [server], fronts = started_by([gate.process.pid]), fronts_of(gate.process.pid)
    left = [server, *fronts, *started_by(fronts)]
    assert len(left) == 1 + 2 * len(fronts)
    gate.process.kill()
    gate.process.wait()
    await until(lambda: not any(Path(f"/proc/{pid}").exists() for pid in left), "the end of all that it had started")


@in_loop()
async def test_a_front_that_ends_at_once(tmp_path: Path, capfd: pytest.CaptureFixture[str]) -> None:
    """Its gate hears of that, and the next one is started."""
    starts = fork_server.begin()
    told = ""
    try:
        for number in (1, 2):
            front = await starts.front(Wanted("mfront none", ["--config", str(tmp_path / f"{number}.toml")], False))
            await asyncio.wait_for(front.wait(), Patience.seconds)
            assert front.over
            # That is nobody's by now.
            front.send_signal(signal.SIGKILL)
            told += capfd.readouterr().err
    finally:
        await starts.end()
    assert [f"{number}.toml" in line for number, line in enumerate(told.splitlines(), 1)] == [True] * 2
    with pytest.raises(OSError, match="."):
        await starts.front(Wanted("mfront none", [], False))


@in_loop()
async def test_a_front_that_nobody_waits_for_any_more(tmp_path: Path) -> None:
    """A gate that stops while one is started does not know of it: it has begun nothing yet, and ends."""
    Front(tmp_path, None, store="store.db", journal={"folder": str(tmp_path / "journal")}).stop()
    starts = fork_server.begin()
    try:
        coming = asyncio.create_task(starts.front(Wanted("mfront none", ["--config", str(tmp_path / "front.toml")], False)))
        await asyncio.sleep(0)
        coming.cancel()
        with pytest.raises(asyncio.CancelledError):
            await coming
        await until(lambda: not started_by([starts._pid]), "the end of what was started")
    finally:
        await starts.end()


def test_what_threads_do_is_done_at_the_end(tmp_path: Path) -> None:
    def act() -> int:
        threading.Timer(0.3, (tmp_path / "done").touch).start()
        return 7
    here = os.getpid()
    if (child := os.fork()) == 0:
        fork_server.become(here, act)
    assert os.waitstatus_to_exitcode(os.waitpid(child, 0)[1]) == 7 and (tmp_path / "done").exists()


def test_mgate_without_settings_is_refused(tmp_path: Path) -> None:
    """By its own status, whatever was begun before."""
    status, _, told = tool("mgate")("--config", tmp_path / "none.toml")
    assert status == 2 and "none.toml" in told
