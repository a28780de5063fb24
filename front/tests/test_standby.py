# SPDX-License-Identifier: Apache-2.0
"""A standby: it follows and compares, serves nobody until it is promoted, and loses nothing that was answered when the leader is killed."""
from __future__ import annotations

import asyncio
import contextlib
import os
import random
import re
import shutil
import signal
import socket
import sqlite3
import statistics
import time
from pathlib import Path

import aiohttp
import pytest
from front import SETTINGS, Front, Patience, in_loop, mjournal, stopped, tool, until
from mserve_front.command import promoted_once_free
from mserve_front.control import asked
from mserve_front.places import end_of, first_of, last_line
from mserve_front.service import Service
from mserve_front.settings import JournalSettings, read_settings
from mserve_front.standby import Standby
from mserve_front.standing import read_standing
from running import PROGRAM
from standing_by import SLOW, Load, asks_promotion, caught_up, fenced_off, leading, promoted, standby, stands_by, takes_over, two_fronts
from test_replay import backup, held, works

# Leaders that are killed, unless more are asked for (--count).
KILLED = 10
# Seconds in which nobody is served at a hand-over, at most; and how many are tried until one is as short.
PAUSE, HAND_OVERS = 2.0, 5


@in_loop()
async def test_a_standby_has_caught_up_once_it_has_run_all(start, tmp_path: Path) -> None:
    """What the journal holds when the question comes is run by then, or the answer says that it is not."""
    leader, second = two_fronts(start, tmp_path / "journal")
    async with leader.person("ada") as ada:
        await ada.line("S ^X=1")
        await caught_up(second, tmp_path / "journal")
        for _ in range(20):
            await ada.line("S ^X=^X+1")
            last = last_line(JournalSettings(tmp_path / "journal"))
            status = await asyncio.to_thread(asked, second.folder / "mfront.control", {"ask": "status"}, 30)
            assert status["line"] >= last or not status["caught up"], (status, last)
        await caught_up(second, tmp_path / "journal")


@in_loop()
async def test_a_standby_follows_and_is_promoted(start, tmp_path: Path) -> None:
    leader, second = two_fronts(start, tmp_path / "journal")
    with socket.socket() as peer:
        assert peer.connect_ex(("127.0.0.1", second.port)) != 0
    async with leader.person("ada") as ada, leader.person("ben") as ben, leader.person("cleo") as cleo:
        await asyncio.gather(*(works(person, seed + 7, 60) for seed, person in enumerate((ada, ben, cleo))))
        await ada.line("K ^X,^Y")
        await ada.line("S ^X=1")
        status, _, told = promoted(second)
        assert status == 3 and "not promoted: " in told and "another front writes this journal" in told
        await caught_up(second, tmp_path / "journal")
        shown = tool("mfront")("status", "--config", second.folder / "front.toml")[1]
        assert re.match(r"state standby, line \d+, behind 0, seconds 0.0, reported 0, caught up True\n$", shown)
    await stopped(leader)
    last = await caught_up(second, tmp_path / "journal")
    stored = held(leader.folder / "store.db")
    status, output, told = promoted(second)
    assert status == 0 and output.startswith(f"promoted after line {last}, in ")
    async with second.person("ada") as ada:
        assert await ada.told("W ^X") == "1"
        # The one before is refused while this one serves.
        with pytest.raises(RuntimeError, match="another front writes this journal"):
            leader.again()
        snapshot = await asyncio.to_thread(backup, second)
        assert tool("mbackup")("check", snapshot)[0] == 0
        assert [record["line"] for record in second.audit() if record["event"] == "promoted"] == [last]
    await stopped(second)
    assert stored == held(second.folder / "store.db")
    # Nor is it taken later: its store has not run what came since. The other one goes on.
    with pytest.raises(RuntimeError, match="stands after line .*, and another front has served since"):
        leader.again()
    second.words([])
    second.again()
    second.stop()
    assert mjournal(tmp_path / "journal")("replay", "--program", PROGRAM, "--store", "memory")[::2] == (0, "")


@in_loop()
async def test_a_standby_has_its_ports(start, tmp_path: Path) -> None:
    """Nobody can take them meanwhile. One that is taken when it starts is reported, and taken at the promotion if that can be."""
    leader, second = two_fronts(start, tmp_path / "journal")
    for port in (second.port, second.lines_port):
        with socket.socket() as other, pytest.raises(OSError, match="in use"):
            other.bind(("127.0.0.1", port))
    third = standby(start, tmp_path / "journal", listen={"port": leader.port})
    third.port = leader.port
    assert f"127.0.0.1, port {leader.port}: Address already in use: it cannot serve as long as that is so" in third.told()
    async with leader.person("ada") as ada:
        assert await ada.told("S ^X=1 W ^X") == "1"
    await asyncio.to_thread(leader.stop)
    assert takes_over(third) == ""
    async with third.person("ada") as ada:
        assert await ada.told("W ^X") == "1"


@in_loop()
async def test_a_standby_whose_store_differs_stands_still(start, tmp_path: Path) -> None:
    """A node was changed in its store: it is reported at the next line that reads it, and nothing that was answered is lost without a word. It goes on once the
    leader has written all that its store holds."""
    leader, second = two_fronts(start, tmp_path / "journal")
    async with leader.person("ada") as ada:
        for number in range(5):
            await ada.line(f"S ^X({number})=1")
        await caught_up(second, tmp_path / "journal")
        assert second.stop() == 0 and (second.folder / "store.db.at").exists()
        changed_by_hand(second.folder / "store.db")
        second.again()
        for line in ("W ^X(3)", "S ^Y=2", "W ^X(4)", "W ^X(1)"):
            await ada.line(line)
        number = int(mjournal(tmp_path / "journal")("grep", r"W \^X\(4\)")[1].split()[0])
        second.hears(f"it stands still, and waits: line {number}, of terminal 1, is answered otherwise")
        status = asked(second.folder / "mfront.control", {"ask": "status"}, 30)
        assert status["differs"] is True and status["line"] == number - 1 and not status["caught up"]
        await asyncio.to_thread(backup, leader, "--end-sessions", "--all")
        await ada.line("S ^Y=3")
        second.hears("it goes on")
        await caught_up(second, tmp_path / "journal")
        assert held(second.folder / "store.db") == held(leader.folder / "store.db")
        # It is stopped while it differs: its store is not taken again.
        second.stop()
        changed_by_hand(second.folder / "store.db")
        second.again()
        await ada.line("W ^X(4),^Y")
        second.hears("it stands still, and waits")
        assert second.stop() == 3 and "the standby ends, and its store is not to be used: line" in second.told()
        with pytest.raises(RuntimeError, match="nobody knows up to which line it has run the journal"):
            second.again()


def changed_by_hand(store: Path) -> None:
    """Changes the last node of a store that nobody has open."""
    base = sqlite3.connect(store)
    with base:
        assert base.execute("UPDATE node SET v = x'39' WHERE k = (SELECT max(k) FROM node WHERE v = x'31')").rowcount == 1
    base.close()


@in_loop()
async def test_a_promotion_that_would_lose_lines(start, tmp_path: Path) -> None:
    """It is refused, with the lines, and done by force; others that follow go on with what is served then."""
    leader = leading(start, tmp_path / "journal")
    second, third = standby(start, tmp_path / "journal"), standby(start, tmp_path / "journal")
    async with leader.person("ada") as ada:
        await ada.line("S ^X=1")
        await caught_up(second, tmp_path / "journal")
        second.stop()
        changed_by_hand(second.folder / "store.db")
        second.again()
        assert await ada.told("S ^Y=^X W ^Y") == "1"
        line = last_line(JournalSettings(tmp_path / "journal"))
        assert await ada.told("S ^Z=5 W ^Z") == "5"
        second.hears("it stands still, and waits")
    await asyncio.to_thread(leader.stop)
    status, _, told = promoted(second)
    assert status == 3 and f"line {line}, of terminal 1, is answered otherwise" in told
    assert f"lines that were answered would be lost: {line} (terminal 1, ada), {line + 1} (terminal 1, ada)" in told and "mfront promote --force" in told
    assert second.process.poll() is None
    status, output, _ = tool("mfront")("promote", "--force", "--config", second.folder / "front.toml")
    assert status == 0 and f"{line} (terminal 1, ada), {line + 1} (terminal 1, ada)" in output
    second.hears("serving at")
    async with second.person("ada") as ada:
        assert await ada.told("W ^X") == "9"
    await stopped(second)
    await caught_up(third, tmp_path / "journal")
    assert takes_over(third) == ""
    assert held(third.folder / "store.db") == held(second.folder / "store.db")


@in_loop()
async def test_a_standby_takes_over_once_the_leader_is_stopped(start, tmp_path: Path) -> None:
    """The promotion waits for that, so that nobody serves for a moment alone, as at an upgrade of the program: the standby is the new one."""
    journal = tmp_path / "journal"
    leader, second = two_fronts(start, journal)
    async with leader.person("ada") as ada:
        await works(ada, 5, 60)
        assert await ada.told("S ^X=1 W ^X") == "1"
        await caught_up(second, journal)
        waits = asyncio.create_task(asyncio.to_thread(tool("mfront"), "promote", "--wait", "60", "--config", second.folder / "front.toml"))
        await asyncio.sleep(2)
        assert not waits.done() and await ada.told("S ^X=^X+1 W ^X") == "2"
        assert await asyncio.to_thread(leader.stop) == 0
    assert (await waits)[0] == 0
    second.hears("serving at")
    assert await answers(second, "2")
    second.stop()
    assert held(leader.folder / "store.db") == held(second.folder / "store.db")
    status, _, told = promoted(second)
    assert status == 3 and "no front that keeps a journal is there" in told


async def answers(front: Front, wanted: str) -> bool:
    """Whether a front serves what was stored."""
    try:
        async with front.person("ada") as ada:
            return await ada.told("W ^X") == wanted
    except (aiohttp.ClientError, AssertionError):
        return False


@pytest.mark.alone
@in_loop()
async def test_a_hand_over_is_short(start, tmp_path: Path) -> None:
    """By the clock, from the stop of the one to an answer of the other, as at an upgrade. There and back, until one is as short as is promised: other work of
    the machine may hold some up, and not all."""
    fronts, pauses = two_fronts(start, tmp_path / "journal"), []
    while len(pauses) < HAND_OVERS and min(pauses, default=PAUSE) >= PAUSE:
        pauses.append(await handed_over(*fronts, tmp_path / "journal", str(len(pauses))))
        fronts = fronts[::-1]
    print(f"nobody served for {min(pauses):.2f} s")
    assert min(pauses) < PAUSE, pauses


async def handed_over(leader: Front, second: Front, journal: Path, value: str) -> float:
    """Has a leader hand over, stands by with it, and gives the seconds in which nobody was served."""
    async with leader.person("ada") as ada:
        assert await ada.told(f"S ^X={value} W ^X") == value
        await caught_up(second, journal)
        # What `mfront promote --wait` does, apart from the time that it takes to begin itself.
        waits = asyncio.create_task(asyncio.to_thread(promoted_once_free, second.folder / "mfront.control", False, time.monotonic() + 4 * Patience.seconds))
        await asyncio.sleep(0.5)
        assert not waits.done() and await ada.told("W ^X") == value
        began = time.monotonic()
        ending = asyncio.create_task(asyncio.to_thread(leader.stop))
        await until(lambda: answers(second, value), "an answer of the standby")
        seconds = time.monotonic() - began
        assert (await waits)["lost"] == [] and await ending == 0
    stands_by(leader)
    return seconds


@in_loop()
async def test_a_leader_that_lives_is_fenced_off(start, tmp_path: Path) -> None:
    """It hangs, and the standby takes over by force. Once it goes on it acknowledges nothing, and ends; what the other one serves is not touched."""
    leader, second = two_fronts(start, tmp_path / "journal")
    await fenced_off(leader, second, JournalSettings(tmp_path / "journal"), "another front has taken this journal")
    await stopped(second)
    assert mjournal(tmp_path / "journal")("replay", "--program", PROGRAM, "--store", tmp_path / "all")[::2] == (0, "")
    assert held(tmp_path / "all") == held(second.folder / "store.db")


@in_loop()
async def test_a_standby_that_is_killed_begins_with_a_snapshot(start, tmp_path: Path) -> None:
    leader = leading(start, tmp_path / "journal")
    async with leader.person("ada") as ada:
        await ada.line("S ^X=1")
        snapshot = await asyncio.to_thread(backup, leader, "--end-sessions")
        await ada.line("S ^X=2,A=5")
    second = standby(start, tmp_path / "journal")
    await caught_up(second, tmp_path / "journal")
    os.kill(second.process.pid, signal.SIGKILL)
    second.process.wait()
    with pytest.raises(RuntimeError, match="put back a snapshot"):
        second.again()
    for end in ("", "-wal", ".at"):
        (second.folder / f"store.db{end}").unlink(missing_ok=True)
    assert tool("mbackup")("restore", snapshot, second.folder / "store.db")[0] == 0
    second.again()
    assert f"standing by, after line {int(snapshot.name)}" in second.told()
    await caught_up(second, tmp_path / "journal")
    async with leader.person("ada") as ada:
        assert await ada.told("W ^X") == "2"
    await stopped(leader)
    assert promoted(second)[0] == 0
    async with second.person("ada") as ada:
        assert await ada.told("W ^X") == "2"


def finds_a_snapshot(front: Front, first: Path, snapshot: Path, begins: int) -> None:
    """Gives a standby without a store snapshots: what is not one, not exact, or from before is passed over; and one that is damaged is reported."""
    folder = front.folder / "backup"
    for made in (first, snapshot):
        shutil.copytree(made, folder / made.name)
    damaged = folder / f"{int(snapshot.name) + 1:012d}"
    damaged.mkdir()
    (damaged / "manifest.json").write_text((snapshot / "manifest.json").read_text().replace(f'"number": {int(snapshot.name)}', f'"number": {begins}'))
    front.hears(f"it stands still, and waits: {damaged / 'store'}: there is no such file")
    shutil.rmtree(damaged)
    front.hears(f"it begins with the snapshot {folder / snapshot.name}")
    front.hears("it goes on")


@pytest.mark.long
@in_loop()
async def test_a_standby_over_a_journal_that_was_expired(start, tmp_path: Path) -> None:
    """It says what it needs, takes the journal from nobody, and begins with a snapshot that comes, or with all that the leader's store holds."""
    leader, journal = leading(start, tmp_path / "journal", roll=4096), tmp_path / "journal"
    async with leader.person("ada") as ada:
        await ada.line("S ^X=1")
        first = await asyncio.to_thread(backup, leader, "--end-sessions")
        second = standby(start, journal)
        await caught_up(second, journal)
        assert second.stop() == 0
        for number in range(40):
            await ada.line(f"S ^X({number})={number}")
        snapshot = await asyncio.to_thread(backup, leader, "--end-sessions")
        await ada.line("S ^Y=^X(39)")
        assert mjournal(journal)("expire", snapshot)[0] == 0
        begins = first_of(JournalSettings(journal))
        assert int(first.name) + 1 < begins <= int(snapshot.name) + 1
        # One that stood before that, and one without a store.
        second.again()
        second.hears(f"it stands still, and waits: the journal begins with line {begins}, and the store has run it up to line {int(first.name)}. It goes on "
                     "once")
        third = standby(start, journal, backup="backup")
        third.hears(f"it stands still, and waits: the journal begins with line {begins}, and there is no store here. It goes on once an exact snapshot of line "
                    f"{begins - 1} or later is in {third.folder / 'backup'}, or is put back (mbackup restore), or once the leader has written all")
        for words in ((), ("--force",)):
            status, _, told = tool("mfront")("promote", *words, "--config", third.folder / "front.toml")
            assert status == 3 and f"not promoted: the journal begins with line {begins}" in told
        assert await ada.told("S ^Z=1 W ^Y") == "39"
        finds_a_snapshot(third, first, snapshot, begins)
        await caught_up(third, journal)
        await asyncio.to_thread(backup, leader, "--end-sessions", "--all")
        second.hears("it goes on")
        for one in (second, third):
            await caught_up(one, journal)
            assert held(one.folder / "store.db") == held(leader.folder / "store.db")
    await stopped(leader)
    assert promoted(third)[0] == 0


@pytest.mark.long
@in_loop()
async def test_a_standby_that_cannot_go_on(start, tmp_path: Path) -> None:
    """It waits for other settings."""
    leading(start, tmp_path / "journal")
    other = tmp_path / "other.toml"
    other.write_text('[[account]]\nname = "CLINIC"\nterminals = [1]\nsteps = 5\n')
    second = standby(start, tmp_path / "journal", settings=other, users={"ada": "CLINIC"})
    second.hears(f"it stands still, and waits: from line 1 on the leader has other settings than {other}: copy them there")
    other.write_bytes(SETTINGS.read_bytes())
    second.hears("it goes on")
    await caught_up(second, tmp_path / "journal")
    second.stop()
    with pytest.raises(RuntimeError, match="a standby has a server of its own"):
        standby(start, tmp_path / "journal", server={"join": 9, "store": None, "program": None})
    for word in ("status", "promote"):
        status, _, told = tool("mfront")(word, "--config", second.folder / "front.toml")
        assert status == 3 and "no front that keeps a journal is there" in told and len(told.splitlines()) == 1


@in_loop()
async def test_a_journal_that_has_lost_its_end_is_refused(start, tmp_path: Path) -> None:
    """What is noted beside the store stays as it was, so that it is refused the next time too."""
    leader, second = two_fronts(start, tmp_path / "journal")
    async with leader.person("ada") as ada:
        await ada.line("S ^X=1")
        shutil.copytree(tmp_path / "journal", tmp_path / "shorter")
        await ada.line("S ^X=^X+1")
    await stopped(leader)
    await caught_up(second, tmp_path / "journal")
    second.stop()
    line = read_standing(second.folder / "store.db").number
    shutil.rmtree(tmp_path / "journal")
    shutil.move(tmp_path / "shorter", tmp_path / "journal")
    stored, note = held(second.folder / "store.db"), (second.folder / "store.db.at").read_bytes()
    for _ in range(2):
        with pytest.raises(RuntimeError, match=f"it cannot stand by: the store has run it up to line {line}, and it ends with line "):
            second.again()
        assert (second.folder / "store.db.at").read_bytes() == note
    assert held(second.folder / "store.db") == stored
    for end in ("", "-wal"):
        (second.folder / f"store.db{end}").unlink(missing_ok=True)
    with pytest.raises(RuntimeError, match="store.db.at: it says where a store stands that is not there"):
        second.again()
    assert not (second.folder / "store.db").exists()
    (second.folder / "store.db.at").write_text("{}")
    with pytest.raises(RuntimeError, match="store.db.at: does not say where the store stands"):
        second.again()
    assert (second.folder / "store.db.at").read_text() == "{}"


@in_loop()
async def test_a_leader_that_was_stopped_stands_by(start, tmp_path: Path) -> None:
    """Without a snapshot: its store stands where the journal was then. It runs what the other one serves meanwhile and later, and takes over again."""
    leader, second = two_fronts(start, tmp_path / "journal")
    async with leader.person("ada") as ada, leader.person("ben") as ben:
        await asyncio.gather(works(ada, 3, 40), works(ben, 4, 40))
        await ada.line("K ^X S ^X=1,A=5")
    await stopped(leader)
    left = last_line(JournalSettings(tmp_path / "journal"))
    assert takes_over(second) == ""
    await goes_on(leader, second, left, tmp_path / "journal")


async def goes_on(leader: Front, second: Front, left: int, journal: Path) -> None:
    """The one that led, and ended, stands by from where its store was left, while the other one serves; then it takes over."""
    async with second.person("ada") as ada:
        assert await ada.told("S ^X=^X+1 W ^X,$D(A)") == "20"
        assert stands_by(leader) == left
        assert await ada.told("S ^X=^X+1 W ^X") == "3"
    await stopped(second)
    await caught_up(leader, journal)
    assert held(leader.folder / "store.db") == held(second.folder / "store.db")
    assert takes_over(leader) == ""
    async with leader.person("ada") as ada:
        assert await ada.told("W ^X") == "3"


@pytest.mark.parametrize("alone", [pytest.param(True, marks=pytest.mark.long), False])
@in_loop()
async def test_a_leader_that_was_killed_stands_by(start, tmp_path: Path, alone: bool) -> None:
    """If all its lines were answered, its store comes after the last of them: whether nobody has served since (`alone`) or another one has."""
    leader, second = two_fronts(start, tmp_path / "journal", roll=4096)
    async with leader.person("ada") as ada:
        await works(ada, 5, 60)
        await ada.line("K ^X S ^X=1,A=5")
        left = await caught_up(second, tmp_path / "journal")
        os.kill(leader.process.pid, signal.SIGKILL)
        leader.process.wait()
    assert read_standing(leader.folder / "store.db").number is None
    if alone:
        assert stands_by(leader) == left
        leader.stop()
        assert read_standing(leader.folder / "store.db").number == left
    assert takes_over(second) == ""
    await goes_on(leader, second, left, tmp_path / "journal")


@in_loop()
async def test_a_leader_that_was_killed_at_work_does_not_stand_by(start, tmp_path: Path) -> None:
    """Lines were on their way, and may have been run: the message says which, and what can be done. The note beside the store stays."""
    load, journal = Load(SLOW), tmp_path / "journal"
    leader, second = two_fronts(start, journal)
    await load.until_killed(leader, 1, journal)
    end = end_of(JournalSettings(journal))
    note = (leader.folder / "store.db.at").read_bytes()
    wanted = rf"did not end in order, and lines? ({end.answered + 1} to )?{end.next - 1} had no reply then, and may have been run: put back a snapshot"
    leader.words(["--follow"], "standing by")
    with pytest.raises(RuntimeError, match=wanted):
        leader.again()
    assert takes_over(second) == ""
    with pytest.raises(RuntimeError, match=wanted):
        leader.again()
    assert (leader.folder / "store.db.at").read_bytes() == note
    await load.holds(second, 1)


@pytest.mark.long
@in_loop(3000)
async def test_leaders_that_are_killed(start, tmp_path: Path, count: int) -> None:
    """Each time the standby is promoted: what was answered is there, nothing runs twice, and the next standby runs the journal from its beginning."""
    rng, load, journal, without = random.Random(11), Load(), tmp_path / "journal", []
    leader = leading(start, journal)
    for number in range(KILLED * count):
        second = standby(start, journal)
        killed = await load.until_killed(leader, rng.uniform(0.02, 0.3))
        assert takes_over(second) == ""
        async with second.person("ben") as ben:
            assert await ben.told("W 1") == "1"
        without.append(time.monotonic() - killed)
        await load.holds(second, number)
        leader = second
    assert len(load.answered) > 3 * KILLED * count, "each time four at least"
    print(f"{len(without)} leaders killed, {len(load.answered)} nodes answered, each there and set once; from a kill to the first answer of the standby, which "
          f"is promoted at once: median {statistics.median(without) * 1000:.0f} ms, longest {max(without) * 1000:.0f} ms")
    await stopped(leader)
    status, output, told = mjournal(journal)("replay", "--program", PROGRAM, "--store", tmp_path / "all")
    assert (status, told) == (0, "") and held(tmp_path / "all") == held(leader.folder / "store.db")


def has_taken(front: Front, journal: Path) -> bool:
    """Whether a front has the journal's lock. To try the lock could keep the front from it."""
    found = set()
    for place in Path(f"/proc/{front.process.pid}/fd").iterdir():
        # It may be closed meanwhile.
        with contextlib.suppress(FileNotFoundError):
            found.add(os.readlink(place))
    return str(journal / "lock") in found


@pytest.mark.long
@in_loop()
async def test_a_stop_during_a_promotion(start, tmp_path: Path) -> None:
    """The promotion is given up, and the standby ends as at any stop: another one takes over, and then this one in its turn."""
    load, journal = Load(SLOW), tmp_path / "journal"
    # A standby looks for a stop and a promotion between two files: there are many small ones.
    leader, second = two_fronts(start, journal, roll=4096)
    # It is held up while users work, so that there is much to run at its promotion.
    second.process.send_signal(signal.SIGSTOP)
    try:
        await load.until_killed(leader, 4)
    finally:
        second.process.send_signal(signal.SIGCONT)
    promotion = asyncio.create_task(asyncio.to_thread(takes_over, second))
    while not has_taken(second, journal):
        await asyncio.sleep(0.005)
    began = time.monotonic()
    assert await asyncio.to_thread(second.stop) == 0
    took = time.monotonic() - began
    assert await promotion == "not promoted: it is being stopped"
    assert "promoted after" not in second.told() and "serving at" not in second.told()
    stands = read_standing(second.folder / "store.db").number
    assert stands < last_line(JournalSettings(journal))
    print(f"stopped {took:.1f} s after it had taken the journal, at line {stands} of {last_line(JournalSettings(journal))}")
    third = standby(start, journal)
    assert takes_over(third) == ""
    await load.holds(third, 1)
    await stopped(third)
    second.again()
    assert takes_over(second) == ""
    await load.holds(second, 2)


@in_loop()
async def test_a_stop_between_a_promotion_and_the_service(start, tmp_path: Path) -> None:
    """One that the standby hears of when it is promoted already ends the service before it serves."""
    load, journal = Load(), tmp_path / "journal"
    leader, second = two_fronts(start, journal)
    second.stop()
    await load.until_killed(leader, 0.2)
    settings = read_settings(second.folder / "front.toml", False)
    task = asyncio.create_task(Standby(settings).run())
    while not settings.journal.control.exists():
        await asyncio.sleep(0.02)
    line = (await asyncio.to_thread(asks_promotion, settings.journal.control))["line"]
    os.kill(os.getpid(), signal.SIGTERM)
    promoted = await task
    while not promoted.stopping.is_set():
        await asyncio.sleep(0)
    await Service(settings, promoted).run()
    assert read_standing(second.folder / "store.db").number == line
    assert not [record for record in second.audit() if record["event"] == "promoted"]
    second.again()
    assert takes_over(second) == ""
    await load.holds(second, 1)
