# SPDX-License-Identifier: Apache-2.0
"""Replay and snapshots: a store at any moment, made again from a journal, is the store that was there; and what keeps it from being so is reported."""
from __future__ import annotations

import asyncio
import json
import os
import random
import re
import shutil
import signal
import sqlite3
import subprocess
import sys
from datetime import UTC, datetime
from pathlib import Path

import pytest
from front import FRONT, MIXED, SETTINGS, Front, Person, Ran, at_rest, in_loop, mjournal, small_disk, stopped, tool, until
from mserve_front.journal_file import FileLog, files_of
from mserve_front.places import end_of
from mserve_front.records import Flush, LineRecord, ReplyRecord, StartRecord
from mserve_front.replies import new_digest
from mserve_front.settings import JournalSettings
from mserve_front.snapshots import accounts_of
from running import PROGRAM

LINES = ["S ^X({n})={n} W ^X({n})", "S A({n})={n},B=$G(B)+{n} W B", "K ^X({m})", "W $O(^X({m})),A", "S ^X({m},{n})=$G(^X({m}))_B", "L +^X({m}):0 W $T", "H",
         "S X=^X({m})", "F I=1:1:5 S ^Y(I)=$G(^Y(I))+1", "X ^X({m})", "W 1/0", "S ^X(1)=$L(B) W ^X(1),!,$D(^X({n}))", "L", "K", "S ^%Z={n} F  Q:$T",
         "S ^X({n})=$RE({n}_B) W ^X({n})"]


def replay(front: Front, store: object, *words: object) -> Ran:
    """Replays the journal of a front."""
    return mjournal(front.folder / "journal")("replay", "--program", PROGRAM, "--store", store, *words)


def held(path: Path) -> dict[str, object]:
    """What the accounts of a copy of a store hold."""
    for end in ("", "-wal"):
        if Path(f"{path}{end}").exists():
            shutil.copy(f"{path}{end}", f"{path}.copy{end}")
    return accounts_of(Path(f"{path}.copy"))


async def works(person: Person, seed: int, count: int) -> None:
    """A user who sends drawn lines."""
    rng = random.Random(seed)
    for _ in range(count):
        await person.line(rng.choice(LINES).format(n=rng.randrange(50), m=rng.randrange(50)))


def backup(front: Front, *words: object) -> Path:
    """A snapshot of a front."""
    status, output, told = tool("mbackup")("take", front.folder, "--config", front.folder / "front.toml", *words)
    assert status == 0, told
    return Path(output.strip())


@in_loop()
async def test_stores_of_drawn_lines_are_made_anew(start, tmp_path: Path) -> None:
    """Snapshots are taken while users work; a replay to the number of each holds what it does, and so does one from each that is exact. Cleo's account
    has language 1, the others' have 0."""
    (tmp_path / "mixed.toml").write_text(MIXED)
    front = start(settings=tmp_path / "mixed.toml", store="store.db", journal={"folder": "journal", "roll": 10_000})
    async with front.person("ada") as ada, front.person("ben") as ben, front.person("cleo") as cleo:
        work = asyncio.gather(*(works(person, seed, 90) for seed, person in enumerate((ada, ben, cleo))))
        snapshots = []
        for number in range(3):
            await asyncio.sleep(0.05)
            snapshots.append(await asyncio.to_thread(backup, front, *["--end-sessions"] * (number == 1)))
        await work
        # Events are read with the reply that comes after them.
        assert (await ada.told("W $RE(12)"), await cleo.told("W $RE(12)")) == ("ZSYNTAX", "21")
        assert await ada.told("W 5") == "5" and [event["event"] for event in ada.events] == ["restarted"]
    await stopped(front)
    status, output, told = replay(front, tmp_path / "all")
    assert (status, told) == (0, ""), told
    assert held(tmp_path / "all") == held(front.folder / "store.db")
    assert len(files_of(front.folder / "journal")) > 2
    for place, snapshot in enumerate(snapshots):
        assert json.loads((snapshot / "manifest.json").read_text())["open"] == [] or place != 1
        assert replay(front, tmp_path / f"to{place}", "--to", int(snapshot.name))[0] == 0
        assert tool("mbackup")("compare", snapshot, tmp_path / f"to{place}")[0] == 0
    status, output, told = replay(front, tmp_path / "from", "--from", snapshots[1])
    assert (status, told) == (0, "") and held(tmp_path / "from") == held(tmp_path / "all")


@in_loop()
async def test_replay_to_a_moment(start, tmp_path: Path) -> None:
    front = start(store="store.db", journal={"folder": "journal"})
    async with front.person("ada") as ada:
        await ada.line("S ^X=1")
        await asyncio.sleep(0.05)
        moment = datetime.now(UTC).isoformat()
        await asyncio.sleep(0.05)
        await ada.line("K ^X")
    await stopped(front)
    assert replay(front, tmp_path / "then", "--to", moment)[0] == 0
    assert held(tmp_path / "then")["CLINIC"].nodes == 1 and held(front.folder / "store.db") == {}
    number, last = json.loads((tmp_path / "then.at").read_text())["number"], end_of(JournalSettings(front.folder / "journal")).answered
    assert f"{number} " in mjournal(front.folder / "journal")("grep", r"S \^X=1")[1] and number < last
    # What is there is not written over, and no time before the snapshot is taken.
    assert "is there already" in replay(front, tmp_path / "then")[2]
    # A front that begins with this store has a number for what is undone, and a replay over it says so.
    for end in ("", "-wal", ".at"):
        Path(f"{front.folder / 'store.db'}{end}").unlink(missing_ok=True)
    shutil.move(tmp_path / "then", front.folder / "store.db")
    shutil.move(tmp_path / "then.at", front.folder / "store.db.at")
    front.again()
    assert f"the store was put back to where it stood after line {number}: lines up to {last} are undone" in front.told()
    async with front.person("ada") as ada:
        assert await ada.told("W ^X") == "1"
        snapshot = await asyncio.to_thread(backup, front, "--end-sessions")
        await ada.line("S ^Y=1")
    await stopped(front)
    # What the store held when it was put back is in the journal: a replay over it goes on with that.
    assert replay(front, tmp_path / "over")[::2] == (0, "") and held(tmp_path / "over") == held(front.folder / "store.db")
    assert replay(front, tmp_path / "after", "--from", snapshot)[0] == 0
    status, _, told = replay(front, tmp_path / "before", "--from", snapshot, "--to", number)
    assert status == 3 and "comes before" in told


@in_loop()
async def test_a_reply_that_differs_stops_a_replay(start, tmp_path: Path) -> None:
    front = start(store="store.db", journal={"folder": "journal"})
    async with front.person("ada") as ada:
        await ada.line("S ^X=1,^Y=1")
        snapshot = await asyncio.to_thread(backup, front, "--end-sessions")
        for line in ("W ^Y", "S ^Z=^X", "W ^X", *["W 1"] * 50):
            await ada.line(line)
    await stopped(front)
    number = int(snapshot.name) + 3
    with sqlite3.connect(snapshot / "store") as base:
        base.execute("UPDATE node SET v = x'32' WHERE rowid = 1")
    assert tool("mbackup")("check", snapshot)[0] == 1
    status, _, told = replay(front, tmp_path / "new", "--from", snapshot)
    assert status == 3 and "other nodes than the manifest says: CLINIC" in told
    manifest = json.loads((snapshot / "manifest.json").read_text())
    manifest["accounts"]["CLINIC"]["digest"] = accounts_of(snapshot / "store")["CLINIC"].digest
    (snapshot / "manifest.json").write_text(json.dumps(manifest))
    status, _, told = replay(front, tmp_path / "new", "--from", snapshot)
    assert status == 1 and f"line {number}, of terminal 1, is answered otherwise than it was, with another output" in told
    # The answers that were on their way are nobody's.
    assert "never retrieved" not in told
    assert not (tmp_path / "new.at").exists()


def reply(number: int, terminal: int, text: bytes, code: str = "") -> ReplyRecord:
    """The record of a reply."""
    digest = new_digest()
    digest.update(text)
    return ReplyRecord(number, digest.digest(), code)


def made(folder: Path, *groups: tuple[object, ...]) -> Path:
    """A journal of records that are given."""
    log, following, answered = FileLog(folder, 1 << 20), 1, 0
    log.take()
    for sequence, group in enumerate(groups, 1):
        following += sum(isinstance(record, LineRecord) for record in group)
        answered = max([answered, *(record.number for record in group if isinstance(record, ReplyRecord))])
        log.append(Flush(7, sequence, following, answered, sequence, tuple(group)))
    log.close()
    return folder


def begin(number: int = 1, sent: int = 0, base: int | None = None, fresh: bool = True, settings: Path = SETTINGS) -> StartRecord:
    return StartRecord(number, number, sent, base, fresh, settings.read_bytes())


def line(number: int, text: bytes, terminal: int = 1) -> LineRecord:
    return LineRecord(number, number, terminal, "ada", text)


def test_lines_that_were_cut_short_or_have_no_reply(tmp_path: Path) -> None:
    """They are reported, and what comes after them is compared."""
    folder = made(tmp_path / "journal", (begin(), line(1, b"S ^X=1,^Y=1,A=1"), reply(1, 1, b"whatever", "ZSTORE")),
                  (line(2, b"W $D(A)"), reply(2, 1, b"1-0\n1.\n")),
                  (line(3, b"W 3"), line(4, b"W 4")), (begin(5, 3, fresh=False), line(5, b"W 5"), reply(5, 1, b"1-5\n1.\n")), (line(6, b"W 6"),))
    status, output, told = mjournal(folder)("replay", "--program", PROGRAM, "--store", tmp_path / "new")
    assert status == 1 and "lines 1 to 5 run" in output
    assert [text.removeprefix("mjournal: ")[:40] for text in told.splitlines()] == [
        "line 1, of terminal 1, was answered ZSTO", "line 3, of terminal 1, had no reply when", "lines 6 to 6 have no reply in the journa"]
    assert mjournal(folder)("verify")[1] == "lines 1 to 6: 2 answered, 1 answered ZSTORE, 2 starts, 3 without a reply\n"


@pytest.mark.parametrize(("groups", "told"), [
    (((begin(fresh=False), line(1, b"W 1"), reply(1, 1, b"1-1\n1.\n")),), "begins over a store that was there before"),
    (((line(1, b"W 1"), reply(1, 1, b"1-1\n1.\n")),), "line 1 comes before a start"),
    (((begin(), line(1, b"W 1"), reply(1, 1, b"1-2\n1.\n")),), "line 1, of terminal 1, is answered otherwise"),
    (((begin(), line(1, b"W 1"), reply(1, 1, b"1-1\n1.\n")), (begin(2),)), "was recreated"),
    (((begin(), line(1, b"W 1"), reply(2, 1, b"")),), "line 2 has a reply before line 1"),
])
def test_journals_that_cannot_be_replayed(tmp_path: Path, groups: tuple[tuple[object, ...], ...], told: str) -> None:
    status, _, found = mjournal(made(tmp_path / "journal", *groups))("replay", "--program", PROGRAM, "--store", tmp_path / "new")
    assert status == 1 and told in found and len(found.splitlines()) == 1


def test_settings_that_change(tmp_path: Path) -> None:
    """Each start is replayed by its own."""
    other = tmp_path / "other.toml"
    other.write_text('[[account]]\nname = "CLINIC"\nterminals = [1]\nsteps = 3\n')
    folder = made(tmp_path / "journal", (begin(), line(1, b"S ^X=1 S ^Y=1 S ^Z=1 S A=1"), reply(1, 1, b"1.\n")),
                  (begin(2, 1, 1, False, other), line(2, b"S ^X=1 S ^Y=1 S ^Z=1 S A=1"), reply(2, 1, b"1!ZSTEPS\n", "ZSTEPS")))
    assert mjournal(folder)("replay", "--program", PROGRAM, "--store", tmp_path / "new")[::2] == (0, "")


def test_language_that_changes(tmp_path: Path) -> None:
    """A journal from before there were languages is replayed as it was, and goes on by settings that give the account one, and take it back."""
    later = tmp_path / "later.toml"
    later.write_text('[[account]]\nname = "CLINIC"\nterminals = [1]\nsteps = 2000\nlanguage = 1\n')
    refused, taken = (reply(1, 1, b"1!ZSYNTAX\n", "ZSYNTAX"), reply(2, 1, b"1-21\n1.\n"))
    folder = made(tmp_path / "journal", (begin(), line(1, b"W $RE(12)"), refused), (begin(2, 1, 1, False, later), line(2, b"W $RE(12)"), taken),
                  (begin(3, 2, 2, False), line(3, b"W $RE(12)"), reply(3, 1, b"1!ZSYNTAX\n", "ZSYNTAX")))
    assert mjournal(folder)("replay", "--program", PROGRAM, "--store", tmp_path / "new")[::2] == (0, "")
    folder = made(tmp_path / "otherwise", (begin(settings=later), line(1, b"W $RE(12)"), refused))
    assert "line 1, of terminal 1, is answered otherwise" in mjournal(folder)("replay", "--program", PROGRAM, "--store", tmp_path / "other")[2]


def has_open_line(front: Front) -> bool:
    """Whether a front's journal has a line without a reply."""
    end = end_of(JournalSettings(front.folder / "journal"))
    return end.answered < end.next - 1


@in_loop()
async def test_a_server_that_is_killed_and_a_front_that_is(start, tmp_path: Path) -> None:
    """Both go on with the journal; the line that the server was at is named by a replay, which has what it did, and what was answered is there."""
    front = start(store="store.db", journal={"folder": "journal"})
    async with front.person("ada") as ada, front.person("ben") as ben:
        await ada.line("S ^N=0")
        for _ in range(20):
            await ada.send("S ^N=^N+1 F I=1:1:300000 S A=I")
            await ben.send("F I=1:1:300000 S A=I")
        assert (await ada.next())["code"] is None
        # However slow this process is: a server that is held up answers no more of what they send, so that a line of one of them is on its way.
        os.kill(front.child, signal.SIGSTOP)
        await until(lambda: has_open_line(front), "a line without a reply")
        front.kill_child()
        records = [await ada.next() for _ in range(19)]
        for _ in range(20):
            await ben.next()
        answered = 1 + sum("output" in record for record in records)
        while not ben.events:
            await ben.event()
        assert int(await ben.told("W ^N")) in (answered, answered + 1)
    async with front.person("ada") as ada:
        await ada.line("S ^M=1")
        os.kill(front.process.pid, signal.SIGKILL)
    front.again()
    async with front.person("ada") as ada:
        assert await ada.told("W ^M") == "1"
    await stopped(front)
    assert re.search(" 3 starts, [1-9] without a reply", mjournal(front.folder / "journal")("verify")[1])
    status, _, told = replay(front, tmp_path / "new")
    assert status == 0 and "had no reply when the leader's server ended: what the leader's store held then is in the journal" in told
    assert held(tmp_path / "new") == held(front.folder / "store.db")


@in_loop()
async def test_a_store_in_memory_begins_anew(start) -> None:
    front = start(journal={"folder": "journal"})
    async with front.person("ada") as ada:
        await ada.line("S ^X=1")
        front.kill_child()
        while not ada.events:
            await ada.event()
        assert await ada.told("W $D(^X)") == "0"
        status, _, told = await asyncio.to_thread(tool("mbackup"), "take", front.folder, "--config", front.folder / "front.toml")
        assert status == 3 and "the store is in memory" in told
    await stopped(front)
    assert replay(front, "memory")[0] == 0


@in_loop()
async def test_a_snapshot_is_put_back_and_the_journal_expires(start, tmp_path: Path) -> None:
    front = start(store="store.db", journal={"folder": "journal", "roll": 4096})
    async with front.person("ada") as ada:
        for number in range(40):
            await ada.line(f"S ^X({number})={number}")
        open_one = await asyncio.to_thread(backup, front)
        assert "1 sessions were open" in tool("mjournal", "--folder", str(front.folder / "journal"))("expire", open_one)[2]
        snapshot = await asyncio.to_thread(backup, front, "--end-sessions")
        assert snapshot == open_one
        await ada.line("S ^Y=1")
        await ada.line("S ^Y=2")
    await stopped(front)
    before = len(files_of(front.folder / "journal"))
    assert tool("mjournal", "--folder", str(front.folder / "journal"))("expire", snapshot)[0] == 0
    assert len(files_of(front.folder / "journal")) < before
    assert mjournal(front.folder / "journal")("tail", "-n", "1")[0] == 0 and mjournal(front.folder / "journal")("verify")[0] == 0
    assert replay(front, tmp_path / "new", "--from", snapshot)[0] == 0 and held(tmp_path / "new") == held(front.folder / "store.db")
    # What is left may begin with a line, or with the reply of one that is gone.
    assert re.search(r"lines 1 to \d+ are missing|line \d+ is missing, and has a reply", replay(front, tmp_path / "none")[2])
    assert tool("mbackup")("restore", snapshot, tmp_path / "back")[0] == 0
    assert json.loads((tmp_path / "back.at").read_text())["number"] == int(snapshot.name)
    assert "is there already" in tool("mbackup")("restore", snapshot, tmp_path / "back")[2]
    assert str(snapshot) in tool("mbackup")("list", front.folder)[1]


@in_loop()
async def test_snapshots_are_verified_by_a_replay(start, tmp_path: Path) -> None:
    """The latest one is what the journal gives from the one before; the front's figures tell it. One that is not is refused by the account that differs."""
    backups = tmp_path / "backups"
    backups.mkdir()
    front = start(tls=False, store="store.db", journal={"folder": "journal", "backup": str(backups)})

    def takes(*words: object) -> Path:
        status, output, told = tool("mbackup")("take", backups, "--config", front.folder / "front.toml", *words)
        assert status == 0, told
        return Path(output.strip())

    def verifies() -> Ran:
        return tool("mbackup")("verify", backups, "--config", front.folder / "front.toml")
    assert "there is no snapshot" in verifies()[2]
    async with front.person("ada") as ada:
        await works(ada, 3, 30)
        first = await asyncio.to_thread(takes, "--end-sessions")
        status, output, told = await asyncio.to_thread(verifies)
        assert status == 0 and "from the beginning of the journal holds the same" in output.splitlines()[-1], told
        await works(ada, 4, 30)
        latest = await asyncio.to_thread(takes)
        status, output, told = await asyncio.to_thread(verifies)
        assert status == 0 and f"{latest}: good: a replay from {first} holds the same" in output.splitlines()[-1], told
        assert json.loads((backups / "verified.json").read_text())["line"] == int(latest.name)
        async with ada.http.get("/metrics") as response:
            figures = await response.text()
        for wanted in (f"mfront_backup_verified_line {int(latest.name)}\n", 'mfront_account_lines_total{account="CLINIC"} ', "mfront_journal_open_lines 0\n",
                       "mfront_journal_fault_seconds 0\n", "mfront_journal_room_bytes ", 'mfront_account_longest_wait_seconds{account="CLINIC"} '):
            assert wanted in figures, wanted
        shown = tool("mfront")("status", "--metrics", "--config", front.folder / "front.toml")[1]
        assert "mfront_standby 0\n" in shown and f"mfront_standby_line {int(latest.name)}\n" in shown
    base = sqlite3.connect(latest / "store")
    with base:
        base.execute("UPDATE node SET v = x'39' WHERE k = (SELECT min(k) FROM node)")
    base.close()
    manifest = json.loads((latest / "manifest.json").read_text())
    manifest["accounts"]["CLINIC"]["digest"] = accounts_of(latest / "store")["CLINIC"].digest
    (latest / "manifest.json").write_text(json.dumps(manifest))
    status, _, told = await asyncio.to_thread(verifies)
    assert status == 1 and "other nodes than the manifest says: CLINIC" in told


def verified(front: Front) -> str:
    """What the command says of the latest snapshot of a front: its last line if that is good, and else what is wrong."""
    status, output, told = tool("mbackup")("verify", front.folder, "--config", front.folder / "front.toml")
    return output.splitlines()[-1] if status == 0 else told


@in_loop()
async def test_snapshots_that_come_before_the_next_line_are_verified(start) -> None:
    """Of a store that nobody has worked with yet; and of one whose server was killed at a line that it had run in part, after which nobody has worked: what the
    start that came then says of the store is in the snapshot, and so it is in what that is held against."""
    front = start(tls=False, store="store.db", journal={"folder": "journal"})
    log = front.folder / "store.db-wal"

    async def is_taken() -> bool:
        """While the server is started again it is refused."""
        return (await asyncio.to_thread(tool("mbackup"), "take", front.folder, "--end-sessions", "--config", front.folder / "front.toml"))[0] == 0

    async def is_killed_at_a_line(ada: Person) -> bool:
        before = log.stat()
        await ada.send("S ^N=$G(^N)+1 F I=1:1:300000 S A=I")
        await until(lambda: (log.stat().st_size, log.stat().st_mtime_ns) != (before.st_size, before.st_mtime_ns), "what a line stores")
        front.kill_child()
        return "unknown" in await ada.next()
    assert await is_taken()
    assert "holds the same" in (found := await asyncio.to_thread(verified, front)) and "line 0, " in found, found
    async with front.person("ada") as ada:
        await ada.line("S ^M=1")
        await until(lambda: is_killed_at_a_line(ada), "a line that was run in part")
        await until(is_taken, "a snapshot")
        assert "holds the same" in (found := await asyncio.to_thread(verified, front)), found


@in_loop()
async def test_a_snapshot_is_verified_though_what_came_before_has_expired(start) -> None:
    """It was verified, and nobody has worked since: the next night's snapshot is of the same line. One that holds something else is not taken for it."""
    front = start(tls=False, store="store.db", journal={"folder": "journal", "roll": 4096})
    async with front.person("ada") as ada:
        await works(ada, 3, 40)
        took = [await asyncio.to_thread(backup, front, "--end-sessions")]
        await works(ada, 4, 80)
        took += [await asyncio.to_thread(backup, front, "--end-sessions")]
        assert "a replay from " in await asyncio.to_thread(verified, front)
        assert mjournal(front.folder / "journal")("expire", took[1])[0] == 0
        took += [await asyncio.to_thread(backup, front, "--end-sessions")]
        assert took[1] == took[2] != took[0] and "nobody has worked since it was verified" in await asyncio.to_thread(verified, front)
        note = json.loads((front.folder / "verified.json").read_text())
        (front.folder / "verified.json").write_text(json.dumps(note | {"holds": "something else"}))
        assert re.search("missing|could not be replayed", await asyncio.to_thread(verified, front))


@pytest.fixture(scope="module")
def sound(tmp_path_factory: pytest.TempPathFactory) -> Path:
    """A snapshot of some nodes."""
    front = Front(tmp_path_factory.mktemp("sound"), None, store="store.db", journal={"folder": "journal"})

    async def made() -> Path:
        async with front.person("ada") as ada:
            for number in range(30):
                await ada.line(f'S ^X({number})="{"x" * 150}"')
            snapshot = await asyncio.to_thread(backup, front)
        assert [record["line"] for record in front.audit() if record["event"] == "snapshot"] == [int(snapshot.name)]
        return snapshot
    try:
        return asyncio.run(made())
    finally:
        front.stop()


@pytest.mark.parametrize("harm", ["cut", "turned", "gone", "manifest"])
def test_snapshots_that_are_damaged(sound: Path, tmp_path: Path, harm: str) -> None:
    snapshot = tmp_path / "snapshot"
    shutil.copytree(sound, snapshot)
    store = snapshot / "store"
    data = store.read_bytes()
    if harm == "cut":
        store.write_bytes(data[:len(data) // 2])
    elif harm == "turned":
        assert b"x" * 50 in data
        store.write_bytes(data.replace(b"x" * 50, b"!" + b"x" * 49))
    elif harm == "gone":
        store.unlink()
    else:
        (snapshot / "manifest.json").write_text("{}")
    status, _, told = tool("mbackup")("check", snapshot)
    assert status == 1 and str(snapshot) in told and len(told.splitlines()) == 1


@in_loop()
async def test_snapshots_that_cannot_be_taken(start, tmp_path: Path) -> None:
    front = start(store="store.db", journal={"folder": "journal"})
    words = ("take", "--config", front.folder / "front.toml")
    assert "there is no such folder" in tool("mbackup")(*words, tmp_path / "none")[2]
    await stopped(front)
    assert "no front that keeps a journal is there" in tool("mbackup")(*words, front.folder)[2]
    assert not [path for path in front.folder.iterdir() if path.name.startswith(".part")]


@in_loop()
async def test_a_journal_that_has_lost_lines_is_refused(start, tmp_path: Path) -> None:
    """The store says where it stands: a journal that ends before it, or another one, is not gone on with."""
    front = start(store="store.db", journal={"folder": "journal"})
    async with front.person("ada") as ada:
        await ada.line("S ^X=1")
        await ada.line("S ^X=2")
    await stopped(front)
    [(_, path)] = files_of(front.folder / "journal")
    data = path.read_bytes()
    path.write_bytes(data[:-200])
    with pytest.raises(RuntimeError, match="journal: the journal ends with flush .* its end is missing, lines"):
        front.again()
    # Without the journal's head, what is noted beside the store tells it.
    head = (front.folder / "journal" / "head").read_bytes()
    (front.folder / "journal" / "head").unlink()
    with pytest.raises(RuntimeError, match="store.db.head: the journal ends with flush .* its end is missing, lines"):
        front.again()
    (front.folder / "store.db.head").rename(tmp_path / "kept")
    with pytest.raises(RuntimeError, match="it has lost what comes"):
        front.again()
    (tmp_path / "kept").rename(front.folder / "store.db.head")
    (front.folder / "journal" / "head").write_bytes(head)
    path.write_bytes(data[:-30] + bytes([data[-30] ^ 1]) + data[-29:])
    with pytest.raises(RuntimeError, match="the records of a flush are damaged"):
        front.again()
    path.unlink()
    with pytest.raises(RuntimeError, match="its end is missing, lines"):
        front.again()
    (front.folder / "journal" / "head").unlink()
    with pytest.raises(RuntimeError, match="another journal"):
        front.again()
    path.write_bytes(data)
    front.again()
    async with front.person("ada") as ada:
        assert await ada.told("W ^X") == "2"


@in_loop()
async def test_a_store_that_is_not_the_journals_last_is_refused(start, tmp_path: Path) -> None:
    """A leader that was killed is not started again once another one has served; and one without a note is not either."""
    front = start(store="store.db", journal={"folder": str(tmp_path / "journal")})
    async with front.person("ada") as ada:
        await ada.line("S ^X=1")
    front.process.kill()
    front.process.wait()
    shutil.copytree(front.folder, tmp_path / "copy", ignore=shutil.ignore_patterns("*.control"))
    front.again()
    async with front.person("ada") as ada:
        assert await ada.told("S ^X=2 W ^X") == "2"
    front.process.kill()
    front.process.wait()
    front.folder, folder = tmp_path / "copy", front.folder
    with pytest.raises(RuntimeError, match="another front has served since this store was in use"):
        front.again()
    (front.folder / "store.db.at").unlink()
    with pytest.raises(RuntimeError, match="nobody knows whether it has run this journal"):
        front.again()
    front.folder = folder
    front.again()
    async with front.person("ada") as ada:
        assert await ada.told("W ^X") == "2"


@in_loop()
async def test_a_journal_whose_first_start_failed(start) -> None:
    """The store's note names a journal that never had anything: the next start begins one."""
    front = start(store="store.db", journal={"folder": "journal"})
    front.process.kill()
    front.process.wait()
    note = json.loads((front.folder / "store.db.at").read_text())
    assert note["number"] is None and note["writers"][1] == 0
    for path in (*(path for _, path in files_of(front.folder / "journal")), front.folder / "journal" / "head"):
        path.unlink()
    front.again()
    async with front.person("ada") as ada:
        assert await ada.told("S ^X=1 W ^X") == "1"
    await stopped(front)
    # It begins with what the store held.
    assert replay(front, "memory")[0] == 0


# In front of the front's modules: its clock, as many seconds from the machine's as a file says.
CLOCK = """import pathlib, time
own, place = time.time_ns, pathlib.Path(__file__).with_name("seconds")
time.time_ns = lambda: own() + int(place.read_text()) * 10**9
"""


@in_loop()
async def test_clocks_that_step_back(start, tmp_path: Path) -> None:
    """While a front runs, at its restart, and on the machine that takes over: no time in the journal is before another, it is reported, and nothing is lost."""
    (tmp_path / "sitecustomize.py").write_text(CLOCK)
    (tmp_path / "seconds").write_text("0")
    journal, turned = {"folder": str(tmp_path / "journal")}, ["env", f"PYTHONPATH={tmp_path}"]
    front = start(store="store.db", journal=journal, before=turned)
    second = start(store="store.db", words=["--follow"], awaited="standing by", journal=journal, before=turned)
    async with front.person("ada") as ada:
        await ada.line("S ^X=1")
        (tmp_path / "seconds").write_text("-3600")
        assert await ada.told("S ^X=2 W ^X") == "2"
        assert "the clock stepped back by 3600 s: the journal keeps the time of its last record" in front.told()
        assert tool("mbackup")("check", await asyncio.to_thread(backup, front))[0] == 0
    await stopped(front)
    front.again()
    async with front.person("ada") as ada:
        assert await ada.told("S ^X=^X+1 W ^X") == "3"
    assert re.search("the clock stepped back by 35\\d\\d s", front.told())
    await stopped(front)
    assert tool("mfront")("promote", "--config", second.folder / "front.toml")[0] == 0
    second.hears("serving at")
    async with second.person("ada") as ada:
        assert await ada.told("S ^X=^X+1 W ^X") == "4"
        (tmp_path / "seconds").write_text("1")
        assert await ada.told("S ^X=^X+1 W ^X") == "5"
    assert re.search("the clock stepped back by 35\\d\\d s", second.told())
    await stopped(second)
    run = mjournal(tmp_path / "journal")
    times = [line.split()[1] for line in run("grep", "--user", "ada")[1].splitlines()]
    assert len(times) == 5 and times == sorted(times) and len(set(times)) == 3
    assert run("replay", "--program", PROGRAM, "--store", tmp_path / "new")[::2] == (0, "") and held(tmp_path / "new") == held(second.folder / "store.db")


@in_loop()
async def test_snapshots_and_stores_on_a_disk_that_is_full(tmp_path: Path) -> None:
    """They are refused, nothing of them is left, and users work on."""
    folder = tmp_path / "front"
    (folder / "disk").mkdir(parents=True)
    front = Front(folder, None, store="store.db", before=small_disk(folder / "disk", "128k"), journal={"folder": "journal"})
    seen = Path(f"/proc/{front.process.pid}/root{folder / 'disk'}")
    try:
        async with front.person("ada") as ada:
            for number in range(60):
                await ada.line(f"S ^X({number})=$J(1,3000)")
            status, _, told = await asyncio.to_thread(tool("mbackup"), "take", folder / "disk", "--config", folder / "front.toml")
            assert status == 3 and "No space left on device" in told and len(told.splitlines()) == 1 and list(seen.iterdir()) == []
            snapshot = await asyncio.to_thread(backup, front)
            assert await ada.told("S ^Y=1 W $D(^X(59))") == "1"
        await at_rest(folder)
        status, _, told = tool("mbackup")("restore", snapshot, seen / "store")
        assert status == 1 and "No space left on device" in told and list(seen.iterdir()) == []
        # A disk of its own for a process of its own: SQLite wants a path that leads there from the root.
        words = [sys.executable, FRONT / "mjournal", "--config", folder / "front.toml", "replay", "--store", folder / "disk" / "store"]
        done = subprocess.run([*map(str, [*small_disk(folder / "disk", "300k"), *words])], capture_output=True, text=True, timeout=60)
        assert done.returncode == 1 and "with ZSTORE here, and with no code there" in done.stderr
    finally:
        front.stop()
    assert replay(front, "memory")[0] == 0


@in_loop()
async def test_a_second_front_is_refused(start, tmp_path: Path) -> None:
    front = start(store="store.db", journal={"folder": "journal"})
    with pytest.raises(RuntimeError, match="another front writes this journal"):
        start(store="store.db", journal={"folder": str(front.folder / "journal")})
    assert front.process.poll() is None
