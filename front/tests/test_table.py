# SPDX-License-Identifier: Apache-2.0
"""The journal in a table of PostgreSQL: what it keeps, a database that is away, one that lost an acknowledgment, a replica, and fail-over by its lock."""
from __future__ import annotations

import asyncio
import dataclasses
import json
import os
import random
import re
import signal
import statistics
import time
from collections.abc import AsyncIterator, Callable, Iterator
from contextlib import asynccontextmanager
from itertools import pairwise
from pathlib import Path

import pytest
from database import Cluster, Wire
from front import Front, Patience, Person, Ran, in_loop, stopped, tool, until
from journals import flushes
from mserve_front.control import asked
from mserve_front.history import History
from mserve_front.journal import LogFault, LogTaken, Tail
from mserve_front.journal_table import TableLog, flush_of
from mserve_front.places import reader_of, said_beside, writer_of
from mserve_front.records import BadJournal, Flush, LineRecord
from mserve_front.settings import JournalSettings
from mserve_front.standbys import said_in
from running import PROGRAM
from standing_by import Load, caught_up, fenced_off, leading, standby, stands_by, takes_over, two_fronts
from test_replay import backup, held, works


# Seconds for which a database is away: longer than a reply is kept for it.
AWAY = 60.0
# Seconds after which a front serves at the latest, once its database is back: five, and room for a machine that is busy.
BACK = 15.0
# Attempts at a database that is away, and seconds between two of them at most; and those for the whole on a machine that has much else to do.
ATTEMPTS, APART, LATEST = 7, 4.0, 60.0


@pytest.fixture(scope="module")
def cluster() -> Iterator[Cluster]:
    """A server for the tests of this file."""
    made = Cluster()
    yield made
    made.remove()


@pytest.fixture
def journal(cluster: Cluster, request: pytest.FixtureRequest) -> JournalSettings:
    """A journal of this test's own."""
    return JournalSettings(database=cluster.place, name=request.node.name)


@asynccontextmanager
async def own_cluster(primary: Cluster | None = None) -> AsyncIterator[Cluster]:
    """A server of one test's own, which it may stop; or a replica of another one."""
    cluster = await asyncio.to_thread(Cluster, primary)
    try:
        yield cluster
    finally:
        cluster.remove()


def mjournal(journal: JournalSettings) -> Callable[..., Ran]:
    """Runs mjournal over it."""
    return tool("mjournal", "--database", str(journal.database), "--name", journal.name)


def taken(journal: JournalSettings) -> tuple[TableLog, Tail]:
    """A writer that has the lock, with the end that it found. The database gives the lock back a moment after the last writer closed."""
    end = time.monotonic() + Patience.seconds
    while True:
        log = writer_of(journal)
        try:
            return log, log.take()
        except LogTaken:
            if time.monotonic() > end:
                raise
            time.sleep(0.05)


def test_flushes_are_kept_in_order_and_one_writes(journal: JournalSettings) -> None:
    log, reader, parts = writer_of(journal), reader_of(journal, 1), flushes(30)
    assert reader.more() == [] and log.take().next == 1
    for flush in parts[:20]:
        log.append(flush)
    assert reader.more() == parts[:20]
    with pytest.raises(LogTaken, match="advisory lock"):
        writer_of(journal).take()
    other = JournalSettings(database=journal.database, name=f"{journal.name} other")
    second = writer_of(other)
    assert second.take().sequence == 0
    second.close()
    log.close()
    log, tail = taken(journal)
    assert (tail.sequence, tail.next, tail.answered, tail.journal) == (20, 20, 18, 7)
    for flush in parts[20:]:
        log.append(flush)
    assert reader.more() == parts[20:]
    for line in (1, 7, 29, 30):
        found = reader_of(journal, line).more()
        assert found == parts[-len(found):] and found[0].first <= line
    log.close()


@pytest.mark.parametrize("statement", [
    "DELETE FROM mfront_journal WHERE sequence = 3", "UPDATE mfront_journal SET flush = set_byte(flush, 60, 255 - get_byte(flush, 60))",
    "UPDATE mfront_journal SET flush = substr(flush, 1, 50) WHERE sequence = 3",
    "UPDATE mfront_journal SET flush = (SELECT flush FROM mfront_journal AS o WHERE o.name = mfront_journal.name AND sequence = 2) WHERE sequence = 3",
], ids=["missing", "turned", "cut", "another"])
def test_rows_that_are_damaged_or_missing(cluster: Cluster, journal: JournalSettings, statement: str) -> None:
    log = writer_of(journal)
    log.take()
    for flush in flushes(5):
        log.append(flush)
    log.close()
    # Only this journal's: each test has rows in the table.
    where = " AND" if "WHERE sequence" in statement else " WHERE"
    cluster.does(f"{statement}{where} name = '{journal.name}'")
    with pytest.raises(BadJournal, match="missing|damaged|another flush"):
        reader_of(journal, 1).more()
    assert mjournal(journal)("verify")[0] == 1


def test_a_row_that_is_cut_at_each_byte_or_has_a_bit_turned() -> None:
    flush = flushes(4)[3]
    data = flush.packed()
    assert flush_of("main", 4, data) == flush
    turned = (data[:place] + bytes([data[place] ^ 1 << bit]) + data[place + 1:] for place in range(len(data)) for bit in range(8))
    for harmed in [*(data[:cut] for cut in range(len(data))), *turned, data + b"\0"]:
        with pytest.raises(BadJournal, match="^table mfront_journal: main, 4: .*(damaged|missing|another)"):
            flush_of("main", 4, harmed)


def test_a_row_whose_acknowledgment_was_lost(cluster: Cluster, journal: JournalSettings) -> None:
    """It is there; its lines were not sent, and those that come next take their numbers."""
    log, parts = writer_of(journal), flushes(4)
    log.take()
    for flush in parts[:3]:
        log.append(flush)
    reader = reader_of(journal, 1)
    history = History()
    list(history.take(reader.more()))
    cluster.does(f"SELECT pg_terminate_backend(pid) FROM pg_locks WHERE locktype = 'advisory' AND objid::bigint = {log_key(journal)}")
    with pytest.raises(LogFault):
        log.append(parts[3])
    assert log.mend() == 3
    log.append(parts[3])
    log._kept = 3
    assert log.mend() == 4
    again = Flush(7, 5, 4, 2, 9_000, (LineRecord(3, 9_000, 1, "ben", b"W 2"),))
    log.append(again)
    list(history.take(reader.more()))
    assert [line.user for line in history.unanswered] == ["ben"] and history.last == 3
    # Another front takes the journal, and writes the very flush that this one tries next.
    other, own = writer_of(journal), dataclasses.replace(again, sequence=6, writer=1)
    assert other.take(force=True).sequence == 5
    other.append(dataclasses.replace(own, writer=2))
    other.close()
    with pytest.raises(LogFault):
        log.append(own)
    with pytest.raises(LogTaken, match="has written this journal"):
        log.mend()
    log.close()


def log_key(journal: JournalSettings) -> int:
    """The second half of the lock's key, as the database shows it."""
    from mserve_front.journal_table import key_of
    return key_of(journal.name) % (1 << 32)


async def served_again(person: Person, line: str, after: str) -> None:
    """Sends a line until it is run, which takes little time after something."""
    began = time.monotonic()
    while "refused" in await person.line(line):
        await asyncio.sleep(0.1)
    print(f"served again {time.monotonic() - began:.1f} s after {after}")
    assert time.monotonic() - began < BACK


@pytest.mark.long
@in_loop()
async def test_a_database_that_is_away(start, tmp_path: Path) -> None:
    """Lines are refused meanwhile and users told; then all goes on, and what was answered is in the journal."""
    async with own_cluster() as cluster:
        front, second = two_fronts(start, JournalSettings(database=cluster.place))
        async with front.person("ada") as ada, front.person("ben") as ben:
            work = asyncio.gather(works(ben, 3, 60))
            assert await ada.told("S ^X=1 W ^X") == "1"
            await asyncio.to_thread(cluster.stop)
            for _ in range(3):
                assert (await ada.line("S ^X=2"))["refused"] == "journal"
                await asyncio.sleep(0.3)
            await asyncio.to_thread(cluster.start)
            await served_again(ada, "S ^Y=1", "the database was there")
            await work
            assert await ada.told("W ^X,^Y") == "11"
            snapshot = await asyncio.to_thread(backup, front)
        second.hears("the journal can be read again")
        # A standby that is stopped runs no more of what it has not run yet.
        await caught_up(second, JournalSettings(database=cluster.place))
        second.stop()
        assert "the journal cannot be read: database: " in second.told()
        assert "no line goes on until it can" in front.told() and "the journal is written again" in front.told()
        await stopped(front)
        assert json.loads((second.folder / "store.db.at").read_text())["number"] > int(snapshot.name) - 10
        run = tool("mjournal", "--config", str(front.folder / "front.toml"))
        status, output, told = run("replay", "--store", tmp_path / "new")
        assert (status, told) == (0, "") and held(tmp_path / "new") == held(front.folder / "store.db")
        assert run("verify")[0] == 0 and run("tail")[0] == 0
        status, output, _ = run("expire", snapshot)
        assert status == 3 and "sessions were open" in _ or int(output.split()[0]) > 0
        await asyncio.to_thread(cluster.stop)
        status, _, told = await asyncio.to_thread(run, "verify")
        assert status == 3 and told.startswith("mjournal: database: ")
        await waits_to_serve(front, cluster)
        await asyncio.to_thread(cluster.stop)
        await waits_for_its_journal(second, cluster)


async def waits_to_serve(front: Front, cluster: Cluster) -> None:
    """A front that is started while the database is away says what it waits for. A stop ends it in order, and leaves what is known of its store; else it
    serves once the database is there."""
    place = front.folder / "store.db.at"
    before = place.read_text()
    front.words([], "the journal cannot be used yet: database: ")
    await asyncio.to_thread(front.again)
    assert await asyncio.to_thread(front.stop) == 0 and place.read_text() == before
    await asyncio.to_thread(front.again)
    await asyncio.to_thread(cluster.start)
    await asyncio.to_thread(front.hears, "serving at")
    async with front.person("ada") as ada:
        assert await ada.told("W ^X,^Y") == "11"
    await stopped(front)


async def waits_for_its_journal(second: Front, cluster: Cluster) -> None:
    """A standby that is started while the database is away says what it waits for, and stands by once that is there."""
    second.words(["--follow"], "the journal cannot be read: database: ")
    await asyncio.to_thread(second.again)
    status = asked(second.folder / "mfront.control", {"ask": "status"}, 30)
    assert status["state"] == "standby" and not status["caught up"] and str(status["fault"]).startswith("database: ")
    assert "not promoted: it has not begun, and waits for the journal" in await asyncio.to_thread(takes_over, second)
    await asyncio.to_thread(cluster.start)
    await asyncio.to_thread(second.hears, "standing by, after line")
    assert await asyncio.to_thread(takes_over, second) == ""


async def goes_away_meanwhile(cluster: Cluster, front: Front, person: Person, line: str) -> None:
    """The server takes the line and is held up, and its reply comes when the database is away."""
    os.kill(front.child, signal.SIGSTOP)
    await person.send(line)
    while cluster.does("SELECT max(next - answered) FROM mfront_journal WHERE sequence = (SELECT max(sequence) FROM mfront_journal)") != [(2,)]:
        await asyncio.sleep(0.05)
    await asyncio.to_thread(cluster.stop)


@pytest.mark.long
@in_loop()
async def test_a_database_that_is_away_for_a_minute(start, tmp_path: Path) -> None:
    """A reply that cannot be noted is held back after half a minute, and noted once the database is there; nothing that was answered is lost."""
    async with own_cluster() as cluster:
        front, second = two_fronts(start, JournalSettings(database=cluster.place))
        async with front.person("ada") as ada, front.person("ben") as ben:
            assert await ada.told("S ^X=1 W ^X") == "1"
            await goes_away_meanwhile(cluster, front, ben, "S ^Y=$G(^Y)+1 W 7")
            began = time.monotonic()
            os.kill(front.child, signal.SIGCONT)
            held_back = asyncio.create_task(ben.next())
            while time.monotonic() - began < AWAY:
                assert (await ada.line("S ^X=2"))["refused"] == "journal"
                await asyncio.sleep(2)
            record = await held_back
            assert record["unknown"] and "its reply is held back: the journal cannot be written" in record["why"]
            await asyncio.to_thread(cluster.start)
            while "refused" in await ada.line("S ^Z=1"):
                await asyncio.sleep(0.1)
            assert await ada.told("W ^X,^Y,^Z") == "111"
        for told in ("no line goes on until it can", "the journal is written again"):
            assert front.told().count(told) == 1
        await asyncio.to_thread(second.hears, "the journal can be read again")
        await stopped(front)
        await caught_up(second, JournalSettings(database=cluster.place))
        assert second.stop() == 0
        run = tool("mjournal", "--config", str(front.folder / "front.toml"))
        assert run("verify")[2] == "" and "without a reply" not in run("verify")[1]
        assert run("replay", "--store", tmp_path / "new")[::2] == (0, "")
        assert held(tmp_path / "new") == held(front.folder / "store.db") == held(second.folder / "store.db")


@in_loop()
async def test_a_front_goes_on_soon_after_its_database(start) -> None:
    """It goes on by its first attempts once the database is there, and its attempts are no more than four seconds apart: so within five, but for what the
    machine takes. That is measured between attempts, of which most have to be so, since a busy machine may hold one up."""
    async with own_cluster() as cluster:
        wire = Wire(cluster)
        front = await asyncio.to_thread(start, tls=False, store="store.db", journal={"database": await wire.begin()})
        async with front.person("ada") as ada:
            assert await ada.told("S ^X=1 W ^X") == "1"
            await asyncio.to_thread(cluster.stop)
            wire.cut()
            assert (await ada.line("S ^X=2"))["refused"] == "journal"
            first = len(wire.asked)
            while len(wire.asked) < first + ATTEMPTS:
                await asyncio.sleep(0.1)
            apart = [later - before for before, later in pairwise(wire.asked[first:])]
            assert statistics.median(apart) < APART, apart
            await asyncio.to_thread(cluster.start)
            began, before = time.monotonic(), len(wire.asked)
            while "refused" in await ada.line("S ^Y=1"):
                await asyncio.sleep(0.1)
            print(f"served again {time.monotonic() - began:.1f} s after the database, by attempt {len(wire.asked) - before}; attempts were "
                  f"{min(apart):.1f} to {max(apart):.1f} s apart")
            # One may be on its way when the database is there.
            assert len(wire.asked) - before <= 2 and time.monotonic() - began < LATEST
            assert await ada.told("W ^X,^Y") == "11"
        wire.close()


@pytest.mark.long
@in_loop()
async def test_connections_that_are_cut(start, tmp_path: Path) -> None:
    """The database does not see the end of the one that has the lock: the front has it end that one, and goes on by itself."""
    async with own_cluster() as cluster:
        wire = Wire(cluster)
        front = await asyncio.to_thread(start, store="store.db", journal={"database": await wire.begin()})
        async with front.person("ada") as ada:
            for number in range(3):
                assert await ada.told(f"S ^X({number})=1 W 1") == "1"
                wire.cut()
                await ada.line("S ^Y=1")
                await served_again(ada, "S ^Y=1", "the cut")
            assert await ada.told("W ^X(2),^Y") == "11"
        assert "another front" not in front.told()
        await stopped(front)
        wire.close()
        assert tool("mjournal", "--database", cluster.place)("replay", "--program", PROGRAM, "--store", tmp_path / "new")[0] == 0
        assert held(tmp_path / "new") == held(front.folder / "store.db")


def test_a_writer_meets_a_replica_or_is_forced_out(cluster: Cluster, journal: JournalSettings, tmp_path: Path) -> None:
    """It waits for a replica, since it may lag. A journal that is taken by force is lost to the one who had it, at once."""
    log, parts = writer_of(journal), flushes(5)
    log.take()
    for flush in parts[:3]:
        log.append(flush)
    other = Cluster(cluster)
    try:
        log._place = other.place
        for _ in range(2):
            with pytest.raises(LogFault, match="it is a replica, and read-only"):
                log.mend()
        with pytest.raises(LogFault, match="it is a replica, and read-only"):
            TableLog(other.place, journal.name).take()
    finally:
        other.remove()
    log._place = str(journal.database)
    assert log.mend() == 3
    new = writer_of(journal)
    with pytest.raises(LogTaken):
        writer_of(journal).take()
    assert new.take(force=True).sequence == 3
    with pytest.raises(LogFault):
        log.append(parts[3])
    with pytest.raises(LogTaken):
        log.mend()
    new.append(parts[3])
    new.close()


FULL = """CREATE FUNCTION full_disk() RETURNS trigger LANGUAGE plpgsql AS $$ BEGIN
    RAISE EXCEPTION 'could not extend file "base/5/16384": No space left on device' USING ERRCODE = 'disk_full'; END $$;
    CREATE TRIGGER full_disk BEFORE INSERT ON mfront_journal FOR EACH ROW EXECUTE FUNCTION full_disk()"""


@in_loop()
async def test_a_database_whose_disk_is_full(start, tmp_path: Path) -> None:
    """It refuses rows, as PostgreSQL does then: no line goes on, users and the operator hear so, and once there is room all goes on."""
    async with own_cluster() as cluster:
        wire = Wire(cluster)
        front = await asyncio.to_thread(start, store="store.db", journal={"database": await wire.begin()})
        async with front.person("ada") as ada:
            assert await ada.told("S ^X=1 W ^X") == "1"
            await asyncio.to_thread(cluster.does, FULL)
            assert (await ada.line("S ^X=2"))["refused"] == "journal"
            assert 'could not extend file "base/5/16384": No space left on device' in front.told() and "no line goes on until it can" in front.told()
            await asyncio.to_thread(cluster.does, "DROP FUNCTION full_disk CASCADE")
            await served_in_few_attempts(ada, wire)
            assert await ada.told("W ^X,^Y") == "11"
        await replayed_alike(front, wire, cluster, tmp_path / "new")


@pytest.mark.long
@in_loop()
async def test_a_replica_that_is_not_the_primary_yet(start, tmp_path: Path) -> None:
    """The primary is gone, and what led there leads to its replica. No line goes on while that is read-only, users and the operator hear of it, and once it
    is promoted all goes on."""
    async with own_cluster() as primary, own_cluster(primary) as replica:
        await asyncio.to_thread(primary.waits_for, replica)
        wire = Wire(primary)
        front = await asyncio.to_thread(start, store="store.db", journal={"database": await wire.begin()})
        async with front.person("ada") as ada:
            assert await ada.told("S ^X=1 W ^X") == "1"
            await asyncio.to_thread(primary.stop)
            wire.leads_to(replica)
            await until(lambda: refused(ada), "a line that is refused")
            await until(lambda: "it is a replica, and read-only" in front.told(), "what the operator is told")
            assert await refused(ada)
            await asyncio.to_thread(replica.promote)
            await served_in_few_attempts(ada, wire)
            assert await ada.told("W ^X,^Y") == "11"
        await replayed_alike(front, wire, replica, tmp_path / "new")


async def refused(person: Person) -> bool:
    """Whether a line is refused, since the journal cannot be written."""
    return (await person.line("S ^X=^X")).get("refused") == "journal"


async def served_in_few_attempts(person: Person, wire: Wire) -> None:
    """Waits until a line goes on: by the first attempts to come at the database, which are a second apart, but for what a busy machine takes."""
    began, before = time.monotonic(), len(wire.asked)
    while "refused" in await person.line("S ^Y=1"):
        await asyncio.sleep(0.1)
    print(f"served again {time.monotonic() - began:.1f} s after the database, by attempt {len(wire.asked) - before}")
    # One may be on its way, and the look for standbys has connections of its own.
    assert len(wire.asked) - before <= 3 and time.monotonic() - began < LATEST


async def replayed_alike(front: Front, wire: Wire, cluster: Cluster, store: Path) -> None:
    """Ends a front, and holds its store against a replay."""
    await stopped(front)
    wire.close()
    assert tool("mjournal", "--database", cluster.place)("replay", "--program", PROGRAM, "--store", store)[::2] == (0, "")
    assert held(store) == held(front.folder / "store.db")


@pytest.mark.long
@in_loop()
async def test_a_leader_that_lives_is_fenced_off(start, journal: JournalSettings, tmp_path: Path) -> None:
    """It hangs, and the standby has the database end its connection, by force. Once it goes on it acknowledges nothing, and ends; what the other one serves
    is not touched."""
    leader, second = two_fronts(start, journal)
    await fenced_off(leader, second, journal, "another front writes this journal")
    await stopped(second)
    assert mjournal(journal)("replay", "--program", PROGRAM, "--store", tmp_path / "all")[::2] == (0, "")
    assert held(tmp_path / "all") == held(second.folder / "store.db")


@pytest.mark.long
@in_loop(1500)
async def test_leaders_that_are_killed(start, journal: JournalSettings, tmp_path: Path, count: int) -> None:
    """The lock goes with the leader's connection; what was answered is there, and nothing runs twice."""
    rng, load = random.Random(5), Load()
    leader = leading(start, journal)
    for number in range(2 * count):
        second = standby(start, journal)
        assert "another front writes this journal" in await asyncio.to_thread(takes_over, second)
        await load.until_killed(leader, rng.uniform(0.05, 0.3))
        while why := await asyncio.to_thread(takes_over, second):
            # The database gives the lock back once it has seen the end of the connection.
            assert "another front" in why
        await load.holds(second, number)
        leader = second
    await stopped(leader)
    assert mjournal(journal)("replay", "--program", PROGRAM, "--store", tmp_path / "all")[::2] == (0, "")
    assert held(tmp_path / "all") == held(leader.folder / "store.db")


@in_loop()
async def test_a_table_that_has_lost_its_last_rows(cluster: Cluster, start, journal: JournalSettings) -> None:
    """No row tells that others came after it; what is noted beside the store does."""
    front = leading(start, journal)
    async with front.person("ada") as ada:
        await ada.line("S ^X=1")
        await ada.line("S ^X=2")
    last = f"SELECT max(sequence) FROM mfront_journal WHERE name = '{journal.name}'"
    # The last row may be kept just before it is noted: a front that is killed between the two has told nobody of it.
    await until(lambda: [(noted_in(front.folder / "store.db.head"),)] == cluster.does(last), "the note of the last row")
    front.process.kill()
    front.process.wait()
    await asyncio.to_thread(freed, journal)
    cluster.does(f"DELETE FROM mfront_journal WHERE name = '{journal.name}' AND sequence = ({last})")
    with pytest.raises(RuntimeError, match=r"store.db.head: the journal ends with flush \d+ and line \d+, and it went to flush .*: its end is missing"):
        front.again()


@pytest.mark.long
@in_loop()
async def test_a_leader_hears_of_its_standby(start, journal: JournalSettings) -> None:
    """By the name of the standby's connection, which tells the journal and the line."""
    front, second = two_fronts(start, journal)
    async with front.person("ada") as ada:
        await ada.line("S ^X=1")
        last = await caught_up(second, journal)

        async def is_heard() -> bool:
            async with ada.http.get("/metrics") as response:
                return re.search(r'^mfront_standbys_behind_lines\{standby="\S+-[0-9a-f]{8}"\} 0$', await response.text(), re.MULTILINE) is not None
        await until(is_heard, "the standby in the figures of its leader")
        assert [said_in(text).line for text in said_beside(journal)] == [last]
        assert said_beside(dataclasses.replace(journal, name="another")) == []


def noted_in(head: Path) -> int:
    """The number of the last flush that is noted beside a store."""
    return int(json.loads(head.read_bytes())["sequence"])


def freed(journal: JournalSettings) -> None:
    """Waits until nobody has a journal."""
    taken(journal)[0].close()


@pytest.mark.long
@in_loop()
async def test_a_leader_that_was_killed_stands_by(start, journal: JournalSettings) -> None:
    """Its store comes after its last line, by the table, in which another one has written since."""
    leader, second = two_fronts(start, journal)
    async with leader.person("ada") as ada:
        await works(ada, 5, 30)
        await ada.line("K ^X S ^X=1")
        left = asked(leader.folder / "mfront.control", {"ask": "status"}, 5)["line"]
        leader.process.kill()
        leader.process.wait()
    while why := await asyncio.to_thread(takes_over, second):
        assert "another front" in why
    async with second.person("ada") as ada:
        assert await ada.told("S ^X=^X+1 W ^X") == "2"
        assert stands_by(leader) == left
    second.stop()
    while why := await asyncio.to_thread(takes_over, leader):
        assert "another front" in why
    async with leader.person("ada") as ada:
        assert await ada.told("W ^X") == "2"


@pytest.mark.long
@in_loop()
async def test_synchronous_replication(start, tmp_path: Path) -> None:
    """The primary ends at once, its replica takes over, and the front goes on there with all that was answered."""
    async with own_cluster() as first, own_cluster(first) as second:
        front = start(store="store.db", journal={"database": await asyncio.to_thread(first.waits_for, second)})
        async with front.person("ada") as ada:
            for number in range(20):
                assert await ada.told(f"S ^X({number})=1 W 1") == "1"
            await asyncio.to_thread(first.stop)
            assert (await ada.line("S ^Z=1"))["refused"] == "journal"
            await asyncio.to_thread(second.promote)
            while "refused" in await ada.line("S ^Y=1"):
                await asyncio.sleep(0.1)
            assert await ada.told("W ^X(19),^Y") == "11"
        await stopped(front)
        run = tool("mjournal", "--database", second.place)
        assert run("replay", "--program", PROGRAM, "--store", tmp_path / "new")[::2] == (0, "")
        assert held(tmp_path / "new") == held(front.folder / "store.db")
