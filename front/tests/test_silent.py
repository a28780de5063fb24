# SPDX-License-Identifier: Apache-2.0
"""A database that does not answer, for a time or for good: what is between keeps the connection open, its machine has no power, its disk or its replica
makes it wait. Users hear so, and all goes on by itself once it is back."""
from __future__ import annotations

import asyncio
import os
import signal
import socket
from pathlib import Path

import pytest
from database import Cluster, Wire
from front import in_loop, stopped, tool
from journals import flushes
from mserve_front import journal_table
from mserve_front.journal import LogFault
from mserve_front.journal_table import ANSWER, TableLog
from mserve_front.places import writer_of
from mserve_front.settings import JournalSettings
from running import PROGRAM
from standing_by import caught_up
from test_replay import held
from test_table import cluster, goes_away_meanwhile, journal, own_cluster, served_again, two_fronts  # noqa: F401

# Seconds within which users hear so, however busy the machine is: half a minute for a reply that is held back, and what the machine takes.
PATIENCE = 120.0


@pytest.mark.long
@pytest.mark.parametrize("keeps", [False, True], ids=["refuses", "keeps"])
@in_loop()
async def test_a_way_that_stays_open_while_its_database_is_gone(start, tmp_path: Path, keeps: bool) -> None:
    """What is between keeps its connections open and says nothing, and takes new ones or not: users hear so, and all goes on soon after the database
    is back. The standby hears of it too."""
    async with own_cluster() as cluster:  # noqa: F811
        wire = Wire(cluster)
        wire.keeps = keeps
        front, second = await asyncio.to_thread(two_fronts, start, {"database": await wire.begin()})
        async with front.person("ada") as ada, front.person("ben") as ben:
            assert await ada.told("S ^X=1 W ^X") == "1"
            await goes_away_meanwhile(cluster, front, ben, "S ^Y=1 W 7")
            os.kill(front.child, signal.SIGCONT)
            async with asyncio.timeout(PATIENCE):
                assert (await ada.line("S ^X=2"))["refused"] == "journal"
                record = await ben.next()
            assert record["unknown"] and "its reply is held back" in record["why"]
            await asyncio.to_thread(cluster.start)
            await served_again(ada, "S ^Z=1", "the database was there")
            assert await ada.told("W ^X,^Y,^Z") == "111"
        assert "no answer within" in front.told()
        await stopped(front)
        await caught_up(second, JournalSettings(database=cluster.place))
        assert await asyncio.to_thread(second.stop) == 0
        assert "no answer within" in second.told()
        wire.close()
        assert tool("mjournal", "--database", cluster.place)("replay", "--program", PROGRAM, "--store", tmp_path / "new")[0] == 0
        assert held(tmp_path / "new") == held(front.folder / "store.db") == held(second.folder / "store.db")


SLOW = """CREATE FUNCTION slow_disk() RETURNS trigger LANGUAGE plpgsql AS $$ BEGIN PERFORM pg_sleep({}); RETURN NEW; END $$;
    CREATE TRIGGER slow_disk BEFORE INSERT ON mfront_journal FOR EACH ROW EXECUTE FUNCTION slow_disk()"""


@pytest.mark.long
@in_loop()
async def test_a_database_that_is_slow_is_waited_for_up_to_a_bound(monkeypatch: pytest.MonkeyPatch) -> None:
    """It says, over another connection, that it is at the statement."""
    async with own_cluster() as cluster:  # noqa: F811
        log, parts = writer_of(JournalSettings(database=cluster.place)), flushes(4)
        log.take()
        cluster.does(SLOW.format(2 * ANSWER))
        for flush in parts[:2]:
            log.append(flush)
        cluster.does("DROP FUNCTION slow_disk CASCADE")
        cluster.does(SLOW.format(600))
        monkeypatch.setattr(journal_table, "LONGEST", 2 * ANSWER)
        assert log.mend() == 2
        with pytest.raises(LogFault, match="no answer within"):
            log.append(parts[2])
        # This ends the statement, which has the table locked.
        assert log.mend() == 2
        cluster.does("DROP FUNCTION slow_disk CASCADE")
        log.append(parts[2])
        log.close()


@pytest.mark.long
def test_a_connection_that_the_database_cannot_end_yet_is_ones_own(cluster: Cluster, journal: JournalSettings) -> None:  # noqa: F811
    """Its process stands still, as one whose disk does: the flush is given up, and the lock is not taken for another front's."""
    log, parts = writer_of(journal), flushes(4)
    log.take()
    process = log._base.own[0]
    os.kill(process, signal.SIGSTOP)
    try:
        with pytest.raises(LogFault, match="no answer within"):
            log.append(parts[0])
        with pytest.raises(LogFault, match="has not ended yet, and has the lock"):
            log.mend()
    finally:
        os.kill(process, signal.SIGCONT)
    # It may have got the statement before it was ended.
    last = log.mend()
    assert last in (0, 1)
    log.append(parts[last])
    log.close()


def test_a_machine_that_is_silent_is_passed_over(cluster: Cluster, journal: JournalSettings) -> None:  # noqa: F811
    """Its power is gone, and nothing says that it is not there: the other one of a pair is tried."""
    with socket.socket() as silent:
        silent.bind(("127.0.0.1", 0))
        silent.listen()
        log = TableLog(f"host=127.0.0.1,{cluster.folder} port={silent.getsockname()[1]},5432 user=postgres dbname=postgres", journal.name)
        assert log.take().next == 1
        log.append(flushes(1)[0])
        log.close()


@pytest.mark.long
def test_a_row_that_no_replica_has_is_gone_after_a_fail_over(monkeypatch: pytest.MonkeyPatch) -> None:
    """A flush is given up while the replica is away. Its row is at the primary alone: it was not acknowledged, so the replica may take over without."""
    first = Cluster()
    second = Cluster(first)
    try:
        log, parts = TableLog(first.waits_for(second), "main"), flushes(5)
        log.take()
        for flush in parts[:2]:
            log.append(flush)
        second.stop()
        monkeypatch.setattr(journal_table, "LONGEST", ANSWER)
        for place in (2, 3):
            assert log.mend() == place
            with pytest.raises(LogFault, match="no answer within"):
                log.append(parts[place])
        assert log.mend() == 4
        first.stop()
        second.start()
        second.promote()
        assert log.mend() == 2
        log.append(parts[2])
        log.close()
    finally:
        first.remove()
        second.remove()
